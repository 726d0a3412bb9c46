"""Scripts by chance whose statements ask host predicates: in each clause of a query and in each method that takes a condition, in named
queries, values of variables and conditions of deletes, under roles of which some see rows that others don't, and some may not ask. A table may
have rows with null, or with a number that no predicate is asked of, so that a query faults after it has asked.

`writer` is a Writer, and `writer.dice` its dice.
"""

import random
from dataclasses import dataclass

import files
import host_lines
import host_sessions
import policy_files
import session_changes
import session_files
import session_lines
from host_sessions import anything, tells
from policies import policies_of
from predicates import predicates_of
from session_writer import Writer
from sessions import Session
from tables import table_of

STATEMENTS = 9
TRIES = 5

# The words are those of host_lines.FORMS.
QUERIES = """
    from x in T where ASKx && MAYx > 0 select x . COLx
    from x in T where MAYx > 0 || ASKx select x . COLx
    from x in T where ASKx from y in U where ASKy select y . COLy
    from x in T from y in U where ASKx where ASKy select x . COLx + y . COLy
    from x in T orderby ASKx descending , ASKx select x . COLx
    from x in T orderby x . COLx , MAYx , ASKx select x . COLx
    from x in T let a = ASKx let b = MAYx where a select b
    from x in T let b = U . Count ( y => ASKy ) where ASKx select b
    from x in T let a = ASKx orderby a descending , ASKx select new { a , x . COLx }
    from x in T let a = new { b = ASKx , c = MAYx } where a . b select a . c
    from x in T group ASKx by x . COLx
    from x in T group ASKx by ASKx
    from x in T group new { a = ASKx } by x . COLx into g orderby g . Count ( ) select g . Key
    from x in T group x . COLx by ASKx into g select new { g . Key , n = g . Count ( ) }
    from x in T group x by x . COLx into g where g . Any ( b => ASKb ) select g . Key
    from x in T group x by new { a = ASKx , b = ASKx } into g select g . All ( b => ASKb )
    from x in T join y in U on ASKx equals ASKy into g select new { x . COLx , n = g . Count ( y => ASKy ) }
    from x in T join y in U on new { a = ASKx , b = x . COLx } equals new { a = ASKy , b = y . COLy } select x . COLx
    from x in T join y in U on MAYx equals y . COLy where ASKx select ASKy
    from x in T join y in U . Where ( y => ASKy ) on x . COLx equals y . COLy select ASKx
    from x in T select ( from y in U where ASKx && ASKy select y . COLy )
    from x in T select x . COLx into z where T . Any ( b => ASKb && b . COLb > z ) select z
    from x in T where U . Select ( y => ASKy ) . Contains ( ASKx ) select x . COLx
    from x in T where U . First ( y => ASKy ) . COLy > x . COLx select x . COLx
    from x in T where U . All ( y => ASKy || x . COLx > y . COLy ) select ASKx
    from x in T where U . Where ( y => ASKy && ASKx ) . Select ( y => y . COLy ) . Contains ( x . COLx ) select x . COLx
    from x in T select U . Sum ( y => ASKx ? y . COLy : 1 )
    T . Sum ( x => ASKx ? 1 : 0 )
    T . Min ( x => ASKx ? x . COLx : 0 )
    T . Max ( x => ASKx ? MAYx : 0 )
    T . Where ( x => ASKx ) . Concat ( T . Where ( b => ASKb ) ) . Count ( )
    T . Select ( x => ASKx ) . Union ( U . Select ( y => ASKy ) )
    T . Select ( x => ASKx ) . Intersect ( U . Select ( y => ASKy ) )
    T . Select ( x => x . COLx ) . Except ( T . Where ( b => ASKb ) . Select ( b => b . COLb ) )
    T . Reverse ( ) . Where ( x => ASKx ) . First ( ) . COLx
    T . Skip ( 1 ) . Select ( x => new { a = ASKx , b = x . COLx } ) . Take ( 2 )
    T . Where ( x => ASKx ) . Skip ( 1 ) . Any ( )
    T . Select ( x => ASKx ) . ElementAt ( 1 )
    T . SingleOrDefault ( x => ASKx )
    T . Contains ( T . First ( x => ASKx ) )
    U . Select ( y => ASKy ) . Contains ( T . Any ( x => ASKx ) )
    from x in T where T . Select ( b => b . COLb ) . Contains ( x . COLx ) && ASKx orderby ASKx select x . COLx
    T . Select ( x => x . COLx ) . Contains ( T . First ( b => ASKb ) . COLb )
    T . Select ( x => MAYx ) . Any ( z => T . All ( b => ASKb || b . COLb != z ) )
    T . Select ( x => ASKx ? MAYx : x . COLx )
    T . Where ( x => ASKx && U . Any ( y => ASKy && ASKx ) )
""".strip().split("\n") + host_lines.FORMS
DELETES = """
    delete T x => ASKx && x . COLx > 1
    delete T x => ! ASKx && MAYx < 5
    delete T x => MAYx > 0 || ASKx
    delete T x => T . Any ( b => ASKb && b . COLb > x . COLx )
    delete T x => U . Count ( y => ASKy ) > 1 && ASKx
    delete T x => T . First ( b => ASKb ) . COLb == x . COLx
    delete T x => U . Select ( y => ASKy ) . Contains ( ASKx )
""".strip().split("\n")
# Each of these is refused.
REFUSED = """
    run T . Where ( x => ASKx ) . COLx
    run T . Count ( x => ASKx + 1 )
    run T . Select ( x => ASKx
    run T . Any ( x => ASKx ) &&
    run ASK_ONE == null
    var T = T . Any ( x => ASKx )
    T = T . Count ( x => ASKx )
    delete T x => ASKx ? 1 : 2
    delete none x => ASK_ONE
""".strip().split("\n") + ["run " + "( " * 65 + "ASK_ONE" + " )" * 65]
NUMBERS = ["T . Count ( x => ASKx )", "T . First ( x => ASKx ) . COLx", "T . Sum ( x => ASKx ? x . COLx : 1 )", "ASK_ONE ? 1 : 2"]


def filled(writer, forms):
    return host_lines.form(writer.dice, writer.scope(), forms)


def query(writer):
    return ["run", *filled(writer, QUERIES), ";"]


def named_query(writer):
    """A query that is kept: of the rows of a table, of those of another named query, or of any form."""
    if writer.dice.random() < 0.5:
        return host_sessions.named_query(writer)
    return ["var", writer.free_name(), "=", *filled(writer, QUERIES), ";"]


def variable(writer):
    """A truth value or a number, which a predicate decides."""
    if writer.dice.random() < 0.5:
        return host_sessions.variable(writer)
    return ["var", writer.free_name(), "=", *filled(writer, NUMBERS), ";"]


def assigned(writer):
    names = [name for name in writer.variables() if writer.given[name] == "int"]
    if not names or writer.dice.random() < 0.5:
        return host_sessions.assigned(writer)
    return [writer.dice.choice(names), "=", *filled(writer, NUMBERS), ";"]


def removes(_, reply):
    return reply.get("deleted", 0) > 0


def delete(writer):
    if writer.dice.random() < 0.4:
        return host_sessions.delete(writer)
    return [*filled(writer, DELETES), ";"]


def refused(writer):
    return [*filled(writer, REFUSED), ";"]


# Of each kind of line how often it is written, what makes it, and the replies that it is chosen for.
KINDS = [
    (12, query, [anything, *[tells("items", "value")] * 3, *[tells("fault")] * 3, tells("denied")]),
    (1, host_sessions.of_scope, [anything]),
    (4, host_sessions.of_named_query, [anything, tells("items", "value"), tells("fault")]),
    (2, named_query, [tells("defined")]),
    (3, variable, [tells("defined"), anything]), (3, assigned, [tells("assigned"), anything]),
    (4, session_lines.become, [anything]),
    (2, session_changes.insert, [tells("inserted")]),
    (5, delete, [removes, removes, tells("fault"), anything]),
    (2, refused, [anything]),
]
WEIGHTS = [weight for weight, _, _ in KINDS]


def lines_of(writer):
    """The lines of a script, in which the writer has none yet. The first one keeps a query."""
    for place in range(STATEMENTS):
        _, make, replies = KINDS[3] if place == 0 else writer.dice.choices(KINDS, WEIGHTS)[0]
        writer.write(writer.wanted(make, writer.dice.choice(replies), TRIES))
    return writer.lines


def tables(dice):
    """Tables of host_lines.py, few of which are empty."""
    found = host_lines.tables(dice)
    return {name: table if len(table.rows) > 2 else host_lines.table(dice) for name, table in found.items()}


def policies_of_table(dice, name, table, roles):
    """Policies without names: what shows rows to everybody, and perhaps more to some; what hides rows; and what lets none be removed."""

    def made(action, **more):
        return {"table": name, "for": action, "using": session_files.near_rule(dice, table), **more}

    found = [made("all", **dice.choice([{}, {}, {"using": "true"}]))]
    found += [made("select", to=[dice.choice(roles)])] * (dice.random() < 0.6)
    found += [made("select", to=session_files.chosen_to(dice, roles), **session_files.RESTRICTIVE)] * (dice.random() < 0.5)
    return found + [made("delete", **session_files.RESTRICTIVE)] * (dice.random() < 0.3)


def rights_to_ask(dice, roles, predicates):
    """A grant of all predicates to everybody, and often a withhold of one from one role."""
    withheld = {"name": "no-asking", "to": [dice.choice(roles)], "rights": [f"Host.{dice.choice(list(predicates))}"]}
    return {"name": "asks", "rights": [f"Host.{name}" for name in predicates]}, [withheld] * (dice.random() < 0.4)


def policy_file(dice, some_tables, predicates):
    """Roles of which most have most rights, and policies of nearly all tables."""
    roles = session_files.roles(dice)
    names = [role["name"] for role in roles]
    secured = [name for name in some_tables if dice.random() < 0.9]
    found = [one for name in secured for one in policies_of_table(dice, name, some_tables[name], names)]
    found = [{"name": f"policy {place}", **one} for place, one in enumerate(found)]
    rights = session_files.statement_rights(dice, some_tables, names)
    grant, withholds = rights_to_ask(dice, names, predicates)
    return {"role": roles, "table": [{"name": name, "row_security": True} for name in secured], "policy": found,
            "grant": [*rights["grant"], grant], "withhold": [*rights["withhold"], *withholds]}


@dataclass(frozen=True)
class Script:
    """What the program is run on: its words, without `--audit`, and its files; the lines; and the session that they begin in."""

    words: list
    files: dict
    lines: list
    session: Session


def script_of(number):
    """The script of a number, which is the seed."""
    dice = random.Random(f"calls {number}")
    watched = dice.choice([None, *host_lines.LISTS])
    predicates = predicates_of(watched)
    data = {f"{name}.csv": files.spelled_file(dice, files.records(dice, table)) for name, table in tables(dice).items()}
    read = {path.removesuffix(".csv"): table_of(text) for path, text in data.items()}
    file = policy_file(dice, read, predicates)
    text = policy_files.spelled_file(dice, file).encode()
    policies, role = policies_of(text, read, predicates), dice.choice(file["role"])["name"]
    lines = lines_of(Writer(dice, read, policies, role, predicates, host_lines.scope_of(watched)))
    words = ["--role", role, "--policy", "p.toml", *([] if watched is None else [f"--watch={watched}"]), *data]
    return Script(words, {"p.toml": text, **data}, lines, Session(read, policies, role, predicates))
