"""Statements of sessions by chance that are refused, or nearly so, each for a reason of its own. `writer.dice` is a Writer's dice."""

import session_changes
import session_lines
from depth import MOST_BRACKETS, MOST_WEIGHT
from opening import MOST_RANK, MOST_SIZE
from rights import STATEMENTS, denials
from sentences import any_token
from session_writer import NAMES

NO_ROLES = ["zed", "public", "Dan", "reader", "t", "none", "Key"]
# Expressions that no variable and no query takes: a row, a record, null alone, and some without a type.
NO_SCALARS = [
    "{T} . First ( )", "new {{ a = 1 }}", "null", "true ? null : null", "none", "{T} . First ( ) . none", "1 + null", "new {{ }}",
    "( from y in {T} group y by 1 ) . First ( )", "{T} + 1", "{T} . Where ( y => 1 )", "1 ?? 2", "{T} . Select ( y => null )",
]
NO_CONDITIONS = ["1", "null", "x", "x . none == 1", "{T}", "none", "true ? null : true", "{T} . Count ( )", "1 == true"]


def table(writer):
    return writer.dice.choice(list(writer.session.tables))


def some_name(writer):
    """A name that means something in the session, or nothing."""
    return writer.dice.choice([*writer.given, *writer.session.tables, "none", *NAMES[:3]])


def no_syntax(writer):
    """A good statement of which a token is missing, doubled, another one, or exchanged with the next; most such lines are none."""
    dice = writer.dice
    kinds = [session_lines.run, session_lines.define_scalar, session_changes.insert, session_changes.delete, session_lines.become]
    words = dice.choice(kinds)(writer)
    place = dice.randrange(len(words))
    before, here, behind = words[:place], words[place:place + 1], words[place + 1:]
    return dice.choice([
        before + behind, before + here + here + behind, [*before, any_token(dice), *behind], before + behind[:1] + here + behind[1:],
        [*before, any_token(dice), *here, *behind],
    ]) or [";"]


def too_deep(writer):
    """A statement of any kind that is at the limits of depth, or past one."""
    dice = writer.dice
    more = dice.choice([0, 1, 1, 2])
    if dice.random() < 0.5:
        brackets = MOST_BRACKETS + more - 1
        words = ["("] * brackets + ["1"] + [")"] * brackets
    else:
        words = ["1"] + ["+", "0"] * (MOST_WEIGHT - 5 + more)
    numbers = [name for name in writer.variables() if writer.given[name] == "int"]
    heads = [["run"], ["var", writer.free_name(), "="], ["delete", table(writer), "x", "=>", "2", "=="]]
    heads += [[dice.choice(numbers), "="]] if numbers else []
    return [*dice.choice(heads), *words, ";"]


def no_type(writer):
    """A statement that names what isn't there or is in use, or in which something is of another type."""
    dice = writer.dice
    name = dice.choice([*writer.given, *writer.session.tables])
    its_table = table(writer)
    value = dice.choice(NO_SCALARS).format(T=its_table).split()
    condition = dice.choice(NO_CONDITIONS).format(T=its_table).split()
    lines = [
        ["var", name, "=", *session_lines.literal(dice, "int"), ";"], ["var", name, "=", its_table, ";"],
        ["var", writer.free_name(), "=", *value, ";"], [some_name(writer), "=", *value, ";"], ["run", "none", ";"],
        [some_name(writer), "=", *session_lines.literal(dice, dice.choice(["int", "bool", "string"])), ";"],
        [some_name(writer), "=", some_name(writer), ";"], [some_name(writer), "=", its_table, ";"],
        ["delete", its_table, "x", "=>", *condition, ";"], ["delete", some_name(writer), "x", "=>", "true", ";"],
        ["insert", some_name(writer), "(", "1", ")", ";"], *[session_changes.other_cells(writer)] * 2,
    ]
    lines += [[query.words[0], "=", dice.choice([its_table, *writer.session.queries]), ";"] for query in writer.queries()[-2:]]
    return dice.choice(lines)


def denied_uses(writer):
    """What the role has no right to: the tables' columns and statements."""
    denied = denials(writer.session.policies, writer.session.tables, writer.session.user)
    uses = [(name, to) for name, table in writer.session.tables.items() for to in (*table.columns, *STATEMENTS)]
    return [use for use in uses if denied(use)]


def forbidden(writer):
    """A statement that the role has no right to, and that would be refused or fault for another reason, too."""
    dice = writer.dice
    uses = denied_uses(writer)
    if not uses:
        return session_lines.run(writer)
    name, to = dice.choice(uses)
    if to == "insert":
        return dice.choice([session_changes.other_cells, session_changes.insert])(writer, name)
    other = dice.choice(["1 / 0 == 1", "true", "1", "none"]).split()
    columns = [use for use in uses if use[1] not in STATEMENTS]
    if to == "delete":
        return ["delete", name, "x", "=>", *(reading(*dice.choice(columns)) if columns and dice.random() < 0.6 else other), ";"]
    heads = [["run"], ["var", writer.free_name(), "="], ["delete", table(writer), "x", "=>"]]
    heads += [[one, "="] for one in writer.variables() if writer.given[one] == "bool"]
    return [*dice.choice(heads), *other, dice.choice(["&&", "||"]), *reading(name, to), ";"]


def reading(name, column):
    """A condition that reads a column of a table."""
    return [name, ".", "Any", "(", "y", "=>", "y", ".", column, "==", "y", ".", column, ")"]


def no_role(writer):
    return ["as", writer.dice.choice([*NO_ROLES, *writer.given]), ";"]


def deepest(writer):
    """The name of the query that opens the most."""
    queries = writer.session.queries
    return max(queries, key=lambda name: (queries[name].opened.rank, queries[name].opened.size))


def too_large(writer):
    """A query, of those that depend on less than the most others the largest, so often that it passes the limit of size, or nearly;
    None where a line has no room for that."""
    queries = writer.session.queries
    fitting = [name for name in queries if queries[name].opened.rank < MOST_RANK]
    name = max(fitting, key=lambda one: queries[one].opened.size, default=None)
    most = MOST_SIZE // (queries[name].opened.size + 5) if fitting else 0
    if not 1 < most <= 200:
        return None
    times = most - writer.dice.choice([0, 1, 2])
    return ["run", name, *[".", "Concat", "(", name, ")"] * times, ".", "Any", "(", ")", ";"]


def opening_too_much(writer):
    """A name of a query that opens much, in a place of any kind, or one very often."""
    dice = writer.dice
    name = deepest(writer)
    words = too_large(writer) if dice.random() < 0.2 else None
    return words or dice.choice([
        ["run", name, ";"], ["run", name, ".", "Any", "(", ")", ";"], ["var", writer.free_name(), "=", name, ";"], ["as", name, ";"],
        ["insert", name, "(", "1", ")", ";"], ["delete", table(writer), name, "=>", "false", ";"],
        ["delete", name, "x", "=>", "true", ";"], [name, "=", "1", ";"], ["var", name, "=", "1", ";"],
        ["run", "new", "{", name, "=", "1", "}", ";"], ["run", table(writer), ".", "Any", "(", name, "=>", "true", ")", ";"],
        ["run", "from", "x", "in", table(writer), "let", name, "=", "1", "select", name, ";"],
        ["run", "1", "+", name, ".", "Count", "(", ")", ";"], ["run", table(writer), ".", "First", "(", ")", ".", name, ";"],
        ["var", writer.free_name(), "=", name, ".", "Concat", "(", name, ")", ";"],
    ])


def climb(writer):
    """A query that opens the one that opens the most, once or twice."""
    dice = writer.dice
    if not writer.queries():
        return session_lines.define_query(writer)
    name = deepest(writer)
    words = dice.choice([
        [name], *[[name, ".", "Concat", "(", name, ")"]] * 3, [name, ".", "Skip", "(", "1", ")"],
        ["from", "y", "in", name, "where", name, ".", "Any", "(", ")", "select", "y"],
        [name, ".", "Where", "(", "y", "=>", name, ".", "Any", "(", ")", ")"],
        [name, ".", "Take", "(", name, ".", "Count", "(", ")", ")"],
    ])
    return ["var", writer.free_name(), "=", *words, ";"]
