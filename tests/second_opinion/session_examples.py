"""Sessions whose replies are known beforehand, over the tables of the small company: those of the files in the folder
`known_sessions`, some under other policies, and some that open as much as a line may.

They hold for this reading as well as for the program: a reading that answers one of them otherwise compares nothing.

In a file each block between empty lines is a session of its own, which dan begins under the policies of the desk: its lines are a
statement and its reply in turn. A line that begins with `#` describes them.
"""

from pathlib import Path

from company_examples import records
from lexer import tokens_of
from opening import MOST_SIZE
from policies import policies_of
from policy_examples import (
    DEPT10, FILES, MORE_PLAIN_ROLES, OWN, PLAIN_ROLES, RECENT, RESTRICTIVE, SECURED, SELECT, granting, policy, right_rule, toml_text,
)
from sessions import Session
from tables import table_of

FOLDER = Path(__file__).resolve().parent / "known_sessions"
INSERT, DELETE = '"insert"', '"delete"'
DESK = PLAIN_ROLES + SECURED + DEPT10 + OWN + RECENT + granting(
    "employees.*", "depts.*", "marks.*", "employees insert", "employees delete", "marks insert", "Host.LeapYear",
) + right_rule("withhold", "no-salary", '["employees.salary"]', to='["dan", "eve"]')
# All rights for everybody, statements among them.
OPEN = granting(*(f"{table}{right}" for table in ("employees", "depts", "marks") for right in (".*", " insert", " delete")))
BOTH_SECURED = 'table = [{name = "employees", row_security = true}, {name = "depts", row_security = true}]\n'


def blocks_in(path):
    """The sessions of a file."""
    for block in path.read_text(encoding="utf-8").split("\n\n"):
        lines = [line for line in block.split("\n") if line and not line.startswith("#")]
        if lines:
            yield list(zip(lines[::2], lines[1::2], strict=True))


def new_row(number, name="x", dept=10, year=2000):
    return f'insert employees ({number}, "{name}", {dept}, null, 1, {year});'


def denied(rule, use="employees insert"):
    return f'{{"denied":"{rule}","use":"{use}"}}'


def values(items):
    return f'{{"items":[{",".join(map(str, items))}]}}'


INSERTED, CELL, TOO_DEEP = '{"inserted":1}', '{"error":"cell"}', '{"error":"too-deep"}'
IDS = "run employees.Select(e => e.id);"
DELETE_ALL = "delete employees e => true;"


def deleted(count):
    return f'{{"deleted":{count}}}'


def role(name):
    return f"as {name};", f'{{"role":"{name}"}}'


def withholding(title, *texts, **more):
    return right_rule("withhold", title, "[" + ", ".join(map(toml_text, texts)) + "]", **more)


def for_action(title, action, rule, **more):
    """A policy of the employees for one action."""
    rules = {"using": "", "check": f"'{rule}'"} if action == INSERT else {"using": f"'{rule}'"}
    return policy(title, "", **(rules | {"for": action} | more))


EVERYTHING = PLAIN_ROLES + SECURED + OPEN
# Of each policy file the session of dan that is known.
UNDER_POLICIES = [
    # Of two restrictive policies that forbid a row, the first one in the file is reported, whatever their names and actions.
    (EVERYTHING + policy("p", "true") + policy("b", "row.id < 10", kind=RESTRICTIVE) + for_action(
        "a", INSERT, "row.dept < 50", kind=RESTRICTIVE),
     [(new_row(20, dept=60), denied("b")), (new_row(5, dept=60), denied("a")), (new_row(20), denied("b")), (new_row(5), INSERTED)]),
    (EVERYTHING + for_action("a", INSERT, "row.dept < 50", kind=RESTRICTIVE) + policy(
        "b", "row.id < 10", kind=RESTRICTIVE) + policy("p", "true"),
     [(new_row(20, dept=60), denied("a")), (new_row(20), denied("b"))]),
    # Without a permissive policy that is true of it, no restrictive one is reported.
    (EVERYTHING + policy("a", "false", kind=RESTRICTIVE) + policy("p", "row.id == 5") + policy("q", "row.id == 6"),
     [(new_row(7), denied("default-deny")), (new_row(6), denied("a"))]),
    (EVERYTHING, [(new_row(7), denied("default-deny")), (IDS, values([])), (DELETE_ALL, deleted(0))]),
    # Restrictive ones alone permit nothing, and those of another table or another role's say nothing.
    (EVERYTHING + policy("a", "true", kind=RESTRICTIVE), [(new_row(7), denied("default-deny")), (DELETE_ALL, deleted(0))]),
    (EVERYTHING + policy("p", "true", to='["eve"]') + policy("q", "true", table='"depts"'), [(new_row(7), denied("default-deny"))]),
    (EVERYTHING + policy("p", "true") + policy("a", "false", kind=RESTRICTIVE, to='["eve"]') + policy(
        "b", "false", kind=RESTRICTIVE, to="[]") + policy("c", "false", kind=RESTRICTIVE, table='"depts"'),
     [(new_row(7), INSERTED), role("eve"), (new_row(8), denied("a"))]),
    # A check of its own, and a row that is put in and not seen.
    (EVERYTHING + policy("p", "row.id == 1", check="'row.id == 2'"),
     [(new_row(1), denied("default-deny")), (new_row(2), INSERTED), (IDS, values([1])), role("root"), (IDS, values([1, 2, 3, 4, 2]))]),
    # Policies for one action each. What is for select or for delete checks no new row, and what is for insert shows none.
    (EVERYTHING + for_action("p", SELECT, "true") + for_action("q", DELETE, "true"),
     [(new_row(7), denied("default-deny")), (IDS, values([1, 2, 3, 4])), (DELETE_ALL, deleted(4))]),
    (EVERYTHING + for_action("p", INSERT, "row.dept == 10"),
     [(new_row(7), INSERTED), (new_row(8, dept=11), denied("default-deny")), (IDS, values([])), (DELETE_ALL, deleted(0))]),
    (EVERYTHING + for_action("p", SELECT, "true") + for_action("q", INSERT, "true") + for_action(
        "a", SELECT, "row.id < 7", kind=RESTRICTIVE) + for_action("b", DELETE, "row.id < 6", kind=RESTRICTIVE),
     [(new_row(7), INSERTED), (new_row(6), INSERTED), (IDS, values([1, 2, 3, 4, 6])), (DELETE_ALL, deleted(0))]),
    # Who removes a row has to see it, too; and a policy for all serves for both.
    (EVERYTHING + for_action("p", SELECT, "row.id < 4") + for_action("q", DELETE, "row.id > 2"),
     [(DELETE_ALL, deleted(1)), (IDS, values([1, 2])), role("root"), (IDS, values([1, 2, 4]))]),
    (EVERYTHING + for_action("p", SELECT, "true"), [(DELETE_ALL, deleted(0)), (IDS, values([1, 2, 3, 4]))]),
    (EVERYTHING + for_action("q", DELETE, "true"), [(DELETE_ALL, deleted(0)), role("root"), (IDS, values([1, 2, 3, 4]))]),
    (EVERYTHING + policy("p", "row.id > 1") + for_action("a", DELETE, "row.id != 3", kind=RESTRICTIVE),
     [(DELETE_ALL, deleted(2)), (IDS, values([3])), ("delete employees e => 1 / (e.id - 3) == 0;", deleted(0))]),
    (EVERYTHING + for_action("p", SELECT, "true") + for_action("q", DELETE, "row.id == 2") + for_action("r", DELETE, "row.id == 4"),
     [("delete employees e => e.id / (e.id - 3) > 0;", deleted(1)), (IDS, values([1, 2, 3]))]),
    # The condition reads what is seen, and goes over what may be removed.
    (EVERYTHING + for_action("p", SELECT, "true") + for_action("q", DELETE, "row.id > 2"),
     [("delete employees e => employees.Count() == 4 && e.id - 1 == employees.Min(x => x.id) + 1;", deleted(1)),
      (IDS, values([1, 2, 4])), ("delete employees e => employees.Any(x => x.id + 2 == e.id);", deleted(1)), (IDS, values([1, 2]))]),
    # A role is in those that it is a member of, along any chain; bypassing isn't passed on.
    (MORE_PLAIN_ROLES + SECURED + OPEN + DEPT10 + OWN + RECENT,
     [role("kim"), (new_row(5), INSERTED), (new_row(6, dept=20), denied("default-deny")), (new_row(6, "kim", 20), INSERTED),
      (IDS, values([1, 2, 5, 6])), role("lee"), (IDS, values([1, 2, 5])), (new_row(7), INSERTED), role("aid"), (IDS, values([])),
      (new_row(8), denied("default-deny")), (DELETE_ALL, deleted(0)), role("root"), (new_row(8, year=1), INSERTED),
      (DELETE_ALL, deleted(8))]),
    # Where row security is off, policies say nothing.
    (PLAIN_ROLES + OPEN + policy("a", "false", kind=RESTRICTIVE) + for_action("p", SELECT, "false"),
     [(new_row(7), INSERTED), (IDS, values([1, 2, 3, 4, 7])), (DELETE_ALL, deleted(5)), role("eve"), (IDS, values([]))]),
    # Rights to statements: the first withhold of the file that covers one, whoever it is for.
    (EVERYTHING + policy("p", "true") + withholding("w", "employees.id") + withholding("v", "employees insert", to='["dan"]')
     + withholding("u", "employees insert", "employees delete"),
     [(new_row(7), denied("v")), (DELETE_ALL, denied("u", "employees delete")), ("run employees.Count();", '{"value":4}'),
      role("eve"), (new_row(7), denied("u")), ('insert depts (50, "Attic");', INSERTED), ("delete depts d => d.id < 20;", deleted(1)),
      ("run depts.Select(d => d.id);", values([20, 40, 50]))]),
    (PLAIN_ROLES + SECURED + policy("p", "true") + granting("employees.*", "employees delete") + withholding("w", "employees.id"),
     [(new_row(7), denied("no-grant")), ("delete employees e => e.dept == 10;", deleted(2)),
      ("delete employees e => e.id == 3;", denied("w", "employees.id")), ("run employees.Count();", '{"value":2}')]),
    (PLAIN_ROLES + SECURED + policy("p", "true") + granting("employees insert", "employees delete"),
     [(new_row(7), INSERTED), (DELETE_ALL, deleted(5)), ("run employees.Count();", denied("no-grant", "employees")),
      ("delete employees e => employees.Any();", denied("no-grant", "employees"))]),
    # A right comes before a range, and a range before a check.
    (PLAIN_ROLES + 'table = [{name = "marks", row_security = true}]\n' + policy("p", "row.ok", table='"marks"') + granting(
        "marks.*", "marks insert") + withholding("w", "marks insert", to='["eve"]'),
     [("insert marks (10, false);", CELL), ("insert marks (9, false);", denied("default-deny", "marks insert")),
      ("insert marks (10, true);", CELL), ("insert marks (9, true);", INSERTED), role("eve"),
      ("insert marks (10, false);", denied("w", "marks insert")), ("insert marks (9, 1);", '{"error":"type"}'),
      ("run marks.Select(m => m.k);", values([3, 9]))]),
    # What a named query uses comes where its name does, and the columns of what is served come last.
    (EVERYTHING + policy("p", "true") + withholding("no-salary", "employees.salary") + withholding(
        "no-title", "depts.title") + withholding("no-year", "employees.year"),
     [("var q = employees.Where(e => e.year > 1);", '{"defined":"q"}'), ("var p = employees.Take(1);", '{"defined":"p"}'),
      ("run depts.Where(d => d.title == null && q.Any()).Count();", denied("no-title", "depts.title")),
      ("run depts.Where(d => q.Any() && d.title == null).Count();", denied("no-year", "employees.year")),
      ("run q.Select(e => e.salary).Count();", denied("no-year", "employees.year")),
      ("run p.Where(e => e.salary > 1).Concat(q).Count();", denied("no-salary", "employees.salary")),
      ("run new { p, t = depts.First().title };", denied("no-title", "depts.title")),
      ("run new { p, n = depts.Count() };", denied("no-salary", "employees.salary")),
      ("run from e in p group e by e.dept into g select new { g.Key, n = g.Count() };", '{"items":[{"Key":10,"n":1}]}')]),
    # A role that is called like a query that opens too much isn't taken up.
    ('role = [{name = "dan"}, {name = "q7"}, {name = "q8"}]\n' + OPEN,
     [("var q0 = depts.Take(1);", '{"defined":"q0"}'),
      *((f"var q{place} = q{place - 1};", f'{{"defined":"q{place}"}}') for place in range(1, 9)),
      role("q7"), ("as q8;", TOO_DEEP), ("run q7.Select(d => d.id);", values([10])), role("dan"), ("as q8;", TOO_DEEP)]),
    # Two tables with policies, each by its own, in one session of three roles.
    (PLAIN_ROLES + BOTH_SECURED + OPEN + DEPT10 + policy("high", "row.id > 10", table='"depts"') + policy(
        "short", "row.title != \"Void\"", kind=RESTRICTIVE, table='"depts"', to='["eve", "dan"]'),
     [("run from e in employees from d in depts select e.id * d.id;", values([20, 40])),
      ('insert depts (50, "Void");', denied("short", "depts insert")),
      ('insert depts (10, "Void");', denied("default-deny", "depts insert")), ('insert depts (50, "Attic");', INSERTED),
      ("var q = from d in depts where employees.Any() select d.id;", '{"defined":"q"}'), ("run q;", values([20, 50])),
      role("eve"), ("run q;", values([])), ("run depts.Select(d => d.id);", values([20, 50])),
      ("delete depts d => employees.All(e => e.dept == d.id);", deleted(2)), role("root"), ("run q;", values([10, 40])),
      ('insert depts (5, "Void");', INSERTED), ("run q;", values([10, 40, 5])), role("dan"), ("run q;", values([]))]),
]


def size_of(line):
    return len(tokens_of(line))


def filled(line, size):
    """The line with as many tokens as it lacks of a size in the place of its `#`: calls that skip nothing, of five tokens or six."""
    lacking = size - size_of(line.replace("#", ""))
    sixes = lacking % 5
    return line.replace("#", ".Skip(0)" * ((lacking - 6 * sixes) // 5) + ".Skip(-1)" * sixes)


def doubled(count, size):
    """Definitions of q0, which has so many tokens, and of as many more, each of which opens the one before twice; and what the last
    one opens. They are all of no rows."""
    lines = [filled("var q0 = depts.Where(d => d.id > 99)#;", size)]
    for place in range(1, count + 1):
        lines.append(f"var q{place} = q{place - 1}.Concat(q{place - 1});")
        size = size_of(lines[-1]) + 2 * size
    return lines, size


def sizes():
    """Lines that open as much as they may, and lines that open one token more."""
    lines, size = doubled(5, 1_010)
    known = [(line, f'{{"defined":"q{place}"}}') for place, line in enumerate(lines)]
    room = MOST_SIZE - 2 * size
    for line, reply in [
        ("run q5.Concat(q5)#.Count();", '{"value":0}'), ("var m = q5.Concat(q5)#.Count();", '{"defined":"m"}'),
        ("m = q5.Concat(q5)#.Count();", '{"assigned":"m"}'), ("delete employees e => q5.Concat(q5)#.Any();", deleted(0)),
        ("var q = q5.Concat(q5)#;", '{"defined":"q"}'),
    ]:
        known += [(filled(line, room + 1), TOO_DEEP), (filled(line, room), reply)]
    return known + [
        ("run q;", TOO_DEEP), ("as q;", TOO_DEEP), ("run new { q = 1 };", TOO_DEEP),
        ("run new { a = 1 }.q;", '{"error":"type"}'), ("insert marks (4, true);", INSERTED), ("run q5.Count();", '{"value":0}'),
        ("run 1;", '{"value":1}'), (IDS, values([1, 2])),
    ]


def wide_queries():
    """Queries whose items have as many parts as a type may have, and one more; the type of r10 has 2,047."""
    head = f"from m in marks {records(10)} "
    return [
        (f"var q = {head}select new {{ a = r10, b = r10 }};", '{"defined":"q"}'),
        (f"var p = {head}select new {{ a = r10, b = r10, c = 1 }};", '{"error":"type"}'),
        ("run q.Select(r => r.a.a.b.a.b.a.b.a.b.a.b);", values([1])), ("run new { q }.q.Count();", '{"error":"type"}'),
        ("run new { n = q.Count() };", '{"value":{"n":1}}'), ("var p = q.Where(r => r.a != null);", '{"defined":"p"}'),
        ("run q.Concat(p).Count();", '{"value":2}'), ("var g = from r in q group r by 1;", '{"error":"type"}'),
    ]


def large_queries():
    """Eight named queries of some 8,000 tokens each, opened side by side, and in one another."""
    condition = "(" + "&&".join(["(" + "&&".join(["(d.id>9)"] * 16) + ")"] * 62) + ")"
    known = [(f"var q{place} = depts.Where(d => {condition} && d.id > {place * 5});", f'{{"defined":"q{place}"}}') for place in range(8)]
    names = [f"q{place}" for place in range(8)]
    known.append(("run " + ".Concat(".join(names) + ")" * 7 + ".Count();", '{"value":14}'))
    known.append(("run " + ".Concat(".join([*names, "q0"]) + ")" * 8 + ".Count();", TOO_DEEP))
    return known + [("run q7.Concat(q3).Select(d => d.id);", values([40, 20, 40])), ("run q0.First().title;", '{"value":"Sales"}')]


# Each known session: its policy file, and the pairs of statements and replies.
KNOWN = [
    *((DESK, pairs) for path in sorted(FOLDER.glob("*.txt")) for pairs in blocks_in(path)), *UNDER_POLICIES,
    (DESK, sizes()), (DESK, wide_queries()), (DESK, large_queries()),
]


def script_of(pairs):
    return "".join(line + "\n" for line, _ in pairs).encode()


def misread_sessions():
    """The lines that this reading answers otherwise."""
    tables = {path.removesuffix(".csv"): table_of(data) for path, data in FILES.items()}
    misread = []
    for text, pairs in KNOWN:
        session = Session(tables, policies_of(text.encode(), tables), "dan")
        misread += [line for line, reply in pairs if session.step(line) != reply + "\n"]
    return misread
