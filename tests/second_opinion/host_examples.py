"""Statements that ask host predicates, whose replies are known beforehand, over the tables of the small company, by policy file, role and
list of numbers.

They hold for this reading as well as for the program: a reading that answers one of them otherwise compares nothing.
"""

from dataclasses import dataclass

from policies import policies_of
from policy_examples import DEPT10, EMPLOYEES, FILES, OWN, PLAIN_ROLES, RECENT, SECURED, granting, right_rule
from predicates import predicates_of
from right_examples import SALARY, denied, runs
from session_examples import DESK
from sessions import Session
from tables import table_of

# What the desk grants and withholds, with more rights to predicates; and the same without the policy that hides early years.
RIGHTS = ("employees.*", "depts.*", "marks.*", "employees insert", "employees delete", "marks insert")
NO_SALARY = right_rule("withhold", "no-salary", '["employees.salary"]', to='["dan", "eve"]')


def desk(*predicates, recent=RECENT):
    return PLAIN_ROLES + SECURED + DEPT10 + OWN + recent + granting(*RIGHTS, *(f"Host.{name}" for name in predicates)) + NO_SALARY


ASKING = desk("LeapYear", "Under")
ZED = EMPLOYEES + b"5,zed,10,,100,0\n"
FAR = "ArgumentOutOfRange"
TYPE, NULL = '{"error":"type"}', '{"fault":"NullReference"}'


def items(*values):
    return f'{{"items":[{",".join(values)}]}}'


def fault(name, *values):
    return f'{{"fault":"{name}","items":[{",".join(values)}]}}'


def value(text):
    return f'{{"value":{text}}}'


@dataclass(frozen=True)
class Known:
    """A session: the pairs of its statements and replies. `watched` is the list of numbers, if there is one."""

    policies: str
    pairs: list
    role: str = "dan"
    watched: str = None
    employees: bytes = EMPLOYEES

    def words(self):
        return () if self.watched is None else (f"--watch={self.watched}",)

    def files(self):
        return FILES | {"employees.csv": self.employees}

    def session(self):
        tables = {path.removesuffix(".csv"): table_of(data) for path, data in self.files().items()}
        predicates = predicates_of(self.watched)
        return Session(tables, policies_of(self.policies.encode(), tables, predicates), self.role, predicates)


LEAPS = "from e in employees where Host.LeapYear(e.year) select e.name"
NAMES = "employees.Where(e => {}).Select(e => e.name)"
# What has a type, and what is served of it to dan, who sees ann of 2000 and bob of 1999.
SERVED = {
    LEAPS: items('"ann"'),
    NAMES.format("!Host.LeapYear(e.year)"): items('"bob"'),
    NAMES.format("Host.LeapYear(e.year)") + ".Take(1)": items('"ann"'),
    "employees.Where(e => Host.Under(e.dept, e.year)).Select(e => e.id)": items("1", "2"),
    "employees.Where(e => Host.Under(e.year, e.id)).Select(e => e.id)": fault(FAR),
    "employees.Select(e => Host.Under(e.dept, e.dept))": items("false", "false"),
    "employees.Select(e => Host.Under((e).id, (e.dept)))": items("true", "true"),
    "employees.Where(e => e.dept == 20 && Host.LeapYear(e.year)).Count()": value("0"),
    "employees.Any(e => Host.LeapYear(e.year))": value("true"),
    "employees.All(e => Host.LeapYear(e.year))": value("false"),
    "from e in employees orderby Host.LeapYear(e.year) select e.id": items("2", "1"),
    "from e in employees group e.id by Host.LeapYear(e.year)": items('{"Key":true,"items":[1]}', '{"Key":false,"items":[2]}'),
    "from e in employees join b in employees on Host.LeapYear(e.year) equals Host.LeapYear(b.year) select b.id": items("1", "2"),
    "Host.LeapYear(employees.First().year)": value("true"),
    "Host.LeapYear(((employees.Last())).year)": value("false"),
    "Host.LeapYear(employees.ElementAt(9).year)": f'{{"fault":"{FAR}"}}',
    "Host.LeapYear(employees.Single().year)": '{"fault":"InvalidOperation"}',
    "Host.LeapYear(depts.FirstOrDefault(d => d.id > 99).id)": NULL,
    "Host.LeapYear((true ? null : depts.First()).id)": NULL,
    "employees.Where(e => false).DefaultIfEmpty().Select(e => Host.LeapYear(e.year))": fault("NullReference"),
    "employees.Where(e => false).DefaultIfEmpty().Select(e => Host.Under(e.year, e.id))": fault("NullReference"),
    "employees.Select(e => new { e }).Select(r => Host.LeapYear(r.e.year))": items("true", "false"),
    "employees.Select(e => false && Host.Under(e.year, e.year))": items("false", "false"),
    "employees.Take(0).Select(e => Host.Under(e.year, e.year))": items(),
    "employees.Select(e => Host.Under(e.year, e.year)).Count()": f'{{"fault":"{FAR}"}}',
    "employees.Select(e => depts.Where(d => Host.LeapYear(e.year) && Host.Under(d.id, d.id))).First()": items(),
    "employees.Select(e => depts.Where(d => Host.LeapYear(e.year)).Select(d => d.id))": items("[10,20,40]", "[]"),
    "from e in employees from d in depts where Host.LeapYear(e.year) == Host.LeapYear(d.id) select d.id": items("20", "40", "10"),
    "Host.LeapYear(2000)": TYPE, "employees.Select(e => Host.LeapYear(e))": TYPE, "employees.Select(e => Host.LeapYear(e.boss))": TYPE,
    "employees.Select(e => Host.LeapYear(e.name))": TYPE, "employees.Select(e => Host.LeapYear(e.none))": TYPE,
    "employees.Select(e => Host.LeapYear(e.year + 0))": TYPE, "employees.Select(e => Host.LeapYear(-e.year))": TYPE,
    "employees.Select(e => Host.Under(e.id, e.boss))": TYPE, "employees.Select(e => Host.Under(e.id))": TYPE,
    "employees.Select(e => Host.LeapYear(e.year, e.year))": TYPE, "employees.Select(e => Host.leapYear(e.year))": TYPE,
    "employees.Select(e => Host.Watched(e.id))": TYPE, "Host.Under(employees.First().id, employees.First().year)": TYPE,
    "employees.Select(e => employees.Select(b => Host.Under(e.id, b.year)))": TYPE,
    "employees.Select(e => new { e.year }).Select(r => Host.LeapYear(r.year))": TYPE,
    "employees.Select(e => new { e }).Select(r => Host.Under(r.e.id, r.e.year))": TYPE,
    "employees.Select(e => Host.Under(e.id, 2000))": TYPE, "employees.Select(e => Host.LeapYear(e.year) + 1)": TYPE,
    "from e in employees group e by e.dept into g select Host.LeapYear(g.Key)": TYPE,
    "employees.Select(e => Host.Under(e.id, e.year, e.year))": '{"error":"syntax"}', "Host.LeapYear()": '{"error":"syntax"}',
    "employees.Select(e => Host.LeapYear(x => 1))": '{"error":"syntax"}',
}
# What is denied to dan, who has no right to Under here; and in whose statements the salary comes first.
UNDER = denied("no-grant", "Host.Under")
DENIED = {
    "employees.Where(e => Host.Under(e.dept, e.year)).Select(e => e.id)": UNDER,
    "employees.Count(e => false && Host.Under(e.dept, e.year))": UNDER,
    "employees.Count(e => Host.Under(e.dept, e.salary))": UNDER,
    "employees.Count(e => e.salary > 1 && Host.Under(e.dept, e.year))": SALARY,
    "employees.Count(e => Host.LeapYear(e.salary))": SALARY,
    "employees.Count(e => Host.LeapYear(employees.First(b => b.salary > 1).year) && Host.Under(e.dept, e.year))": SALARY,
    "true ? 1 : employees.Count(e => Host.Under(e.dept, e.year))": UNDER,
    LEAPS: items('"ann"'),
}
LEAP = denied("no-leaps", "Host.LeapYear")
# Withholds of predicates: of one that is granted, for some roles; and of one that nothing grants.
WITHHOLDING = ASKING + right_rule("withhold", "no-leaps", '["depts.title", "Host.LeapYear"]', to='["dan"]') + right_rule(
    "withhold", "never", '["Host.LeapYear"]', to='["dan", "eve"]')

# Those of the worked rows first.
KNOWN = [
    Known(DESK, runs([(LEAPS, items('"ann"'))])),
    Known(DESK, runs([("employees.Where(e => Host.Watched(e.id))", denied("no-grant", "Host.Watched"))]), watched="1"),
    Known(desk("LeapYear", recent=""), runs([(LEAPS, fault(FAR, '"ann"'))]), employees=ZED),
    Known(DESK, runs([(LEAPS, items('"ann"'))]), employees=ZED),
    Known(desk("LeapYear", "Watched"), runs([(NAMES.format("Host.Watched(e.id)"), items('"bob"'))]), watched="2,3"),
    Known(DESK, [
        ("insert marks (4, false);", '{"inserted":1}'),
        ("run from m in marks from d in depts where Host.LeapYear(m.k) select d.id;", items("10", "20", "40")),
    ]),
    Known(DESK, [
        ("var n = 1;", '{"defined":"n"}'), ("var q = from e in employees where e.id > n select e.id;", '{"defined":"q"}'),
        ("n = 0;", '{"assigned":"n"}'),
        ('run from e in employees join b in employees on e.boss equals b.id into g from b in g.DefaultIfEmpty() orderby e.id descending '
         'select b == null ? "none" : b.name;', items('"ann"', '"none"')),
        ('insert employees (5, "eli", 10, null, 100, 2001);', '{"inserted":1}'), ("run q;", items("1", "2", "5")),
        ("run employees.Where(e => Host.LeapYear(e.year)).Select(e => e.id);", items("1")),
        ("delete employees e => e.id == 5;", '{"deleted":1}'), ("as eve;", '{"role":"eve"}'), ("run employees.Count();", value("0")),
    ]),
    Known(ASKING, runs(SERVED.items())),
    Known(DESK, runs(DENIED.items())),
    # Numbers at and outside of the ends of the ranges, which depend on what dan sees.
    *(Known(desk("LeapYear", "Under"), [
        (f'insert employees (7, "x", 10, null, 1, {year});', '{"inserted":1}'),
        ("run Host.LeapYear(employees.Last().year);", reply),
        (f"run employees.Where(e => e.id == 7).Select(e => Host.Under(e.id, e.year));", under),
    ]) for year, reply, under in [
        (1950, value("false"), items("true")), (9999, value("false"), items("true")), (9996, value("true"), items("true")),
        (10_000, f'{{"fault":"{FAR}"}}', fault(FAR)), (2_147_483_647, f'{{"fault":"{FAR}"}}', fault(FAR)),
        (2100, value("false"), items("true")), (2400, value("true"), items("true")),
    ]),
    *(Known(desk("LeapYear", "Under", recent=""), [
        (f'insert employees ({number}, "x", 10, null, 1, {year});', '{"inserted":1}'),
        ("run employees.Where(e => e.name == \"x\").Select(e => Host.Under(e.id, e.year));", reply),
    ]) for number, year, reply in [
        (-1000, 1, items("true")), (1000, 9999, items("true")), (1000, 1, items("false")), (1, 1, items("false")), (-1001, 1, fault(FAR)),
        (1001, 1, fault(FAR)), (1000, 0, fault(FAR)), (-1000, 10_000, fault(FAR)), (-1001, 10_000, fault(FAR)), (5, -5, fault(FAR)),
    ]),
    *(Known(desk("LeapYear", recent=""), [
        (f'insert employees (7, "x", 10, null, 1, {year});', '{"inserted":1}'),
        ("run Host.LeapYear(employees.Last(e => e.id == 7).year);", value(reply)),
    ]) for year, reply in [(1, "false"), (4, "true"), (100, "false"), (400, "true"), (1900, "false"), (1600, "true")]),
    *(Known(desk("LeapYear", recent=""), [
        (f'insert employees (7, "x", 10, null, 1, {year});', '{"inserted":1}'),
        ("run Host.LeapYear(employees.Last(e => e.id == 7).year);", f'{{"fault":"{FAR}"}}'),
    ]) for year in ["0", "-4", "-2147483648"]),
    # A predicate of a list is asked of any number.
    Known(desk("Watched"), [
        ('insert employees (-2147483648, "x", 10, null, 1, 2147483647);', '{"inserted":1}'),
        ("run employees.Select(e => Host.Watched(e.id));", items("false", "true", "true")),
        ("run employees.Select(e => Host.Watched(e.year));", items("false", "false", "false")),
        ("run Host.Watched(employees.First().id, employees.First().id);", TYPE),
    ], watched="2,-2147483648"),
    # Variables, named queries and deletes; the role of the moment decides.
    Known(ASKING, [
        ("var b = Host.LeapYear(employees.First().year);", '{"defined":"b"}'), ("run b;", value("true")),
        ("b = Host.Under(employees.First().id, employees.First().year);", TYPE),
        ("var f = Host.LeapYear(depts.FirstOrDefault(d => false).id);", NULL), ("run f;", TYPE),
        ("var q = employees.Where(e => Host.LeapYear(e.year));", '{"defined":"q"}'), ("run q.Select(e => e.name);", items('"ann"')),
        ('insert employees (5, "eli", 10, null, 1, 2004);', '{"inserted":1}'), ("run q.Select(e => e.id);", items("1", "5")),
        ("run from e in employees where q.Count() == 2 && Host.Under(e.id, e.year) select e.id;", items("1", "2", "5")),
        ("as root;", '{"role":"root"}'), ("run q.Select(e => e.id);", items("1", "3", "5")),
        ("delete employees e => Host.Under(e.year, e.year);", f'{{"fault":"{FAR}"}}'), ("run employees.Count();", value("5")),
        ("delete employees e => Host.LeapYear(e.year);", '{"deleted":3}'), ("run employees.Select(e => e.id);", items("2", "4")),
        ("run Host.LeapYear(marks.First().k) ? 1 : 2;", value("2")),
    ]),
    Known(DESK, [
        ("var q = employees.Where(e => Host.Under(e.dept, e.year));", '{"defined":"q"}'), ("run q.Count();", UNDER),
        ("var n = q.Count();", UNDER), ("run n;", TYPE), ("delete employees e => Host.Under(e.dept, e.year);", UNDER),
        ("delete employees e => q.Any(b => b.id == e.id);", UNDER), ("as root;", '{"role":"root"}'), ("run q.Count();", UNDER),
        ("run employees.Count();", value("4")),
    ]),
    Known(WITHHOLDING, [
        ("run " + LEAPS + ";", LEAP), ("run employees.Select(e => Host.Under(e.dept, e.year));", items("true", "true")),
        ("as eve;", '{"role":"eve"}'), ("run " + LEAPS + ";", denied("never", "Host.LeapYear")),
        ("as root;", '{"role":"root"}'), ("run " + LEAPS + ";", items('"ann"', '"cyd"')),
    ]),
    Known(desk("Under") + right_rule("withhold", "w", '["Host.LeapYear"]', to='["eve"]'), [
        ("run " + LEAPS + ";", denied("no-grant", "Host.LeapYear")), ("as eve;", '{"role":"eve"}'),
        ("run " + LEAPS + ";", denied("w", "Host.LeapYear")),
    ]),
    Known(desk(), runs([(LEAPS, denied("no-grant", "Host.LeapYear"))])),
]


def misread_hosts():
    """The lines that this reading answers otherwise."""
    misread = []
    for known in KNOWN:
        session = known.session()
        misread += [line for line, reply in known.pairs if session.step(line) != reply + "\n"]
    return misread
