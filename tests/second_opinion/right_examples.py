"""Statements whose denials are known beforehand, over the tables of the small company, by policy file and role.

They hold for this reading as well as for the program: a reading that answers one of them otherwise compares nothing.
"""

from policies import policies_of
from policy_examples import (
    ALL_RIGHTS, DEPT10, FILES, MORE_PLAIN_ROLES, OWN, PLAIN_ROLES, RECENT, RESTRICTIVE, SECURED, granting, policy, right_rule,
    toml_text,
)
from sessions import reply_of
from tables import table_of

RULES = SECURED + DEPT10 + OWN + RECENT
NO_SALARY = right_rule("withhold", "no-salary", '["employees.salary"]', to='["dan", "eve"]')
DESK = PLAIN_ROLES + ALL_RIGHTS + RULES + NO_SALARY
# Three withholds, in another order than the columns have.
THREE = PLAIN_ROLES + ALL_RIGHTS + RULES + right_rule("withhold", "no-year", '["employees.year"]') + right_rule(
    "withhold", "no-salary", '["employees.salary"]') + right_rule("withhold", "no-title", '["depts.title"]')


def denied(rule, use):
    return f'{{"denied":"{rule}","use":"{use}"}}'


SALARY, YEAR = denied("no-salary", "employees.salary"), denied("no-year", "employees.year")
TITLE = denied("no-title", "depts.title")

# What uses the salary, wherever it is named, evaluated or served.
USING_SALARY = """
    from e in employees where e.salary > 1 select e.id
    from e in employees select e
    employees
    employees.First()
    employees.FirstOrDefault(e => e.id > 9)
    employees.Last(e => e.id < 9)
    employees.Single(e => e.id == 1)
    employees.ElementAt(7)
    employees.Where(e => false).DefaultIfEmpty()
    employees.Sum(e => e.salary)
    employees.First().salary
    employees.Where(e => false && e.salary > 1).Count()
    employees.Take(0).Select(e => e.salary)
    employees.Where(e => e.id > 9).Select(e => e.salary).Count()
    employees.Select(e => e.salary / 0)
    employees.Select(e => e.id == 0 ? e.salary : 0)
    true ? 1 : employees.Max(e => e.salary)
    1 / 0 + employees.Min(e => e.salary)
    (from e in employees orderby e.id, e.salary select e.id).Count()
    from e in employees let s = e.salary select e.id
    from e in employees join d in depts on e.salary equals d.id select d.id
    from d in depts join e in employees on d.id equals e.salary into g select g.Count()
    from e in employees join b in employees on e.boss equals b.id into g select g
    from e in employees group e by e.dept
    from e in employees group new { e } by e.dept
    from e in employees group e.id by e.salary
    from e in employees group e by e.dept into g select new { g.Key, first = g.First() }
    from e in employees from d in depts select new { d, e }
    depts.Select(d => new { d.title, staff = employees.Where(e => e.dept == d.id) })
    new { n = 1, all = new { employees } }
    depts.Select(d => d.id == 10 ? employees.First() : null)
""".strip().split("\n")
# What doesn't use it, and what dan gets.
NOT_USING_SALARY = {
    "from e in employees select e.name": '{"items":["ann","bob"]}',
    "employees.Any()": '{"value":true}',
    "employees.Select(e => new { e, n = 1 }).Count()": '{"value":2}',
    "employees.Select(e => new { e }).Select(x => x.e.id)": '{"items":[1,2]}',
    "employees.Select(e => new { salary = e.id }).Select(x => x.salary)": '{"items":[1,2]}',
    "employees.Where(salary => salary.id == 1).Select(salary => salary.name)": '{"items":["ann"]}',
    "from employees in depts where employees.id > 20 select employees": '{"items":[{"id":40,"title":"Void"}]}',
    "employees.First() == null": '{"value":false}',
    "employees.First().id": '{"value":1}',
    "from e in employees group e by e.dept into g select new { g.Key, n = g.Count() }": '{"items":[{"Key":10,"n":2}]}',
    "from e in employees join b in employees on e.boss equals b.id into g select g.Count()": '{"items":[0,1]}',
    "depts.Select(d => new { staff = employees.Count(e => e.dept == d.id) }).First()": '{"value":{"staff":2}}',
    "employees.Select(e => 1 / 0)": '{"fault":"DivideByZero","items":[]}',
    '"employees.salary"': '{"value":"employees.salary"}',
    "employees.Where(e => e.salary)": '{"error":"type"}',
    "employees.Where(e => e.salary > none)": '{"error":"type"}',
    "employees.Select(e => e.salary": '{"error":"syntax"}',
    "employees.Select(e => " + "(" * 65 + "e.salary" + ")" * 65 + ")": '{"error":"too-deep"}',
    "none.Select(e => e.salary)": '{"error":"type"}',
}
# The first of several uses, as they are in the text; and after them those of the result.
FIRST_USES = {
    "from e in employees where e.salary > e.year select e.id": SALARY,
    "from e in employees where e.year > e.salary select e.id": YEAR,
    "from e in employees group e.salary by e.year": SALARY,
    "from e in employees group e.year by e.salary": YEAR,
    "from e in employees group e.salary by e.year into g select g.Key": SALARY,
    "from e in employees group e by e.year": YEAR,
    "from e in employees orderby e.year, e.salary select e.id": YEAR,
    "from e in employees orderby e.id select e": SALARY,
    "from e in employees join d in depts on e.salary equals d.id where d.title == null select e.year": SALARY,
    'from e in employees join d in depts.Where(x => x.title == "") on e.salary equals d.id select 1': TITLE,
    "from e in employees join d in depts on e.id equals d.id + (d.title == null ? 1 : 0) select e.salary": TITLE,
    "employees.Count(e => e.id == 1 ? e.year == 1 : e.salary == 1)": YEAR,
    "employees.Where(e => e.year > 1).Sum(e => e.salary)": YEAR,
    "depts.Select(d => employees.Where(e => e.year > d.id).Select(e => e.salary))": YEAR,
    "from e in employees select new { s = e.salary } into r from d in depts where d.title == null select r.s": SALARY,
    "new { b = employees.First().year, a = depts.First().title }": YEAR,
    "new { z = depts.First(), a = employees.First() }": TITLE,
    "new { z = employees.First(), a = depts.First() }": SALARY,
    "new { e = employees.First(), t = depts.First().title }": TITLE,
    "employees.Take(employees.Max(e => e.year))": YEAR,
    "depts.Select(d => d.id).Concat(employees.Select(e => e.salary)).Contains(depts.Count(d => d.title == null))": SALARY,
    "employees.Select(e => new { e.id, e.name, e.dept, e.boss }).Count()": '{"value":2}',
}


def runs(pairs):
    return [(f"run {text.strip()};", reply) for text, reply in pairs]


def over(*rules):
    """A policy file of the roles and of these grants and withholds; without row security."""
    return PLAIN_ROLES + "".join(rules)


def withholding(title, *texts, **more):
    return right_rule("withhold", title, "[" + ", ".join(map(toml_text, texts)) + "]", **more)


# Which rule denies a table: with no right at all, with a right to one column, and by the first withhold of any of its columns.
DEPTS = {
    over(): denied("no-grant", "depts"), over(right_rule("grant", "none")): denied("no-grant", "depts"),
    over(granting("employees.*")): denied("no-grant", "depts"),
    over(granting("depts insert", "depts delete")): denied("no-grant", "depts"),
    over(granting("depts.id")): '{"value":3}', over(granting("depts.*"), withholding("w", "depts.title")): '{"value":3}',
    over(granting("depts.*"), withholding("w", "depts insert", "depts delete")): '{"value":3}',
    over(granting("depts.*"), withholding("no-depts", "depts.*")): denied("no-depts", "depts"),
    over(granting("depts.*"), withholding("b", "depts.title"), withholding("a", "depts.id")): denied("b", "depts"),
    over(granting("depts.*"), withholding("b", "depts.id"), withholding("a", "depts.title")): denied("b", "depts"),
    over(granting("depts.id"), withholding("b", "depts.title"), withholding("a", "depts.id")): denied("b", "depts"),
    over(granting("depts.id"), withholding("b", "employees.*"), withholding("a", "depts.title")): '{"value":3}',
    over(withholding("no-title", "depts.title")): denied("no-title", "depts"),
    over(withholding("no-title", "marks.ok")): denied("no-grant", "depts"),
    over(granting("depts.*"), withholding("b", "depts.*", to='["eve"]'), withholding("a", "depts.*")): denied("a", "depts"),
    over(granting("depts.*"), withholding("b", "depts.*", to="[]")): '{"value":3}',
    over(granting("depts.*"), withholding("b")): '{"value":3}',
    over(right_rule("grant", "g", '["depts.*"]', to="[]")): denied("no-grant", "depts"),
    over(right_rule("grant", "g", '["depts.*"]', to='["eve", "root"]')): denied("no-grant", "depts"),
    over(right_rule("grant", "g", '["depts.id"]', to='["dan", "dan"]')): '{"value":3}',
    over(granting("depts.id"), withholding("w", "depts.id"), right_rule("grant", "h", '["depts.id"]')): denied("w", "depts"),
    over(granting("depts.id"), withholding("first", "depts.id"), withholding("no-grant ", "depts.id")): denied("first", "depts"),
}
# The first use of `run depts.Select(d => d.title);` and of its result.
TITLES = {
    over(granting("depts.id")): denied("no-grant", "depts.title"),
    over(granting("depts.*")): '{"items":["Sales","Labs","Void"]}',
    over(granting("depts.id"), withholding("no-title", "depts.title")): TITLE,
    over(granting("depts.*"), withholding("no-id", "depts.id"), withholding("b", "depts.title", "depts.id")): denied("no-id", "depts"),
    over(granting("depts.*"), withholding("no-id", "depts.id"), withholding("other", "marks.*")): '{"items":["Sales","Labs","Void"]}',
    over(granting("depts.id"), right_rule("grant", "more", '["depts.title"]')): '{"items":["Sales","Labs","Void"]}',
    over(granting("depts.*"), withholding('q\\"\\\\é', "depts.title")): denied('q\\"\\\\é', "depts.title"),
    over(granting("depts.id"), withholding("x" * 64, "depts.title")): denied("x" * 64, "depts.title"),
}
# Rights follow membership, along any chain: lee is in eve and in kim, who is in dan; aid is in root, who bypasses row security.
CHAIN = MORE_PLAIN_ROLES + SECURED + right_rule("grant", "of-dan", '["employees.*"]', to='["dan"]') + right_rule(
    "grant", "of-root", '["employees.*"]', to='["root"]') + withholding("of-kim", "employees.name", to='["kim"]') + policy("p", "true")
NAMES_BY_ROLE = {
    "dan": '{"items":["ann","bob","cyd","dan"]}', "eve": denied("no-grant", "employees"), "kim": denied("of-kim", "employees.name"),
    "lee": denied("of-kim", "employees.name"), "root": '{"items":["ann","bob","cyd","dan"]}',
    "aid": '{"items":["ann","bob","cyd","dan"]}',
}
# A policy's rule may read what the role may not.
READ_BY_A_RULE = over(ALL_RIGHTS, SECURED, DEPT10, policy("rich", "row.salary >= 400", kind=RESTRICTIVE), NO_SALARY)
KNOWN = [
    (DESK, "dan", runs((text, SALARY) for text in USING_SALARY) + runs(NOT_USING_SALARY.items())),
    (DESK, "eve", runs((text, SALARY) for text in USING_SALARY)),
    (DESK, "root", runs([("employees.Sum(e => e.salary)", '{"value":1500}'), ("employees.Max(e => e.salary)", '{"value":500}')])),
    (DESK + right_rule("withhold", "no-pay", '["employees.salary"]', to='["dan"]'), "dan", runs([(USING_SALARY[0], SALARY)])),
    (THREE, "dan", runs(FIRST_USES.items())),
    # Bypassing row security gives no right.
    (over(SECURED), "root", runs([("employees.Count()", denied("no-grant", "employees")), ("1 + 2", '{"value":3}')])),
    (over(ALL_RIGHTS, SECURED, withholding("w", "employees.id")), "root", runs([("employees", denied("w", "employees.id"))])),
    (READ_BY_A_RULE, "dan", runs([("employees.Select(e => e.name)", '{"items":["ann"]}'), ("employees.Max(e => e.salary)", SALARY)])),
    *((text, "dan", runs([("depts.Count()", reply)])) for text, reply in DEPTS.items()),
    *((text, "dan", runs([("depts.Select(d => d.title)", reply)])) for text, reply in TITLES.items()),
    *((CHAIN, role, runs([("employees.Select(e => e.name)", reply)])) for role, reply in NAMES_BY_ROLE.items()),
]


def script_of(lines):
    return "\n".join(line for line, _ in lines).encode()


def misread_denials():
    """The lines that this reading answers otherwise."""
    tables = {path.removesuffix(".csv"): table_of(data) for path, data in FILES.items()}
    misread = []
    for text, role, lines in KNOWN:
        policies = policies_of(text.encode(), tables)
        misread += [line for line, reply in lines if reply_of(line, tables, policies, role) != reply + "\n"]
    return misread
