"""What is measured: each query as lq, as SQL and as C# have it. The C# writes the items, or the one value, as JSON."""

from collections import namedtuple

import tables

# `csharp` is an argument of the method `Write` of linq.cs, and where it gives items, how one is written. `is_record` is whether the
# SQL gives records, which every engine writes as objects of JSON. `looked_at` is how many rows the query looks at.
Query = namedtuple("Query", "name lq sql csharp is_record looked_at")


def employees():
    return tables.ROWS


def pairs_of_departments():
    return tables.DEPARTMENTS * tables.DEPARTMENTS


def all_pairs():
    return tables.ROWS * tables.DEPARTMENTS


def items(name, source, sql, written="Int(x)", is_record=False, looked_at=employees):
    return Query(name, source, sql, f"Items({source}, x => {written})", is_record, looked_at)


def value(name, source, sql):
    return Query(name, source, sql, f"Value({source})", False, employees)


QUERIES = [
    items("serve all rows", "from e in employees select e", "select * from employees", "Row(x)", is_record=True),
    items("serve one column", "from e in employees select e.id", "select id from employees"),
    items(
        "filter that keeps 1 %",
        "from e in employees where e.salary < 21000 select e.id",
        "select id from employees where salary < 21000",
    ),
    items(
        "filter that keeps 90 %",
        "from e in employees where e.salary < 110000 select e.id",
        "select id from employees where salary < 110000",
    ),
    items(
        "three comparisons and a text test",
        'from e in employees where e.salary > 50000 && e.year < 1980 && e.dept != 7 && e.name.StartsWith("ab") select e.id',
        "select id from employees where salary > 50000 and year < 1980 and dept <> 7 and substr(name, 1, 2) = 'ab'",
    ),
    items(
        "point lookup",
        "from e in employees where e.id == 123456 select e.name",
        "select name from employees where id = 123456",
        "Text(x)",
    ),
    value("lookup by a key", "employees.First(e => e.id == 123456).name", "select name from employees where id = 123456 limit 1"),
    items(
        "join of 300,000 with 1,000",
        "from e in employees join d in depts on e.dept equals d.id select d.floor",
        "select d.floor from employees e join depts d on e.dept = d.id",
    ),
    items(
        "product of 1,000 with 1,000 under an equality",
        "from d in depts from c in depts where d.id == c.id select c.floor",
        "select c.floor from depts d, depts c where d.id = c.id",
        looked_at=pairs_of_departments,
    ),
    items(
        "group by with count and sum",
        "from e in employees group e by e.dept into g select new { dept = g.Key, number = g.Count(), total = g.Sum(e => e.salary) }",
        "select dept, count(*) as number, sum(salary) as total from employees group by dept",
        'Write("{\\"dept\\":" + x.dept + ",\\"number\\":" + x.number + ",\\"total\\":" + x.total + "}")',
        is_record=True,
    ),
    items(
        "order by two keys",
        "from e in employees orderby e.year, e.salary descending select e.id",
        "select id from employees order by year, salary desc",
    ),
    items(
        "order by and take 10",
        "(from e in employees orderby e.salary select e.id).Take(10)",
        "select id from employees order by salary limit 10",
    ),
    items(
        "distinct of a column",
        "(from e in employees select e.dept).Distinct()",
        "select distinct dept from employees",
    ),
    value("count with a condition", "employees.Count(e => e.salary > 70000)", "select count(*) from employees where salary > 70000"),
    value("sum with a condition", "employees.Where(e => e.salary > 70000).Sum(e => e.year)", "select sum(year) from employees where salary > 70000"),
    value("min with a condition", "employees.Where(e => e.year > 1990).Min(e => e.salary)", "select min(salary) from employees where year > 1990"),
    value("max with a condition", "employees.Where(e => e.year > 1990).Max(e => e.salary)", "select max(salary) from employees where year > 1990"),
    value(
        "where, select, where, first",
        "employees.Where(e => e.year > 1960).Select(e => e.salary).Where(s => s > 119990).First()",
        "select salary from employees where year > 1960 and salary > 119990 limit 1",
    ),
    items(
        "nested query per row over 1,000 rows",
        "from d in depts select (from c in depts where c.floor == d.floor select c.id).Count()",
        "select (select count(*) from depts c where c.floor = d.floor) from depts d",
        looked_at=pairs_of_departments,
    ),
]

# What is run where it is asked for, since an engine that goes through all pairs takes minutes or hours.
LARGE = [
    items(
        "product of 300,000 with 1,000 under an equality",
        "from e in employees from d in depts where e.dept == d.id select d.floor",
        "select d.floor from employees e, depts d where e.dept = d.id",
        looked_at=all_pairs,
    ),
]
