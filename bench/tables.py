"""The tables that are measured: employees, and the departments that they are of. The seed is fixed, so that they are always the same."""

import random

SEED = 20261123
ROWS = 300_000
DEPARTMENTS = 1_000
EMPLOYEES = [("id", "int"), ("name", "string"), ("dept", "int"), ("boss", "int?"), ("salary", "int"), ("year", "int")]
DEPTS = [("id", "int"), ("title", "string"), ("floor", "int")]
# The columns that comparisons, joins, groups and orders use. The text test is one of a part of the name, which no index of names finds.
INDEXED = [("employees", it) for it in ("id", "dept", "salary", "year")] + [("depts", it) for it in ("id", "floor")]
LETTERS = "abcdefghijklmnopqrstuvwxyz"


def header(columns):
    return ",".join(f"{name}:{kind}" for name, kind in columns)


def employees(chance):
    """The rows of the employees. One in ten has no boss, and the salaries are spread evenly over 20,000 to 119,999."""
    for number in range(1, ROWS + 1):
        name = "".join(chance.choices(LETTERS, k=chance.randint(4, 12)))
        boss = "" if chance.random() < 0.1 else str(chance.randint(1, ROWS))
        yield f"{number},{name},{chance.randint(1, DEPARTMENTS)},{boss},{chance.randint(20_000, 119_999)},{chance.randint(1950, 2005)}"


def depts(chance):
    for number in range(1, DEPARTMENTS + 1):
        yield f"{number},department {number},{chance.randint(0, 40)}"


def write(folder):
    """Writes employees.csv and depts.csv, with the types of the columns in their headers, and employees.plain and depts.plain without.
    No row is kept: memory that this process takes would be counted as that of the commands that it starts."""
    chance = random.Random(SEED)
    for name, columns, rows in (("employees", EMPLOYEES, employees(chance)), ("depts", DEPTS, depts(chance))):
        with open(f"{folder}/{name}.csv", "w", encoding="utf-8") as typed, open(f"{folder}/{name}.plain", "w", encoding="utf-8") as plain:
            typed.write(header(columns) + "\n")
            for row in rows:
                typed.write(row + "\n")
                plain.write(row + "\n")
