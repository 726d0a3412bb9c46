"""Tables under policies, and roles with rights, for sessions by chance. `dice` is a random.Random.

A policy file is a dict of its arrays, as in policy_files.py. Most tables have row security, some policies to see rows by, and others
that bear on new rows and on removing; most roles may use most columns and statements.
"""

import queries
from lexer import LARGEST_INT
from policy_files import POLICY_NAMES, RIGHT_NAMES, role, rule
from statements import SIGNS

# Some of them are what variables and named queries are called, too.
ROLE_NAMES = ["dan", "eve", "kim", "root", "aid", "é", "n", "q", "user", "row", "表", "Host_"]
RESTRICTIVE = {"kind": "restrictive"}


def tables(dice):
    """Two tables or three; few of them are empty."""
    found = {name: queries.table(dice) for name in dice.sample(queries.TABLE_NAMES, dice.choice([2, 2, 3]))}
    return {name: table if table.rows else queries.table(dice) for name, table in found.items()}


def roles(dice):
    """Three roles or four. Some are members of others, and now and then one bypasses row security."""
    names = dice.sample(ROLE_NAMES, dice.choice([3, 3, 4]))
    made = []
    for place, name in enumerate(names):
        one = {"name": name}
        if place and dice.random() < 0.4:
            one["member_of"] = dice.sample(names[:place], dice.choice([1, min(2, place)]))
        if dice.random() < 0.15:
            one["bypass"] = True
        made.append(one)
    return made


def near_rule(dice, table):
    """A rule that is true of some of the rows, also of those with small numbers that are put in; or any rule."""
    if dice.random() < 0.3:
        return rule(dice, table)
    column = dice.choice([name for name, its_type in table.columns.items() if its_type == "int"])
    cells = [row[column] for row in table.rows if 0 <= row[column] < LARGEST_INT]
    sign = dice.choice([*SIGNS, ">=", "!=", "<="])
    return f"row.{column} {sign} {dice.choice(cells or [1])}"


def chosen_to(dice, names):
    return dice.choice([["public"], ["public"], ["public"], [dice.choice(names)], dice.sample(names, 2)])


def policies_of_table(dice, name, table, names):
    """Policies without names: what shows rows, what lets new ones in and old ones out, and what forbids any of it."""

    def made(action, **more):
        one = {"table": name, "for": action, **more}
        if dice.random() < 0.6:
            one["to"] = chosen_to(dice, names)
        if action != "insert":
            one["using"] = dice.choice(["true", near_rule(dice, table), near_rule(dice, table)])
        if action == "insert" or action == "all" and dice.random() < 0.3:
            one["check"] = dice.choice(["true", near_rule(dice, table), near_rule(dice, table)])
        return one

    found = [made("all", to=["public"]) if dice.random() < 0.8 else made("select")]
    found += [made(action) for action in ("all", "select", "insert", "delete") if dice.random() < 0.35]
    found += [made(action, **RESTRICTIVE) for action in ("all", "select", "insert", "insert", "delete") if dice.random() < 0.35]
    # Two that forbid the same new rows: the one that is reported shows their order.
    return found + [dict(one) for one in found if one.get("kind") and one["for"] in ("all", "insert") and dice.random() < 0.6]


def statement_rights(dice, tables, names):
    """Grants of most rights, to columns and to statements, and withholds of a few."""
    rights = [f"{name}.*" for name in tables if dice.random() < 0.94]
    rights += [f"{name} {statement}" for name in tables for statement in ("insert", "delete") if dice.random() < 0.9]
    grants = [{"name": "given", "rights": rights}]
    withholds = []
    for title in dice.sample(RIGHT_NAMES, dice.choice([0, 1, 2, 2, 3])):
        name, table = dice.choice(list(tables.items()))
        right = dice.choice([f"{name}.{column}" for column in table.columns] + [f"{name} insert", f"{name} delete"] * 2)
        one = {"name": title, "to": dice.sample(names, dice.choice([1, 1, 2])), "rights": [right]}
        (grants if dice.random() < 0.15 else withholds).append(one)
    return {"grant": grants, "withhold": withholds}


def policy_file(dice, tables):
    its_roles = roles(dice)
    names = [one["name"] for one in its_roles]
    secured = [name for name in tables if dice.random() < 0.9]
    found = [one for name in secured for one in policies_of_table(dice, name, tables[name], names)]
    dice.shuffle(found)
    titles = dice.sample(POLICY_NAMES, min(len(found), len(POLICY_NAMES)))
    titles += [f"more {place}" for place in range(len(found) - len(titles))]
    found = [{"name": title, **one} for title, one in zip(titles, found)]
    entries = [{"name": name, "row_security": True} for name in secured]
    return {"role": its_roles, "table": entries, "policy": found, **statement_rights(dice, tables, names)}
