"""Rights: what the grants and withholds of a policy file let a role use.

A right is a pair of a table's name and what it is a right to: a column, or the statement `insert` or `delete`, which no column is
called; or of the word `Host`, which no table is called, and a predicate's name. The rights of a rule are such pairs; `T.*` is all
columns of T.
"""

from dataclasses import dataclass

from lexer import is_name

STATEMENTS = ("insert", "delete")
NO_GRANT = "no-grant"


class NoRight(Exception):
    """A text is of none of the forms of a right."""


@dataclass
class RightRule:
    """A grant or a withhold."""

    name: str
    to: list
    rights: set

    def applies(self, role):
        return any(name == "public" or name in role.within for name in self.to)


def parted(text):
    """A right's text in two: the table's name or `Host`, and what follows the one dot or blank."""
    name, dot, column = text.partition(".")
    if dot and (is_name(name) and (column == "*" or is_name(column)) or name == "Host" and is_name(column)):
        return name, column
    name, blank, statement = text.partition(" ")
    if blank and is_name(name) and statement in STATEMENTS:
        return name, statement
    raise NoRight


def is_known(right, tables, predicates):
    """Whether there is the table, and the column; or the predicate, which follows `Host`."""
    name, to = right
    if name == "Host":
        return to in predicates
    return name in tables and (to in ("*", *STATEMENTS) or to in tables[name].columns)


def spread(right, tables):
    """The right, or those to all columns for the star."""
    name, to = right
    return {(name, column) for column in tables[name].columns} if to == "*" else {right}


def rule_of(entry, tables):
    return RightRule(entry["name"], entry["to"], {one for right in entry["rights"] for one in spread(right, tables)})


def spelled(use):
    """A use as a reply names it."""
    table, to = use
    if to is None:
        return table
    return f"{table} {to}" if to in STATEMENTS else f"{table}.{to}"


def denying_rule(use, grants, withholds, tables):
    """The name of the rule that denies a use, and None where there is none; grants and withholds are those that apply to the role.

    A table may be used where one of its columns may be; a column, a statement or a predicate where the very one may be.
    """
    table, column = use
    rights = [(table, one) for one in (tables[table].columns if column is None else [column])]
    if any(covers(grants, right) and not covers(withholds, right) for right in rights):
        return None
    return next((rule.name for rule in withholds if any(right in rule.rights for right in rights)), NO_GRANT)


def covers(rules, right):
    return any(right in rule.rights for rule in rules)


def denials(policies, tables, user):
    """What decides of a use by which rule the role is denied it."""
    role = policies.roles[user]
    grants, withholds = ([rule for rule in rules if rule.applies(role)] for rules in (policies.grants, policies.withholds))
    return lambda use: denying_rule(use, grants, withholds, tables)
