"""The session machine: the tables, the role, the scalar variables and the named queries, and what each statement does to them.

A statement that is refused or denied, or that faults, changes nothing. The refusals come in the order in which they are met here:
lexical faults, depth by the text, the grammar, depth by opening, types or the role, rights, a cell's range, a policy's check, and
the faults of evaluating. That row numbers end past 2^64 - 1 is left out.
"""

import json
from dataclasses import dataclass

from depth import DepthFault, check_depth
from grammar import parse
from lexer import SyntaxFault, tokens_of
from meaning import served, value_of
from opening import Opened, check_opened, opened_by
from policies import all_open, as_seen, failing_check, may_remove
from predicates import WITHOUT_LIST
from rights import denials, spelled
from scalar_meaning import LITERALS as VALUES, Fault
from scalar_types import LITERALS, SCALARS, TypeFault
from scopes import Scope, Sequence, condition, converts, needs, row_of, typed, value
from tables import Table
from uses import uses_of, uses_of_run


class RoleFault(Exception):
    """There is no role of this name."""


class CellFault(Exception):
    """A number lies outside of its column's range."""


class Denied(Exception):
    """A rule forbids a use."""

    def __init__(self, rule, use):
        super().__init__(rule)
        self.reply = {"denied": rule, "use": spelled(use)}


WORDS = {SyntaxFault: "syntax", DepthFault: "too-deep", TypeFault: "type", RoleFault: "role", CellFault: "cell"}


@dataclass(frozen=True)
class Query:
    """A named query: its tree, and what the line that defines it opens."""

    tree: object
    opened: Opened


class NumberedRow(dict):
    """The cells of a row by its columns' names, and the number that it alone has in its table."""

    __slots__ = ("number",)

    def __init__(self, number, cells):
        super().__init__(cells)
        self.number = number


def numbered(table):
    """A table of the same rows, which keep their numbers; those of a file, which have none, are numbered from 1."""
    return Table(table.columns, [row if isinstance(row, NumberedRow) else NumberedRow(number, row)
                                 for number, row in enumerate(table.rows, 1)], table.ranges)


def compact(reply):
    """RFC 8259: JSON without white space; members by their names' bytes, which are ordered as their characters' numbers."""
    return json.dumps(reply, separators=(",", ":"), ensure_ascii=False, sort_keys=True) + "\n"


def cell_of(literal):
    """What a literal in a new row means."""
    return VALUES[literal.kind] if literal.kind in VALUES else literal.parts[0]


def check_ranges(table, row):
    for name, (least, largest) in table.ranges.items():
        if not least <= row[name] <= largest:
            raise CellFault(name)


class Session:
    """The state, and a method for each statement, which gives the members of its reply."""

    def __init__(self, tables, policies, user, predicates=WITHOUT_LIST):
        self.tables = {name: numbered(table) for name, table in tables.items()}
        # Of each table the number of its next row.
        self.next_numbers = {name: len(table.rows) + 1 for name, table in tables.items()}
        self.policies = policies
        self.user = user
        self.predicates = predicates
        # Of each scalar variable its type and its value.
        self.variables = {}
        self.queries = {}
        self.seen = None

    def step(self, line):
        """The reply to a line; nothing to one without tokens."""
        reply = self.replied(line)
        return "" if reply is None else compact(reply)

    def replied(self, line):
        """The members of the reply to a line; None for one without tokens."""
        try:
            tokens = tokens_of(line)
            return self.stepped(tokens) if tokens else None
        except tuple(WORDS) as fault:
            return {"error": WORDS[type(fault)]}
        except Denied as denied:
            return denied.reply
        except Fault as fault:
            return {"fault": str(fault)}

    def stepped(self, tokens):
        check_depth(tokens)
        statement = parse(tokens)
        opened = opened_by(tokens, {name: query.opened for name, query in self.queries.items()})
        check_opened(opened)
        if statement.kind == "var":
            return self.define(*statement.parts, opened)
        methods = {"run": self.run, "=": self.assign, "as": self.become, "insert": self.insert, "delete": self.delete}
        return methods[statement.kind](*statement.parts)

    def copied(self):
        """A session in the same state, whose steps leave this one."""
        other = Session(self.tables, self.policies, self.user, self.predicates)
        other.variables, other.queries, other.next_numbers = dict(self.variables), dict(self.queries), dict(self.next_numbers)
        return other

    def scope(self):
        """What names mean, no local name among them. The tables are those that the role sees now."""
        if self.seen is None:
            self.seen = as_seen(self.policies, self.tables, self.user)
        queries = {name: query.tree for name, query in self.queries.items()}
        return Scope({}, self.seen, self.variables, queries, self.predicates)

    def check_uses(self, uses):
        """The first use that the role has no right to is the one that is reported."""
        denied = denials(self.policies, self.tables, self.user)
        for use in uses:
            rule = denied(use)
            if rule is not None:
                raise Denied(rule, use)

    def run(self, tree):
        node = value(tree, self.scope())
        self.check_uses(uses_of_run(node))
        return served(node)

    def define(self, name, tree, opened):
        """A sequence is kept as its query, whose uses are those of the role that runs it; a scalar is evaluated now."""
        needs(name not in self.variables and name not in self.queries and name not in self.tables)
        node = typed(tree, self.scope())
        if isinstance(node.type, Sequence):
            self.queries[name] = Query(tree, opened)
        else:
            needs(node.type in SCALARS)
            self.variables[name] = (node.type, self.evaluated(node))
        return {"defined": name}

    def assign(self, name, tree):
        needs(name in self.variables)
        its_type, _ = self.variables[name]
        node = typed(tree, self.scope())
        needs(converts(node.type, its_type))
        self.variables[name] = (its_type, self.evaluated(node))
        return {"assigned": name}

    def evaluated(self, node):
        self.check_uses(uses_of(node))
        return value_of(node, {})

    def become(self, name):
        """Variables and named queries stay, whoever defined them."""
        if name not in self.policies.roles:
            raise RoleFault(name)
        self.user, self.seen = name, None
        return {"role": name}

    def insert(self, name, *cells):
        needs(name in self.tables)
        table = self.tables[name]
        needs(len(cells) == len(table.columns))
        needs(all(converts(LITERALS[cell.kind], its_type) for cell, its_type in zip(cells, table.columns.values())))
        self.check_uses([(name, "insert")])
        row = dict(zip(table.columns, map(cell_of, cells)))
        check_ranges(table, row)
        rule = failing_check(self.policies, name, table, row, self.user)
        if rule is not None:
            raise Denied(rule, (name, "insert"))
        table.rows.append(NumberedRow(self.next_numbers[name], row))
        self.next_numbers[name] += 1
        self.seen = None
        return {"inserted": 1}

    def delete(self, name, variable, tree):
        """All conditions are evaluated before the first row goes."""
        doomed = set(self.doomed(name, variable, tree))
        table = self.tables[name]
        table.rows = [row for place, row in enumerate(table.rows) if place not in doomed]
        self.seen = None
        return {"deleted": len(doomed)}

    def doomed(self, name, variable, tree):
        """The places of the rows that a `delete` removes, one by one: of those that the role sees and may remove, in their order, the
        ones on which the condition is true. The condition's own queries go over what the role sees."""
        needs(name in self.tables)
        table = self.tables[name]
        node = condition(tree, self.scope().with_name(variable, row_of(name, table)))
        self.check_uses([(name, "delete"), *uses_of(node)])
        for place, row in enumerate(table.rows):
            if may_remove(self.policies, name, table, row, self.user) and value_of(node, {variable: row}):
                yield place


def reply_of(line, tables, policies=None, user="reader"):
    """The reply to a line in a session of its own; where there are no policies, of a role that may do everything."""
    return Session(tables, policies or all_open(tables, user), user).step(line)
