"""What scripts of sessions meet: how often each statement gets each reply, and how often a script gets deep: named queries that
depend on others, or that are run by another role, over other rows or with other values than they were defined by; local names that
named queries read by another meaning; conditions that fault after rows to remove, or read the table that they remove from.

A script is stepped once more by this reading, and before each step its line is looked at in the state that it meets.
"""

from collections import Counter
from dataclasses import replace

from commands import options_of
from depth import DepthFault, check_depth
from grammar import parse
from lexer import SyntaxFault, tokens_of
from opening import MOST_RANK, opened_by, opening_names
from policies import DEFAULT_DENY, failing_check, is_visible, may_remove, policies_of
from program import lines_of, predicates_for
from rights import denials
from scalar_meaning import Fault
from scopes import condition, row_of
from sessions import CellFault, Session, cell_of, check_ranges
from tables import name_of, table_of
from uses import uses_of


def session_of(case):
    """The session that a case begins, from its words and files."""
    options = options_of(case.words)
    tables = {name_of(word): table_of(case.files[word]) for word in options.tables}
    predicates = predicates_for(options)
    policies = policies_of(case.files[options.values["--policy"]], tables, predicates)
    return Session(tables, policies, options.values["--role"], predicates)


def local_names(tokens):
    """The names that a line gives to range variables and parameters."""
    for before, token, behind in zip([None, *tokens], tokens, [*tokens[1:], None]):
        is_given = before and before.kind in ("from", "let", "join", "into")
        if token.kind == "name" and (is_given or behind and behind.kind == "=>"):
            yield token.value


class Reader:
    """A session that is stepped, what is known of its named queries, and what was met."""

    def __init__(self, session):
        self.session = session
        self.counts = Counter()
        # Of each named query what its line reads of the session, and who defined it when.
        self.read = {}
        self.defined = {}
        # How many steps there were, and the last one that changed rows, or a variable's value.
        self.steps = 0
        self.changed = 0
        self.assigned = {}

    def opened(self, session, tokens):
        """The named queries that a line opens, by itself and by others."""
        found, left = set(), list(opening_names(tokens))
        while left:
            name = left.pop()
            if name in session.queries and name not in found:
                found.add(name)
                left += self.read[name]
        return found

    def step(self, line):
        """Steps, and counts what was met."""
        session = self.session.copied()
        reply = self.session.replied(line)
        if reply is None:
            return
        self.steps += 1
        self.counts["replies"] += 1
        try:
            tokens = tokens_of(line)
            check_depth(tokens)
            statement = parse(tokens)
        except (SyntaxFault, DepthFault):
            self.counts[f"{reply['error']} by the text"] += 1
            return
        self.counts.update(self.met(session, tokens, statement, reply))
        self.keep(tokens, reply)

    def keep(self, tokens, reply):
        name = reply.get("defined") or reply.get("assigned")
        if reply.get("inserted") or reply.get("deleted"):
            self.changed = self.steps
        elif name in self.session.variables:
            self.assigned[name] = self.steps
        elif name is not None:
            there = {*self.session.variables, *self.session.queries, *self.session.tables}
            self.read[name] = there.intersection(opening_names(tokens[3:])).difference(local_names(tokens))
            self.defined[name] = (self.session.user, self.steps)

    def met(self, session, tokens, statement, reply):
        """Words for what a statement met in the session before it."""
        yield f"{statement.kind}: {kind_of(session, reply)}"
        rank = opened_by(tokens, {name: query.opened for name, query in session.queries.items()}).rank
        if reply.get("error") == "too-deep":
            yield "too deep by rank" if rank > MOST_RANK else "too deep by size"
        elif statement.kind == "delete":
            yield from met_by_delete(session, reply, *statement.parts)
        elif statement.kind == "insert":
            yield from met_by_insert(session, reply, *statement.parts)
        if "error" not in reply and "denied" not in reply:
            yield f"rank {rank}"
            yield from self.met_by_names(session, tokens, statement)

    def met_by_names(self, session, tokens, statement):
        """What is met by the names of a line that was served."""
        opened = self.opened(session, tokens)
        local = set(local_names(tokens))
        if local & {*session.variables, *session.queries}:
            yield "hidden"
        if any(local & self.read[name] for name in opened):
            yield "captured"
        if statement.kind == "run":
            yield from self.since(opened)

    def since(self, opened):
        """What is other now than when the queries were defined."""
        if any(self.defined[name][0] != self.session.user for name in opened):
            yield "another role"
        if any(self.defined[name][1] < self.changed for name in opened):
            yield "other rows"
        if any(self.assigned.get(variable, 0) > self.defined[name][1] for name in opened for variable in self.read[name]):
            yield "other values"


def kind_of(session, reply):
    """The kind of a reply; of a denial whether it is by a right or by a check."""
    if "error" in reply:
        return f"no {reply['error']}"
    if "denied" not in reply:
        return "fault" if "fault" in reply else next(iter(reply))
    if reply["denied"] == DEFAULT_DENY:
        return "check by default"
    return "check" if any(reply["denied"] == policy.name for policy in session.policies.policies) else "denied"


def met_by_insert(session, reply, name, *cells):
    """Whether a row that is refused for one reason would be for another, too; and whether one that is put in can't be seen."""
    if "error" in reply and reply["error"] != "cell":
        return
    table = session.tables[name]
    row = dict(zip(table.columns, map(cell_of, cells)))
    forbidden = failing_check(session.policies, name, table, row, session.user) is not None
    has_right = denials(session.policies, session.tables, session.user)((name, "insert")) is None
    if not has_right and (forbidden or is_out_of_range(table, row)):
        yield "right before cell and check"
    elif reply.get("error") == "cell" and forbidden:
        yield "cell before check"
    elif "inserted" in reply and not is_visible(session.policies, name, table, row, session.user):
        yield "put in unseen"


def is_out_of_range(table, row):
    try:
        check_ranges(table, row)
        return False
    except CellFault:
        return True


def met_by_delete(session, reply, name, variable, tree):
    """Whether a condition faults after rows to remove, reads the table that it removes from, or would remove rows that may not be."""
    if "fault" in reply and doomed_before_fault(session, name, variable, tree):
        yield "half way"
    if not reply.get("deleted"):
        return
    table = session.tables[name]
    node = condition(tree, session.scope().with_name(variable, row_of(name, table)))
    if (name, None) in uses_of(node):
        yield "reads itself"
    removable = [row for row in table.rows if may_remove(session.policies, name, table, row, session.user)]
    if reply["deleted"] < len(removable):
        yield "some stay"
    if len(removable) < len(table.rows) and reply["deleted"] < everything_removed(session, name, variable, tree):
        yield "spared"


def doomed_before_fault(session, name, variable, tree):
    count = 0
    try:
        for _ in session.doomed(name, variable, tree):
            count += 1
    except Fault:
        return count
    return 0


def everything_removed(session, name, variable, tree):
    """How many rows the condition would remove if no policy forbade it, its queries going over what is seen as they do."""
    other = session.copied()
    other.scope()
    other.policies = replace(session.policies, secured=session.policies.secured - {name})
    try:
        return len(list(other.doomed(name, variable, tree)))
    except Fault:
        return 0


def counts_of(case):
    """What the script of a case meets."""
    reader = Reader(session_of(case))
    for line in lines_of(case.script):
        reader.step(line)
    return reader.counts
