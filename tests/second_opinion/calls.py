"""Host calls: which ones a statement may make, and how `--audit` prints one.

A statement may ask a predicate that it names, itself or in a named query that it opens, with columns of a row: about each row of their table
that the role sees where the statement begins, and whose numbers there lie within the predicate's ranges. Whether it names it where it is
ever evaluated makes no difference. A statement that is refused or denied may ask nothing, and neither may one that evaluates nothing: `as`,
`insert`, and a `var` that keeps a query.
"""

from grammar import parse
from lexer import SyntaxFault, tokens_of
from predicates import answer_within
from scopes import Sequence, TypeFault, row_of, typed
from uses import expressions_in

# The calls that this process made itself in evaluating, as they are printed, in their order.
MADE = []


def spelled(name, table, row, columns, answer):
    """The line of a call: the predicate, the table, the row's number, each column with its number, and the answer. A column that is named
    twice is there twice."""
    names = [column.parts[1] for column in columns]
    asked = [word for column in names for word in (column, str(row[column]))]
    return " ".join([name, table, str(row.number), *asked, "true" if answer else "false"])


def hosts_in(node):
    """The parts of a typed expression that ask predicates, those of named queries among them."""
    found = [host for part in expressions_in(node.parts) for host in hosts_in(part)]
    return [*found, node] if node.kind == "Host" else found


def calls_about(host, tables):
    """The calls by which a predicate is asked about rows of these tables. It isn't asked of numbers outside of its ranges."""
    name, predicate, columns = host.parts
    table = columns[0].parts[0].type.table
    for row in tables[table].rows:
        answer = answer_within(predicate, [row[column.parts[1]] for column in columns])
        if answer is not None:
            yield spelled(name, table, row, columns, answer)


def expression_of(session, line):
    """The typed expression that a statement evaluates where it is neither refused nor denied; None where it evaluates none."""
    try:
        statement = parse(tokens_of(line))
        if statement.kind in ("as", "insert"):
            return None
        scope = session.scope()
        if statement.kind == "delete":
            name, variable, _ = statement.parts
            if name not in session.tables:
                return None
            scope = scope.with_name(variable, row_of(name, session.tables[name]))
        node = typed(statement.parts[-1], scope)
    except (SyntaxFault, TypeFault):
        return None
    return None if statement.kind == "var" and isinstance(node.type, Sequence) else node


def named_calls(node, tables):
    """The calls that an expression names, over the rows of these tables; none where there is no expression."""
    return frozenset(call for host in hosts_in(node) for call in calls_about(host, tables)) if node else frozenset()


def is_carried_out(reply):
    """Whether the statement of a reply, which is None for a line without tokens, was neither refused nor denied."""
    return reply is not None and not {"error", "denied"} & reply.keys()
