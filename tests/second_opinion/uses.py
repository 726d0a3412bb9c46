"""What a statement uses: the tables that it names, the columns of rows that it reads and the host predicates that it asks, in the order
of its text; and for `run`, after them, the columns of the rows in its result.

A use is the pair of a table's name and a column's, of a table's name and None for the table itself, or of `Host` and a predicate's
name. Whether a part is ever evaluated makes no difference. A named query is opened in place: what it uses comes where its name does.
"""

from scopes import Group, Lambda, Record, Row, Sequence, Typed


def expressions_in(part):
    """The expressions in a part of a typed tree, as they are in the text. Names and values of literals hold none."""
    if isinstance(part, Typed):
        return [part]
    if isinstance(part, Lambda):
        return [part.body]
    return [inner for some in part for inner in expressions_in(some)] if isinstance(part, tuple) else []


def uses_of(node):
    """The uses of a typed expression: those of its parts, and then its own, whose name comes after them. The word `Host` comes before
    what the predicate is asked of."""
    found = [use for part in expressions_in(node.parts) for use in uses_of(part)]
    if node.kind == "table":
        found.append((node.type.item.table, None))
    if node.kind == "." and isinstance(node.parts[0].type, Row):
        found.append((node.parts[0].type.table, node.parts[1]))
    return [("Host", node.parts[0]), *found] if node.kind == "Host" else found


def columns_of(its_type):
    """The columns of each row that a value of the type may hold: members as they were written, a group's key before its items."""
    if isinstance(its_type, Row):
        return [(its_type.table, column) for column, _ in its_type.members]
    inner = ()
    if isinstance(its_type, Record):
        inner = [member for _, member in its_type.members]
    elif isinstance(its_type, Sequence):
        inner = [its_type.item]
    elif isinstance(its_type, Group):
        inner = [its_type.key, its_type.item]
    return [column for part in inner for column in columns_of(part)]


def uses_of_run(node):
    """The uses of `run` of a typed expression, which serves its value."""
    return uses_of(node) + columns_of(node.type)
