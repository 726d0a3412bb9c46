"""Scripts of sessions by chance in which host predicates are asked: by queries, by named queries, by scalar variables and by deletes, under
roles of which some may ask and others not. `writer` is a Writer, and `writer.dice` its dice.
"""

import host_lines
import queries
import session_changes
import session_lines
from queries import new_name
from scopes import Sequence, row_of

STATEMENTS = 20


def of_form(writer):
    """A query or a value of one of the forms."""
    return ["run", *host_lines.form(writer.dice, writer.scope()), ";"]


def of_scope(writer):
    """Any expression in which predicates may be asked."""
    return ["run", *queries.top(writer.dice, writer.scope(), 2).words, ";"]


def of_named_query(writer):
    """A named query as it is, or with more methods after it."""
    dice = writer.dice
    if not writer.queries():
        return of_form(writer)
    part = dice.choice(writer.queries())
    return ["run", *(part.words if dice.random() < 0.4 else session_lines.of_query(writer, 2).words), ";"]


def condition(writer, variable, name):
    """A condition on a row of a table, which asks a predicate: by itself, with another condition, or of a row of a query."""
    dice, row = writer.dice, row_of(name, writer.session.tables[name])
    scope = writer.scope().plus(variable, row)
    first = host_lines.asked_by_name(dice, scope, variable, row).words
    kind = dice.random()
    if kind < 0.5:
        return first
    if kind < 0.75:
        return [*first, dice.choice(["&&", "||", "=="]), *queries.scalar(dice, "bool", scope, 1).bound(5)]
    return ["!", *first]


def named_query(writer):
    """Rows of a table that a predicate chooses, or of another named query."""
    dice = writer.dice
    name, row = writer.table()
    variable = new_name(dice, writer.scope())
    words = condition(writer, variable, name)
    source = [name]
    alike = [query for query in writer.queries() if query.type == Sequence(row)]
    if alike and dice.random() < 0.5:
        source = dice.choice(alike).words
    if dice.random() < 0.5:
        return ["var", writer.free_name(), "=", *source, ".", "Where", "(", variable, "=>", *words, ")", ";"]
    column = host_lines.column_for(dice, row, "number")
    value = dice.choice([[variable], [variable, ".", column]])
    return ["var", writer.free_name(), "=", "from", variable, "in", *source, "where", *words, "select", *value, ";"]


def truth(writer):
    """What a predicate answers about a row of a table."""
    dice, scope = writer.dice, writer.scope()
    found = host_lines.row_of_table(dice, scope)
    return host_lines.asked_of_one(dice, scope, found).words if found else ["true"]


def variable(writer):
    return ["var", writer.free_name(), "=", *truth(writer), ";"]


def assigned(writer):
    names = [name for name in writer.variables() if writer.given[name] == "bool"]
    return [writer.dice.choice(names), "=", *truth(writer), ";"] if names else variable(writer)


def delete(writer):
    name, _ = writer.table()
    row = new_name(writer.dice, writer.scope())
    return ["delete", name, row, "=>", *condition(writer, row, name), ";"]


def tells(*keys):
    return lambda _, reply: any(key in reply for key in keys)


def anything(_, reply):
    return True


# Of each kind of line how often it is written, what makes it, and the replies that it is chosen for.
KINDS = [
    (6, of_form, [anything, anything, tells("items", "value"), tells("fault")]), (3, of_scope, [anything]),
    (6, of_named_query, [anything, tells("items", "value")]), (5, named_query, [tells("defined")]),
    (2, variable, [anything, tells("defined")]), (1, assigned, [anything]), (3, session_lines.become, [anything]),
    (3, session_changes.insert, [anything, tells("inserted")]), (2, delete, [anything, tells("deleted"), tells("fault")]),
]


def script(writer):
    """The lines of a script, in which the writer has none yet."""
    for place in range(STATEMENTS):
        _, make, replies = KINDS[3] if place < 2 else writer.dice.choices(KINDS, [weight for weight, _, _ in KINDS])[0]
        writer.write(writer.wanted(make, writer.dice.choice(replies)))
    return writer.lines
