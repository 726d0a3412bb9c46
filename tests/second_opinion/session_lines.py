"""Statements of sessions by chance that run, define, assign and change the role: right ones, for the state that a Writer has.

`writer.dice` is its dice. Those that change rows are in session_changes.py.
"""

import queries
from clashes import clash
from queries import PRIMARY, Part, called, new_name
from scalar_types import SCALARS
from scopes import Sequence

SIGNS = ["<", ">", "<=", ">=", "==", "!="]
TEXTS = ["", "a", "b", "ab", "B", "é", "dan", "eve", "kim", "root", "x"]
SMALL = [0, 1, 1, 2, 2, 3, 3, 4, 5, 7, 9, -1]


def run(writer):
    """A named query as it is, a query round one whose names are met again there, or any expression."""
    dice = writer.dice
    kind = dice.random()
    if writer.queries() and kind < 0.15:
        return ["run", *dice.choice(writer.queries()).words, ";"]
    if writer.queries() and kind < 0.4:
        return ["run", *met_again(writer), ";"]
    if writer.queries() and kind < 0.55:
        return ["run", *of_query(writer, 2).words, ";"]
    if kind < 0.65:
        return ["run", *clash(dice, writer.scope()).words, ";"]
    if writer.variables() and kind < 0.74:
        return ["run", *of_variable(writer, dice.choice(writer.variables())), ";"]
    return ["run", *queries.top(dice, writer.scope(), dice.choice([0, 1, 2, 2, 3])).words, ";"]


def of_variable(writer, name):
    """A variable in a form that its type decides; an int? shows by some of them that it is none of the ints."""
    forms = {
        "int": ["{} + 1", "10 / {}", "{}"], "bool": ["! {}", "{} ? 1 : 2"], "string": ["{} . Length", "{} + null", '{} ?? "none"'],
        "int?": ["{} . HasValue", "{} . HasValue", "{} ?? 7", "{} . Value", "true ? 1 : {}"],
    }
    return writer.dice.choice(forms[writer.given[name]]).format(name).split()


def of_query(writer, fuel):
    """A named query with some methods after it, or an item of it."""
    dice, scope = writer.dice, writer.scope()
    part = dice.choice(writer.queries())
    for _ in range(dice.choice([0, 1, 1, 2])):
        part = queries.with_method(dice, part, scope, fuel - 1)
    kind = dice.random()
    if kind < 0.2:
        return queries.element_of(dice, part, scope, fuel - 1)
    return called(part, dice.choice(["Count", "Any"]), [], "int") if kind < 0.5 else part


def read_inside(writer, query, scope):
    """An expression of a named query where local names are in scope: it as it is, some of it, or how many items it has."""
    dice = writer.dice
    kind = dice.random()
    if kind < 0.3:
        return query.words
    if kind < 0.5:
        return called(query, dice.choice(["Count", "Any"]), [], "int").words
    if kind < 0.7:
        return queries.with_method(dice, query, scope, 1).words
    return called(query, "Take", [dice.choice("012")], query.type).words


def met_again(writer):
    """A named query inside of another one, whose local name is one that the named query reads: a variable, a query or a table."""
    dice, scope = writer.dice, writer.scope()
    query = dice.choice(writer.queries())
    name = dice.choice(writer.read_by(query.words[0]) or list(writer.given))
    source = queries.base(dice, scope, 0)
    inside = scope.plus(name, source.type.item)
    if name == query.words[0]:
        return ["from", name, "in", *source.words, "select", *dice.choice(inside.paths_of(inside.names[name])).words]
    other = new_name(dice, inside)
    body = read_inside(writer, query, inside)
    return dice.choice([
        ["from", name, "in", *source.words, "select", *body],
        ["from", other, "in", *source.words, "let", name, "=", dice.choice("0129"), "select", *body],
        ["from", other, "in", *source.words, "select", other, "into", name, "select", *body],
        ["from", other, "in", *source.words, "join", name, "in", *source.words, "on", "1", "equals", "1", "select", *body],
        [*source.bound(), ".", "Select", "(", name, "=>", *body, ")"],
        [*source.bound(), ".", "Where", "(", name, "=>", *called(query, "Any", [], "bool").words, ")"],
    ])


def literal(dice, its_type):
    """A literal of a scalar type; an int? has none but null."""
    if its_type in ("int", "int?"):
        return spelled(dice.choice(SMALL)) if its_type == "int" or dice.random() < 0.6 else ["null"]
    if its_type == "bool":
        return [dice.choice(["true", "false"])]
    return spelled(dice.choice([*TEXTS, None]))


def spelled(cell):
    """The tokens of a literal."""
    if cell is None or isinstance(cell, bool):
        return [{None: "null", True: "true", False: "false"}[cell]]
    if isinstance(cell, str):
        return ['"' + cell + '"']
    return ["-", str(-cell)] if cell < 0 else [str(cell)]


def define_scalar(writer):
    """Mostly a small int, by which queries are going to choose; else any scalar."""
    dice, scope = writer.dice, writer.scope()
    kind = dice.random()
    if kind < 0.35:
        words = spelled(dice.choice(SMALL))
    elif kind < 0.42:
        words = literal(dice, "string") if dice.random() < 0.5 else literal(dice, "bool")
    elif kind < 0.57 and scope.has_nullable:
        words = queries.scalar(dice, "int?", scope, 1).words
    elif kind < 0.65:
        words = clash(dice, scope).words
    elif kind < 0.8 and writer.queries():
        words = called(dice.choice(writer.queries()), dice.choice(["Count", "Count", "Any"]), [], "int").words
    else:
        words = queries.any_scalar(dice, scope, 2).words
    return ["var", writer.free_name(), "=", *words, ";"]


def column_of(dice, row, *types):
    """A column of one of these types, or of any; None where there is none."""
    found = [column for column, kind in row.members if kind in (types or SCALARS)]
    return dice.choice(found) if found else None


def chosen_by_variable(writer):
    """Rows of a table, or what they hold, by a comparison with a variable."""
    dice = writer.dice
    name, row = writer.table()
    scope = writer.scope()
    variable = dice.choice(writer.variables())
    its_type = writer.given[variable]
    columns = [column for column, kind in row.members if kind == its_type or {kind, its_type} == {"int", "int?"}]
    local = new_name(dice, scope)
    if not columns or local == variable:
        return called(Part(PRIMARY, [name], Sequence(row)), "Take", [variable if its_type == "int" else "2"], Sequence(row)).words
    sign = dice.choice(SIGNS if its_type in ("int", "int?") else ["==", "!="])
    met = [local, ".", dice.choice(columns), sign, variable]
    value = dice.choice([[local], [local, ".", column_of(dice, row)], ["new", "{", *local_members(local, row), "}"]])
    if dice.random() < 0.5:
        return ["from", local, "in", name, "where", *met, "select", *value]
    return [name, ".", "Where", "(", local, "=>", *met, ")"]


def local_members(local, row):
    """All columns of a row as the members of a record."""
    return [word for column, _ in row.members for word in (local, ".", column, ",")]


def define_query(writer):
    """A query that a variable decides, one of another named query, or any."""
    dice = writer.dice
    kind = dice.random()
    if writer.variables() and kind < 0.3:
        words = chosen_by_variable(writer)
    elif writer.queries() and kind < 0.65:
        words = query_of_query(writer)
    elif kind < 0.9:
        words = dice.choice([queries.query, queries.sequence])(dice, writer.scope(), dice.choice([1, 2, 2])).words
    else:
        words = clash(dice, writer.scope()).words
    return ["var", writer.free_name(), "=", *words, ";"]


def query_of_query(writer):
    """A query whose source is a named one: the latest or any. Its local name may be one that the other reads."""
    dice, scope = writer.dice, writer.scope()
    part = dice.choice([writer.queries()[-1], *writer.queries()])
    kind = dice.random()
    if kind < 0.2:
        return part.words
    if kind < 0.3:
        return called(part, "Concat", dice.choice(writer.queries()).words, part.type).words
    if kind < 0.6:
        return queries.with_method(dice, part, scope, 1).words
    name = dice.choice(writer.read_by(part.words[0]) or [new_name(dice, scope)])
    words, _ = queries.body(dice, scope, scope.plus(name, part.type.item), 1)
    return ["from", name, "in", *part.words, *words]


def assign(writer):
    """A new value for a variable: a literal, a sum with the old one, null, or any scalar of a type that converts to its."""
    dice, scope = writer.dice, writer.scope()
    # An int? may be given an int, and stays an int?.
    name = dice.choice([*writer.variables(), *[one for one in writer.variables() if writer.given[one] == "int?"] * 2])
    its_type = writer.given[name]
    kind = dice.random()
    if kind < 0.35:
        words = literal(dice, its_type)
    elif kind < 0.55 and its_type in ("int", "int?", "string"):
        words = [name, "+", *literal(dice, "string" if its_type == "string" else "int")]
    elif kind < 0.7 and its_type == "int" and writer.queries():
        words = called(dice.choice(writer.queries()), "Count", [], "int").words
    else:
        words = queries.scalar(dice, its_type, scope, 2).words
    return [name, "=", *words, ";"]


def look_again(writer, line):
    """A query that reads the variable or the table that a line changes, if there is one; or the variable itself, or any line."""
    name = line[0] if line[1] == "=" else line[1]
    if name in writer.variables() and writer.dice.random() < (0.8 if writer.given[name] == "int?" else 0.4):
        return ["run", *of_variable(writer, name), ";"]
    fitting = [query for query in writer.queries() if name in writer.read_by(query.words[0])]
    return ["run", *writer.dice.choice(fitting).words, ";"] if fitting else run(writer)


def look(writer, line):
    """What shows whether a refused line changed something: the name that it was to define, or one that it has."""
    dice = writer.dice
    names = [word for word in line if word in writer.given]
    if line[0] == "var" and dice.random() < 0.5:
        return ["run", line[1], ";"]
    if names and (line[0] in writer.given or dice.random() < 0.3):
        return ["run", names[0], ";"]
    name = dice.choice([word for word in line if word in writer.session.tables] or list(writer.session.tables))
    column = dice.choice(list(writer.session.tables[name].columns))
    return dice.choice([
        ["run", name, ".", "Count", "(", ")", ";"], ["run", name, ";"], ["run", "from", "y", "in", name, "select", "y", ".", column, ";"],
    ])


def become(writer):
    """Another role; now and then the same."""
    others = [name for name in writer.session.policies.roles if name != writer.session.user]
    return ["as", writer.session.user if writer.dice.random() < 0.08 else writer.dice.choice(others), ";"]
