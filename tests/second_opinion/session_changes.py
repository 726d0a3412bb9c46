"""Statements of sessions by chance that put in and remove rows, for the state that a Writer has. `writer.dice` is its dice."""

import queries
from queries import called, new_name
from session_lines import SIGNS, SMALL, TEXTS, column_of, literal, spelled
from tables import LARGEST_INT, LEAST_INT


def cell_for(dice, table, column, share):
    """A cell that the column takes, or so often a number that is outside of its range."""
    its_type = table.columns[column]
    if its_type == "bool":
        return dice.random() < 0.5
    if its_type == "string":
        return dice.choice([*TEXTS, *TEXTS, None])
    if its_type == "int?" and dice.random() < 0.3:
        return None
    least, largest = table.ranges.get(column, (LEAST_INT, LARGEST_INT))
    outside = [cell for cell in (least - 1, largest + 1, least - 7, largest + 1000) if LEAST_INT <= cell <= LARGEST_INT]
    if outside and dice.random() < share:
        return dice.choice(outside)
    found = [row[column] for row in table.rows if row[column] is not None] + SMALL
    return dice.choice([cell for cell in [*found, least, largest] if least <= cell <= largest])


def cells_for(writer, name):
    """The cells of a new row, each as its tokens; now and then most of the numbers are outside of their ranges."""
    table = writer.session.tables[name]
    share = writer.dice.choice([0, 0.2, 0.2, 0.8])
    return [spelled(cell_for(writer.dice, table, column, share)) for column in table.columns]


def inserted(name, cells):
    return ["insert", name, "(", *(word for place, cell in enumerate(cells) for word in ([","] if place else []) + cell), ")", ";"]


def insert(writer, name=None):
    """A new row for a table, which may be named."""
    name = name or writer.table()[0]
    return inserted(name, cells_for(writer, name))


def other_cells(writer, name=None):
    """A new row with a cell too many or too few, or one of perhaps another type."""
    dice = writer.dice
    name = name or writer.table()[0]
    cells = cells_for(writer, name)
    place = dice.randrange(len(cells))
    other = [dice.choice(["null", "true", '"a"', "1"])]
    edited = [cells[:place] + [other] + cells[place + 1:]] * 3 + [cells[:place] + [other] + cells[place:]]
    edited += [cells[:place] + cells[place + 1:]] if len(cells) > 1 else []
    return inserted(name, dice.choice(edited))


def delete(writer):
    """A condition on a column, one that faults on some row, one that reads the same table, or any."""
    dice = writer.dice
    name, row = writer.table()
    variable = new_name(dice, writer.scope())
    inside = writer.scope().plus(variable, row)
    kind = dice.random()
    if kind < 0.25:
        words = compared(writer, name, variable, row)
    elif kind < 0.45:
        words = faulting(writer, name, variable, row)
    elif kind < 0.8 and variable != name:
        words = reading_itself(writer, name, variable, row)
    else:
        words = queries.scalar(dice, "bool", inside, dice.choice([1, 2])).words
    return ["delete", name, variable, "=>", *words, ";"]


def compared(writer, name, variable, row):
    """A column compared with what one of the rows has in it, or with a variable."""
    dice = writer.dice
    column = column_of(dice, row)
    rows = writer.session.tables[name].rows
    cell = spelled(dice.choice(rows)[column]) if rows else literal(dice, dict(row.members)[column])
    if cell == ["-", "2147483648"] or dict(row.members)[column] in ("bool", "string") or cell == ["null"]:
        return [variable, ".", column, dice.choice(["==", "!="]), *cell]
    numbers = [one for one in writer.variables() if writer.given[one] == "int" and one != variable]
    if numbers and dice.random() < 0.4:
        cell = [dice.choice(numbers)]
    return [variable, ".", column, dice.choice([*SIGNS, "=="]), *cell]


def bracketed(words):
    return ["(", *words, ")"] if len(words) > 1 else words


def faulting(writer, name, variable, row):
    """A condition that is true on an early row and faults on a late one, both decided by a cell."""
    dice = writer.dice
    column, nullable = column_of(dice, row, "int"), column_of(dice, row, "int?")
    if nullable and dice.random() < 0.2:
        return [variable, ".", nullable, ".", "Value", dice.choice(SIGNS), dice.choice("0123")]
    cells = [cell[column] for cell in writer.session.tables[name].rows] or [1]
    places = sorted(dice.choices(range(len(cells)), k=2))
    early, late = (cells[place] for place in places)
    here = [variable, ".", column]
    return dice.choice([
        [*here, "==", *spelled(early), "||", "10", "/", "(", *here, "-", *bracketed(spelled(late)), ")", ">", "100"],
        ["10", "/", "(", *here, "-", *bracketed(spelled(late)), ")", dice.choice(["<", ">", "!=", "<="]), dice.choice("0137")],
        ["(", *here, "==", *spelled(late), "?", "null", ":", '"a"', ")", ".", "Length", "==", "1"],
    ])


def by_query(dice, query, here):
    """A condition on an int of a row that a named query decides."""
    if query.type.item == "int":
        return called(query, "Contains", here, "bool").words
    if dice.random() < 0.4:
        return [*called(query, "Count", [], "int").words, dice.choice(SIGNS), *here]
    return [*called(query, "Any", [], "bool").words, "&&", *here, dice.choice(SIGNS), dice.choice("0123")]


def reading_itself(writer, name, variable, row):
    """A condition that reads the table whose rows it decides on, itself or by a named query."""
    dice = writer.dice
    column = column_of(dice, row, "int")
    other = new_name(dice, writer.scope().plus(variable, row))
    if other == name:
        other = "other"
    here, there = [variable, ".", column], [other, ".", column]
    reading = [query for query in writer.queries() if query.words[0] != variable and name in writer.read_by(query.words[0])]
    if reading and dice.random() < 0.5:
        return by_query(dice, dice.choice(reading), here)
    return dice.choice([
        [name, ".", "Any", "(", other, "=>", *there, dice.choice("<>"), *here, ")"],
        [*here, "==", name, ".", dice.choice(["Min", "Max"]), "(", other, "=>", *there, ")"],
        [name, ".", "Count", "(", other, "=>", *there, "==", *here, ")", dice.choice(["==", ">", "<"]), dice.choice("12")],
        [name, ".", "Count", "(", ")", dice.choice("<>"), dice.choice("1234"), "&&", *here, dice.choice(SIGNS), dice.choice("0123")],
        [name, ".", "First", "(", ")", ".", column, dice.choice(["==", "!="]), *here],
        ["10", "/", "(", name, ".", "Count", "(", ")", "-", *here, ")", dice.choice("<>"), dice.choice("012")],
    ])
