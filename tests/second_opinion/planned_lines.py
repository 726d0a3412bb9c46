"""Lines of queries by chance whose conditions, keys, aggregates and orders the program finds out once and then asks of rows where they
stand. Any of them may meet a fault, on one row or all, so that what is found out once has to leave that row to be evaluated.

`dice` is a random.Random, and a line is the list of its tokens' spellings until the end.
"""

from queries import PRIMARY, Part, Scope, scalar, telling
from scopes import row_of
from statements import spell

SIGNS = ["<", ">", "<=", ">=", "==", "!="]
LITERALS = {"int": ["0", "1", "2", "3", "-", "10", "2147483647"], "string": ['"a"', '"ab"', '"b"', '""']}
SEARCHES = ["StartsWith", "EndsWith", "Contains"]


def columns_of(scope, name, *kinds):
    """The cells of these types of the row that has the name."""
    return [it for it in scope.paths if it.words[0] == name and len(it.words) == 3 and it.type in kinds]


def literal(dice, kind):
    word = dice.choice(LITERALS[kind])
    return ["-", dice.choice("123")] if word == "-" else [word]


def comparison(dice, scope, name):
    """A column beside a literal, beside another column, or a text in which another is looked for."""
    numbers, texts = columns_of(scope, name, "int", "int?"), columns_of(scope, name, "string")
    flags = columns_of(scope, name, "bool")
    kind = dice.random()
    if texts and kind < 0.2:
        of, sought = dice.choice(texts).words, dice.choice([literal(dice, "string"), dice.choice(texts).words])
        return Part(PRIMARY, [*of, ".", dice.choice(SEARCHES), "(", *sought, ")"], "bool")
    if texts and kind < 0.35:
        beside = dice.choice([literal(dice, "string"), ["null"], dice.choice(texts).words])
        return Part(4, [*dice.choice(texts).words, dice.choice(["==", "!="]), *beside], "bool")
    if flags and kind < 0.45:
        return dice.choice([dice.choice(flags), Part(8, ["!", *dice.choice(flags).words], "bool")])
    if not numbers:
        return scalar(dice, "bool", scope, 1)
    one, other = dice.choice(numbers), dice.choice(numbers)
    if one.type == "int?" and kind < 0.6:
        return dice.choice([
            one.then(".", "HasValue", type="bool"), Part(4, [*one.words, dice.choice(["==", "!="]), "null"], "bool")])
    words = [one.words, [dice.choice(SIGNS)], dice.choice([literal(dice, "int"), literal(dice, "int"), other.words])]
    return Part(4, sum(words if dice.random() < 0.75 else words[::-1], []), "bool")


def faulting(dice, scope, name):
    """A condition that faults on some rows."""
    found = telling(dice, "int", scope)
    return Part(4, [*found.bound(6), dice.choice(SIGNS), "1"], "bool") if found else comparison(dice, scope, name)


def condition(dice, scope, name):
    """Some comparisons between `&&`, `||` and `!`, one of which may fault."""
    parts = [dice.choice([comparison, comparison, comparison, faulting])(dice, scope, name) for _ in range(dice.choice([1, 1, 2, 3]))]
    words = parts[0].bound(3)
    for part in parts[1:]:
        words = dice.choice([[*words, "&&", *part.bound(3)], ["(", *words, "||", *part.bound(3), ")"]])
    return ["!", "(", *words, ")"] if dice.random() < 0.1 else words


def value(dice, scope, name, *kinds):
    """A column of the row, or a value that may fault on it; with its type."""
    found = columns_of(scope, name, *kinds)
    if found and dice.random() < 0.7:
        part = dice.choice(found)
    else:
        part = telling(dice, "int", scope) if "int" in kinds and dice.random() < 0.6 else None
        part = part or scalar(dice, "int", scope, 1)
    return part


def filtered(dice, table, scope, name):
    """A table with some conditions behind it."""
    words = [table]
    for _ in range(dice.choice([0, 1, 1, 2])):
        words += [".", "Where", "(", name, "=>", *condition(dice, scope, name), ")"]
    return words


def filtered_first(dice, table, scope, name):
    """The same in front of a query whose range variable has the name."""
    return [name + "_" if word == name else word for word in filtered(dice, table, scope, name)]


def counted(dice, table, scope, name):
    source = filtered(dice, table, scope, name)
    kind = dice.choice(["Count", "Any", "All", "Sum", "Min", "Max", "First"])
    if kind in ("Sum", "Min", "Max"):
        return [*source, ".", kind, "(", name, "=>", *value(dice, scope, name, "int", "int?").words, ")"]
    if kind == "First":
        return [*source, ".", "Select", "(", name, "=>", *value(dice, scope, name, "int", "string", "bool").words, ")", ".", "First", "(", ")"]
    return [*source, ".", kind, "(", name, "=>", *condition(dice, scope, name), ")"]


def grouped(dice, table, scope, name):
    key = value(dice, scope, name, "int", "int?", "string", "bool").words
    source = ["from", name, "in", *filtered_first(dice, table, scope, name), "group", name, "by", *key, "into", "gr"]
    again = [word if word != name else "it_" for word in value(dice, scope, name, "int", "int?").words]
    total = ["gr", ".", dice.choice(["Sum", "Sum", "Min", "Max"]), "(", "it_", "=>", *again, ")"]
    return [*source, "select", "new", "{", "k", "=", "gr", ".", "Key", ",", "n", "=", "gr", ".", "Count", "(", ")", ",", "s", "=", *total, "}"]


def distinct(dice, table, scope, name):
    part = value(dice, scope, name, "int", "int?", "string", "bool")
    return ["(", "from", name, "in", table, "where", *condition(dice, scope, name), "select", *part.words, ")", ".", "Distinct", "(", ")"]


def joined(dice, table, scope, name, tables):
    other, inner = dice.choice(list(tables)), name + "_"
    beside = Scope({inner: row_of(other, tables[other])}, {})
    kinds = dice.choice([("int", "int?"), ("string",), ("bool",), ("int",)])
    here, there = columns_of(scope, name, *kinds), columns_of(beside, inner, *kinds)
    if not here or not there:
        kinds, here, there = ("int",), [], []
    left = dice.choice(here).words if here and dice.random() < 0.8 else value(dice, scope, name, "int").words
    right = dice.choice(there).words if there and dice.random() < 0.8 else value(dice, beside, inner, "int").words
    both = Scope({**scope.names, **beside.names}, {})
    result = ["new", "{", "a", "=", *value(dice, both, name, "int", "string").words, ",", "b", "=", *value(dice, both, inner, "int", "string").words, "}"]
    result = dice.choice([result, value(dice, beside, inner, "int", "string", "bool").words])
    return ["from", name, "in", table, "join", inner, "in", other, "on", *left, "equals", *right, "select", *result]


def ordered(dice, table, scope, name):
    keys = []
    for _ in range(dice.choice([1, 1, 2, 2, 3])):
        part = value(dice, scope, name, "int", "int?", "string", "bool")
        keys += [*([","] if keys else []), *part.words, *dice.choice([[], [], ["descending"]])]
    chosen = value(dice, scope, name, "int", "string").words
    query = ["(", "from", name, "in", *filtered_first(dice, table, scope, name), "orderby", *keys, "select", *chosen, ")"]
    more = dice.choice([[], ["Take", "(", dice.choice("0123"), ")"], ["First", "(", ")"], ["ElementAt", "(", dice.choice("012"), ")"], ["Count", "(", ")"]])
    return [*query, *([".", *more] if more else [])] if more else query[1:-1]


def line(dice, tables):
    """A line that is found out once, or nearly so."""
    table = dice.choice(list(tables))
    name = dice.choice(["p", "q", "o"])
    scope = Scope({name: row_of(table, tables[table])}, {})
    kind = dice.choice(["filter", "count", "count", "group", "group", "distinct", "join", "join", "order", "order"])
    if kind == "filter":
        words = ["from", name, "in", table, "where", *condition(dice, scope, name), "select", *dice.choice([[name], value(dice, scope, name, "int", "string").words])]
    elif kind == "join":
        words = joined(dice, table, scope, name, tables)
    else:
        words = {"count": counted, "group": grouped, "distinct": distinct, "order": ordered}[kind](dice, table, scope, name)
    return spell(dice, ["run", *words, ";"])
