"""Lines by chance in which faults meet: which one is the reply, and what is never met, because something stops before it."""

from queries import MEMBERS, PRIMARY, Part, called, function, new_name, number, row_of, sequence, telling
from scopes import Group, Record, Row, Sequence, has_default, is_key, is_source

FAULTS = [["1", "/", "0"], ["2147483647", "+", "1"], ["7", "%", "0"], ["-", "-", "2147483648"]]


def hot(dice, scope):
    """An int that faults on some items, if there are any in scope, and now and then on all."""
    found = telling(dice, "int", scope) if dice.random() < 0.85 else None
    return found or Part(6, dice.choice(FAULTS) if dice.random() < 0.3 else ["2"], "int")


def twins(dice, scope):
    """Two ints that fault differently on the same items: the fault that is met shows which was evaluated first."""
    paths = scope.paths_of("int")
    path = dice.choice([*paths, *paths[-2:] * 2]).words if paths else ["1"]
    near = dice.choice(["1", "1", "2", "2", "3", "4"])
    met = [*path, "==", near]
    found = [
        Part(7, ["10", "/", "(", *path, "-", near, ")"], "int"),
        Part(6, ["(", *met, "?", "2147483647", ":", "0", ")", "+", "1"], "int"),
        Part(PRIMARY, ["(", *met, "?", "null", ":", '"a"', ")", ".", "Length"], "int"),
    ]
    return dice.sample(found, 2)


def pair(dice, scope):
    """Two ints that may have faults in them."""
    return twins(dice, scope) if dice.random() < 0.6 else [hot(dice, scope), hot(dice, scope)]


def hot_condition(dice, scope):
    return Part(5, [*hot(dice, scope).bound(6), dice.choice(["<", ">", "<=", "!="]), dice.choice("0123")], "bool")


def hot_number(dice, scope):
    return dice.choice(FAULTS) if dice.random() < 0.3 else number(dice, scope, 0)


def table(dice, scope):
    """A table that no local name hides, or else some sequence."""
    if not scope.seen:
        return sequence(dice, scope, 0)
    name = dice.choice(list(scope.seen))
    return Part(PRIMARY, [name], Sequence(row_of(name, scope.seen[name])))


def hot_sequence(dice, scope):
    """Ints or rows with a fault in their midst, perhaps."""
    part = table(dice, scope)
    if not is_source(part.type):
        return called(Part(PRIMARY, [list(scope.tables)[0]], None), "Take", ["1"], Sequence("int"))
    if dice.random() < 0.75:
        return called(part, "Select", function(dice, part.type.item, scope, lambda inner: hot(dice, inner))[0], Sequence("int"))
    return called(part, "Where", function(dice, part.type.item, scope, lambda inner: hot_condition(dice, inner))[0], part.type)


def hot_ints(dice, scope):
    part = hot_sequence(dice, scope)
    if part.type == Sequence("int"):
        return part
    return called(part, "Select", function(dice, part.type.item, scope, lambda inner: hot(dice, inner))[0], Sequence("int"))


def added(dice, scope):
    """An int of an item, as it is or so that it may fault. The cells near the ends of the ints make sums that leave them."""
    paths = scope.paths_of("int")
    return dice.choice(paths[-2:]) if paths and dice.random() < 0.6 else hot(dice, scope)


def with_stop(dice, part, scope):
    """A method that may stop before the source's fault, or that meets it, or one of its own first."""
    items = part.type.item
    names = ["Any", "All", "First", "Last", "Single", "ElementAt", "Count"]
    names += ["FirstOrDefault", "SingleOrDefault"] * has_default(items)
    names += ["Contains"] * 2 * is_key(items) + ["Sum", "Sum", "Min", "Max"] * (items == "int" or isinstance(items, Row))
    name = dice.choice(names)
    its_type = {"Any": "bool", "All": "bool", "Contains": "bool", "Count": "int"}.get(name, items)
    if name == "ElementAt":
        words = hot_number(dice, scope)
    elif name == "Contains":
        words = (hot(dice, scope) if items == "int" else called(part, "First", [], items)).words
    elif name in ("Sum", "Min", "Max"):
        its_type = "int"
        has_function = items != "int" or dice.random() < 0.4
        words = function(dice, items, scope, lambda inner: added(dice, inner))[0] if has_function else []
    elif name == "All" or dice.random() < 0.4:
        words = function(dice, items, scope, lambda inner: hot_condition(dice, inner))[0]
    else:
        words = []
    return called(part, name, words, its_type)


def with_other(dice, part, scope):
    """A method that gives a sequence, perhaps of a second one that has another fault in it."""
    items = part.type.item
    names = ["Skip", "Take", "Take", "Reverse", "Concat"] + ["DefaultIfEmpty"] * has_default(items)
    names += ["Distinct", "Union", "Intersect", "Except", "Except"] * is_key(items)
    name = dice.choice(names)
    if name in ("Skip", "Take"):
        words = hot_number(dice, scope)
    elif name in ("Concat", "Union", "Intersect", "Except"):
        words = (hot_ints(dice, scope) if items == "int" else part).bound()
    else:
        words = []
    return called(part, name, words, Sequence(items))


def chain(dice, scope):
    part = dice.choice([hot_sequence, hot_ints])(dice, scope)
    for _ in range(dice.choice([0, 1, 1, 2])):
        part = with_other(dice, part, scope)
    return with_stop(dice, part, scope) if dice.random() < 0.5 else part


def hot_clause(dice, outside, inside):
    """A clause with faults in its parts, and the scope after it."""
    kind = dice.choice(["let", "where", "from", "join", "join", "orderby", "orderby"])
    name = new_name(dice, inside, outside)
    if kind == "where":
        return ["where", *hot_condition(dice, inside).words], inside
    if kind == "orderby":
        keys = [part.words + dice.choice([[], ["descending"]]) for part in pair(dice, inside)[:dice.choice([1, 2, 2])]]
        return ["orderby", *keys[0], *(word for more in keys[1:] for word in [",", *more])], inside
    if kind == "let":
        return ["let", name, "=", *hot(dice, inside).words], inside.plus(name, "int")
    part = hot_sequence(dice, outside if kind == "join" else inside)
    if kind == "from":
        return ["from", name, "in", *part.words], inside.plus(name, part.type.item)
    keys = [hot(dice, inside).words, hot(dice, outside.plus(name, part.type.item)).words]
    words = ["join", name, "in", *part.words, "on", *keys[0], "equals", *keys[1]]
    if dice.random() < 0.6:
        return words, inside.plus(name, part.type.item)
    return [*words, "into", name], inside.plus(name, Sequence(part.type.item))


def hot_query(dice, scope):
    """A query with faults in its source, in one of its clauses or two, and in what it ends with."""
    part = dice.choice([table, hot_sequence, hot_sequence])(dice, scope)
    if not is_source(part.type):
        return part
    name = new_name(dice, scope)
    words, inside = ["from", name, "in", *part.words], scope.plus(name, part.type.item)
    for _ in range(dice.choice([0, 1, 1, 2])):
        more, inside = hot_clause(dice, scope, inside)
        words += more
    value, by = pair(dice, inside)
    value = value if dice.random() < 0.7 else dice.choice(inside.paths)
    if dice.random() < 0.5:
        return Part(0, [*words, "select", *value.words], Sequence(value.type))
    return Part(0, [*words, "group", *value.words, "by", *by.words], Sequence(Group("int", value.type)))


def twin_sequences(dice, scope):
    """Two sequences that fault differently, and somewhere in their midst."""
    found = []
    for place in range(2):
        part = table(dice, scope)
        if not is_source(part.type):
            return [part, part]
        words = function(dice, part.type.item, scope, lambda inner: twins(dice, inner)[place])[0]
        found.append(called(part, "Select", words, Sequence("int")))
    return found


def group_source(dice, scope):
    """A method of a group that may not be there: its fault is the ending of its stream."""
    part = hot_query(dice, scope)
    while is_source(part.type) and not isinstance(part.type.item, Group):
        part = hot_query(dice, scope)
    if not is_source(part.type):
        return part
    name = dice.choice(["First", "First", "Last", "Single", "ElementAt"])
    condition = function(dice, part.type.item, scope, lambda inner: hot_condition(dice, inner))[0]
    words = [dice.choice("0129")] if name == "ElementAt" else dice.choice([[], condition, [new_name(dice, scope), "=>", "false"]])
    part = called(part, name, words, part.type.item)
    return with_other(dice, part, scope) if dice.random() < 0.6 else with_stop(dice, part, scope)


def nested(dice, scope):
    """Records of sequences that have faults in them, alone or for each item of a table."""

    def record(inner):
        names = dice.sample(MEMBERS, dice.choice([1, 2, 2, 3]))
        parts = [dice.choice([hot_ints, hot_sequence, hot, hot])(dice, inner) for _ in names]
        parts[:2] = twin_sequences(dice, inner)[:len(parts)] if dice.random() < 0.5 else parts[:2]
        words = [word for name, part in zip(names, parts) for word in [",", name, "=", *part.words]]
        members = tuple((name, part.type) for name, part in zip(names, parts))
        return Part(PRIMARY, ["new", "{", *words[1:], "}"], Record(members))

    part = dice.choice([table, table, hot_sequence])(dice, scope)
    if dice.random() < 0.3 or not is_source(part.type):
        return record(scope)
    words, its_type = function(dice, part.type.item, scope, dice.choice([record, record, lambda inner: hot_ints(dice, inner)]))
    return called(part, "Select", words, Sequence(its_type))


def clash(dice, scope):
    """A line's expression or query in which faults meet."""
    kind = dice.random()
    if kind < 0.4:
        return chain(dice, scope)
    if kind < 0.55:
        return nested(dice, scope)
    if kind < 0.63:
        return group_source(dice, scope)
    part = hot_query(dice, scope)
    if dice.random() < 0.6 or not is_source(part.type):
        return part
    return with_stop(dice, part, scope) if dice.random() < 0.6 else with_other(dice, part, scope)
