"""What an expression means: values, streams of items, and what is served of them. None represents null.

A row and a record are dicts of their members in order. A sequence is a Stream, which begins again each time that it is gone
over, and raises the Fault that it ends in. So what isn't asked for is never evaluated.
"""

from dataclasses import dataclass

from calls import MADE, spelled
from predicates import ask
from scalar_meaning import LITERALS, Fault, checked, concatenated, member, operate, search
from scopes import Group, Sequence

DEFAULTS = {"int": 0, "bool": False}


class Stream:
    """A sequence: `start` begins it, and may fault itself; such a fault is the stream's ending before any item."""

    def __init__(self, start):
        self.start = start

    def __iter__(self):
        return iter(self.start())


@dataclass
class Grouping:
    """.NET, IGrouping: a key and its elements."""

    key: object
    items: list


def same_key(value):
    """What two values have in common exactly where they are the same. Of records all members count."""
    if isinstance(value, dict):
        return tuple(map(same_key, value.values()))
    return type(value).__name__, value


def value_of(node, names):
    """The value of a typed expression. A sequence never faults by itself: making it is put off until it is gone over."""
    if isinstance(node.type, Sequence):
        return Stream(lambda: found(node, names))
    return found(node, names)


def found(node, names):
    return FORMS.get(node.kind, operation)(node, names)


def literal(node, _):
    return LITERALS[node.kind] if node.kind in LITERALS else node.parts[0]


def member_of(node, names):
    owner, name = node.parts
    whole = value_of(owner, names)
    return whole.key if isinstance(owner.type, Group) else member(whole, name, owner.type)


def text_search(node, names):
    name, text, part = node.parts
    return search(value_of(text, names), name, value_of(part, names))


def asked(node, names):
    """A host predicate. A null row faults as its columns do, before any number is looked at."""
    name, predicate, columns = node.parts
    owner = columns[0].parts[0]
    row = value_of(owner, names)
    asked_of = {column.parts[1]: member(row, column.parts[1], owner.type) for column in columns}
    answer = ask(predicate, [asked_of[column.parts[1]] for column in columns])
    MADE.append(spelled(name, owner.type.table, row, columns, answer))
    return answer


def operation(node, names):
    """ECMA-334, expressions: operands from left to right; of `&&`, `||`, `??` and `?:` only those that are needed."""
    parts = node.parts
    first = value_of(parts[0], names)
    if node.kind in ("&&", "||"):
        return value_of(parts[1], names) if first == (node.kind == "&&") else first
    if node.kind == "??":
        return value_of(parts[1], names) if first is None else first
    if node.kind == "?":
        return value_of(parts[1 if first else 2], names)
    operands = [first, *(value_of(part, names) for part in parts[1:])]
    if (node.kind, node.type) == ("+", "string"):
        return concatenated(*operands)
    return operate(node.kind, operands)


def source_of(node, names):
    """A sequence, or the elements of a group: the fault of a group that can't be had is the ending of its stream."""
    if isinstance(node.type, Group):
        return Stream(lambda: value_of(node, names).items)
    return value_of(node, names)


def each(part, names):
    """What a lambda gives of an item."""
    return lambda item: value_of(part.body, {**names, part.name: item})


def call(node, names):
    """.NET, Enumerable: a method of a sequence, of its items' type where this determines its result."""
    method, owner, *arguments = node.parts
    name, letter = method.split()
    source = source_of(owner, names)
    if letter == "-":
        return METHODS[name](source, owner.type.item)
    part, = arguments
    if letter == "p":
        return WITH_CONDITION[name](source, each(part, names), owner.type.item)
    if letter == "f":
        values = Stream(lambda: map(each(part, names), source))
        return values if name == "Select" else METHODS[name](values, part.body.type)
    if letter == "s":
        return WITH_SECOND[name](source, source_of(part, names))
    return WITH_VALUE[name](source, lambda: value_of(part, names))


def where(source, holds, _=None):
    return (item for item in source if holds(item))


def filtered(source, holds):
    return Stream(lambda: where(source, holds))


def distinct(source, _=None):
    """Each item at its first appearance."""
    seen = set()
    for item in source:
        if same_key(item) not in seen:
            seen.add(same_key(item))
            yield item


def concat(first, second):
    yield from first
    yield from second


def chosen(source, second, are_in):
    """The distinct items that are, or that aren't, in the second sequence, which is read first."""
    others = {same_key(item) for item in second}
    for item in distinct(source):
        if (same_key(item) in others) == are_in:
            yield item


def backwards(source, _):
    yield from reversed(list(source))


def skip(source, number):
    left = number()
    for item in source:
        if left <= 0:
            yield item
        left -= 1


def take(source, number):
    """Nothing is read for a number below one, nor after the last item that is taken."""
    left = number()
    if left < 1:
        return
    for item in source:
        yield item
        left -= 1
        if left == 0:
            return


def default_if_empty(source, its_type):
    is_empty = True
    for item in source:
        is_empty = False
        yield item
    if is_empty:
        yield DEFAULTS.get(its_type)


def has_any(source, _):
    return any(True for _ in source)


def count(source, _):
    return checked(sum(1 for _ in source))


def first(source, _):
    for item in source:
        return item
    raise Fault("InvalidOperation")


def first_or_default(source, its_type):
    for item in source:
        return item
    return DEFAULTS.get(its_type)


def last(source, _):
    items = list(source)
    if not items:
        raise Fault("InvalidOperation")
    return items[-1]


def at_most_one(source):
    """The items, of which there is one at most: the second is a fault, and nothing after it is read."""
    items = []
    for item in source:
        if items:
            raise Fault("InvalidOperation")
        items.append(item)
    return items


def single(source, its_type):
    return first(at_most_one(source), its_type)


def single_or_default(source, its_type):
    return first_or_default(at_most_one(source), its_type)


def element_at(source, number):
    left = number()
    if left >= 0:
        for item in source:
            if left == 0:
                return item
            left -= 1
    raise Fault("ArgumentOutOfRange")


def contains(source, item):
    wanted = same_key(item())
    return any(same_key(other) == wanted for other in source)


def total(source, _):
    """The sum of what isn't null. It may leave the ints at any item."""
    number = 0
    for item in source:
        number = checked(number + (item or 0))
    return number


def extreme(choose):
    """What Min and Max do: the least or the largest of what isn't null. Of no int there is none, and of no int? null."""

    def method(source, its_type):
        numbers = [item for item in source if item is not None]
        if not numbers and its_type == "int":
            raise Fault("InvalidOperation")
        return choose(numbers, default=None)

    return method


METHODS = {
    "Distinct": distinct, "Reverse": backwards, "DefaultIfEmpty": default_if_empty, "Any": has_any, "Count": count,
    "First": first, "FirstOrDefault": first_or_default, "Last": last, "Single": single, "SingleOrDefault": single_or_default,
    "Sum": total, "Min": extreme(min), "Max": extreme(max),
}


def of_those(method):
    """The method of the items on which the condition is true."""
    return lambda source, holds, its_type: method(filtered(source, holds), its_type)


WITH_CONDITION = {
    "Where": where, "All": lambda source, holds, _: all(map(holds, source)),
    **{name: of_those(METHODS[name]) for name in (
        "Any", "Count", "First", "FirstOrDefault", "Last", "Single", "SingleOrDefault")},
}
WITH_SECOND = {
    "Concat": concat, "Union": lambda first_items, second: distinct(concat(first_items, second)),
    "Intersect": lambda first_items, second: chosen(first_items, second, True),
    "Except": lambda first_items, second: chosen(first_items, second, False),
}
WITH_VALUE = {"Skip": skip, "Take": take, "ElementAt": element_at, "Contains": contains}


def query(node, names):
    """ECMA-334, query expressions: a stream of bindings, the names with their values, goes from clause to clause."""
    steps, end, rest = node.parts
    bindings = iter([names])
    for kind, *parts in steps:
        bindings = CLAUSES[kind](bindings, names, *parts)
    items = ENDS[end.kind](bindings, *end.parts)
    if rest is None:
        return items
    name, body = rest
    return continued(items, name, body, names)


def continued(items, name, body, names):
    """`into`: the clauses after it see the items by this name, and no range variable before."""
    steps, end, rest = body.parts
    bindings = ({**names, name: item} for item in items)
    for kind, *parts in steps:
        bindings = CLAUSES[kind](bindings, names, *parts)
    items = ENDS[end.kind](bindings, *end.parts)
    return items if rest is None else continued(items, *rest, names)


def from_clause(bindings, _, name, source):
    for names in bindings:
        for item in source_of(source, names):
            yield {**names, name: item}


def let_clause(bindings, _, name, part):
    for names in bindings:
        yield {**names, name: value_of(part, names)}


def where_clause(bindings, _, part):
    return (names for names in bindings if value_of(part, names))


def join_clause(bindings, outside, name, source, outer_key, inner_key, group=None):
    """The inner items and their keys, item by item, come before the first binding. A key that is null matches nothing."""
    places = {}
    for item in source_of(source, outside):
        key = value_of(inner_key, {**outside, name: item})
        if key is not None:
            places.setdefault(same_key(key), []).append(item)
    for names in bindings:
        key = value_of(outer_key, names)
        matches = places.get(same_key(key), []) if key is not None else []
        if group is None:
            yield from ({**names, name: item} for item in matches)
        else:
            yield {**names, group: matches}


def rank(key):
    """Null before all, false before true, ints by size, texts by their bytes."""
    return (key is not None, key.encode() if isinstance(key, str) else key or 0)


def orderby_clause(bindings, _, keys):
    """All bindings, then the first key of all, then the next of all. Sorting by the last key first keeps ties in order."""
    bindings = list(bindings)
    columns = [[rank(value_of(key, names)) for names in bindings] for key, _ in keys]
    places = list(range(len(bindings)))
    for column, (_, is_descending) in reversed(list(zip(columns, keys))):
        places.sort(key=column.__getitem__, reverse=is_descending)
    yield from (bindings[place] for place in places)


def selected(bindings, part):
    return (value_of(part, names) for names in bindings)


def grouped(bindings, part, key_part):
    """For each binding its key, then its element; the groups by the first appearance of their keys."""
    groups = {}
    for names in bindings:
        key = value_of(key_part, names)
        element = value_of(part, names)
        groups.setdefault(same_key(key), Grouping(key, [])).items.append(element)
    yield from groups.values()


CLAUSES = {
    "from": from_clause, "let": let_clause, "where": where_clause, "join": join_clause, "orderby": orderby_clause,
}
ENDS = {"select": selected, "group": grouped}
FORMS = {
    **{kind: literal for kind in ("integer", "text", *LITERALS)}, "name": lambda node, names: names[node.parts[0]],
    "table": lambda node, _: node.parts[0].rows, ".": member_of, "search": text_search, "call": call, "query": query,
    "Host": asked,
    "variable": lambda node, _: node.parts[0], "opened": lambda node, _: value_of(node.parts[0], {}),
    "new": lambda node, names: {name: value_of(part, names) for name, part in node.parts},
}


def data_of(value, its_type):
    """What is served of a value. The first fault inside counts, depth first and members as written."""
    if value is None or isinstance(its_type, str):
        return value
    if isinstance(its_type, Sequence):
        return [data_of(item, its_type.item) for item in value]
    if isinstance(its_type, Group):
        return {"Key": data_of(value.key, its_type.key), "items": [data_of(item, its_type.item) for item in value.items]}
    return {name: data_of(value[name], member_type) for name, member_type in its_type.members}


def served(node):
    """The members of the reply to `run`: items one by one, up to the end or the first fault, or one value."""
    value = value_of(node, {})
    if not isinstance(node.type, Sequence):
        return {"value": data_of(value, node.type)}
    items = []
    try:
        for item in value:
            items.append(data_of(item, node.type.item))
    except Fault as fault:
        return {"fault": str(fault), "items": items}
    return {"items": items}
