"""Types: an expression's tree becomes one in which each part has its type and each name its meaning.

A scalar's type is its name, that of the literal `null` is "null", and the others are the classes below. Where a part has no
type, there is no tree but a TypeFault.
"""

from dataclasses import dataclass, field, replace
from functools import cached_property

from scalar_types import LITERALS, OPERATORS, SCALARS, SEARCHES, TypeFault

MOST_PARTS = 4_096
ORDERED = ("int", "int?", "bool", "string")
NUMBERS = ("int", "int?")
NULLABLE = ("int?", "string")


@dataclass(frozen=True)
class Row:
    """The row of a table, by the table's name: rows of two tables are of two types, whatever their columns."""

    table: str
    members: tuple
    parts = 1


@dataclass(frozen=True)
class Record:
    """The names and types of the members, in order: in another order it is another type."""

    members: tuple

    @cached_property
    def parts(self):
        return 1 + sum(parts_of(its_type) for _, its_type in self.members)


@dataclass(frozen=True)
class Sequence:
    item: object

    @cached_property
    def parts(self):
        return 1 + parts_of(self.item)


@dataclass(frozen=True)
class Group:
    key: object
    item: object

    @cached_property
    def parts(self):
        return 1 + parts_of(self.key) + parts_of(self.item)


@dataclass(frozen=True)
class Typed:
    """An expression with its type: `kind` is that of its tree, and `parts` are typed where the tree's are expressions."""

    kind: str
    type: object
    parts: tuple = ()


@dataclass(frozen=True)
class Lambda:
    """An argument `name => body`."""

    name: str
    body: Typed


@dataclass(frozen=True)
class Scope:
    """The types of the local names, range variables and parameters, and the tables; and what a session has: of each scalar variable
    its type and its value, and of each named query its tree; and the host predicates."""

    names: dict
    tables: dict
    variables: dict = field(default_factory=dict)
    queries: dict = field(default_factory=dict)
    predicates: dict = field(default_factory=dict)

    def with_name(self, name, its_type):
        """ECMA-334, local variable scopes: a name may hide what a session has, or a table, but no local name that is in scope."""
        if name in self.names:
            raise TypeFault(f"{name} is in scope")
        return replace(self, names={**self.names, name: its_type})

    def without_names(self):
        """What the names of a named query mean: never a local name of what uses it."""
        return replace(self, names={})


def parts_of(its_type):
    return 1 if isinstance(its_type, str) else its_type.parts


def needs(holds):
    if not holds:
        raise TypeFault("no such type here")


def is_source(its_type):
    return isinstance(its_type, (Sequence, Group))


def is_nullable(its_type):
    """What null converts to: an int?, a text, a row or a record."""
    return its_type in NULLABLE or isinstance(its_type, (Row, Record))


def is_key(its_type):
    """What is distinguished by its contents: scalars, and records of such."""
    if isinstance(its_type, Record):
        return all(is_key(member) for _, member in its_type.members)
    return its_type in SCALARS


def has_default(its_type):
    return not is_source(its_type)


def converts(its_type, wanted):
    """ECMA-334, implicit conversions, as far as there are any here."""
    return its_type == wanted or (its_type, wanted) == ("int", "int?") or its_type == "null" and is_nullable(wanted)


def row_of(name, table):
    return Row(name, tuple(table.columns.items()))


def typed(tree, scope):
    """The tree with its types. No expression's type has more parts than the limit."""
    needs(tree.kind in FORMS or tree.kind in OPERATORS)
    found = FORMS.get(tree.kind, typed_operation)(tree, scope)
    needs(parts_of(found.type) <= MOST_PARTS)
    return found


def value(tree, scope):
    """An expression that a name, a member or an item may be: of any type but null's."""
    found = typed(tree, scope)
    needs(found.type != "null")
    return found


def source(tree, scope):
    """A sequence or a group."""
    found = typed(tree, scope)
    needs(is_source(found.type))
    return found


def condition(tree, scope):
    found = typed(tree, scope)
    needs(found.type == "bool")
    return found


def typed_literal(tree, _):
    return Typed(tree.kind, LITERALS[tree.kind], tree.parts)


def typed_name(tree, scope):
    """A local name, or else what the session has by it, or else a table, which is the sequence of its rows."""
    name, = tree.parts
    if name in scope.names:
        return Typed("name", scope.names[name], tree.parts)
    if name in scope.variables:
        its_type, content = scope.variables[name]
        return Typed("variable", its_type, (content,))
    if name in scope.queries:
        opened = typed(scope.queries[name], scope.without_names())
        return Typed("opened", opened.type, (opened,))
    needs(name in scope.tables)
    return Typed("table", Sequence(row_of(name, scope.tables[name])), (scope.tables[name],))


def typed_member(tree, scope):
    """ECMA-334, member access: of rows and records by their names; the others are those of .NET's types."""
    owner = typed(tree.parts[0], scope)
    name = tree.parts[1]
    if isinstance(owner.type, (Row, Record)):
        found = dict(owner.type.members).get(name)
    elif isinstance(owner.type, Group):
        found = owner.type.key if name == "Key" else None
    else:
        members = {("int?", "HasValue"): "bool", ("int?", "Value"): "int", ("string", "Length"): "int"}
        found = members.get((owner.type, name)) if isinstance(owner.type, str) else None
    needs(found is not None)
    return Typed(".", found, (owner, name))


def typed_record(tree, scope):
    """ECMA-334, anonymous object creation: the members' names differ, and none is null's."""
    members = [(member.parts[0], value(member.parts[1], scope)) for member in tree.parts]
    needs(len({name for name, _ in members}) == len(members))
    return Typed("new", Record(tuple((name, part.type) for name, part in members)), tuple(members))


def equality(left, right):
    """ECMA-334, equality operators: rows, records and groups are compared with null alone, sequences with nothing."""
    for one, other in ((left, right), (right, left)):
        if isinstance(one, (Row, Record, Group)):
            return "bool" if other == "null" else None
    return None if is_source(left) or is_source(right) else OPERATORS["=="](left, right)


def choice(first, second, third):
    """ECMA-334, conditional operator: of two scalars, rows or records of one type, or of which one converts to the other."""
    if first != "bool" or is_source(second) or is_source(third) or second == third == "null":
        return None
    if second == third or converts(third, second):
        return second
    return third if converts(second, third) else None


def typed_operation(tree, scope):
    operands = tuple(typed(part, scope) for part in tree.parts)
    rules = {**OPERATORS, "==": equality, "!=": equality, "?": choice}
    found = rules[tree.kind](*(operand.type for operand in operands))
    needs(found is not None)
    return Typed(tree.kind, found, operands)


def typed_call(tree, scope):
    """A call of a text's method, or of a sequence's or group's."""
    method, arguments = tree.parts
    owner = typed(method.parts[0], scope)
    name = method.parts[1]
    if owner.type != "string":
        return typed_method(owner, name, arguments, scope)
    parts = tuple(typed(argument, scope) for argument in arguments)
    needs(name in SEARCHES and [part.type for part in parts] == ["string"])
    return Typed("search", "bool", (name, owner, *parts))


def typed_predicate(tree, scope):
    """A host predicate, asked of an int column of a row; or of two int columns of the row that a local name means."""
    name, *arguments = tree.parts
    needs(name in scope.predicates and len(arguments) == len(scope.predicates[name].ranges))
    needs(all(argument.kind == "." for argument in arguments))
    owners = [argument.parts[0] for argument in arguments]
    needs(len(owners) == 1 or owners[0] == owners[1] and owners[0].kind == "name" and owners[0].parts[0] in scope.names)
    columns = tuple(typed(argument, scope) for argument in arguments)
    needs(all(column.type == "int" and isinstance(column.parts[0].type, Row) for column in columns))
    return Typed("Host", "bool", (name, scope.predicates[name], columns))


def anything(_):
    return True


def is_number(its_type):
    return its_type in NUMBERS


# .NET, Enumerable. Of each method: the letters of its arguments, one of which it takes (`-` is none, p a condition and f a value
# of an item, s a second sequence, n an int, v an item); what the items have to be, or the values of the f; and the type of
# its result: a sequence of the items or of the values, one item or value, or a scalar.
METHODS = {
    "Where": ("p", anything, "items"), "Select": ("f", anything, "values"), "Concat": ("s", anything, "items"),
    "Distinct": ("-", is_key, "items"), "Union": ("s", is_key, "items"), "Intersect": ("s", is_key, "items"),
    "Except": ("s", is_key, "items"), "Reverse": ("-", anything, "items"), "Skip": ("n", anything, "items"),
    "Take": ("n", anything, "items"), "DefaultIfEmpty": ("-", has_default, "items"), "Any": ("-p", anything, "bool"),
    "All": ("p", anything, "bool"), "Contains": ("v", is_key, "bool"), "Count": ("-p", anything, "int"),
    "First": ("-p", anything, "item"), "FirstOrDefault": ("-p", has_default, "item"), "Last": ("-p", anything, "item"),
    "Single": ("-p", anything, "item"), "SingleOrDefault": ("-p", has_default, "item"), "ElementAt": ("n", anything, "item"),
    "Sum": ("-f", is_number, "value"), "Min": ("-f", is_number, "value"), "Max": ("-f", is_number, "value"),
}


def letter_of(argument, letters):
    """Which of the letters an argument is for: p and f are those of lambdas."""
    found = [letter for letter in letters if letter != "-" and (letter in "pf") == (argument.kind == "=>")]
    needs(found)
    return found[0]


def typed_argument(letter, argument, items, scope):
    if letter in "pf":
        name, body = argument.parts
        part = {"p": condition, "f": value}[letter](body, scope.with_name(name, items))
        return Lambda(name, part)
    part = typed(argument, scope)
    needs({
        "n": lambda: part.type == "int", "v": lambda: converts(part.type, items),
        "s": lambda: is_source(part.type) and part.type.item == items,
    }[letter]())
    return part


def typed_method(owner, name, arguments, scope):
    needs(is_source(owner.type) and name in METHODS and len(arguments) <= 1)
    letters, fits, result = METHODS[name]
    items = owner.type.item
    if not arguments:
        needs("-" in letters)
        letter, parts = "-", ()
    else:
        letter = letter_of(arguments[0], letters)
        parts = (typed_argument(letter, arguments[0], items, scope),)
    values = parts[0].body.type if letter == "f" else items
    needs(fits(values))
    found = {"items": Sequence(items), "values": Sequence(values), "item": items, "value": values}.get(result, result)
    return Typed("call", found, (name + " " + letter, owner, *parts))


def typed_query(tree, scope):
    clauses, end, rest = tree.parts
    return typed_body(clauses, end, rest, scope, scope)


def typed_body(clauses, end, rest, outside, inside):
    """A query's body: `outside` are the names round the query, and `inside` those where the body begins."""
    steps = []
    for clause in clauses:
        step, inside = CLAUSES[clause.kind](clause, outside, inside)
        steps.append(step)
    parts = tuple(value(part, inside) for part in end.parts)
    if end.kind == "group":
        needs(is_key(parts[1].type))
        items = Sequence(Group(parts[1].type, parts[0].type))
    else:
        items = Sequence(parts[0].type)
    needs(parts_of(items) <= MOST_PARTS)
    last = Typed(end.kind, items, parts)
    if rest is None:
        return Typed("query", items, (tuple(steps), last, None))
    name, body = rest
    behind = typed_body(*body, outside, outside.with_name(name, items.item))
    return Typed("query", behind.type, (tuple(steps), last, (name, behind)))


def from_clause(clause, _, inside):
    """ECMA-334, from clause: the range variable is in scope after it, and not in its own source."""
    name, tree = clause.parts
    found = source(tree, inside)
    return ("from", name, found), inside.with_name(name, found.type.item)


def let_clause(clause, _, inside):
    name, tree = clause.parts
    found = value(tree, inside)
    return ("let", name, found), inside.with_name(name, found.type)


def where_clause(clause, _, inside):
    return ("where", condition(clause.parts[0], inside)), inside


def join_clause(clause, outside, inside):
    """ECMA-334, join clauses: the inner sequence sees no range variable of this query, the first key those before, the second
    the inner items alone. With `into` the groups' name is in scope after it, and the inner items' isn't."""
    name, inner, outer_key, inner_key, *group = clause.parts
    found = source(inner, outside)
    behind = inside.with_name(name, found.type.item)
    keys = (value(outer_key, inside), value(inner_key, outside.with_name(name, found.type.item)))
    types = {key.type for key in keys}
    needs(types <= {"int", "int?"} or len(types) == 1 and is_key(keys[0].type))
    if group:
        behind = inside.with_name(group[0], Sequence(found.type.item))
    return ("join", name, found, *keys, *group), behind


def orderby_clause(clause, _, inside):
    keys = tuple((value(key.parts[0], inside), key.kind == "descending") for key in clause.parts)
    needs(all(key.type in ORDERED for key, _ in keys))
    return ("orderby", keys), inside


CLAUSES = {
    "from": from_clause, "let": let_clause, "where": where_clause, "join": join_clause, "orderby": orderby_clause,
}
FORMS = {
    **{kind: typed_literal for kind in LITERALS}, "name": typed_name, ".": typed_member, "call": typed_call,
    "new": typed_record, "query": typed_query, "Host": typed_predicate,
}
