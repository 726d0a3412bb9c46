"""Queries and expressions by chance that have a type, over some tables.

`dice` is a random.Random. A Part is an expression: the level of its weakest operator, its tokens' spellings and its type.
`fuel` bounds how far it grows.
"""

from dataclasses import dataclass

import scalars
from scalars import PRIMARY
from tables import Table
from scopes import Group, Record, Row, Sequence, has_default, is_key, is_source, row_of

SCALARS = ("int", "int?", "bool", "string")
NAMES = ["x", "y", "z", "w", "a", "b", "g", "h", "e", "d", "it", "é", "_", "k", "v", "id"]
MEMBERS = ["a", "b", "c", "k", "n", "Key", "Value", "é", "Length", "items", "B", "HasValue"]
TABLE_NAMES = ["t", "u", "x", "items", "rows", "g", "表", "Where"]
COLUMN_NAMES = ["id", "n", "s", "b", "k", "C", "é", "Key"]
# Cells that many rows share, so that keys meet; some near the ends of the ints.
CELLS = {
    "int": [0, 1, 1, 1, 2, 2, 2, 3, 3, 3, 4, 4, 5, 10, -1, -7, 2147483647, -2147483648],
    "int?": [0, 1, 1, 2, 2, 3, 5, None, None, None], "bool": [True, False],
    "string": ["", "a", "a", "b", "ab", "B", "é", "😀", "\uffff", None, None],
}
LITERALS = {
    "int": ["0", "1", "1", "2", "2", "3", "7", "10", "2147483647"], "bool": ["true", "false"],
    "string": ['""', '"a"', '"b"', '"ab"', '"é"', r'"\u00e9\n"', '"😀"'],
}
FORMS = {
    "int": ["int PLUS int", "int PLUS int", "int TIMES int", "int DIVIDE 3", "- int", "bool ? int : int", "int? ?? int",
            "int? ?? int", "10 DIVIDE ( int - int )", "int DIVIDE int", "string . Length", "int? . Value"],
    "int?": ["int? PLUS int", "int TIMES int?", "bool ? int? : int", "bool ? null : int?", "int? ?? int?", "bool ? int : int?",
             "int? ?? null", "- int?", "int? DIVIDE int"],
    "bool": ["int COMPARE int", "int COMPARE int", "int COMPARE int", "int? COMPARE int", "int EQUAL int", "int? EQUAL int",
             "int? EQUAL null", "string EQUAL string", "string EQUAL null", "! bool", "bool && bool", "bool || bool",
             "int? . HasValue", "bool ? bool : bool", "bool EQUAL bool", "string . SEARCH ( string )"],
    "string": ["string + string", "string + null", "string ?? string", "bool ? string : null", "bool ? string : string"],
}
FORMS = {its_type: [form.split() for form in forms] for its_type, forms in FORMS.items()}


@dataclass(frozen=True)
class Part:
    level: int
    words: list
    type: object

    def bound(self, least=PRIMARY):
        """The tokens as an operand that binds at least so strongly."""
        return self.words if self.level >= least else ["(", *self.words, ")"]

    def then(self, *words, type):
        return Part(PRIMARY, [*self.bound(), *words], type)


class Signs:
    """What `scalars.filled` asks of a scope."""

    slips = 0.0
    types = set(SCALARS)
    choices = {**scalars.CHOICES, "TIMES": ["*"], "DIVIDE": ["/", "%"]}


class Scope:
    """The local names with their types, and what they may hide: the tables, and the variables and named queries of a session with
    their types."""

    def __init__(self, names, tables, given=None):
        self.names = names
        self.tables = tables
        self.given = given or {}
        self.seen = {name: content for name, content in tables.items() if name not in names}
        visible = {name: its_type for name, its_type in self.given.items() if name not in names} | names
        found = [path for name, its_type in visible.items() for path in paths_from(Part(PRIMARY, [name], its_type), 3)]
        self.paths = found
        self.has_nullable = any(path.type == "int?" for path in found) or bool(nullable_columns(self.seen))

    def plus(self, name, its_type):
        return type(self)({**self.names, name: its_type}, self.tables, self.given)

    def special(self, dice, wanted):
        """A scalar of this type that only some scopes have; None where there is none."""
        return None

    def paths_of(self, wanted):
        return [path for path in self.paths if path.type == wanted]

    def types(self):
        return [its_type for its_type in SCALARS if its_type != "int?" or self.has_nullable]


def nullable_columns(tables):
    return [(name, column) for name, content in tables.items() for column, kind in content.columns.items() if kind == "int?"]


def members_of(its_type):
    if isinstance(its_type, (Row, Record)):
        return its_type.members
    return (("Key", its_type.key),) if isinstance(its_type, Group) else ()


def paths_from(part, depth):
    """The part, and what is reached from it by members."""
    found = [part]
    if depth > 0:
        for name, its_type in members_of(part.type):
            found += paths_from(part.then(".", name, type=its_type), depth - 1)
    return found


def table(dice):
    names = dice.sample(COLUMN_NAMES, dice.choice([1, 2, 3, 3, 4]))
    types = ["int", *dice.choices(["int", "int?", "int?", "bool", "string", "string"], k=len(names) - 1)]
    dice.shuffle(types)
    return filled_table(dice, dict(zip(names, types)))


def filled_table(dice, columns):
    count = dice.choice([0, 1, 2, 3, 4, 4, 5, 5, 6, 7])
    return Table(columns, [{name: dice.choice(CELLS[kind]) for name, kind in columns.items()} for _ in range(count)])


def tables(dice):
    """Some tables; now and then the columns of the last are those of the first."""
    found = {name: table(dice) for name in dice.sample(TABLE_NAMES, dice.choice([1, 2, 2, 3]))}
    if dice.random() < 0.25:
        found[list(found)[-1]] = filled_table(dice, list(found.values())[0].columns)
    return found


def new_name(dice, *scopes):
    """A name that no local one of the scopes has; it may hide a table, a variable or a named query."""
    taken = {name for scope in scopes for name in scope.names}
    free = [name for name in [*NAMES, *scopes[0].tables, *scopes[0].given] if name not in taken]
    return dice.choice(free) if free else "q" * len(taken)


def leaf(dice, wanted, scope):
    """A path or a literal. An int? has no literal, so it is a path, or what a table's cells give. Where a name hides the last
    table with such a column, it is an int, which most places take, too."""
    paths = scope.paths_of(wanted)
    if paths and (wanted == "int?" or dice.random() < 0.85):
        return dice.choice(paths)
    if wanted != "int?" or not scope.has_nullable:
        return Part(PRIMARY, [dice.choice(LITERALS["int" if wanted == "int?" else wanted])], wanted)
    name, column = dice.choice(nullable_columns(scope.seen))
    row = new_name(dice, scope)
    part = called(Part(PRIMARY, [name], None), "Select", [row, "=>", row, ".", column], None)
    return called(part, dice.choice(["Max", "Min", "FirstOrDefault"]), [], "int?")


def scalar(dice, wanted, scope, fuel):
    """An expression of a scalar type."""
    found = scope.special(dice, wanted)
    if found:
        return found
    kind = dice.random()
    if kind < 0.3:
        found = telling(dice, wanted, scope)
        if found:
            return found
    if fuel > 0 and kind < 0.45:
        return result(dice, wanted, scope, fuel - 1)
    if fuel <= 0 or kind < 0.7 or wanted not in scope.types():
        return leaf(dice, wanted, scope)
    forms = [form for form in FORMS[wanted] if scope.has_nullable or "int?" not in form]
    level, words = scalars.filled(
        dice, dice.choice(forms), Signs, lambda _, inner: as_pair(scalar(dice, inner, scope, fuel - 1)))
    return Part(level, words, wanted)


def as_pair(part):
    return part.level, part.words


def telling(dice, wanted, scope):
    """A condition that some items meet, or an int that faults on some: of a path, if there is one."""
    if wanted == "bool" and dice.random() < 0.2:
        return compared_with_null(dice, scope)
    kind = dice.choice(["int", "int", "int?", "string", "bool"]) if wanted == "bool" else "int"
    paths = scope.paths_of(kind)
    if not paths or wanted not in ("int", "bool"):
        return None
    # The last names are those of what is gone over.
    path = dice.choice([*paths, *paths[-2:] * 3]).words
    if wanted == "int":
        words, level = dice.choice([
            *[(["10", "/", "(", *path, "-", dice.choice("12345"), ")"], 7)] * 4, (["7", "%", *path], 7),
            ([*path, "*", "536870911"], 7), (["2147483642", "+", *path], 6), (["-", *path], 8),
        ])
        return Part(level, words, wanted)
    if kind == "bool":
        return Part(8, ["!", *path], wanted)
    if kind == "string":
        return Part(4, [*path, dice.choice(["==", "!="]), dice.choice(['"a"', '"b"', '"ab"', "null"])], wanted)
    return Part(4, [*path, dice.choice(["<", ">", "<=", ">=", "==", "!="]), dice.choice("1233")], wanted)


def compared_with_null(dice, scope):
    """Whether a row, a record or a group is null."""
    found = [path for path in scope.paths if isinstance(path.type, (Row, Record, Group))]
    if not found:
        return None
    words = [dice.choice(found).words, [dice.choice(["==", "!="])], ["null"]]
    words = words if dice.random() < 0.7 else words[::-1]
    return Part(4, sum(words, []), "bool")


def any_scalar(dice, scope, fuel):
    return scalar(dice, dice.choice(["int", *scope.types()]), scope, fuel)


def record(dice, scope, fuel, part_of):
    """A record of parts by chance; a member may take its name from its value."""
    members, words = {}, []
    for _ in range(dice.choice([0, 1, 1, 2, 2, 2, 3])):
        part = part_of(dice, scope, fuel)
        given = part.words[-1] if part in scope.paths and dice.random() < 0.6 else None
        name = given or dice.choice(MEMBERS)
        if name not in members:
            members[name] = part.type
            words += ([","] if words else []) + ([] if given else [name, "="]) + part.words
    words += [","] if words and dice.random() < 0.05 else []
    return Part(PRIMARY, ["new", "{", *words, "}"], Record(tuple(members.items())))


def any_value(dice, scope, fuel):
    """An expression of any type that a name may mean; now and then one that faults on some items."""
    kind = dice.random()
    if kind < 0.2:
        found = telling(dice, "int", scope)
        if found:
            return found
    if kind < 0.4 or fuel <= 0:
        return dice.choice(scope.paths) if scope.paths and kind < 0.2 else any_scalar(dice, scope, fuel - 1)
    if kind < 0.7:
        return record(dice, scope, fuel - 1, any_value)
    if kind < 0.85:
        return sequence(dice, scope, fuel - 1)
    if kind < 0.95:
        return element(dice, scope, fuel - 1)
    found = [path for path in scope.paths if isinstance(path.type, (Row, Record))]
    if not found:
        return any_scalar(dice, scope, fuel)
    one = dice.choice(found)
    other = dice.choice(["null", *one.words]) if len(one.words) == 1 else "null"
    words = [*scalar(dice, "bool", scope, fuel - 2).bound(1), "?", *one.words, ":", other]
    return Part(0, words, one.type)


def key(dice, scope, fuel):
    """A key: a scalar, often one that is null on some items, or a record of scalars."""
    nullable = [path for path in scope.paths if path.type in ("int?", "string")]
    if nullable and dice.random() < 0.4:
        return dice.choice(nullable)
    if dice.random() < 0.75:
        return any_scalar(dice, scope, min(fuel, 1))
    return record(dice, scope, 0, any_scalar)


def base(dice, scope, fuel):
    """A sequence or a group: a table, a name or a member, or a query in brackets. None where there is none."""
    kind = dice.random()
    paths = [path for path in scope.paths if is_source(path.type)]
    if paths and kind < 0.5:
        return dice.choice(paths)
    if fuel > 1 and kind < 0.65:
        found = query(dice, scope, fuel - 2)
        return Part(PRIMARY, ["(", *found.words, ")"], found.type)
    if scope.seen:
        name = dice.choice(list(scope.seen))
        return Part(PRIMARY, [name], Sequence(row_of(name, scope.seen[name])))
    # All tables are hidden by local names.
    return dice.choice(paths) if paths else None


def sequence(dice, scope, fuel):
    """A sequence or a group with some methods after it; a scalar where there is none."""
    part = base(dice, scope, fuel)
    if part is None:
        return any_scalar(dice, scope, 0)
    if dice.random() < 0.2:
        part = with_fault(dice, part, scope)
    for _ in range(dice.choice([0, 1, 1, 2, 3]) if fuel > 0 else dice.choice([0, 0, 1])):
        part = with_method(dice, part, scope, fuel - 1)
    return part


def function(dice, items, scope, body_of):
    """A lambda's tokens, and the type of its body."""
    name = new_name(dice, scope)
    body = body_of(scope.plus(name, items))
    return [name, "=>", *body.words], body.type


def condition(dice, items, scope, fuel):
    return function(dice, items, scope, lambda inner: scalar(dice, "bool", inner, max(fuel, 1)))[0]


def called(part, name, words, its_type):
    return part.then(".", name, "(", *words, ")", type=its_type)


def number(dice, scope, fuel):
    """How many items: a small number, or any int."""
    if dice.random() < 0.8:
        return dice.choice([["0"], ["1"], ["1"], ["1"], ["2"], ["2"], ["2"], ["3"], ["3"], ["9"], ["-", "1"]])
    return scalar(dice, "int", scope, fuel).words


def with_select(dice, part, scope, fuel):
    words, its_type = function(dice, part.type.item, scope, lambda inner: any_value(dice, inner, max(fuel, 1)))
    return called(part, "Select", words, Sequence(its_type))


def with_fault(dice, part, scope):
    """Ints that fault on some of the items, or conditions that do; the sequence as it is where the items have no int."""
    name = new_name(dice, scope)
    body = telling(dice, "int", scope.plus(name, part.type.item))
    if body is None or name not in body.words:
        return part
    if dice.random() < 0.7:
        return called(part, "Select", [name, "=>", *body.words], Sequence("int"))
    return called(part, "Where", [name, "=>", *body.bound(6), dice.choice(["<", ">", "!="]), "1"], part.type)


def second(dice, part, scope, fuel):
    """Another sequence of the same items: the same one, a table's, or one that Select makes alike."""
    other = sequence(dice, scope, fuel)
    if dice.random() < 0.04:
        return other.words
    if isinstance(part.type.item, Row) and scope.seen and dice.random() < 0.08:
        # Perhaps another table with such columns, whose rows are of another type all the same.
        return [dice.choice(list(scope.seen))]
    if is_source(other.type) and other.type.item == part.type.item:
        return other.words
    if is_source(other.type) and part.type.item in scope.types():
        words, _ = function(dice, other.type.item, scope, lambda inner: scalar(dice, part.type.item, inner, 1))
        return called(other, "Select", words, None).words
    more = dice.choice([("Skip", ["1"]), ("Take", ["1"]), ("Reverse", []), None])
    return called(part, *more, None).words if more else part.words


def with_method(dice, part, scope, fuel):
    """One method more that gives a sequence."""
    items = part.type.item
    names = ["Where"] * 4 + ["Select"] * 4 + ["Skip", "Take", "Reverse", "Concat", "Skip", "Take"]
    names += ["Distinct", "Union", "Intersect", "Except"] * 2 if is_key(items) else []
    names += ["DefaultIfEmpty"] * 2 if has_default(items) else []
    name = dice.choice(names)
    if name == "Select":
        return with_select(dice, part, scope, fuel)
    if name == "Where":
        words = condition(dice, items, scope, fuel)
    elif name in ("Skip", "Take"):
        words = number(dice, scope, fuel)
    else:
        words = second(dice, part, scope, fuel) if name in ("Concat", "Union", "Intersect", "Except") else []
    return called(part, name, words, Sequence(items))


def element_of(dice, part, scope, fuel):
    """One item of a sequence."""
    items = part.type.item
    names = ["First", "First", "Last", "Last", "Single", "ElementAt"]
    names += ["FirstOrDefault", "FirstOrDefault", "SingleOrDefault"] if has_default(items) else []
    name = dice.choice(names)
    if name == "ElementAt":
        return called(part, name, number(dice, scope, fuel), items)
    return called(part, name, condition(dice, items, scope, fuel) if dice.random() < 0.4 else [], items)


def element(dice, scope, fuel):
    part = sequence(dice, scope, fuel)
    return element_of(dice, part, scope, fuel) if is_source(part.type) else part


def result(dice, wanted, scope, fuel):
    """A scalar that a sequence gives."""
    part = sequence(dice, scope, fuel)
    if not is_source(part.type):
        return leaf(dice, wanted, scope)
    items = part.type.item
    kind = dice.random()
    if wanted == "bool" and kind < 0.8:
        return decided(dice, part, scope, fuel)
    if wanted == "int" and kind < 0.4:
        return called(part, "Count", condition(dice, items, scope, fuel) if dice.random() < 0.4 else [], "int")
    if wanted in ("int", "int?") and kind < 0.8:
        name = dice.choice(["Sum", "Min", "Max"])
        if items == wanted and dice.random() < 0.7:
            return called(part, name, [], wanted)
        words, _ = function(dice, items, scope, lambda inner: scalar(dice, wanted, inner, fuel))
        return called(part, name, words, wanted)
    found = [path for path in paths_from(element_of(dice, part, scope, fuel), 2) if path.type == wanted]
    if found:
        return dice.choice(found)
    words, _ = function(dice, items, scope, lambda inner: scalar(dice, wanted, inner, fuel))
    return element_of(dice, called(part, "Select", words, Sequence(wanted)), scope, fuel)


def decided(dice, part, scope, fuel):
    """Any, All or Contains."""
    items = part.type.item
    name = dice.choice(["Any", "All", "Contains", "Contains"] if is_key(items) else ["Any", "All"])
    if name == "Contains":
        wanted = "int" if items == "int?" and dice.random() < 0.3 else items
        if wanted in scope.types():
            return called(part, name, scalar(dice, wanted, scope, fuel).words, "bool")
        return called(part, name, dice.choice([called(part, "First", [], items).words, ["null"]]), "bool")
    words = condition(dice, items, scope, fuel) if name == "All" or dice.random() < 0.5 else []
    return called(part, name, words, "bool")


def from_clause(dice, outside, inside, fuel):
    part = sequence(dice, inside, fuel - 1)
    if not is_source(part.type):
        return [], inside
    name = new_name(dice, inside, outside)
    return ["from", name, "in", *part.words], inside.plus(name, part.type.item)


def let_clause(dice, outside, inside, fuel):
    part = any_value(dice, inside, fuel)
    name = new_name(dice, inside, outside)
    return ["let", name, "=", *part.words], inside.plus(name, part.type)


def where_clause(dice, _, inside, fuel):
    return ["where", *scalar(dice, "bool", inside, max(fuel, 1)).words], inside


def orderby_clause(dice, _, inside, fuel):
    words = []
    for _ in range(dice.choice([1, 1, 2, 3])):
        words += [","] if words else ["orderby"]
        words += any_scalar(dice, inside, min(fuel, 1)).words + dice.choice([[], [], ["ascending"], ["descending"]])
    return words, inside


def join_clause(dice, outside, inside, fuel):
    """A join on keys of one type, or an int with an int?. The inner sequence and its key see none of the query's names."""
    part = sequence(dice, outside, fuel - 1)
    if not is_source(part.type):
        return [], inside
    name = new_name(dice, inside, outside)
    inner = outside.plus(name, part.type.item)
    outer_key, inner_key = keys(dice, inside, inner)
    words = ["join", name, "in", *part.words, "on", *outer_key, "equals", *inner_key]
    if dice.random() < 0.5:
        return words, inside.plus(name, part.type.item)
    group = dice.choice([name, new_name(dice, inside, outside)])
    return [*words, "into", group], inside.plus(group, Sequence(part.type.item))


def keys(dice, outer, inner):
    """The two keys of a join."""
    types = [its_type for its_type in outer.types() if its_type in inner.types()]
    its_type = dice.choice([*types, *(its_type for its_type in types if its_type in ("int?", "string"))])
    pair = [its_type, its_type]
    if its_type in ("int", "int?") and "int?" in types and dice.random() < 0.3:
        pair = [dice.choice(["int", "int?"]) for _ in pair]
    if dice.random() < 0.65:
        return [scalar(dice, wanted, scope, dice.choice([0, 0, 1])).words for wanted, scope in zip(pair, (outer, inner))]
    names, kinds = dice.sample(MEMBERS, 2), [its_type, dice.choice(types)]
    return [["new", "{", *members_words(dice, names, kinds, scope), "}"] for scope in (outer, inner)]


def members_words(dice, names, kinds, scope):
    """Members of the names and types, with commas between them."""
    words = [[name, "=", *scalar(dice, kind, scope, 0).words] for name, kind in zip(names, kinds)]
    return [word for place, member in enumerate(words) for word in ([","] if place else []) + member]


def body(dice, outside, inside, fuel):
    """Clauses, and what a query ends with; perhaps with more after `into`. With it the type of the items."""
    words = []
    clauses = [from_clause, let_clause, where_clause, where_clause, orderby_clause, join_clause, join_clause]
    for _ in range(dice.choice([0, 0, 1, 1, 2]) if fuel <= 1 else dice.choice([0, 1, 1, 2, 2, 3])):
        more, inside = dice.choice(clauses)(dice, outside, inside, fuel - 1)
        words += more
    part = any_value(dice, inside, fuel)
    if dice.random() < 0.65:
        words += ["select", *part.words]
        items = part.type
    else:
        by = key(dice, inside, fuel - 1)
        words += ["group", *part.words, "by", *by.words]
        items = Group(by.type, part.type)
    if dice.random() > 0.22 or fuel <= 0:
        return words, items
    name = new_name(dice, outside)
    more, items = body(dice, outside, outside.plus(name, items), fuel - 1)
    return [*words, "into", name, *more], items


def query(dice, scope, fuel):
    """A query's tokens without brackets, and its type."""
    words, inside = [], scope
    while not words:
        words, inside = from_clause(dice, scope, scope, fuel)
        if not words and not scope.seen:
            return Part(PRIMARY, ["from", new_name(dice, scope), "in", list(scope.tables)[0], "select", "1"], Sequence("int"))
    more, items = body(dice, scope, inside, fuel)
    return Part(0, [*words, *more], Sequence(items))


def plain_query(dice, scope):
    """A query over a table without more clauses: groups by a key, a sequence for each row, or an int that faults on some rows."""
    name, variable = dice.choice(list(scope.tables)), new_name(dice, scope)
    inside = scope.plus(variable, row_of(name, scope.tables[name]))
    words, kind = ["from", variable, "in", name], dice.random()
    if kind < 0.4:
        by, part = key(dice, inside, 0), dice.choice(inside.paths)
        return Part(0, [*words, "group", *part.words, "by", *by.words], Sequence(Group(by.type, part.type)))
    part = (sequence(dice, inside, 1) if kind < 0.7 else telling(dice, "int", inside)) or inside.paths[0]
    return Part(0, [*words, "select", *part.words], Sequence(part.type))


def top(dice, scope, fuel):
    """What is run, where no local name is in scope: mostly a query, else a sequence or another value."""
    kind = dice.random()
    if kind < 0.15:
        return plain_query(dice, scope)
    if kind < 0.6:
        return query(dice, scope, fuel)
    if kind < 0.8:
        return sequence(dice, scope, fuel + 1)
    return dice.choice([any_value, any_scalar, element])(dice, scope, fuel)
