"""Lines by chance in which host predicates are asked, and tables and rights for them. `dice` is a random.Random.

The columns of a table are called by what their cells are: numbers near the ends of the ranges of predicates, and some outside.
"""

import policy_files
import queries
import query_lines
from clashes import clash
from lexer import is_name
from queries import PRIMARY, Part, Scope
from scopes import Row, Sequence, row_of
from statements import spell
from tables import Table

TABLE_NAMES = ["t", "u", "staff", "years"]
# Of each kind of column its names, its cells, and cells outside of the range that it is meant for.
YEARS = ["year", "born", "y"]
SMALL = ["dept", "rank", "small"]
CELLS = {
    "year": ([1, 4, 96, 100, 400, 1600, 1700, 1900, 1996, 1999, 2000, 2000, 2001, 2024, 2100, 9996, 9999],
             [0, 0, -1, -4, 10_000, 10_000, 10_004, 2_147_483_647, -2_147_483_648]),
    "small": ([-1000, -999, -4, -1, 0, 1, 1, 2, 3, 4, 10, 400, 999, 1000],
              [-1001, -1001, 1001, 1001, 2_147_483_647, -2_147_483_648]),
    "number": ([-1, 0, 1, 1, 2, 2, 3, 4, 5], [-2_147_483_648, 2_147_483_647]),
}
OTHERS = {"id": "int", "n": "int", "boss": "int?", "s": "string", "b": "bool"}
LISTS = ["1", "2,3", "0,1,2000", "-1,4,9999", "2147483647,-2147483648,1", "1996,2000,1,2,3"]

ONE, TWO, LISTED = "LeapYear", "Under", "Watched"
# In a form T and U are tables, x and b are rows of T and y is one of U; ASKx is a predicate asked of x, and so on, COLx a column of x, and
# MAYx an int of x that faults on some rows.
FORMS = """
    from x in T where ASKx select x . COLx
    from x in T where ASKx && ASKx select x
    from x in T where ! ASKx || ASKx select x . COLx
    from x in T select ASKx
    from x in T select new { a = ASKx , b = x . COLx }
    from x in T orderby ASKx , x . COLx descending select x . COLx
    from x in T let a = ASKx where a select x . COLx
    from x in T group x . COLx by ASKx
    from x in T from y in U where ASKx == ASKy select new { a = x . COLx , b = y . COLy }
    from x in T join y in U on ASKx equals ASKy select y . COLy
    from x in T join y in U on x . COLx equals y . COLy into g from y in g . DefaultIfEmpty ( ) where y == null || ASKy select x . COLx
    from x in T join y in U on x . COLx equals y . COLy into g from y in g . DefaultIfEmpty ( ) select ASKy
    from x in T select U . Where ( y => ASKx && ASKy ) . Select ( y => y . COLy )
    from x in T where U . Any ( y => ASKy ) select ASKx ? 1 : 2
    from x in T where T . Count ( b => ASKb ) > 1 && ASKx select x . COLx
    T . Where ( x => ASKx )
    T . Where ( x => ASKx ) . Select ( x => x . COLx ) . Take ( 1 )
    T . Where ( x => ASKx ) . Where ( x => ASKx ) . Count ( )
    T . Count ( x => ASKx )
    T . Any ( x => ASKx )
    T . All ( x => ASKx )
    T . First ( x => ASKx )
    T . FirstOrDefault ( x => ASKx )
    T . Last ( x => ASKx ) . COLx
    T . Single ( x => ASKx )
    T . Where ( x => false ) . DefaultIfEmpty ( ) . Select ( x => ASKx )
    T . Where ( x => false ) . DefaultIfEmpty ( ) . Where ( x => x != null && ASKx ) . Count ( )
    T . Select ( x => false && ASKx )
    T . Take ( 0 ) . Select ( x => ASKx )
    T . Select ( x => true || ASKx ) . Count ( )
    T . Select ( x => new { r = x , a = 1 } ) . Where ( z => ASKz.r )
    T . Select ( x => ( x . COLx > 1 ? x : null ) ) . Where ( x => ASKx ) . Select ( x => x . COLx )
    T . Select ( x => ASKx ) . Distinct ( )
    T . Select ( x => ASKx ) . Contains ( true )
    ASK_ONE
    ASK_ONE ? 1 : 2
    new { a = ASK_ONE , b = ASK_ONE }
""".strip().split("\n")
NO_CALLS = [
    "Host . LeapYear ( 2000 )", "Host . LeapYear ( x )", "Host . LeapYear ( x . none )", "Host . LeapYear ( x . year + 0 )",
    "Host . LeapYear ( x . boss )", "Host . Under ( x . year )", "Host . LeapYear ( x . year , x . year )", "Host . none ( x . year )",
    "Host . leapyear ( x . year )", "Host . Under ( x . year , 2000 )", "Host . Under ( x . year , ( true ? x : x ) . year )",
    "Host . Under ( T . First ( ) . id , T . First ( ) . id )", "Host . LeapYear ( new { x . year } . year )", "Host . Under ( x , x )",
    "Host . LeapYear ( T . First ( ) . s )", "Host . Watched ( x . year , x . id )", "Host . LeapYear ( null )",
]


class HostScope(Scope):
    """A scope in which a truth value is often what a predicate answers. `listed` is whether there is `Watched`."""

    listed = False

    def special(self, dice, wanted):
        return asked(dice, self) if wanted == "bool" and dice.random() < 0.4 else None


class ListedScope(HostScope):
    listed = True


def scope_of(watched):
    return HostScope if watched is None else ListedScope


def kind_of(column):
    return "year" if column in YEARS else "small" if column in SMALL else "number"


def table(dice):
    """A table with a column for years at least, and mostly one for small numbers; in some columns there are cells outside of the ranges."""
    names = dice.sample(YEARS, dice.choice([1, 1, 2])) + dice.sample(SMALL, dice.choice([0, 1, 1, 2]))
    names += dice.sample(list(OTHERS), dice.choice([1, 2, 3]))
    dice.shuffle(names)
    columns = {name: OTHERS.get(name, "int") for name in names}
    outside = {name: dice.choice([0, 0, 0, 0.1, 0.3]) for name in names}
    count = dice.choice([0, 1, 2, 3, 4, 5, 6, 7])
    rows = [{name: cell(dice, name, its_type, outside[name]) for name, its_type in columns.items()} for _ in range(count)]
    return Table(columns, rows)


def cell(dice, column, its_type, outside):
    if its_type != "int":
        return dice.choice(queries.CELLS[its_type])
    within, beyond = CELLS[kind_of(column)]
    return dice.choice(beyond if dice.random() < outside else within)


def tables(dice):
    return {name: table(dice) for name in dice.sample(TABLE_NAMES, dice.choice([1, 2, 2, 3]))}


def add_rights(dice, file, roles, watched):
    """Puts rights to predicates in a file: a grant of most of them, mostly to everybody, and now and then withholds of some."""
    names = [ONE, TWO] + ([LISTED] if watched is not None else [])
    given = [f"Host.{name}" for name in names if dice.random() < 0.95]
    file["grant"].append({"name": "asks", "rights": given, "to": dice.choice([["public"]] * 9 + [[dice.choice(roles)]])})
    for title in ["no-asking", "no-leaps"][:dice.choice([0, 0, 0, 0, 1, 2])]:
        rights = [f"Host.{name}" for name in dice.sample(names, dice.choice([1, 1, 2]))]
        place = dice.randrange(len(file["withhold"]) + 1)
        file["withhold"].insert(place, {"name": title, "rights": rights, "to": [dice.choice(["public", *roles])]})
    return file


def rights_of(watched):
    """What makes the rights of a file."""

    def made(dice, some_tables, roles):
        found = dice.choice([policy_files.open_rights] * 3 + [policy_files.some_rights])(dice, some_tables, roles)
        return add_rights(dice, found, roles, watched)

    return made


def int_columns(its_type):
    return [name for name, kind in its_type.members if kind == "int"]


def column_for(dice, its_type, *kinds):
    """A column of ints, mostly of one of these kinds."""
    columns = int_columns(its_type)
    fitting = [name for name in columns if kind_of(name) in kinds]
    return dice.choice(fitting if fitting and dice.random() < 0.85 else columns)


def is_row(its_type):
    return isinstance(its_type, Row) and int_columns(its_type)


def one_word(dice, scope):
    """The name of a predicate of one argument."""
    return dice.choice([ONE, ONE, LISTED]) if scope.listed else ONE


def asked_of_one(dice, scope, part):
    """A predicate of one argument, of a row that an expression gives."""
    name = one_word(dice, scope)
    column = column_for(dice, part.type, *(("year",) if name == ONE else ("number", "year", "small")))
    return Part(PRIMARY, ["Host", ".", name, "(", *part.bound(), ".", column, ")"], "bool")


def asked_of_two(dice, name, its_type):
    """The predicate of two arguments, of a local name."""
    first, second = column_for(dice, its_type, "small", "number"), column_for(dice, its_type, "year")
    words = [name, ".", first, ",", name, ".", second]
    if dice.random() < 0.05:
        words = ["(", *words[:3], ")", ",", "(", name, ")", *words[5:]]
    return Part(PRIMARY, ["Host", ".", TWO, "(", *words, ")"], "bool")


def row_of_table(dice, scope):
    """One row of a table; None where local names hide all."""
    names = [name for name, content in scope.seen.items() if "int" in content.columns.values()]
    if not names:
        return None
    name = dice.choice(names)
    source = Part(PRIMARY, [name], Sequence(row_of(name, scope.seen[name])))
    return queries.element_of(dice, source, Scope(scope.names, scope.tables, scope.given), 0)


def asked(dice, scope):
    """A predicate asked of a row that is there; None where there is none."""
    local = [(name, its_type) for name, its_type in scope.names.items() if is_row(its_type)]
    paths = [path for path in scope.paths if is_row(path.type)]
    kind = dice.random()
    if local and kind < 0.4:
        return asked_of_two(dice, *dice.choice(local))
    if paths and kind < 0.88:
        path = dice.choice(paths)
        if dice.random() < 0.06:
            path = Part(0, [dice.choice(["true", "false"]), "?", *path.words, ":", "null"], path.type)
        return asked_of_one(dice, scope, path)
    row = row_of_table(dice, scope)
    return asked_of_one(dice, scope, row) if row else None


def form(dice, scope, forms=FORMS):
    """One of these forms, with calls in the places of its words."""
    names = dict(zip("TU", dice.choices(list(scope.tables), k=2)))
    rows = {word: row_of(name, scope.tables[name]) for word, name in names.items()}
    types = {"x": rows["T"], "b": rows["T"], "z.r": rows["T"], "y": rows["U"]}
    words = []
    for word in dice.choice(forms).split():
        if word == "ASK_ONE":
            found = row_of_table(dice, scope)
            words += asked_of_one(dice, scope, found).words if found else ["true"]
        elif word.startswith("ASK"):
            words += asked_by_name(dice, scope, word[3:], types[word[3:]]).words
        elif word.startswith("COL"):
            words.append(column_for(dice, types[word[3:]], "number"))
        elif word.startswith("MAY"):
            words += faulting(dice, word[3:], types[word[3:]])
        else:
            words.append(names.get(word, word))
    return words


def faulting(dice, name, its_type):
    """An int of a row, which faults where a column is null; where no column may be, where one is a small number."""
    members = {"int?": "Value", "string": "Length"}
    nullable = [[name, ".", column, ".", members[kind]] for column, kind in its_type.members if kind in members]
    if nullable and dice.random() < 0.6:
        return dice.choice(nullable)
    return ["10", "/", "(", name, ".", column_for(dice, its_type, "number"), "-", dice.choice("123"), ")"]


def asked_by_name(dice, scope, name, its_type):
    if "." not in name and dice.random() < 0.45:
        return asked_of_two(dice, name, its_type)
    return asked_of_one(dice, scope, Part(PRIMARY, name.replace(".", " . ").split(), its_type))


def no_call(dice, scope):
    """A query with what is hardly ever a call of a predicate."""
    name = dice.choice(list(scope.tables))
    words = dice.choice(NO_CALLS).replace("T", name).split() if dice.random() < 0.8 else other_word(dice, form(dice, scope))
    return ["from", "x", "in", name, "where", *words, "select", "1"] if words[0] == "Host" else words


def other_word(dice, words):
    """A name or a comma in the brackets of a predicate is another one, or gone."""
    places = [place for place, word in enumerate(words) if word == "Host"]
    if not places:
        return words
    first = dice.choice(places) + 2
    inside = [place for place in range(first, min(first + 9, len(words))) if is_name(words[place]) or words[place] == ","]
    place = dice.choice(inside)
    other = dice.choice([[], ["boss"], ["s"], ["id"], ["none"], ["x"], ["y"], [ONE], [TWO], [",", "x", ".", "year", ","]])
    return [*words[:place], *other, *words[place + 1:]]


def line(dice, some_tables, watched):
    """A line that has a type, or now and then none."""
    scope = scope_of(watched)({}, some_tables)
    kind = dice.random()
    if kind < 0.5:
        words = form(dice, scope)
    elif kind < 0.85:
        words = queries.top(dice, scope, dice.choice([1, 2, 2, 3])).words
    elif kind < 0.92:
        words = clash(dice, scope).words
    else:
        words = no_call(dice, scope)
    if dice.random() < 0.04:
        words = dice.choice([query_lines.other_part, query_lines.other_method, query_lines.other_name])(dice, words)
    return spell(dice, ["run", *words, ";"])
