"""Lines of a script by chance: queries over one table with conditions, nearly right ones, and lines of nothing. `dice` is a
random.Random.
"""

import scalars
from lexer import continues_name, is_name

VARIABLES = [
    "x", "x", "x", "y", "t", "row", "_", "_0", "X", "from_", "Select", "host", "x1", "int", "a_long_Name_2", "é", "変数", "x٣",
    "e\u0301",
]
OTHER_NAMES = VARIABLES + ["none", "c", "C", "u", "T", "items"]
SIGNS = ["<", ">", "<=", ">=", "==", "!="]
GAPS = [" ", " ", " ", " ", " ", "  ", "\t", "\r", " \t \r"]
ODD = list("éªßΩ٣３ａ😀#@$/*\\'\"-+=!(),:?&|[]{}`~%^<>.;0_x") + [
    "\u00a0", "\u2028", "\u2003", "\ufeff", "\u0085", "\u200b", "\x00", "\x0b", "\x0c", "\x1f", "\x7f",
    "//", "/*", "*/", "=>", "&&", "??", "->", "\ufeff\ufeff",
]
COMMENTS = ["", " ", " run from x in t select x.c;", "/", " é ٣ \ufeff 😀", " \x00\x0b", "\r", "\"'", " // twice"]
NUMBERS = ["2147483646", "2147483647", "2147483648", "2147483649", "4294967296", "9" * 10, "9" * 30, "0" * 30, "00"]
NO_NUMBERS = ["1.5", "1_0", "1_", "0x1", "1L", "-1", "+1", "1e3", "٣", "1٣", "３", "null", "true", "x.c", "'1'", "(1)"]
NO_SIGNS = ["=", "!", "< =", "> =", "= =", "! =", "===", "<==", "<>", "=<", "=>", "<<", "..", "&&", ","]
BLANKS = ["", "", "", " ", "\t", "\r", " \r\t ", "//", "// run from x in t select x.c;", " //\r// é"]
NO_BLANKS = ["/", "/ /", "\x0b", "\u00a0", "\ufeff", ";", ";;", "0", "#", "# no comment", "-- no comment", "/* no comment */"]
KEYWORDS = """
    abstract base bool break byte case catch char checked class const continue decimal default delegate do double else enum event
    explicit extern finally fixed float for foreach goto if implicit int interface internal is lock long namespace object operator
    out override params private protected public readonly ref return sbyte sealed short sizeof stackalloc static string struct
    switch this throw try typeof uint ulong unchecked unsafe ushort using virtual void volatile while add alias and async await
    dynamic get global init managed nameof not or partial record remove required unmanaged value when with yield
    from where select group into orderby join let in on equals by ascending descending var run as insert delete update set new
    true false null Host
""".split()
OTHER_QUERIES = """
    from x in t select x.c
    t
    t.c
    from x in t select x
    from x in t select 1
    from x in t select null
    from x in t select new { x.c }
    from x in t select x.c + 1
    from x in t select (x.c)
    from x in t select t.c
    from t in t select t.c
    from x in x select x.c
    from x in t
    from x in t where x.c > 1
    from x in t select x.c where x.c > 1
    from x in t where x.c > 1 where x.c < 3 select x.c
    from x in t where x.c >= 1 && x.c <= 1 select x.c
    from x in t where x.c == 1 || x.c == 2 select x.c
    from x in t where !(x.c == 1) select x.c
    from x in t where (x.c == 1) select x.c
    from x in t where 1 < x.c select x.c
    from x in t where x.c == x.c select x.c
    from x in t where x.c > -1 select x.c
    from x in t where x.c == null select x.c
    from x in t where x.c select x.c
    from x in t where true select x.c
    from x in t where x.c < 1 < 2 select x.c
    from x in t where t.c > 1 select x.c
    from x in t where c > 1 select c
    from x in t orderby x.c select x.c
    from x in t orderby x.c descending, x.c ascending select x.c
    from x in t let y = x.c select y
    from x in t from y in t select y.c
    from x in t join y in t on x.c equals y.c select y.c
    from x in t join y in t on x.c equals y.c into g select g
    from x in t group x by x.c
    from x in t group x.c by x.c into g select g.Key
    from x in t select x.c into y select y
    from int x in t select x.c
    from @x in t select @x.c
    from x in t.c select x.c
    from x in (t) select x.c
    from x in from y in t select y select x.c
    t.Select(x => x.c)
    from x in t select x . c
    from x in t select x..c
    from x in t select x.c.c
    from x in t select x?.c
    from x in t where Host.f(x.c) select x.c
""".strip().split("\n")


def number_near(dice, table, column):
    """A number that a comparison with the column's cells says something about; one in ten is any number of the pool."""
    if dice.random() < 0.1:
        return dice.choice(NUMBERS)
    cells = [row[column] for row in table.rows if row[column] is not None and row[column] >= 0] or [0]
    value = min(max(dice.choice(cells) + dice.choice([-1, 0, 0, 0, 1]), 0), 2147483647)
    return dice.choice(["", "", "", "0", "00", "0" * 40]) + str(value)


def number_columns(table):
    """The columns of integers, of which each table has one."""
    return [column for column, its_type in table.columns.items() if its_type == "int"]


def comparison(dice, variable, table):
    """A comparison of a column with a number that says something about it, or now and then with another column."""
    columns = [column for column, its_type in table.columns.items() if its_type in ("int", "int?")]
    column = dice.choice(columns)
    other = [variable, ".", dice.choice(columns)] if dice.random() < 0.1 else [number_near(dice, table, column)]
    return [variable, ".", column, dice.choice(SIGNS), *other]


def statement(dice, tables):
    """The spelled tokens of a query with conditions over one of the tables."""
    name, table = dice.choice(list(tables.items()))
    variable = dice.choice(VARIABLES + [name])
    scope = scalars.Scope(variable, table)
    words = ["run", "from", variable, "in", name]
    for _ in range(dice.choice([0, 0, 1, 1, 1, 2])):
        words += ["where", *(comparison(dice, variable, table) if dice.random() < 0.7 else scalars.condition(dice, scope, 2))]
    if dice.random() < 0.3:
        return words + ["select", *scalars.scalar(dice, scope), ";"]
    return words + ["select", variable, ".", dice.choice(list(table.columns)), ";"]


def joins(line, word):
    """Whether the word, put directly after the line, would be part of the line's last word."""
    return all(end and continues_name(end) for end in (line[-1:], word[:1]))


def spell(dice, words):
    """The tokens in one line: white space where two words would be one, and by chance elsewhere, and perhaps a comment."""
    line = dice.choice(["", "", "", "", " ", "\t", "\r "])
    for word in words:
        if joins(line, word) or dice.random() < 0.25:
            line += dice.choice(GAPS)
        line += word
    line += dice.choice(["", "", "", "", " ", "\r", "\t"])
    return line + ("//" + dice.choice(COMMENTS) if dice.random() < 0.1 else "")


def served(dice, tables):
    return spell(dice, statement(dice, tables))


def scalar(dice, tables):
    """A scalar expression alone."""
    return spell(dice, ["run", *scalars.scalar(dice, scalars.Scope()), ";"])


def other_tokens(dice, tables):
    """Some tokens are missing, doubled, or moved to the front of others; one is put in or replaced; or the line ends early."""
    words = statement(dice, tables)
    start = dice.randrange(len(words))
    end = start + dice.choice([1, 1, 1, 2, 3, 4, 6])
    other = dice.choice([*words, *KEYWORDS, *OTHER_NAMES, *SIGNS, *NO_SIGNS, *NUMBERS, *NO_NUMBERS, ";", "."])
    edited = [
        words[:start] + words[end:],
        words[:end] + words[start:],
        words[:start] + words[end:end + 1] + words[start:end] + words[end + 1:],
        words[:start] + [other] + words[start:],
        words[:start] + [other] + words[start + 1:],
        words[:end],
    ]
    return spell(dice, dice.choice(edited))


def other_characters(dice, tables):
    """One character is put in, missing, replaced, or a capital (and no other is); or the white space at one place is missing."""
    line = served(dice, tables)
    place = dice.randrange(len(line) + 1)
    edited = [
        line[:place] + dice.choice(ODD) + line[place:],
        line[:place] + line[place + 1:],
        line[:place] + dice.choice(ODD) + line[place + 1:],
        line[:place] + line[place:].capitalize(),
        line[:place] + line[place:].replace(" ", "", 1),
    ]
    return dice.choice(edited)


def other_names(dice, tables):
    """One name, or two, that may mean nothing: a table, a column or a range variable that isn't there, or another one."""
    words = statement(dice, tables)
    names = [place for place, word in enumerate(words) if is_name(word)]
    pool = OTHER_NAMES + list(tables) + [column for table in tables.values() for column in table.columns]
    for place in dice.sample(names, dice.choice([1, 1, 1, 2])):
        words[place] = dice.choice([dice.choice(pool), words[place].swapcase(), words[place] + "_", words[place][:-1] or "_"])
    return spell(dice, words)


def reserved_names(dice, tables):
    """A word that may be reserved in the place of a name, as it is or in another case, in which it is a name."""
    words = statement(dice, tables)
    names = [place for place, word in enumerate(words) if is_name(word)]
    word = dice.choice(KEYWORDS)
    words[dice.choice(names)] = dice.choice([word, word.capitalize(), word.upper(), word + "_", "_" + word])
    return spell(dice, words)


def other_numbers(dice, tables):
    """A condition with a number at a limit, or with what isn't a number."""
    name, table = dice.choice(list(tables.items()))
    column = dice.choice(number_columns(table))
    number = dice.choice(["", "", "0", "0" * 100]) + dice.choice(NUMBERS + NO_NUMBERS)
    words = ["run", "from", "x", "in", name, "where", "x", ".", column, dice.choice(SIGNS), number]
    return spell(dice, [*words, "select", "x", ".", column, ";"])


def nothing(dice, tables):
    """A line without tokens; now and then one that only looks so, alone or after a statement."""
    if dice.random() < 0.6:
        return dice.choice(BLANKS)
    return dice.choice(["", served(dice, tables)]) + dice.choice(NO_BLANKS)


def two(dice, tables):
    """Two statements in one line, which isn't a statement."""
    return served(dice, tables).split("//")[0] + served(dice, tables)


KINDS = {
    served: 58,
    scalar: 4,
    other_tokens: 11,
    other_characters: 8,
    other_names: 9,
    reserved_names: 2,
    other_numbers: 3,
    nothing: 4,
    two: 1,
}


def line(dice, tables):
    """A line of any kind."""
    kind = dice.choices(list(KINDS), list(KINDS.values()))[0]
    return kind(dice, tables).replace("\n", " ")
