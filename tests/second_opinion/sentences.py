"""Lines of the whole grammar by chance: right ones, nearly right ones, and deep ones. `dice` is a random.Random.

A sentence is the list of its tokens' spellings. `fuel` bounds how far a sentence grows; it gets less with each form inside.
"""

from depth import MOST_BRACKETS, MOST_WEIGHT, depth_of
from lexer import RESERVED, SIGNS, tokens_of
from statements import number_columns, spell

NAMES = [
    "x", "x", "x", "y", "t", "t", "c", "c", "_", "row", "First", "Select", "é", "e\u0301", "变量", "имя", "ª", "x٣", "ﬁ", "_1",
    "a·b",
]
INTEGERS = ["0", "1", "2", "10", "007", "2147483647", "00002147483647"]
ESCAPES = [
    r"\'", r"\"", r"\\", r"\0", r"\a", r"\b", r"\f", r"\n", r"\r", r"\t", r"\v", r"\u00e9", r"\uD7fF", r"\uE000", r"\u0000",
]
NO_ESCAPES = [
    r"\x41", r"\U00000041", r"\ud800", r"\uDfFf", r"\u12", r"\u12g4", r"\u", r"\1", r"\e", r"\N", r"\ ", "\\", r"\u{41}",
    r"\u٣٣٣٣", r"\uＡ000", '"', '""', "\\é",
]
PIECES = [
    "a", "b c", "//", "'", "é", "😀", "\t", "\r", "\x00", "\u2028", "/*", "from", "{", ")", "", "\ufeff", *ESCAPES, *ESCAPES,
]
FORMS = """
    new { ( a ) } | new { ( a . b ) } | new { ( a ) . b } | new { a . b ( ) } | new { a . b = 1 } | new { , } | new { a , , b }
    new { 1 . a } | t . f ( x => y => 1 ) | t . f ( ( x => 1 ) ) | ( x => 1 ) | x => 1 | t . f ( x => a ? b : c )
    t . f ( from x in t select 1 ) | ( from x in t select 1 ) | from x in t select 1 | Host . p ( ) | Host . p ( 1 , 2 )
    Host . p ( 1 , 2 , 3 ) | Host . p ( 1 , ) | Host . p ( x => 1 ) | Host . p ( ( 1 ) ) | Host | Host . p | x . Host | x . from | from | ( ) | ( 1 } | { 1 } | x = 1 | + 1
    2147483648 | - 2147483648 | - 2147483648 . x | ( - 2147483648 ) . x | - ( 2147483648 ) | - - 2147483648 | 1 - 2147483648
    x ?. c | f ( 1 ) | x . c ( ) ( ) | a ? b | 1 .
""".replace("\n", " | ").strip(" |").split(" | ")
LITERALS = ["true", "false", "null"]
CHARACTERS = list("éªßΩ变имя٣３ａⅫ·‿\u0301😀#@$'\"\\&|[]~^`°€²½\u00a0\u2003\ufeff\u200b\x00\x0b\x0c\x85")
BRACKETS = ["(", ")", "{", "}"]
LEVELS = [["||"], ["&&"], ["==", "!="], ["<", ">", "<=", ">="], ["+", "-"], ["*", "/", "%"]]
COMPARISONS = LEVELS[2] + LEVELS[3]


def chance(dice, fuel):
    """Whether a sentence grows at this place."""
    return fuel > 0 and dice.random() < 0.12 + 0.03 * fuel


def listed(dice, words_of, least=1):
    """Some parts with commas between them."""
    words = []
    for place in range(dice.choice([least, 1, 1, 2, 3])):
        words += ([","] if place else []) + words_of()
    return words


def text(dice):
    return '"' + "".join(dice.choice(PIECES) for _ in range(dice.choice([0, 1, 1, 2, 4]))) + '"'


def name(dice):
    return dice.choice(NAMES)


def expression(dice, fuel):
    words = coalescing(dice, fuel)
    if chance(dice, fuel - 1):
        words += ["?", *expression(dice, fuel - 1), ":", *expression(dice, fuel - 1)]
    return words


def coalescing(dice, fuel):
    words = operands(dice, fuel, 0)
    return words + ["??", *coalescing(dice, fuel - 1)] if chance(dice, fuel - 1) else words


def operands(dice, fuel, level):
    if level == len(LEVELS):
        return unary(dice, fuel)
    words = operands(dice, fuel, level + 1)
    while chance(dice, fuel - 1):
        fuel -= 1
        words += [dice.choice(LEVELS[level]), *operands(dice, fuel, level + 1)]
    return words


def unary(dice, fuel):
    if dice.random() < 0.03:
        return ["-", dice.choice(["", "", "00"]) + "2147483648"]
    return [dice.choice("!-"), *unary(dice, fuel)] if dice.random() < 0.12 else primary(dice, fuel)


def primary(dice, fuel):
    words = operand(dice, fuel)
    while chance(dice, fuel):
        fuel -= 1
        words += [".", name(dice)]
        if dice.random() < 0.5:
            words += ["(", *listed(dice, lambda: argument(dice, fuel), 0), ")"]
    return words


def operand(dice, fuel):
    forms = [
        lambda: [name(dice)], lambda: [name(dice), ".", name(dice)], lambda: [dice.choice(INTEGERS)], lambda: [text(dice)],
        lambda: [dice.choice(LITERALS)],
    ]
    if fuel > 0:
        forms += [
            lambda: ["(", *top(dice, fuel - 1), ")"],
            lambda: ["Host", ".", name(dice), "(", *asked(dice, fuel - 1), ")"],
            lambda: ["new", "{", *members(dice, fuel - 1), "}"],
        ]
    return dice.choice(forms)()


def asked(dice, fuel):
    """One argument of a host predicate, or two."""
    return [*expression(dice, fuel), ",", *expression(dice, fuel)] if dice.random() < 0.3 else expression(dice, fuel)


def members(dice, fuel):
    """None, or some with or without a comma after the last."""
    words = listed(dice, lambda: member(dice, fuel))
    return dice.choice([[], words, words, [*words, ","]])


def member(dice, fuel):
    if dice.random() < 0.4:
        return [name(dice)]
    if dice.random() < 0.5:
        return [name(dice), "=", *expression(dice, fuel)]
    return [*primary(dice, fuel), ".", name(dice)]


def argument(dice, fuel):
    return ([name(dice), "=>"] if dice.random() < 0.4 else []) + expression(dice, fuel - 1)


def top(dice, fuel):
    return query(dice, fuel) if dice.random() < 0.4 else expression(dice, fuel)


def query(dice, fuel):
    return ["from", name(dice), "in", *expression(dice, fuel - 1), *body(dice, fuel - 1)]


def body(dice, fuel):
    words = []
    for _ in range(dice.choice([0, 0, 1, 1, 2, 3])):
        words += clause(dice, fuel - 1)
    if dice.random() < 0.7:
        words += ["select", *expression(dice, fuel)]
    else:
        words += ["group", *expression(dice, fuel), "by", *expression(dice, fuel)]
    return words + ["into", name(dice), *body(dice, fuel - 1)] if chance(dice, fuel) else words


def clause(dice, fuel):
    def inner():
        return expression(dice, fuel)

    end = dice.choice([[], ["into", name(dice)]])
    return dice.choice([
        lambda: ["from", name(dice), "in", *inner()],
        lambda: ["let", name(dice), "=", *inner()],
        lambda: ["where", *inner()],
        lambda: ["join", name(dice), "in", *inner(), "on", *inner(), "equals", *inner(), *end],
        lambda: ["orderby", *listed(dice, lambda: [*inner(), *dice.choice([[], [], ["ascending"], ["descending"]])])],
    ])()


def cell(dice):
    number = ["-", dice.choice([*INTEGERS, "2147483648"])]
    return dice.choice([[dice.choice(INTEGERS)], number, [text(dice)], [dice.choice(LITERALS)]])


def sentence(dice):
    """A statement of any kind that the grammar spells; most have no type."""
    fuel = dice.choice([1, 2, 3, 4])
    return dice.choice([
        lambda: ["run", *query(dice, fuel), ";"],
        lambda: ["run", *expression(dice, fuel + 1), ";"],
        lambda: [*dice.choice([["var"], []]), name(dice), "=", *top(dice, fuel), ";"],
        lambda: ["as", name(dice), ";"],
        lambda: ["insert", name(dice), "(", *listed(dice, lambda: cell(dice)), ")", ";"],
        lambda: ["delete", name(dice), name(dice), "=>", *expression(dice, fuel), ";"],
    ])()


def bracketed(dice, words):
    """The words, perhaps in brackets that leave no trace."""
    while dice.random() < 0.2:
        words = ["(", *words, ")"]
    return words


def number(dice, variable, table):
    """An operand of a comparison over the columns of a row."""
    column = dice.choice(number_columns(table))
    near = [str(row[column]) for row in table.rows if row[column] >= 0] or ["1"]
    return bracketed(dice, dice.choice([
        [*bracketed(dice, [variable]), ".", column], [dice.choice(near)], [dice.choice(INTEGERS)], ["-", "2147483648"],
    ]))


def comparison(dice, variable, table):
    operands_of = [number(dice, variable, table) for _ in range(2)]
    return bracketed(dice, [*operands_of[0], dice.choice(COMPARISONS), *operands_of[1]])


def served(dice, tables):
    """A query with conditions over one of the tables, and a scalar selected."""
    its_name, table = dice.choice(list(tables.items()))
    variable = dice.choice([its_name, *NAMES])
    words = ["from", variable, "in", *bracketed(dice, [its_name])]
    for _ in range(dice.choice([0, 0, 1, 1, 2, 3])):
        words += ["where", *comparison(dice, variable, table)]
    selected = dice.choice([number, number, comparison])(dice, variable, table)
    return ["run", *bracketed(dice, [*words, "select", *selected]), ";"]


def untyped(dice, tables):
    """A query with conditions, whose parts are of any type."""
    its_name, table = dice.choice(list(tables.items()))
    variable = dice.choice([its_name, *NAMES])

    def part():
        return dice.choice([number, number, comparison, lambda *_: [variable], lambda *_: [its_name]])(dice, variable, table)

    words = ["from", variable, "in", *dice.choice([[its_name], [its_name], part()])]
    for _ in range(dice.choice([0, 1, 1, 2])):
        words += ["where", *bracketed(dice, dice.choice([part(), [*part(), dice.choice(COMPARISONS), *part()]]))]
    return ["run", *words, "select", *part(), ";"]


def any_token(dice):
    return dice.choice([
        lambda: name(dice), lambda: dice.choice(SIGNS), lambda: dice.choice(sorted(RESERVED)), lambda: text(dice),
        lambda: dice.choice([*INTEGERS, "2147483648", "2147483649"]),
    ])()


def other_tokens(dice, words):
    """A token is dropped, doubled, exchanged with the next or by another one, or one more is there."""
    place = dice.randrange(len(words))
    before, here, behind = words[:place], words[place:place + 1], words[place + 1:]
    return dice.choice([
        lambda: before + behind,
        lambda: before + here + here + behind,
        lambda: before + behind[:1] + here + behind[1:],
        lambda: [*before, any_token(dice), *behind],
        lambda: [*before, any_token(dice), *here, *behind],
    ])()


def other_brackets(dice, words):
    """One bracket more, or another one in a bracket's place."""
    places = [place for place, word in enumerate(words) if word in BRACKETS]
    if places and dice.random() < 0.5:
        place = dice.choice(places)
        return [*words[:place], dice.choice(BRACKETS), *words[place + 1:]]
    place = dice.randrange(len(words) + 1)
    return [*words[:place], dice.choice(BRACKETS), *words[place:]]


def other_forms(dice, words):
    """A form that isn't an expression, or hardly one, is in a name's or an integer's place."""
    places = [place for place, word in enumerate(words) if word in NAMES or word in INTEGERS]
    if not places:
        return words
    place = dice.choice(places)
    return [*words[:place], *dice.choice(FORMS).split(), *words[place + 1:]]


def other_escapes(dice, words):
    """A text of which one escape, or one character, is spoiled."""
    spoiled = text(dice)
    place = dice.randrange(1, len(spoiled))
    spoiled = spoiled[:place] + dice.choice(NO_ESCAPES) + spoiled[place:]
    place = dice.randrange(len(words))
    return [*words[:place], spoiled, *words[place + 1:]]


def other_characters(dice, line):
    """A character, mostly of another script, is put in or takes another one's place."""
    place = dice.randrange(len(line) + 1)
    return line[:place] + dice.choice(CHARACTERS) + line[place + dice.choice([0, 1]):]


def nearly(dice, tables):
    """A line that is one edit from a right one, and may be right by chance."""
    words = served(dice, tables) if dice.random() < 0.4 else sentence(dice)
    kind = dice.choice([
        other_tokens, other_tokens, other_tokens, other_brackets, other_forms, other_forms, other_escapes, other_characters,
    ])
    return kind(dice, spell(dice, words)) if kind is other_characters else spell(dice, kind(dice, words))


def wrapped(dice, words, brackets):
    """An expression inside so many brackets, mostly parentheses."""
    others = [
        (["(", "1", "+"], [")"]), (["new", "{", "a", "="], ["}"]), (["t", ".", "f", "("], [")"]),
        (["t", ".", "f", "(", "y", "=>"], [")"]), (["Host", ".", "p", "("], [")"]),
        (["(", "from", "x", "in", "t", "select"], [")"]),
    ]
    share = dice.choice([0, 0, 0, 0.2, 0.8])
    for _ in range(brackets):
        opening, closing = dice.choice(others) if dice.random() < share else (["("], [")"])
        words = [*opening, *words, *closing]
    return words


def weight_of(words):
    return depth_of(tokens_of(" ".join(words)))[1]


def weighted(dice, words, statement, weight):
    """The expression after so many signs that the statement has the weight, if it had less."""
    lacking = max(weight - weight_of(statement(words)), 0)
    signs, cost = dice.choice([
        (["1", "+"], 1), (["true", "&&"], 1), (["x", "??"], 1), (["1", "-", "1", "*"], 2), (["-"], 1), (["!"], 1),
        (["a", "?", "b", ":"], 2), (["(", "1", "-", "2", ")", "%"], 1), (["new", "{", "a", "=", "1", "}", "+"], 2),
    ])
    return signs * (lacking // cost) + ["-"] * (lacking % cost) + words


STATEMENTS = [
    lambda words: ["run", *words, ";"],
    lambda words: ["run", "from", "x", "in", "t", "where", *words, "select", "x", ";"],
    lambda words: ["var", "x", "=", *words, ";"],
    lambda words: ["delete", "t", "x", "=>", *words, ";"],
]


def deep_served(dice, tables):
    """What is selected is in so many brackets as may be, or in one or two more."""
    its_name, table = dice.choice(list(tables.items()))
    brackets = MOST_BRACKETS + dice.choice([-1, 0, 0, 1, 2])
    column = ["x", ".", dice.choice(number_columns(table))]
    selected = ["("] * brackets + column + [")"] * brackets
    wheres = ["where", *column, dice.choice(COMPARISONS), "1"] * dice.choice([0, 0, 1, 2, 3])
    return ["run", "from", "x", "in", its_name, *wheres, "select", *selected, ";"]


def long_served(dice, tables):
    """Many conditions, up to the weight's limit and past it."""
    its_name, table = dice.choice(list(tables.items()))
    column = ["x", ".", dice.choice(number_columns(table))]
    always = dice.choice([[*column, "<=", "2147483647"], ["-", "2147483648", "<=", *column], [*column, "==", *column]])
    least = dice.choice([["where", "1", "!=", "2"], ["where", *column, "!=", "-", "2147483648"]])
    first = ["run", "from", "x", "in", its_name, *least * dice.choice([0, 1, 1, 2])]
    last = ["select", *dice.choice([column, ["7"]]), ";"]
    lacking = MOST_WEIGHT - weight_of([*first, *last]) + dice.choice([-1, 0, 0, 0, 1, 2])
    cost = weight_of(always)
    return [*first, *["where", *always] * (lacking // cost), *last]


def deep_other(dice, tables):
    """A statement with one or two limits nearly met, or just passed."""
    statement = dice.choice(STATEMENTS)
    words = operand(dice, 0)
    if dice.random() < 0.6:
        words = wrapped(dice, words, dice.choice([3, 30, MOST_BRACKETS - 1, MOST_BRACKETS, MOST_BRACKETS, MOST_BRACKETS + 1]))
    if dice.random() < 0.7:
        words = weighted(dice, words, statement, MOST_WEIGHT + dice.choice([-1, 0, 0, 1, 2]))
    return statement(words)


def tail(dice, words):
    """Tokens after a fault of the grammar, which count all the same."""
    place = dice.choice([len(words), len(words), dice.randrange(len(words) + 1)])
    more = [dice.choice([*BRACKETS, "+", "1", "x", "run", ";"])] * dice.choice([1, 60, 64, 65, 100, 250, 253, 254, 255, 256])
    return [*words[:place], *more, *words[place:]]


def other_kinds(dice, words):
    """Some brackets are of the other kind: the depth is the same, the grammar refuses most."""
    swapped = {"(": "{", ")": "}", "{": "(", "}": ")"}
    share = dice.choice([0.02, 0.5])
    return [swapped[word] if word in swapped and dice.random() < share else word for word in words]


def deep(dice, tables):
    """A line at the limits of depth, right or spoiled."""
    words = dice.choice([deep_served, long_served, deep_other, deep_other, deep_other])(dice, tables)
    spoil = dice.choice([None, None, None, tail, other_kinds, other_brackets, other_tokens])
    return " ".join(spoil(dice, words) if spoil else words)


def line(dice, tables):
    """A line of the whole grammar, of any kind."""
    kind = dice.random()
    if kind < 0.27:
        return spell(dice, served(dice, tables))
    if kind < 0.45:
        return spell(dice, dice.choice([sentence, sentence, sentence, lambda dice: untyped(dice, tables)])(dice))
    return nearly(dice, tables) if kind < 0.75 else deep(dice, tables)
