"""Scalar expressions by chance: typed ones of a wanted type, deep ones, those that fault, and ill-typed ones.

`dice` is a random.Random. An expression is its level, that of its weakest operator, and the list of its tokens' spellings.
"""

from lexer import continues_name

# Of each type the forms that have it. In a form a type's name means an expression of this type, in brackets where its
# operator binds too weakly, a word in capitals for any sign of its list, and `COLUMN` for the name of a column of a type.
FORMS = {
    "int": ["- int", "int TIMES int", "int PLUS int", "bool ? int : int", "int? ?? int", "string . Length", "int? . Value",
    "row . COLUMN:int"],
    "int?": [
        "- int?", "int? TIMES int", "int TIMES int?", "int? PLUS int?", "bool ? int? : int?", "bool ? int : int?",
        "bool ? int? : int", "int? ?? int?", "int? ?? null", "bool ? int? : null", "bool ? null : int?", "row . COLUMN:int?",
    ],
    "bool": [
        "! bool", "bool && bool", "bool || bool", "int COMPARE int", "int EQUAL int", "int? COMPARE int", "int? EQUAL int?",
        "bool ? bool : bool", "bool EQUAL bool",
        "string EQUAL string", "string EQUAL null", "null EQUAL string", "null EQUAL null",
        "int EQUAL null", "null EQUAL int", "int? EQUAL null", "int? . HasValue",
        "string . SEARCH ( string )", "string . SEARCH ( string )", "row EQUAL null", "null EQUAL row", "row . COLUMN:bool",
    ],
    "string": [
        "string + string", "string + string", "string + null", "null + string", "bool ? string : string", "string ?? string",
        "string ?? null", "bool ? string : null", "bool ? null : string", "row . COLUMN:string",
    ],
    "row": ["bool ? row : row", "bool ? row : null", "bool ? null : row"],
}
FORMS = {its_type: [form.split() for form in forms] for its_type, forms in FORMS.items()}
CHOICES = {
    "TIMES": ["*", "/", "%"], "PLUS": ["+", "-"], "COMPARE": ["<", ">", "<=", ">="], "EQUAL": ["==", "!="],
    "SEARCH": ["StartsWith", "EndsWith", "Contains"],
}
# Of each operator its level, and the least levels of what comes before it and after it.
LEVELS = {
    "?": (0, 1, 0), "??": (1, 2, 1), "||": (2, 2, 3), "&&": (3, 3, 4), "EQUAL": (4, 4, 5), "COMPARE": (5, 5, 6),
    "PLUS": (6, 6, 7), "+": (6, 6, 7), "TIMES": (7, 7, 8), "DIVIDE": (7, 7, 8), "!": (8, 8, 8), "-": (8, 8, 8), ".": (9, 9, 0),
}
PRIMARY, UNARY = 9, 8
SCALARS = ("int", "int?", "bool", "string")
LITERALS = {
    "int": ["0", "0", "1", "1", "2", "3", "7", "10", "46341", "2147483647", "007"],
    "bool": ["true", "false"],
    "string": [
        '""', '"a"', '"a"', '"b"', '"ab"', '"aba"', '"A"', '"é"', r'"\u00e9"', r'"\u00E9a"', '"e\u0301"', '"😀"', '"a😀b"',
        '"列"', '"//"', r'"\0\a\b\f\n\r\t\v"', r'"\"\\\'"', '"\u2028\x7f\x01"',
    ],
}
# Leaves that fault, and a text that is null.
RARE = {
    "int": [
        (7, "1 / 0"), (7, "7 % 0"), (6, "2147483647 + 1"), (UNARY, "- - 2147483648"), (7, "- 2147483648 / - 1"),
        (PRIMARY, '( false ? "a" : null ) . Length'),
    ],
    "bool": [(PRIMARY, '"a" . Contains ( true ? null : "a" )'), (PRIMARY, '( true ? null : "a" ) . EndsWith ( "a" )')],
    "string": [(PRIMARY, '( false ? "a" : null )'), (PRIMARY, '( true ? null : "a" )')],
}
STRAY = [
    "none", "t", "x", "new { }", "new { a = 1 }", "Host . p ( 1 )", "x . none", "1 . c", "true . f ( )", "null", '"a"',
    '"a" . length', '"a" . Length ( )', '"a" . Value', "1 . Value", "1 . HasValue", "null . Length", "x . Length",
    '"a" . Contains ( null )', '"a" . Contains ( )', '"a" . Contains ( "a" , "b" )', '"a" . Contains ( y => "a" )',
    '"a" . contains ( "a" )', '"a" . Contains', 'null . Contains ( "a" )', "t . Contains ( 1 )", '1 . EndsWith ( "1" )',
]


class Scope:
    """What has a type at a place: literals, and where there is a table, its range variable and its columns."""

    # How often brackets that are needed are left out.
    slips = 0.02

    def __init__(self, variable=None, table=None, forms=FORMS):
        self.leaves = {its_type: [[word] for word in words] for its_type, words in LITERALS.items()}
        self.choices = dict(CHOICES)
        self.types = set(forms)
        self.places = {}
        if table is not None:
            self.leaves["row"] = [[variable]]
            for column, its_type in table.columns.items():
                self.choices.setdefault("COLUMN:" + its_type, []).append(column)
                self.leaves.setdefault(its_type, []).extend([[variable, ".", column]] * 4)
                if its_type in ("int", "int?"):
                    self.leaves["int"] += [spelled_int(row[column]) for row in table.rows if row[column] is not None]
        self.add_leaves()
        self.forms = {its_type: [form for form in some if all(map(self.has, form))] for its_type, some in forms.items()}

    def add_leaves(self):
        """What else has a type, in other kinds of scopes."""

    def has(self, word):
        """Whether something is put here for a form's word: not for all types, and not for all types' columns."""
        return word in self.leaves if word in self.types else word in self.choices or not word.startswith("COLUMN")

    def around(self, its_type):
        """The places of a type in forms: the type and the form that it is in, and where it is there."""
        if its_type not in self.places:
            self.places[its_type] = [
                (outer, form, place) for outer, forms in self.forms.items() for form in forms
                for place, word in enumerate(form) if word == its_type
            ]
        return self.places[its_type]

    def of_any_type(self, dice):
        return dice.choice(list(self.leaves))


def spelled_int(value):
    """The tokens of a number."""
    return ["-", str(-value)] if value < 0 else [str(value)]


def level_of(words):
    return UNARY if words[0] == "-" else PRIMARY


def leaf(dice, its_type, scope):
    """An expression without parts of its own."""
    if its_type in RARE and dice.random() < 0.06:
        level, words = dice.choice(RARE[its_type])
        return level, words.split()
    words = dice.choice(scope.leaves[its_type])
    return level_of(words), words


def stray(dice, scope):
    """An expression of another type, or of none."""
    if dice.random() < 0.5:
        return leaf(dice, scope.of_any_type(dice), scope)
    return UNARY, dice.choice(STRAY).split()


def in_brackets(dice, part, least, slips):
    """What is beside an operator, in brackets where they are needed, and by chance; now and then they are left out."""
    level, words = part
    brackets = dice.random() >= slips if level < least else dice.random() < 0.1
    return ["(", *words, ")"] if brackets else words


def filled(dice, form, scope, part_of):
    """The form with an expression in each type's place, which `part_of` gives of its place and its type."""
    operator = next(word for word in form if word in LEVELS)
    own, least, behind = LEVELS[operator]
    words = []
    for place, word in enumerate(form):
        if word in scope.types:
            words += in_brackets(dice, part_of(place, word), least, scope.slips)
        else:
            words.append(dice.choice(scope.choices.get(word, [word])))
        least = behind if word == operator else least
    return own, words


def expression(dice, its_type, scope, fuel, strays=0):
    """An expression of the type; `fuel` bounds how far it grows, and `strays` is how often a part is of another type or none."""
    if dice.random() < strays:
        return stray(dice, scope)
    forms = scope.forms.get(its_type)
    if fuel == 0 or not forms or dice.random() < 0.15:
        return leaf(dice, its_type, scope)
    return filled(dice, dice.choice(forms), scope, lambda _, inner: expression(dice, inner, scope, fuel - 1, strays))


def wrapped(dice, its_type, part, scope):
    """A form that has the expression in it, with leaves in its other places, and the form's type."""
    outer, form, hole = dice.choice(scope.around(its_type))
    return outer, filled(dice, form, scope, lambda place, inner: part if place == hole else leaf(dice, inner, scope))


def deep(dice, scope):
    """A scalar expression that grows from the inside, form by form, up to the limits of depth or past them."""
    its_type = scope.of_any_type(dice)
    part = leaf(dice, its_type, scope)
    for _ in range(dice.choice([20, 60, 100, 140])):
        its_type, part = wrapped(dice, its_type, part, scope)
    while its_type not in SCALARS:
        its_type, part = wrapped(dice, its_type, part, scope)
    return part


def scalar(dice, scope):
    """The tokens of a scalar expression of any kind."""
    kind = dice.random()
    if kind < 0.2:
        return deep(dice, scope)[1]
    its_type = dice.choice([its_type for its_type in SCALARS if its_type in scope.leaves])
    fuel = dice.choice([1, 2, 2, 3, 3, 4, 5])
    return expression(dice, its_type, scope, fuel, 0 if kind < 0.75 else 0.4 / fuel)[1]


def condition(dice, scope, fuel):
    """The tokens of a truth value."""
    return expression(dice, "bool", scope, fuel)[1]


def spaced(words):
    """The tokens in one line, with white space where two words would be one."""
    line = ""
    for word in words:
        joined = line and continues_name(line[-1]) and continues_name(word[0])
        line += " " + word if joined else word
    return line


def line(dice, tables):
    """Such an expression alone, or as the condition or the value of a query over one of the tables."""
    if dice.random() < 0.5:
        return spaced(["run", *scalar(dice, Scope()), ";"])
    name, table = dice.choice(list(tables.items()))
    variable = dice.choice(["x", "y", name])
    scope = Scope(variable, table)
    words = ["run", "from", variable, "in", name]
    if dice.random() < 0.3:
        words += ["where", *condition(dice, scope, dice.choice([1, 2, 3]))]
    return spaced([*words, "select", *scalar(dice, scope), ";"])
