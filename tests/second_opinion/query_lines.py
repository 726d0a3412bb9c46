"""Lines of queries by chance: typed ones, such in which faults meet, and such with a part of another type.

`dice` is a random.Random, and a line is the list of its tokens' spellings until the end.
"""

from clashes import clash
from lexer import is_name
from queries import Scope, top
from scopes import METHODS
from statements import spell

# Names and literals that may be put in another one's place, and methods in another's.
STRAY_NAMES = ["none", "x", "y", "g", "id", "n", "s", "Key", "t", "Count", "Value", "Length"]
STRAY_VALUES = [
    "null", "1", '"a"', "true", "new { }", "none", "t", "( t )", "- 2147483648", "new { a = 1 }", "Host . p ( x . id )",
]
BINARY = ["+", "*", "/", "==", "!=", "<", ">", "&&", "||", "??"]
NO_METHODS = ["OrderBy", "GroupBy", "SelectMany", "Join", "Zip", "ToList", "LastOrDefault", "count", "SkipWhile"]


def places_of(words, holds):
    return [place for place, word in enumerate(words) if holds(place, word)]


def other_part(dice, words):
    """A name, a literal or a sign is another one, or hardly ever a piece is missing."""
    place = dice.randrange(len(words))
    word = words[place]
    if word in BINARY:
        more = [dice.choice(BINARY)]
    elif is_name(word):
        more = [dice.choice([dice.choice(STRAY_NAMES), dice.choice(list(filter(is_name, words)))])]
    elif word.isdigit() or word.startswith('"') or word in ("true", "false"):
        more = dice.choice(STRAY_VALUES).split()
    elif dice.random() < 0.08:
        return words[:place] + words[place + dice.choice([1, 2, 3, 4]):]
    else:
        return other_part(dice, words)
    return [*words[:place], *more, *words[place + 1:]]


def letters_of(words, place):
    """The letters of arguments, of which the one after a method's name is."""
    behind = words[place + 2:place + 4]
    return "-" if behind[:1] == [")"] else "pf" if behind[1:] == ["=>"] else "nsv"


def other_method(dice, words):
    """A method is another one with such an argument; whether it has a type depends on the items."""
    places = places_of(words, lambda place, word: word in METHODS and words[place - 1:place] == ["."])
    if not places:
        return other_part(dice, words)
    place = dice.choice(places)
    letters = letters_of(words, place)
    alike = [name for name, (its_letters, _, _) in METHODS.items() if set(its_letters) & set(letters)]
    name = dice.choice(alike if dice.random() < 0.85 else [*METHODS, *NO_METHODS])
    return [*words[:place], name, *words[place + 1:]]


def other_name(dice, words):
    """A local name is everywhere another one, so that it may repeat one that is in scope, or mean another thing."""

    def is_given(place, word):
        before, behind = words[place - 1], words[place + 1:place + 2]
        return is_name(word) and (before in ("from", "let", "join", "into") or behind == ["=>"])

    names = sorted({words[place] for place in places_of(words, is_given)})
    if len(names) < 2:
        return other_part(dice, words)
    name, other = dice.sample(names, 2)
    return [other if word == name and words[place - 1] != "." else word for place, word in enumerate(words)]


def line(dice, tables):
    """A line that has a type, or now and then perhaps none."""
    scope = Scope({}, tables)
    if dice.random() < 0.4:
        words = clash(dice, scope).words
    else:
        words = top(dice, scope, dice.choice([0, 1, 2, 2, 3, 3])).words
    if dice.random() < 0.24:
        words = dice.choice([other_part, other_method, other_method, other_name])(dice, words)
    return spell(dice, ["run", *words, ";"])
