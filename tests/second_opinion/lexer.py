"""The tokens of one line: names, reserved words, integers, texts and signs."""

import re
from dataclasses import dataclass

RESERVED = frozenset(
    "from where select group into orderby join let in on equals by ascending descending var run as insert delete "
    "update set new true false null Host".split()
)
# The longer ones come first, since the longest token is taken.
SIGNS = "=> ?? <= >= == != && || ( ) { } . , ; = ? : ! - + * / % < >".split()
LARGEST_INT = 2147483647

NOTHING = re.compile(r"(?:[ \t\r\n]|//[^\n]*)+")
DIGITS = re.compile(r"[0-9]+")
# ECMA-334, string literals: a simple escape, or `\u` and four hexadecimal digits, which spell no surrogate here.
TEXT = re.compile(r"""
    "(?: [^"\\\n] | \\['"\\0abfnrtv] | \\u(?![Dd][89A-Fa-f])[0-9A-Fa-f]{4} )*"
""", re.VERBOSE)
ESCAPE = re.compile(r"\\(?:u([0-9A-Fa-f]{4})|(.))")
ESCAPED = {"0": "\0", "a": "\a", "b": "\b", "f": "\f", "n": "\n", "r": "\r", "t": "\t", "v": "\v"}
SIGN = re.compile("|".join(map(re.escape, SIGNS)))


class SyntaxFault(Exception):
    """The line isn't a statement."""


@dataclass(frozen=True)
class Token:
    """`kind` is "name", "integer", "least", "text", or the spelling of a reserved word or a sign."""

    kind: str
    value: object = None


def continues_name(character):
    """Unicode's XID_Continue, which `isidentifier` asks of each character but the first. It normalises nothing."""
    return ("_" + character).isidentifier()


def is_name(text):
    """ECMA-334, identifiers: `_` or Unicode's XID_Start, then XID_Continue, and no keyword."""
    return text.isidentifier() and text not in RESERVED


def end_of_word(line, place):
    """Where the characters from the place on that continue a name end."""
    while place < len(line) and continues_name(line[place]):
        place += 1
    return place


def integer_of(digits):
    """The token of decimal digits, however many zeros lead. The size of the least int is a token of its own."""
    digits = digits.lstrip("0") or "0"
    if len(digits) > 10 or int(digits) > LARGEST_INT + 1:
        raise SyntaxFault("an integer above the largest")
    return Token("least") if int(digits) > LARGEST_INT else Token("integer", int(digits))


def text_of(spelled):
    """The characters that a text's spelling between its quotes means: those of its escapes, and all others themselves."""
    return ESCAPE.sub(lambda found: chr(int(found[1], 16)) if found[1] else ESCAPED.get(found[2], found[2]), spelled)


def token_at(line, place):
    """The longest token that starts at the place, and where it ends."""
    if line[place].isidentifier():
        end = end_of_word(line, place)
        word = line[place:end]
        return (Token(word) if word in RESERVED else Token("name", word)), end
    if found := DIGITS.match(line, place):
        if end_of_word(line, found.end()) > found.end():
            raise SyntaxFault("an integer directly before a name's character")
        return integer_of(found.group()), found.end()
    if found := TEXT.match(line, place):
        return Token("text", text_of(found.group()[1:-1])), found.end()
    if found := SIGN.match(line, place):
        return Token(found.group()), found.end()
    raise SyntaxFault(f"no token at {place}")


def tokens_of(line):
    """ECMA-334, lexical analysis: the line from left to right; white space and comments part tokens and are none."""
    tokens = []
    place = 0
    while place < len(line):
        if found := NOTHING.match(line, place):
            place = found.end()
        else:
            token, place = token_at(line, place)
            tokens.append(token)
    return tokens
