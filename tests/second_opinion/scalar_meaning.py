"""What operators and members give of scalars, and the value of a rule of a policy. None represents null.

The meaning of the language, in meaning.py, takes the operators on scalars from here.
"""

import operator
from dataclasses import dataclass

from scalar_types import type_of

LITERALS = {"true": True, "false": False, "null": None}
COMPARISONS = {
    "<": operator.lt,
    ">": operator.gt,
    "<=": operator.le,
    ">=": operator.ge,
}
SEARCHES = {"StartsWith": bytes.startswith, "EndsWith": bytes.endswith, "Contains": bytes.__contains__}


class Fault(Exception):
    """An evaluation ends with this fault, which has the name of .NET's exception without its last word."""


@dataclass(frozen=True)
class Names:
    """What names mean where a rule is evaluated: the type of each, and its value."""

    scope: dict
    values: dict


def checked(number):
    """ECMA-334, checked operators: a result that no int holds is an overflow."""
    if not -2147483648 <= number <= 2147483647:
        raise Fault("Overflow")
    return number


def quotient(left, right):
    """ECMA-334, integer division: towards zero. The least int divided by -1 is an overflow."""
    if right == 0:
        raise Fault("DivideByZero")
    return checked(abs(left) // abs(right) * (1 if (left < 0) == (right < 0) else -1))


# Operators on numbers, none of which is null.
ARITHMETIC = {
    "unary -": lambda number: checked(-number),
    "*": lambda left, right: checked(left * right),
    "/": quotient,
    "%": lambda left, right: left - quotient(left, right) * right,
    "+": lambda left, right: checked(left + right),
    "-": lambda left, right: checked(left - right),
}


def operate(sign, operands):
    """ECMA-334, lifted operators: arithmetic with null is null, by size null compares false, and null equals null alone."""
    if sign == "unary !":
        return not operands[0]
    if sign in ("==", "!="):
        return (operands[0] == operands[1]) == (sign == "==")
    if None in operands:
        return False if sign in COMPARISONS else None
    return (COMPARISONS | ARITHMETIC)[sign](*operands)


def concatenated(left, right):
    """ECMA-334, string concatenation: null is as the empty text."""
    return (left or "") + (right or "")


def member(owner, name, its_type):
    """.NET, Nullable<T>.HasValue and Value, String.Length: a text's length is that of its UTF-16. Null has HasValue alone."""
    if its_type == "int?" and name == "HasValue":
        return owner is not None
    if owner is None:
        raise Fault("InvalidOperation" if its_type == "int?" else "NullReference")
    if its_type == "int?":
        return owner
    return len(owner.encode("utf-16-le")) // 2 if its_type == "string" else owner[name]


def search(text, name, part):
    """.NET, String.StartsWith, EndsWith and Contains, by bytes; of a null argument, too, the fault is that of a null text."""
    if text is None or part is None:
        raise Fault("NullReference")
    return SEARCHES[name](text.encode(), part.encode())


def is_sum_of_null_texts(tree, operands, names):
    """Of two nulls their types alone decide whether they are texts."""
    return operands == [None, None] and type_of(tree, names.scope) == "string"


def value_of(tree, names):
    """The value of a rule or of a part of it, which has a type. ECMA-334, expressions: operands are evaluated from left to
    right, and of `&&`, `||`, `??` and `?:` only those that are needed."""
    if tree.kind in ("integer", "text"):
        return tree.parts[0]
    if tree.kind in LITERALS:
        return LITERALS[tree.kind]
    if tree.kind == "name":
        return names.values[tree.parts[0]]
    if tree.kind == "call":
        method, (argument,) = tree.parts
        text = value_of(method.parts[0], names)
        return search(text, method.parts[1], value_of(argument, names))
    first = value_of(tree.parts[0], names)
    if tree.kind == ".":
        return member(first, tree.parts[1], type_of(tree.parts[0], names.scope))
    if tree.kind in ("&&", "||"):
        return value_of(tree.parts[1], names) if first == (tree.kind == "&&") else first
    if tree.kind == "??":
        return value_of(tree.parts[1], names) if first is None else first
    if tree.kind == "?":
        return value_of(tree.parts[1 if first else 2], names)
    operands = [first, *(value_of(operand, names) for operand in tree.parts[1:])]
    if tree.kind == "+" and (str in map(type, operands) or is_sum_of_null_texts(tree, operands, names)):
        return concatenated(*operands)
    return operate(tree.kind, operands)
