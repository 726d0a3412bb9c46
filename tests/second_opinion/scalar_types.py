"""Types of scalars: which operator takes which, and the type of a rule of a policy, over a row and scalars alone.

A type is a scalar's name, or for a row the dict of its columns' types. A scope has the type of each name in it, and by the reserved
word `Host` the host predicates. The types of the language, in scopes.py, take the operators on scalars from here.
"""

LITERALS = {"integer": "int", "true": "bool", "false": "bool", "text": "string", "null": "null"}
NUMBERS = ("int", "int?")
TEXTS = ("string", "null")
SCALARS = ("int", "int?", "bool", "string")
MEMBERS = {("int?", "HasValue"): "bool", ("int?", "Value"): "int", ("string", "Length"): "int"}
SEARCHES = ("StartsWith", "EndsWith", "Contains")


class TypeFault(Exception):
    """An expression or a statement has no type."""


def arithmetic(*operands):
    """ECMA-334, arithmetic operators, lifted: one operand that may be null makes the result such."""
    if all(operand in NUMBERS for operand in operands):
        return "int?" if "int?" in operands else "int"
    return None


def is_row(its_type):
    return isinstance(its_type, dict)


def addition(left, right):
    """ECMA-334, addition operator: of numbers, or of a text and a text or null."""
    if "string" in (left, right):
        return "string" if left in TEXTS and right in TEXTS else None
    return arithmetic(left, right)


def equality(left, right):
    """ECMA-334, equality operators: of operands of one kind; null is compared with all but a truth value."""
    if any(left in alike and right in alike for alike in ((*NUMBERS, "null"), ("bool",), TEXTS)):
        return "bool"
    return "bool" if is_row(left) and right == "null" or left == "null" and is_row(right) else None


def comparison(*operands):
    """ECMA-334, integer comparison operators, lifted."""
    return "bool" if all(operand in NUMBERS for operand in operands) else None


def logical(*operands):
    """ECMA-334, logical negation and conditional logical operators."""
    return "bool" if all(operand == "bool" for operand in operands) else None


def choice(condition, first, second):
    """ECMA-334, conditional operator: both are of one type, or one converts to that of the other; null to what may be null."""
    if condition != "bool":
        return None
    if first == second and (first in SCALARS or is_row(first)):
        return first
    if "null" in (first, second):
        other = second if first == "null" else first
        return other if other in ("int?", "string") or is_row(other) else None
    return arithmetic(first, second)


def coalescing(first, second):
    """ECMA-334, null coalescing operator: the first may be null and isn't the literal; the second is of the same kind."""
    if first == "int?" and second in (*NUMBERS, "null"):
        return "int" if second == "int" else "int?"
    return "string" if first == "string" and second in TEXTS else None


# Of each operator the function that has its operands' types give the result's, or None where they don't fit.
OPERATORS = {
    "unary -": arithmetic, "*": arithmetic, "/": arithmetic, "%": arithmetic, "-": arithmetic, "+": addition,
    "<": comparison, ">": comparison, "<=": comparison, ">=": comparison, "==": equality, "!=": equality,
    "unary !": logical, "&&": logical, "||": logical, "?": choice, "??": coalescing,
}


def type_of_member(owner, name):
    """ECMA-334, member access: a row has a member for each column; the others are those of .NET's types."""
    return owner.get(name) if is_row(owner) else MEMBERS.get((owner, name))


def type_of_call(call, scope):
    """.NET, the methods of String that search one text in another. Null, which has no type, isn't an argument."""
    method, arguments = call.parts
    owner, name = method.parts
    types = [type_of(part, scope) for part in (owner, *arguments)]
    return "bool" if name in SEARCHES and types == ["string", "string"] else None


def type_of_predicate(tree, scope):
    """A host predicate is asked of an int column of a row, or of two int columns of a row by its name."""
    name, *arguments = tree.parts
    if name not in scope["Host"] or len(arguments) != len(scope["Host"][name].ranges):
        return None
    if any(argument.kind != "." or not is_row(type_of(argument.parts[0], scope)) for argument in arguments):
        return None
    owners = [argument.parts[0] for argument in arguments]
    fits = len(owners) == 1 or owners[0] == owners[1] and owners[0].kind == "name"
    return "bool" if fits and all(type_of(argument, scope) == "int" for argument in arguments) else None


def type_of(tree, scope):
    """The type of a rule or of a part of it, which all its parts have to have, too."""
    found = None
    if tree.kind in LITERALS:
        found = LITERALS[tree.kind]
    elif tree.kind == "name":
        found = scope.get(tree.parts[0])
    elif tree.kind == ".":
        found = type_of_member(type_of(tree.parts[0], scope), tree.parts[1])
    elif tree.kind == "call":
        found = type_of_call(tree, scope)
    elif tree.kind == "Host":
        found = type_of_predicate(tree, scope)
    elif tree.kind in OPERATORS:
        found = OPERATORS[tree.kind](*(type_of(operand, scope) for operand in tree.parts))
    if found is None:
        raise TypeFault(f"no type of {tree.kind}")
    return found
