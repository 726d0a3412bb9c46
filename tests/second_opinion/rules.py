"""Rules of row policies: which texts are rules, the columns and predicates that they name, their types, and which of them are total."""

from dataclasses import dataclass

from depth import DepthFault, check_depth
from grammar import parse_condition
from lexer import SyntaxFault, tokens_of
from scalar_meaning import Names, value_of
from scalar_types import TypeFault, type_of

MOST_RULE_BYTES = 65_536
LITERALS = ("integer", "text", "true", "false", "null")
# Forms that are total where all their operands are.
WHOLE = ("unary !", "&&", "||", "==", "!=", "<", ">", "<=", ">=", "?", "??")
SEARCHES = ("StartsWith", "EndsWith", "Contains")


class NoRule(Exception):
    """A text isn't a rule."""


class UnknownName(Exception):
    """A rule names a column or a predicate that isn't there."""


def rule_of(text):
    """The tree of a rule, which may span lines."""
    try:
        if len(text.encode()) > MOST_RULE_BYTES:
            raise NoRule
        tokens = tokens_of(text)
        check_depth(tokens)
        return parse_condition(tokens)
    except (SyntaxFault, DepthFault):
        raise NoRule from None


@dataclass(frozen=True)
class Known:
    """What there is for a rule to name: the row's columns with their types, and the host predicates."""

    columns: dict
    predicates: dict


def check_names_in_body(clauses, end, rest, known, outside, hidden):
    """The names in a query's body. `outside` says whether `row` has another meaning around the query, and `hidden` whether it has
    one where the body begins."""
    for clause in clauses:
        if clause.kind == "where":
            check_names(clause.parts[0], known, hidden)
        elif clause.kind == "orderby":
            for key in clause.parts:
                check_names(key.parts[0], known, hidden)
        elif clause.kind == "join":
            name, source, outer, inner, *group = clause.parts
            check_names(source, known, outside)
            check_names(outer, known, hidden)
            check_names(inner, known, outside or name == "row")
            hidden = hidden or (group[0] if group else name) == "row"
        else:
            name, source = clause.parts
            check_names(source, known, hidden)
            hidden = hidden or name == "row"
    for part in end.parts:
        check_names(part, known, hidden)
    if rest is not None:
        name, (clauses, end, rest) = rest
        check_names_in_body(clauses, end, rest, known, outside, outside or name == "row")


def check_names(tree, known, hidden=False):
    """ECMA-334, scopes: fails where `row.c` names no column, if `row` is the policy's row there, and where there is no such predicate."""
    if tree.kind == "Host" and tree.parts[0] not in known.predicates:
        raise UnknownName
    if tree.kind == "query":
        check_names_in_body(*tree.parts, known, hidden, hidden)
    elif tree.kind == "=>":
        check_names(tree.parts[1], known, hidden or tree.parts[0] == "row")
    elif tree.kind == "call":
        method, arguments = tree.parts
        for part in (method.parts[0], *arguments):
            check_names(part, known, hidden)
    elif tree.kind == "." and tree.parts[0].kind == "name":
        if tree.parts[0].parts[0] == "row" and not hidden and tree.parts[1] not in known.columns:
            raise UnknownName
    elif tree.kind not in LITERALS:
        for part in tree.parts:
            if not isinstance(part, str):
                check_names(part, known, hidden)


def is_truth(tree, known):
    """Whether the rule is typed as a truth value, over the row and the user alone."""
    try:
        return type_of(tree, {"row": known.columns, "user": "string", "Host": known.predicates}) == "bool"
    except TypeFault:
        return False


def is_sure(tree):
    """Whether an expression that is a text is never null, by its form."""
    if tree.kind == "name":
        return tree.parts[0] == "user"
    if tree.kind == "??":
        return is_sure(tree.parts[1])
    return tree.kind == "text" or tree.kind == "?" and all(map(is_sure, tree.parts[1:]))


def is_total_call(tree):
    method, arguments = tree.parts
    parts = (method.parts[0], *arguments)
    return method.parts[1] in SEARCHES and len(parts) == 2 and all(is_total(part) and is_sure(part) for part in parts)


def is_total_member(owner, name):
    """A column of the row, whatever its name, or whether a total operand isn't null."""
    return owner.kind == "name" and owner.parts[0] == "row" or name == "HasValue" and is_total(owner)


def is_total(tree):
    """Whether the rule can't fault, by its form. One that asks a host predicate may."""
    if tree.kind in LITERALS:
        return True
    if tree.kind == "name":
        return tree.parts[0] == "user"
    if tree.kind == ".":
        return is_total_member(*tree.parts)
    if tree.kind == "call":
        return is_total_call(tree)
    if tree.kind == "unary -":
        # The least int is one literal with its sign: a further sign before it isn't before an integer.
        return tree.parts[0].kind == "integer" and tree.parts[0].parts[0] >= 0
    if tree.kind in ("/", "%"):
        dividend, divisor = tree.parts
        return is_total(dividend) and divisor.kind == "integer" and divisor.parts[0] > 0
    return tree.kind in WHOLE and all(map(is_total, tree.parts))


def holds(tree, table, row, user):
    """Whether a rule is true of a row."""
    return value_of(tree, Names({"row": table.columns, "user": "string"}, {"row": row, "user": user}))
