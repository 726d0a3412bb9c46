"""How deep a line's tokens nest, whatever they spell."""

MOST_BRACKETS = 64
MOST_WEIGHT = 256
WEIGHTLESS = {"name", "integer", "least", "text", "true", "false", "null", ";"}


class DepthFault(Exception):
    """The line nests deeper than the limits."""


def depth_of(tokens):
    """The most brackets that are open at one place, and the greatest weight of a place.

    Each level, the whole line's and that of each open bracket, weighs one and its tokens that aren't a name, literal, bracket
    or `;`. A closed bracket's level is gone.
    """
    levels = [1]
    weight = most_weight = 1
    most_brackets = 0
    for token in tokens:
        if token.kind in ("(", "{"):
            levels.append(1)
            weight += 1
        elif token.kind in (")", "}"):
            if len(levels) > 1:
                weight -= levels.pop()
        elif token.kind not in WEIGHTLESS:
            levels[-1] += 1
            weight += 1
        most_brackets = max(most_brackets, len(levels) - 1)
        most_weight = max(most_weight, weight)
    return most_brackets, most_weight


def check_depth(tokens):
    brackets, weight = depth_of(tokens)
    if brackets > MOST_BRACKETS or weight > MOST_WEIGHT:
        raise DepthFault(f"{brackets} brackets and a weight of {weight}")
