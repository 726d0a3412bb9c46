"""Opening: how much a line is together with the named queries that it names, and how far these depend on others.

Both are counted from the line's tokens, before anything has a type. A name that spells a named query opens it wherever it is,
also where it means something else (a range variable, a member, a role), but not directly after a `.`.
"""

from dataclasses import dataclass

from depth import DepthFault

MOST_SIZE = 65_536
MOST_RANK = 8


@dataclass(frozen=True)
class Opened:
    """A line's own tokens and the sizes of all queries that it opens, each as often as it is named; and how many queries depend
    on one another at most."""

    size: int
    rank: int


def opening_names(tokens):
    """The names that are where a named query is opened."""
    for place, token in enumerate(tokens):
        if token.kind == "name" and (place == 0 or tokens[place - 1].kind != "."):
            yield token.value


def opened_by(tokens, queries):
    """What a line opens. Of each named query `queries` has what its own line opened, which stays as it was."""
    found = [queries[name] for name in opening_names(tokens) if name in queries]
    size = len(tokens) + sum(opened.size for opened in found)
    return Opened(size, 1 + max((opened.rank for opened in found), default=-1))


def check_opened(opened):
    if opened.size > MOST_SIZE or opened.rank > MOST_RANK:
        raise DepthFault(f"a size of {opened.size} and a rank of {opened.rank}")
