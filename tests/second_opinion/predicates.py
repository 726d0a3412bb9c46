"""Host predicates: which there are, of what numbers each may be asked, and what it answers.

The Gregorian calendar is the one that comes with Python.
"""

import calendar
import operator
from collections import Counter
from dataclasses import dataclass

from scalar_meaning import Fault
from tables import LARGEST_INT, LEAST_INT, NoCell, int_of

YEARS = (1, 9999)


class ListFault(Exception):
    """A text is no list of numbers."""


@dataclass(frozen=True)
class Predicate:
    """The least and the largest of each of its arguments, of which it has one or two, and what it answers of numbers within."""

    ranges: tuple
    accepts: object


# How often numbers below and above the ranges were met, and how often each answer was given, for those who count cases.
MET = Counter()


def numbers_of(text):
    """The numbers of a list, each spelled as a cell is, with commas between them."""
    try:
        return frozenset(map(int_of, text.split(",")))
    except NoCell:
        raise ListFault(text) from None


def predicates_of(watched=None):
    """The predicates of a program by their names: `Watched` only where numbers are listed for it."""
    found = {
        "LeapYear": Predicate((YEARS,), calendar.isleap),
        "Under": Predicate(((-1000, 1000), YEARS), operator.lt),
    }
    if watched is not None:
        found["Watched"] = Predicate(((LEAST_INT, LARGEST_INT),), numbers_of(watched).__contains__)
    return found


WITHOUT_LIST = predicates_of()


def answer_within(predicate, numbers):
    """What a predicate answers; None where one of the numbers lies outside of its range."""
    is_within = all(least <= number <= largest for number, (least, largest) in zip(numbers, predicate.ranges, strict=True))
    return bool(predicate.accepts(*numbers)) if is_within else None


def ask(predicate, numbers):
    """What a predicate answers. It isn't asked at all where one of the numbers lies outside of its range."""
    for number, (least, largest) in zip(numbers, predicate.ranges, strict=True):
        if not least <= number <= largest:
            MET["below" if number < least else "above"] += 1
            raise Fault("ArgumentOutOfRange")
    answer = bool(predicate.accepts(*numbers))
    MET[f"{len(numbers)} arguments: {answer}".replace("1 arguments", "1 argument")] += 1
    return answer
