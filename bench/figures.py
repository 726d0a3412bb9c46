"""How often a query is repeated, and what its runs say. `python3 -m doctest bench/figures.py` runs the examples."""

import math
from collections import namedtuple

# An engine's part is what a run takes over one without a query, in seconds of the processor. From this on it gives a figure.
ENOUGH = 1.0
# What repetitions are chosen for, so that few runs fall below it.
AIM = 1.4
# A part that is less gives no estimate.
LEAST = 0.014
# The part has to be so many times what runs without a query differ by.
TIMES_NOISE = 4

# What is less is printed as no more than this.
LITTLE = 0.0001

# What one repetition takes: the bounds are the same where it is known.
Figure = namedtuple("Figure", "low high")


def noise(bare):
    """What runs without a query differ by: the middle one from the least.

    >>> noise([3, 9, 4])
    1
    """
    return sorted(bare)[len(bare) // 2] - min(bare)


def more(times, part, by, most):
    """How often a query is repeated next, where so many repetitions took so long, and so much may be wrong.

    >>> more(1, 0.7, 0, 1000), more(20, 0.5, 0, 1000), more(20, 0.5, 0, 50), more(1, 0.0002, 0, 1000), more(2, -0.01, 0.05, 1000)
    (2, 56, 50, 100, 56)
    """
    return min(most, max(times + 1, math.ceil(times * AIM / max(max(part, 0) + by, LEAST))))


def part_of(bare, runs):
    """The engine's part: the least of runs of the query, less the least of runs without a query.

    >>> part_of([3, 9, 4], [7, 6, 8])
    3
    """
    return min(runs) - min(bare)


def is_enough(bare, runs):
    """Whether the query's runs give a figure.

    >>> is_enough([0.2, 0.3, 0.4], [1.5, 1.4, 1.3]), is_enough([0.2, 0.3, 0.4], [1.1, 1.4, 1.3])
    (True, False)
    >>> is_enough([0.2, 0.6, 0.6], [1.7, 1.7, 1.7])
    False
    """
    part = part_of(bare, runs)
    return part >= ENOUGH and part >= TIMES_NOISE * noise(bare)


def figure(bare, runs, times):
    """What one of so many repetitions takes. Where their part is too little beside the noise, it is only known what they take at most.

    >>> figure([0.25, 0.375, 0.25], [1.5, 1.25, 1.5], 100)
    Figure(low=0.01, high=0.01)
    >>> figure([0.25, 0.5, 0.5], [0.375, 0.625, 0.5], 100)
    Figure(low=0, high=0.00375)
    >>> figure([0.25, 0.5, 0.5], [0.125, 0.375, 0.25], 100)
    Figure(low=0, high=0.0025)
    """
    part = part_of(bare, runs)
    if part > 0 and part >= TIMES_NOISE * noise(bare):
        return Figure(part / times, part / times)
    return Figure(0, (max(*bare, *runs) - min(bare)) / times)


def ratio(one, others):
    """One figure as a multiple of the least of the others.

    >>> ratio(Figure(3, 3), [Figure(4, 4), Figure(2, 2)])
    Figure(low=1.5, high=1.5)
    >>> ratio(Figure(0, 3), [Figure(4, 4), Figure(2, math.inf)])
    Figure(low=0.0, high=1.5)
    """
    low, high = min(it.low for it in others), min(it.high for it in others)
    return Figure(one.low / high if high > 0 else math.inf, one.high / low if low > 0 else math.inf)


def digits(number):
    """
    >>> digits(1234.5), digits(12.345), digits(1.2345), digits(0.1), digits(0.0012345)
    ('1,234', '12.3', '1.23', '0.10', '0.0012')
    """
    if number < 0.1:
        return f"{number:.2g}" if number >= LITTLE else "0"
    if number < 1:
        return f"{number:.2f}"
    return f"{number:,.{max(0, 2 - int(math.log10(number)))}f}"


def shown(it):
    """A figure as it is printed: with `<` where only its most is known, and with `>` where only its least.

    >>> shown(Figure(1.5, 1.5)), shown(Figure(0, 2)), shown(Figure(0, 0.00001)), shown(Figure(60, math.inf)), shown(Figure(1, 2))
    ('1.50', '< 2.00', '< 0.0001', '> 60.0', '1.00 to 2.00')
    >>> shown(Figure(0, math.inf))
    'noise'
    """
    if it.low == it.high:
        return digits(it.low)
    if it.high == math.inf:
        return f"> {digits(it.low)}" if it.low > 0 else "noise"
    return f"{digits(it.low)} to {digits(it.high)}" if it.low > 0 else f"< {digits(max(it.high, LITTLE))}"
