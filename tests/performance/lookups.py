"""Lookups, groups and arrangements of 300,000 keys, by the program of crates/lq_lookup_speed.

A figure is the instructions of a run that does the work, less those of one that only makes the keys, and for `find` less those of one
that only builds the lookup; and the processor time likewise, the least of a few runs. Memory is what building adds to the peak, for
each key.
"""

import os
import subprocess
import sys

import measuring
from measuring import Failure

KEYS = 300_000
RUNS = 3
# The subject, the work, the work that is taken off, what it is, the milliseconds that are wanted, and the millions of instructions
# that it takes at most.
WORK = [
    ("ints", "build", "make", "build a lookup of different ints", 60, 115),
    ("ints", "find", "build", "find each of them", 40, 55),
    ("texts", "build", "make", "build a lookup of different texts of 12 bytes", 120, 260),
    ("texts", "find", "build", "find each of them", 80, 75),
    ("groups", "build", "make", "groups of 1,000 int keys", 25, 90),
    ("int_order", "build", "make", "arrangement by one int key", 80, 200),
    ("text_order", "build", "make", "arrangement by one text key", 200, 530),
    ("two_order", "build", "make", "arrangement by two int keys", 120, 400),
]
# The bytes for each key over those that its copy takes: 32, and 32 more for the bytes of a text. A peak counts whole pages, and
# what the allocator keeps at hand, so that it differs from run to run and from machine to machine.
WANTED_MEMORY = 64
MOST_MEMORY = 72
COPY = {"ints": 32, "texts": 64}


# A run's peak counts what the process that starts it holds, so that one is an interpreter with nothing in it, smaller than the keys.
STARTER = """import os, sys
process = os.posix_spawn(sys.argv[1], sys.argv[1:], {})
_, status, used = os.wait4(process, 0)
print(used.ru_maxrss * 1024 if status == 0 else 0)
"""


def milliseconds(words):
    """The processor time of one run."""
    process = subprocess.Popen(words, stdin=subprocess.DEVNULL)
    _, status, used = os.wait4(process.pid, 0)
    process.returncode = os.waitstatus_to_exitcode(status)
    if process.returncode != 0:
        raise Failure(f"{' '.join(words[1:])}: status {process.returncode}")
    return (used.ru_utime + used.ru_stime) * 1000


def added(measure, program, subject, what, less):
    """What the work adds to a figure of the run that does less."""
    return measure([program, subject, what]) - measure([program, subject, less])


def least_time(words):
    return min(milliseconds(words) for _ in range(RUNS))


def shown_time(milliseconds):
    return f"{milliseconds:.0f} ms" if milliseconds >= 1 else "less than two runs differ by"


def peak(program, subject, what):
    """The peak of memory of one run in bytes."""
    words = [sys.executable, "-E", "-S", "-c", STARTER, program, subject, what]
    return int(subprocess.run(words, stdout=subprocess.PIPE, check=True).stdout)


def memory_over(program, subject):
    """The bytes that building adds to the peak for each key, over the key's copy."""
    made = peak(program, subject, "make")
    built = peak(program, subject, "build")
    if made <= KEYS * 32 or built <= made:
        raise Failure(f"{subject}: peaks of {made} and {built} bytes were measured, which cannot be")
    return (built - made) / KEYS - COPY[subject]


def compare(program):
    """Measures, prints the figures, and fails where a bound isn't met."""
    above = []
    for subject, what, less, name, wanted, most in WORK:
        time = added(least_time, program, subject, what, less)
        count = added(measuring.count_command, program, subject, what, less) / 1e6
        print(f"performance: {KEYS:,} keys, {name}: {shown_time(time)}, {wanted} wanted; {count:.0f} million instructions, at most {most}")
        if not 0 < count <= most:
            above.append(name)
        if what == "build" and subject in COPY:
            memory = memory_over(program, subject)
            print(f"performance: {KEYS:,} keys, {name}: {memory:.0f} bytes a key over the key's copy, {WANTED_MEMORY} wanted, at most {MOST_MEMORY}")
            if memory > MOST_MEMORY:
                above.append(f"{name}, memory")
    if above:
        raise Failure("above the bound: " + "; ".join(above))
