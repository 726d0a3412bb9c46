"""Decisions on rights: lines of 64 KiB with as many columns as there is room for, under 1,000 grants and withholds of 100 rights.

The line's one table has no rows, so that a line is read, typed and decided, and then there is nothing to run. What is judged is what
it takes over a run without a line, under the same rules.
"""

import measuring
from measuring import Failure

# A line with its line feed, of the most bytes that a line may have.
LINE = 65_536
RUNS = 3
# The most columns that a table has. The first of them are open: the last grant covers them alone, and no withhold does.
COLUMNS = 100
OPEN = 90
# So many grants and as many withholds, each of so many rights.
RULES = 500
RIGHTS = 100
# Of a line, over a run without one. What is wanted is 100 ms of processor time. The bound is some 1.3 times what was measured.
WANTED = 100
MOST_INSTRUCTIONS_TO_DECIDE = 165_000_000
# Of a run without a line, which reads the rules: likewise.
MOST_INSTRUCTIONS_TO_READ = 940_000_000
TABLE = "w.csv"
HEAD = "run from x in w select "


def rule(array, name, columns):
    rights = ",".join(f'"w.c{columns[place % len(columns)]}"' for place in range(RIGHTS))
    return f'[[{array}]]\nname = "{name}"\nrights = [{rights}]\n'


def rules():
    """The policy file. No withhold covers an open column, and no grant but the last covers one."""
    closed = range(OPEN, COLUMNS)
    grants = [rule("grant", f"g{place}", closed) for place in range(RULES - 1)] + [rule("grant", "last", range(COLUMNS))]
    withholds = [rule("withhold", f"w{place}", closed) for place in range(RULES)]
    return 'role = [{name = "reader"}]\n' + "".join(grants + withholds)


def sum_in_brackets(terms):
    return "(" + "+".join(terms) + ")"


def filled(term, end):
    """A line that selects a sum of as many of these terms as there is room for, and of what is at its end."""
    count = (LINE - 2 - len(HEAD + end)) // len(term + "+")
    return HEAD + "+".join([term] * count) + end + ";"


def sums(end=""):
    """Columns summed, in brackets side by side in brackets side by side: a chain of all would be too deep."""
    inner = [sum_in_brackets(f"x.c{place % OPEN}" for place in range(first, first + 16)) for first in range(0, 256, 16)]
    return filled(sum_in_brackets(inner), end)


def records(end=""):
    """The members of records: each has all open columns, and one of them is read."""
    record = "(new{" + ",".join(f"x.c{place}" for place in range(OPEN)) + "}.c7)"
    return filled(sum_in_brackets([record] * 4), end)


SERVED, DENIED = '{"items":[]}', '{"denied":"w0","use":"w.c95"}'
# What the lines consist of, the line, and its reply. Of a denied one the last use has no right.
KINDS = [
    ("columns summed", sums(), SERVED), ("members of records", records(), SERVED),
    ("columns summed, the last one withheld", sums("+x.c95"), DENIED),
    ("members of records, and a column that is withheld", records("+x.c95"), DENIED),
]


def write(path, text):
    with open(path, "w") as file:
        file.write(text)


def files(name):
    return TABLE, f"{name}.script", f"{name}.reply"


def least_time(program, name):
    return min(measuring.run(program, *files(name), "rules.toml")[0] for _ in range(RUNS))


def told_time(seconds):
    """What a line took over a run without one; two runs may differ by more than that, which then isn't a figure."""
    return f"{seconds * 1000:.0f} ms" if seconds >= 0.001 else "less than two runs differ by"


def measure_kind(program, kind, line, reply, nothing):
    """Prints what a kind of lines takes over a run without a line, and says whether the bound is met."""
    if not LINE * 15 // 16 < len(line) < LINE:
        raise ValueError(f"{kind}: a line of {len(line)} bytes, which has to have nearly {LINE}")
    write("decided.script", line + "\n")
    write("decided.reply", reply + "\n")
    try:
        count = measuring.count(program, *files("decided"), "rules.toml") - nothing["count"]
        time = least_time(program, "decided") - nothing["time"]
    except Failure as failure:
        raise Failure(f"{kind}: {failure}") from failure
    print(f"rights: {kind}: {count / 1e6:.1f} million instructions for a line under {2 * RULES:,} rules of {RIGHTS} rights;"
          f" {told_time(time)}, {WANTED} wanted", flush=True)
    return count <= MOST_INSTRUCTIONS_TO_DECIDE


def compare(program):
    """Measures each kind, and fails where a bound isn't met."""
    write(TABLE, ",".join(f"c{place}:int" for place in range(COLUMNS)) + "\n")
    write("rules.toml", rules())
    write("nothing.script", "")
    write("nothing.reply", "")
    nothing = {"count": measuring.count(program, *files("nothing"), "rules.toml"), "time": least_time(program, "nothing")}
    print(f"rights: {nothing['count'] / 1e6:.0f} million instructions to read the rules, {nothing['time'] * 1000:.0f} ms", flush=True)
    if nothing["count"] > MOST_INSTRUCTIONS_TO_READ:
        raise Failure(f"reading the rules takes more than {MOST_INSTRUCTIONS_TO_READ / 1e6:.0f} million instructions")
    slow = [kind for kind, line, reply in KINDS if not measure_kind(program, kind, line, reply, nothing)]
    if slow:
        raise Failure(f"deciding takes more than {MOST_INSTRUCTIONS_TO_DECIDE / 1e6:.0f} million instructions: {', '.join(slow)}")
