"""Loads 300,000 rows of columns of every type, beside `sqlite3`; scans them under row policies, beside no policies; reads the first
of them under these policies; and evaluates conditions on them."""

import os
import shutil

import measuring
from measuring import Failure

ROWS = 300_000
RUNS = 3
# Of the instructions that `sqlite3` takes to import the same file into a memory database.
MOST_OF_SQLITE = 0.3
MOST_MEMORY = 10
# Of the instructions of a scan of a table without row security, loading left out.
MOST_OF_OPEN = 1.4
# Millions of instructions.
MOST_OF_LOADING = 1_000
# Instructions a row, without row security.
MOST_OF_SCAN = 700
# Instructions of a line that reads the first row under policies, over a script without lines.
MOST_OF_FIRST = 20_000
HEADER = "id:int,name:string,dept:int[0..999],boss:int?,salary:int,ok:bool"
SCANS = 4
CONDITIONS = ("false", "e.id < 0", "e.id >= 0 && e.dept >= 0 && e.salary < 0", 'e.name.StartsWith("x")')
SCAN = "run from e in staff select e.id;\n"
GUARDED = """role = [{name = "reader"}]
table = [{name = "staff", row_security = true}]
[[policy]]
name = "unknown"
table = "staff"
using = "row.dept == -1"
[[policy]]
name = "known"
table = "staff"
using = "row.salary >= 1000"
[[policy]]
name = "named"
table = "staff"
kind = "restrictive"
using = "row.id > 0"
[[grant]]
name = "all"
rights = ["staff.*"]
"""


def write(path, text):
    with open(path, "w") as file:
        file.write(text)


def cells(number):
    boss = "" if number % 3 == 0 else str(number // 3 + 1)
    return f"{number},name{number:06},{number % 1000},{boss},{1000 + number % 7000},{'true' if number % 2 else 'false'}"


def write_files():
    """The table, the policy files, and the scripts with their replies."""
    with open("staff.csv", "w") as file:
        file.write(HEADER + "\n")
        for number in range(1, ROWS + 1):
            file.write(cells(number) + "\n")
    write("guarded.toml", GUARDED)
    write("one.script", "run 1;\n")
    write("one.reply", '{"value":1}\n')
    write("scan.script", SCAN * SCANS)
    write("first.script", "run staff.First().id;\n")
    write("first.reply", '{"value":1}\n')
    write("none.script", "")
    write("none.reply", "")
    items = ",".join(str(number) for number in range(1, ROWS + 1))
    write("scan.reply", ('{"items":[' + items + "]}\n") * SCANS)


IMPORT = ["sqlite3", ":memory:", ".mode csv", ".import staff.csv staff"]


def files(name):
    return "staff.csv", f"{name}.script", f"{name}.reply"


def compare_loading(program):
    """Returns the instructions and the time of loading."""
    count = measuring.count(program, *files("one"))
    runs = [measuring.run(program, *files("one")) for _ in range(RUNS)]
    time, peak = min(it for it, _ in runs), max(it for _, it in runs)
    size = os.path.getsize("staff.csv")
    print(f"typed rows: {size} bytes in {count / 1e6:.0f} million instructions, {time * 1000:.0f} ms, at most {peak / 2**20:.0f} MiB"
          f" ({peak / size:.1f} times the file)")
    if count > MOST_OF_LOADING * 1_000_000:
        raise Failure(f"loading took more than {MOST_OF_LOADING} million instructions")
    if peak > MOST_MEMORY * size:
        raise Failure(f"the peak of memory is over {MOST_MEMORY} times the file")
    if shutil.which("sqlite3") is None:
        print("typed rows: sqlite3 isn't here to compare with")
        return count, time
    other = measuring.count_command(IMPORT)
    print(f"typed rows: {count / other:.2f} times the instructions of sqlite3")
    if count > MOST_OF_SQLITE * other:
        raise Failure(f"loading took more than {MOST_OF_SQLITE} times the instructions of sqlite3")
    return count, time


def compare_scans(program, count, time):
    each, policies = ROWS * SCANS, {"open": None, "guarded": "guarded.toml"}
    counts = {name: (measuring.count(program, *files("scan"), policy) - count) / each for name, policy in policies.items()}
    times = {name: (least_time(program, "scan", policy) - time) * 1e9 / each for name, policy in policies.items()}
    ratio = counts["guarded"] / counts["open"]
    print(f"row policies: a scan takes {counts['open']:.0f} instructions a row without them, {shown_time(times['open'])}, and"
          f" {counts['guarded']:.0f} with three, {shown_time(times['guarded'])} ({ratio:.2f} times the instructions)")
    if counts["open"] > MOST_OF_SCAN:
        raise Failure(f"a scan took more than {MOST_OF_SCAN} instructions a row")
    if ratio > MOST_OF_OPEN:
        raise Failure(f"a scan under row policies took more than {MOST_OF_OPEN} times the instructions without them")


def compare_first(program):
    first, none = (measuring.count(program, *files(name), "guarded.toml") for name in ("first", "none"))
    print(f"first row: {first - none:,} instructions over a script without lines, under three policies")
    if first - none > MOST_OF_FIRST:
        raise Failure(f"the first row took {first - none:,} instructions, at most {MOST_OF_FIRST:,}, as no other is read")


def least_time(program, name, policy=None):
    return min(measuring.run(program, *files(name), policy)[0] for _ in range(RUNS))


def shown_time(nanoseconds):
    """What a row took over a run without it; two runs may differ by more than that, which then isn't a figure."""
    return f"{nanoseconds:.0f} ns" if nanoseconds >= 1 else "less than two runs differ by"


def measure_conditions(program, time):
    """Prints what conditions take: each is evaluated on every row, and keeps none."""
    for condition in CONDITIONS:
        write("condition.script", f"run from e in staff where {condition} select e.id;\n" * SCANS)
        write("condition.reply", '{"items":[]}\n' * SCANS)
        taken = least_time(program, "condition") - time
        print(f"condition: {shown_time(taken * 1e9 / (ROWS * SCANS))}, a row, for where {condition}")


def compare(program):
    """Measures, prints the figures, and fails where a bound isn't met."""
    write_files()
    count, time = compare_loading(program)
    compare_scans(program, count, time)
    compare_first(program)
    measure_conditions(program, time)
