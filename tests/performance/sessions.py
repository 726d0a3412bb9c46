"""Sessions that write: a script of 1 MB of inserts, against one of half as many, into a table under policies with checks; and a
`delete` of half of 300,000 rows, against one of half of 150,000.

What is judged is what the lines take over a run that loads the same table and serves nothing.
"""

import os

import measuring
from measuring import Failure

RUNS = 3
# The most bytes of a script.
SCRIPT = 1_048_576
INSERTS = 26_000
ROWS = 300_000
# Where the work grew with the square of the lines or of the rows, this would be 4.
MOST_TIMES = 2.2
# Microseconds of processor time for an insert, and milliseconds for the delete.
WANTED = 3
WANTED_TO_DELETE = 40
# Of an insert, and of the delete, over a run without them.
MOST_INSTRUCTIONS = 16_000
MOST_INSTRUCTIONS_TO_DELETE = 193_000_000
CHECKED = """role = [{name = "reader"}]
table = [{name = "notes", row_security = true}]
[[policy]]
name = "known"
table = "notes"
using = "row.id >= 1000000"
[[policy]]
name = "marked"
table = "notes"
for = "insert"
check = "row.kind == 3 && row.ok"
[[policy]]
name = "named"
table = "notes"
kind = "restrictive"
check = "row.name != user"
using = "true"
[[grant]]
name = "all"
rights = ["notes.*", "notes insert"]
"""
OPEN = """role = [{name = "reader"}]
[[grant]]
name = "all"
rights = ["staff.*", "staff delete"]
"""


def write(path, text):
    with open(path, "w") as file:
        file.write(text)


def write_inserts(name, count):
    """A script of so many inserts, and its replies."""
    lines = [f'insert notes({1_000_000 + number},"n{number:05}",{number % 7},true);\n' for number in range(count)]
    script = "".join(lines)
    if len(script) > SCRIPT:
        raise ValueError(f"a script of {len(script)} bytes, which may have {SCRIPT}")
    write(f"{name}.script", script)
    write(f"{name}.reply", '{"inserted":1}\n' * count)
    return len(script)


def write_rows(name, count):
    """A table of so many rows."""
    with open(name, "w") as file:
        file.write("id:int,name:string,dept:int[0..999],boss:int?\n")
        for number in range(1, count + 1):
            file.write(f"{number},name{number:06},{number % 1000},{'' if number % 3 == 0 else number // 3 + 1}\n")


def write_delete(name, count):
    """A script that removes half of so many rows, by a condition of one comparison, and its reply."""
    write(f"{name}.script", "delete staff x => x.dept < 500;\n")
    write(f"{name}.reply", f'{{"deleted":{count // 2}}}\n')


def words_of(program, table, script):
    """The words of a run of a script, on a table and under the policies beside it."""
    return program, table, f"{script}.script", f"{script}.reply", table.replace(".csv", ".toml")


def added(program, table, name):
    """The instructions that a script takes over an empty one."""
    with_script, without = (measuring.count(*words_of(program, table, script)) for script in (name, "nothing"))
    if with_script <= without:
        raise Failure(f"{name}: {with_script} instructions and {without} without it were counted, which cannot be")
    return with_script - without


def added_time(program, table, name):
    """The seconds that a script takes over an empty one, each the least of a few runs, which are judged by nobody: on a busy machine they
    may be less than none."""
    times = [[measuring.run(*words_of(program, table, script))[0] for script in (name, "nothing")] for _ in range(RUNS)]
    with_script, without = (min(column) for column in zip(*times))
    return with_script - without


def shown_time(seconds, scale, unit):
    return f"{seconds * scale:.2f} {unit}" if seconds >= 0.001 else "less than two runs differ by"


def check(name, times, count, most):
    if times > MOST_TIMES:
        raise Failure(f"{name}: twice as many took {times:.2f} times the instructions, at most {MOST_TIMES} are wanted")
    if count > most:
        raise Failure(f"{name}: {count:.0f} instructions, at most {most}")


def compare_inserts(program):
    write("notes.csv", "id:int,name:string,kind:int[0..9],ok:bool\n1000000,first,1,true\n")
    write("notes.toml", CHECKED)
    size = write_inserts("inserts", INSERTS)
    write_inserts("half", INSERTS // 2)
    counts = [added(program, "notes.csv", name) for name in ("half", "inserts")]
    times = counts[1] / counts[0]
    time = shown_time(added_time(program, "notes.csv", "inserts"), 1e6 / INSERTS, "microseconds each")
    print(f"sessions: {INSERTS:,} inserts in {size} bytes, {counts[1] / INSERTS:.0f} instructions each, {times:.2f} times those of half"
          f" as many; {time}, {WANTED} wanted", flush=True)
    check("inserts", times, counts[1] / INSERTS, MOST_INSTRUCTIONS)


def compare_deletes(program):
    counts = []
    for name, rows in (("some_rows", ROWS // 2), ("all_rows", ROWS)):
        os.makedirs(name, exist_ok=True)
        write_rows(f"{name}/staff.csv", rows)
        write(f"{name}/staff.toml", OPEN)
        write_delete(name, rows)
        counts.append(added(program, f"{name}/staff.csv", name))
    times = counts[1] / counts[0]
    time = shown_time(added_time(program, "all_rows/staff.csv", "all_rows"), 1000, "ms")
    print(f"sessions: half of {ROWS:,} rows deleted in {counts[1] / 1e6:.1f} million instructions, {times:.2f} times those of half as"
          f" many rows; {time}, {WANTED_TO_DELETE} wanted", flush=True)
    check("deletes", times, counts[1], MOST_INSTRUCTIONS_TO_DELETE)


def compare(program):
    """Measures both, and fails where a bound isn't met."""
    write("nothing.script", "")
    write("nothing.reply", "")
    compare_inserts(program)
    compare_deletes(program)
