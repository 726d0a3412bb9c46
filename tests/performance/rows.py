"""Loads a table file of 16.5 MB, 1,500,000 rows of one column, and one of half as many rows; runs a query over each."""

import os

import measuring
from measuring import Failure

RUNS = 3
MOST_TIMES = 2.1
MOST_MEMORY = 20
# The rows that are held at a time while the files are written.
CHUNK = 10_000


class Table:
    """A table file of rows of ten digits, the script over it, and the reply that it has to give."""

    def __init__(self, name, rows):
        self.file = name + ".csv"
        self.script = name + ".script"
        self.reply = name + ".reply"
        with open(self.script, "w") as script:
            script.write(f"run from x in {name} select x.c;\n")
        write_chunks(self.file, "c:int\n", "\n", "\n", rows)
        write_chunks(self.reply, '{"items":[', ",", "]}\n", rows)
        self.size = os.path.getsize(self.file)

    def files(self):
        return self.file, self.script, self.reply


def write_chunks(path, head, between, end, rows):
    """Writes the numbers from 1,000,000,000 on, as many as there are rows; a few at a time, since memory that this process
    takes would be counted as the program's."""
    with open(path, "w") as file:
        file.write(head)
        for first in range(0, rows, CHUNK):
            numbers = range(1_000_000_000 + first, 1_000_000_000 + min(first + CHUNK, rows))
            file.write((between if first else "") + between.join(map(str, numbers)))
        file.write(end)


def compare(program):
    """Measures, prints the figures, and fails where a bound isn't met."""
    few, half, whole = Table("few", 1_000), Table("half", 750_000), Table("whole", 1_500_000)
    counts = [measuring.count(program, *it.files()) for it in (few, half, whole)]
    times = (counts[2] - counts[0]) / (counts[1] - counts[0])
    runs = [measuring.run(program, *whole.files()) for _ in range(RUNS)]
    seconds, peak = min(time for time, _ in runs), max(memory for _, memory in runs)
    if seconds <= 0 or peak <= whole.size:
        raise Failure(f"{whole.file}: {seconds} s and {peak} bytes were measured, which cannot be")
    print(f"rows: {half.size} bytes in {counts[1] / 1e6:.0f} million instructions, {whole.size} bytes in {counts[2] / 1e6:.0f}"
          f" ({times:.2f} times), {seconds * 1000:.0f} ms, at most {peak / 2**20:.0f} MiB ({peak / whole.size:.1f} times the file)")
    if times > MOST_TIMES:
        raise Failure(f"twice the rows took more than {MOST_TIMES} times the instructions")
    if peak > MOST_MEMORY * whole.size:
        raise Failure(f"the peak of memory is over {MOST_MEMORY} times the file")
