"""Methods that read no item, called on an order of 20,000 rows: the order isn't evaluated.

What is judged is what a line with such a call takes over one that reads nothing of the table itself.
"""

import measuring
from measuring import Failure

ROWS = 20_000
# Of a line, over one that reads nothing of the table. The first item of an order takes over 100 for each row, which is more than two million.
MOST_INSTRUCTIONS = 200_000
# The least that an order takes, in these bounds: if it took less, they would not tell whether it is evaluated.
LEAST_TIMES = 10
NOTHING = ("unread.Take(0)", '{"items":[]}')
ROWS_IN_ORDER = "(from x in unread orderby x.c select x)"
NUMBERS_IN_ORDER = "(from x in unread orderby x.c select x.c)"
# What reads an item of the order, and so evaluates it.
FIRST = (f"{ROWS_IN_ORDER}.First()", '{"value":{"c":0}}')
# What reads none: a number that leaves nothing to read, and an argument that faults.
CALLS = [
    (f"{ROWS_IN_ORDER}.ElementAt(-1)", '{"fault":"ArgumentOutOfRange"}'),
    (f"{ROWS_IN_ORDER}.Take(0)", '{"items":[]}'),
    (f"{ROWS_IN_ORDER}.Take(-1)", '{"items":[]}'),
    (f"{ROWS_IN_ORDER}.ElementAt(1 / 0)", '{"fault":"DivideByZero"}'),
    (f"{ROWS_IN_ORDER}.Take(1 / 0)", '{"fault":"DivideByZero","items":[]}'),
    (f"{ROWS_IN_ORDER}.Skip(1 / 0)", '{"fault":"DivideByZero","items":[]}'),
    (f"{NUMBERS_IN_ORDER}.Contains(1 / 0)", '{"fault":"DivideByZero"}'),
]


def write(path, text):
    with open(path, "w") as file:
        file.write(text)


def instructions(program, call, reply):
    """The instructions of a run that loads the table and answers this call."""
    write("unread.script", f"run {call};\n")
    write("unread.reply", f"{reply}\n")
    return measuring.count(program, "unread.csv", "unread.script", "unread.reply")


def compare(program):
    """Measures, prints the figures, and fails where a bound isn't met."""
    # The numbers below the number of rows, each once: 7,919 has no divisor in common with it.
    write("unread.csv", "c:int\n" + "".join(f"{row * 7_919 % ROWS}\n" for row in range(ROWS)))
    nothing = instructions(program, *NOTHING)
    first = instructions(program, *FIRST) - nothing
    added = {call: instructions(program, call, reply) - nothing for call, reply in CALLS}
    print(f"unread: {len(CALLS)} calls that read no item of an order of {ROWS:,} rows take at most {max(added.values()):,} instructions"
          f" over one that reads nothing of the table, and one that reads an item {first / 1e6:.1f} million", flush=True)
    if first < LEAST_TIMES * MOST_INSTRUCTIONS:
        raise Failure(f"an order took {first:,} instructions, too few to tell whether it is evaluated")
    for call, count in added.items():
        if count > MOST_INSTRUCTIONS:
            raise Failure(f"{call}: {count:,} instructions, at most {MOST_INSTRUCTIONS:,}, as no item is read")
