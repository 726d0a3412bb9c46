"""What a statement pays for the tables of a session: five tables of 20,000 rows under a row policy.

A table that isn't named costs nothing, and of one that is read from its front the policy is asked of the rows that are read and of no
other. What is judged is what a line takes over one that reads no table.
"""

import measuring
from measuring import Failure

ROWS = 20_000
TABLES = "abcde"
# Of what a line takes that names all five tables.
MOST_OF_FIVE = 0.25
# Instructions of a line that reads the first row of a table.
MOST_OF_FIRST = 20_000
ONE_TABLE = ("a.Count()", ROWS)
FIVE_TABLES = (" + ".join(f"{table}.Count()" for table in TABLES), ROWS * len(TABLES))
FIRST_ROW = ("a.First().n", 0)
NO_TABLE = ("1", 1)


def write(path, text):
    with open(path, "w") as file:
        file.write(text)


def write_files():
    """The tables, and a policy for each, which shows all of its rows."""
    policies = ['role = [{name = "reader"}]']
    for table in TABLES:
        write(f"{table}.csv", "n:int\n" + "".join(f"{row}\n" for row in range(ROWS)))
        policies.append(f'[[table]]\nname = "{table}"\nrow_security = true')
        policies.append(f'[[policy]]\nname = "{table}_rows"\ntable = "{table}"\nusing = "row.n >= 0"')
    policies.append('[[grant]]\nname = "all"\nrights = [' + ", ".join(f'"{table}.*"' for table in TABLES) + "]")
    write("leaves.toml", "\n".join(policies) + "\n")


def instructions(program, call, value):
    """The instructions of a run that loads the tables and answers this call."""
    write("leaves.script", f"run {call};\n")
    write("leaves.reply", f'{{"value":{value}}}\n')
    words = [program, "--role", "reader", "--policy", "leaves.toml", *(f"{table}.csv" for table in TABLES)]
    return measuring.counted(lambda counter: measuring.ended([*counter, *words], "leaves.script", "leaves.reply"))


def compare(program):
    """Measures, prints the figures, and fails where a bound isn't met."""
    write_files()
    nothing = instructions(program, *NO_TABLE)
    one, five, first = (instructions(program, *line) - nothing for line in (ONE_TABLE, FIVE_TABLES, FIRST_ROW))
    print(f"leaves: of five tables of {ROWS:,} rows under a policy, a line that counts one takes {one / 1e6:.1f} million instructions,"
          f" one that counts all {five / 1e6:.1f} million, and one that reads the first row {first:,}", flush=True)
    if one > MOST_OF_FIVE * five:
        raise Failure(f"one of five tables took {one:,} instructions, more than {MOST_OF_FIVE} of {five:,}, as if others were read too")
    if first > MOST_OF_FIRST:
        raise Failure(f"the first row took {first:,} instructions, at most {MOST_OF_FIRST:,}, as no other is read")
