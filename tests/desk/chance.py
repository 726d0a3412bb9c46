"""Sessions at the desk by chance: scripts of tests/second_opinion, some of them without `;`, with commands between their lines.

`dice` is a random.Random.
"""

import random
import re
import sys
from pathlib import Path

sys.path.append(str(Path(__file__).resolve().parent.parent / "second_opinion"))

import policy_files  # noqa: E402
import session_files  # noqa: E402
import session_scripts  # noqa: E402
from cases import filed  # noqa: E402
from policies import policies_of  # noqa: E402
from session_writer import Writer  # noqa: E402
from tables import table_of  # noqa: E402

PLAIN = [".tables", ".roles", ".names", ".rights", ".why", ".rows", ".help"]
MISUSED = [".", ".table", ".tables now", ".why", ".why t", ".why t x", ".rows", ".rows -1", ".json", ".json maybe", ".time", ".run", ".run nosuch",
           ".quit now", ".roles x", ".RIGHTS", ".names\t", ". names"]
# What is shown has to have each of these at least so often, so that sessions that show nothing can't pass.
LEAST = {
    r"^-+(  -+)*$": 150, r"^Key: ": 80, r"^  \S": 300, r" more$": 25, "∅": 60, r"…(?! \d)": 12, r"^no rows$": 90, r"^fault: ": 60,
    r"^denied by ": 45, r"^denied: no grant": 20, r"^denied by default": 10, r"^error: ": 60, r" is defined$": 150, r" is assigned$": 12,
    r"^the role is ": 30, r"^1 row inserted$": 25, r"rows? deleted$": 22, r"^By the policies, \S+ may see": 14,
    r"^By the policies, \S+ may not see": 1, r"^By the policies, \S+ may delete": 10, r"^By the policies, \S+ may not delete": 1,
    r"^By the policies, \S+ may insert": 10, r"^By the policies, \S+ may not insert": 4, r"^\S+ sees no row": 70, r"^There is no table": 4,
    r"^\{\"": 60, r"^Write ": 20, r"^There is no such command": 4, r"^ *Items:$": 90, r"^  +Items:$": 20, r"^  +Key: ": 35, r"^ +… \d": 6,
    r"^\\[ntru]\S* +(permissive|restrictive) ": 10,
}


def command(dice, tables):
    """A command about the tables, or a line that begins as one."""
    word = dice.choice(PLAIN + [".why"] * 12 + [".misused"] * 2 + [".rows"] * 3)
    if word == ".misused":
        return dice.choice(MISUSED)
    if word == ".rows":
        return f".rows {dice.choice([0, 1, 2, 3, 20, 20, 1000])}"
    if word == ".why":
        name = dice.choice([*tables] * 9 + ["nosuch"])
        rows = len(tables[name].rows) + 3 if name in tables else 2
        number = dice.choice([*range(1, rows)] * 9 + [0, 10**18 - 1])
        return f".why {name} {number}{dice.choice([''] * 3 + [' delete', ' insert'] * 3 + [' select'])}"
    return word


# Statements over a table T, with a column C, whose replies take all that a screen may have.
SHOWN = [
    "run T", "run T.FirstOrDefault()", "run from x in T group x by x.C", "run from x in T group x.C by new { x.C, d = 1 }",
    "run from x in T group new { b = x.C, a = x.C } by x.C into g select g", "run (from x in T group x by x.C).First()",
    "run T.Select(x => new { z = x, a = T.Select(y => y.C), n = 1 })",
    "run T.Select(x => new { x.C }).Concat(T.Select(x => true ? null : new { x.C }))",
    "run T.Select(x => T.Select(y => y.C))", "run T.Select(x => T)", "run T.Select(x => (from y in T group y by x.C))",
    "run from x in T group T.Select(y => new { y.C }) by x.C", "run from x in T group x.C by x.C into g group g by g.Count()",
    "run new { b = T.Count(), a = T, n = true }", "run T.Where(x => false)", "run new { T, k = 1 }",
    'run T.Select(x => new { w = "TEXT", x.C })', 'run T.Select(x => "TEXT")', 'run new { w = "TEXT", n = 1 }', 'run from x in T group x by "TEXT"',
    "run T.Select(x => new { HEADING = x.C, k = 1 / T.Count() })",
]
# Texts of all widths, with characters that take two columns or none, and control characters.
PIECES = ["a", "word ", "0123456789", "表", "が", "e\\u0301", "\\t", "\\n", "\\u0000", "\\u0085", "\\u007f", '\\"', "\\\\", "é", "ｗ"]


def text(dice):
    return "".join(dice.choices(PIECES, k=dice.choice([0, 1, 5, 12, 20, 40])))


def statement(dice, tables):
    """A statement about a table whose reply is worth looking at."""
    name, content = dice.choice([*tables.items()])
    column = dice.choice([*content.columns])
    words = {"T": name, "C": column, "TEXT": text(dice), "HEADING": "heading" * dice.choice([1, 2, 5, 6, 9])}
    return re.sub(r"\b(T|C|TEXT|HEADING)\b", lambda found: words[found[1]], dice.choice(SHOWN))


def typed(dice, tables, line):
    """What is typed for a line of a script: the line, perhaps without its `;`, and perhaps a command or a statement more; or the line
    for its JSON."""
    if dice.random() < 0.6:
        line = line.rstrip().removesuffix(";")
    if dice.random() < 0.08:
        return [".json on", line, ".json off"]
    if dice.random() < 0.3:
        return [line, statement(dice, tables)]
    return [line, command(dice, tables)] if dice.random() < 0.6 else [line]


def with_bypass(dice, roles):
    """The roles, or often only those that bypass row security, if there are any: a desk that begins as such a role shows more."""
    return [it for it in roles if it.get("bypass") and dice.random() < 0.9] or roles


def session(number):
    """The words, the files and the input of the session of a number."""
    dice = random.Random(f"desk {number}")
    words, data = filed(dice, session_files.tables(dice))
    tables = {name: table_of(data[word]) for name, word in words.items()}
    file = session_files.policy_file(dice, tables)
    policies = policy_files.spelled_file(dice, file).encode()
    role = dice.choice(with_bypass(dice, file["role"]))["name"]
    lines = session_scripts.script(Writer(dice, tables, policies_of(policies, tables), role))
    given = "\n".join(it for line in lines for it in typed(dice, tables, line)) + dice.choice(["\n", ""])
    call = ["--role", role, "--policy", "p.toml", "--", *words.values()]
    return [word.encode() for word in call], {**data, "p.toml": policies}, given.encode()
