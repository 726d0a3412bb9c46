"""Whether the calls that a program logs are some that its statements may make.

`--audit` prints the calls of a whole script, and doesn't tell of which statement each is. So the program is run on the first line alone,
on the first two, and so on: what a log has after that of the lines before it are the calls of the last line.
"""

import subprocess
from dataclasses import dataclass, replace

from calls import expression_of, is_carried_out, named_calls
from sessions import compact

MOST_SECONDS = 60


@dataclass(frozen=True)
class Step:
    """A line with the reply's members, the role that it is answered to, and calls: those that the statement names, over the rows that the
    role sees and over the rows that it doesn't see; those over rows whose numbers aren't their places, as rows before them are gone; and
    those that it may make."""

    line: str
    reply: dict
    user: str
    named: frozenset
    hidden: frozenset
    moved: frozenset
    allowed: frozenset

    def text(self):
        return "" if self.reply is None else compact(self.reply)


def moved(table):
    """The rows of a table that don't have their places as their numbers."""
    return replace(table, rows=[row for place, row in enumerate(table.rows, 1) if row.number != place])


def step_of(session, line):
    """The session goes on by the line. The calls are those of the state in which it begins."""
    user, node = session.user, expression_of(session, line)
    named = named_calls(node, session.scope().tables)
    hidden = named_calls(node, session.tables) - named
    behind = named_calls(node, {name: moved(table) for name, table in session.tables.items()})
    reply = session.replied(line)
    return Step(line, reply, user, named, hidden, behind, named if is_carried_out(reply) else frozenset())


def stretches_of(logs):
    """The calls of each line, of the logs of the first line, of the first two, and so on; None where a log doesn't begin with the one
    before it."""
    parts, before = [], []
    for log in logs:
        if log[:len(before)] != before:
            return None
        parts.append(log[len(before):])
        before = log
    return parts


def kind_of(step, call):
    """What a call is that the statement may not make."""
    if call in step.hidden:
        return "about a hidden row"
    return "of a refused or denied statement" if call in step.named else "that isn't named, or answered so"


def wrong_calls(steps, stretches):
    """Words for each call that the statement of its line may not make."""
    for number, (step, stretch) in enumerate(zip(steps, stretches, strict=True), 1):
        for call in stretch:
            if call not in step.allowed:
                yield f"in line {number} a call {kind_of(step, call)}: {call}"


def faults_of(steps, logs):
    """Words for what is wrong with the logs of the first line, of the first two, and so on."""
    stretches = stretches_of(logs)
    return ["a log doesn't begin with that of fewer lines"] if stretches is None else list(wrong_calls(steps, stretches))


class NoAudit(Exception):
    """The program did something else than to answer the lines and to print calls."""


def log_of(program, words, lines, replies, folder):
    """The calls that the program prints on these lines, to which it has to give these replies."""
    try:
        ended = subprocess.run([program, "--audit", *words], cwd=folder, input="".join(f"{line}\n" for line in lines).encode(),
                               capture_output=True, timeout=MOST_SECONDS)
    except subprocess.TimeoutExpired:
        raise NoAudit(f"it didn't end within {MOST_SECONDS} seconds") from None
    if ended.returncode != 0 or ended.stdout != "".join(replies).encode():
        raise NoAudit(f"on {len(lines)} lines status {ended.returncode} and {ended.stdout[-300:]!r}, not {''.join(replies[-1:])!r}")
    printed = ended.stderr.decode(errors="replace").split("\n")
    if printed.pop() != "":
        raise NoAudit("the last call has no line end")
    return printed


def logs_of(program, words, steps, folder):
    """The log of the first line, of the first two, and so on."""
    lines, replies = [step.line for step in steps], [step.text() for step in steps]
    return [log_of(program, words, lines[:count], replies[:count], folder) for count in range(1, len(steps) + 1)]
