"""The whole program by this reading: words and a script give standard output, standard error and a status.

It can be used in the place of `lq`, slowly: `python3 -B tests/second_opinion/program.py --role R --policy P T.csv .. <SCRIPT`.
Like `lq` it takes `--script S` and `--watch LIST`, and also `--audit`, for which it prints the calls that this reading makes: of those
that a statement may make, `lq` may make others.
"""

import os
import sys
from dataclasses import dataclass

from calls import MADE
from commands import HelpWanted, UsageFault, options_of
from policies import PolicyFault, as_seen, read_policies
from predicates import ListFault, predicates_of
from sessions import Session
from tables import TableFault, read_table, without_marks

MOST_SCRIPT_BYTES = 1_048_576
MOST_LINE_BYTES = 65_536


class Fault(Exception):
    """The program ends with a line on standard error and a status."""

    def __init__(self, line, status):
        super().__init__(line)
        self.line = line
        self.status = status


WRITE_FAULT = Fault("lq: script: write", 4)
SOME_TEXT = None


@dataclass(frozen=True)
class Answer:
    """The program's status, and what it wrote to standard output and to standard error. SOME_TEXT means any text, but
    not for none: that of the library that reads the command line."""

    status: int
    output: bytes
    errors: bytes
    # What the role has to do with the rows: words for those who count cases.
    views: frozenset = frozenset()

    def is_met_by(self, other):
        texts = ((self.output, other.output), (self.errors, other.errors))
        return self.status == other.status and all(want == found or want is SOME_TEXT and found for want, found in texts)


def tables_of(words):
    """The tables of the words in order; the first fault ends the program."""
    tables = {}
    for word in words:
        try:
            read_table(word, tables)
        except TableFault as fault:
            raise Fault(f"lq: {word}: {fault}", 3) from None
    return tables


def predicates_for(options):
    """The host predicates of the words."""
    try:
        return predicates_of(options.values.get("--watch"))
    except ListFault:
        raise Fault("lq: watch", 2) from None


def started(options):
    """The session in its first state, and words for what the role sees. The list of `--watch` is read before the tables, these before
    the policies, and these before the role is looked up."""
    predicates = predicates_for(options)
    tables = tables_of(options.tables)
    word, user = options.values["--policy"], options.values["--role"]
    try:
        policies = read_policies(word, tables, predicates)
    except PolicyFault as fault:
        raise Fault(f"lq: {word}: {fault}", 3) from None
    if user not in policies.roles:
        raise Fault(f"lq: {user}: role", 3)
    return Session(tables, policies, user, predicates), views_of(policies, tables, as_seen(policies, tables, user), user)


def views_of(policies, tables, seen, user):
    """Whether the tables with row security are seen in part, not at all or whole, and what is said of the role."""
    pairs = [(len(seen[name].rows), len(tables[name].rows)) for name in policies.secured if tables[name].rows]
    if not pairs:
        return frozenset()
    count, rows = map(sum, zip(*pairs))
    words = ["none" if count == 0 else "whole" if count == rows else "part"]
    role = policies.roles[user]
    return frozenset(words + ["bypass"] * role.bypass + ["member"] * (len(role.within) > 1))


def script_of(options, read_script):
    """The bytes of the script: the file that is named, or standard input."""
    try:
        if "--script" not in options.values:
            return read_script()
        with open(options.values["--script"], "rb") as file:
            return file.read(MOST_SCRIPT_BYTES + 1)
    except OSError:
        raise Fault("lq: script: read", 4) from None


def lines_of(script):
    """The lines of a script's bytes, without byte order marks at its head. Sizes, marks among them, come before UTF-8."""
    if len(script) > MOST_SCRIPT_BYTES or any(len(line) > MOST_LINE_BYTES for line in script.split(b"\n")):
        raise Fault("lq: script: too-long", 4)
    try:
        return without_marks(script).decode("utf-8").split("\n")
    except UnicodeDecodeError:
        raise Fault("lq: script: utf8", 4) from None


def served(words, read_script):
    """Tables, policies and the role come before the script, and the whole script before its first line is answered."""
    options = options_of(words)
    session, views = started(options)
    script = script_of(options, read_script)
    MADE.clear()
    output = "".join(map(session.step, lines_of(script)))
    audit = "".join(f"{call}\n" for call in MADE) if "--audit" in options.flags else ""
    return Answer(0, output.encode(), audit.encode(), views)


def ended_by(fault):
    """The answer of a program that a fault ends: nothing but the fault's line was written."""
    return Answer(fault.status, b"", f"{fault.line}\n".encode())


def answer(words, read_script, can_write=True):
    """The answer to words and a script; `can_write` is whether standard output takes bytes."""
    try:
        given = served(words, read_script)
        if given.output and not can_write:
            raise WRITE_FAULT
        return given
    except Fault as fault:
        return ended_by(fault)
    except UsageFault:
        return Answer(2, b"", SOME_TEXT)
    except HelpWanted:
        return Answer(0, SOME_TEXT, b"")


def main():
    """The answer to this process's words and standard input, on its own standard streams."""
    words = [os.fsencode(word) for word in sys.argv[1:]]
    given = answer(words, lambda: open(0, "rb").read())
    try:
        with open(1, "wb", closefd=False) as output:
            output.write(b"help\n" if given.output is SOME_TEXT else given.output)
    except OSError:
        given = ended_by(WRITE_FAULT)
    sys.stderr.buffer.write(b"usage\n" if given.errors is SOME_TEXT else given.errors)
    sys.exit(given.status)


if __name__ == "__main__":
    main()
