"""Reads what a check of a crate says: which functions are proved, and why the others are not."""

import re

FUNCTION = re.compile(r"fn (\S+): (proved|not proved|no proof|could not tell)\b(.*)")
OPEN_GOAL = re.compile(r"note: \S+:\d+:\d+: it is not proved that .*?\((`[^`]*`)\)")
UNTRIED = re.compile(r"note: `search` has not tried the goals of `(\S+)`")
ERROR = re.compile(r"(?:\./)?(\S+?):(\d+):(\d+): error(?:\[[^]]*\])?: (.*)")
# A proof that names what an edit took away, or that depends on such a one, says nothing about the contract.
ONLY_A_NAME = re.compile(r"is not in scope|has no field|has no `|is no name|which was (not admitted|rejected)|was not admitted")

# An error there is of the text and not of a proof.
SOURCES = ("src/", "specs/")


class Failure:
    """Why a function has no proof, less what it calls."""

    def __init__(self, status, reasons, goals):
        self.status, self.goals = status, goals
        self.reasons = [it for it in reasons if it and not it.startswith("it calls ")]
        self.calls = any(it.startswith("it calls ") for it in reasons)
        self.searched = next((it for it in self.reasons if it.startswith("`search` did not prove")), None)


class Answer:
    """What one check said. `refused_early` is an error of the sources, before which no prover was asked."""

    def __init__(self, text):
        self.text, self.proved, self.failures, self.untried, self.errors = text, set(), {}, set(), []
        goals = []
        for line in text.split("\n"):
            self.read(line, goals)
        self.last = text.rstrip("\n").split("\n")[-1]
        self.has_verdict = bool(re.search(r"^logic=(not-)?proved\b", text, re.M))
        self.refused_early = next((it for it in self.errors if it[0].startswith(SOURCES)), None)

    def read(self, line, goals):
        """Reads a line; `goals` has the open goals that are above the line of their function."""
        if found := FUNCTION.match(line):
            self.judge(found, goals)
            goals.clear()
        elif found := OPEN_GOAL.match(line):
            goals.append(found[1])
        elif found := UNTRIED.match(line):
            self.untried.add(found[1])
        elif found := ERROR.match(line):
            self.errors.append((found[1], int(found[2]), found[4]))

    def judge(self, found, goals):
        name, status, rest = found.groups()
        if status == "proved":
            self.proved.add(name)
        else:
            self.failures[name] = Failure(status, re.split(r"[:;] ", rest), [*goals])

    def own_failure(self, function):
        """The goal that keeps the function itself, or a closure in it, from being proved, if there is one."""
        if function.cycle:
            return self.failure_in_cycle(function)
        for name in self.lines_of(function):
            failure = self.failures[name]
            if failure.searched or failure.goals:
                return failure.searched or f"not proved: {', '.join(failure.goals)}"
        return self.error_of(function)

    def failure_in_cycle(self, function):
        """The goals of a function of a cycle that are open. All functions of a cycle have one proof, in which each goal has the name
        of its function in front; each function's line names all goals that are open."""
        searched = [self.failures[it].searched or "" for it in self.lines_of(function)]
        own = [it for it in re.findall(r"`([^`]*)`", "".join(searched)) if it.startswith(f"{function.name.split('::')[-1]}-")]
        return f"`search` did not prove {', '.join(f'`{it}`' for it in own)}" if own else self.error_of(function)

    def error_of(self, function):
        """The error in the function's proof that isn't one of a name alone, if there is one."""
        errors = [it for it in self.errors if is_of(it, function) and not ONLY_A_NAME.search(it[2])]
        if function.cycle:
            errors = [it for it in errors if it[2].startswith(f"`{function.name.split('::')[-1]}-")]
        return told(errors[0]) if errors else None

    def lines_of(self, function):
        """The names of the function and of the closures in it that are not proved."""
        parts = function.name.split("::")
        closures = tuple("::".join([*parts[:at], "fn", *parts[at:], ""]) for at in range(1, len(parts)))
        return [it for it in self.failures if it == function.name or it.startswith(closures)]

    def is_proved(self, function):
        return function.name in self.proved and not self.lines_of(function)

    def waits(self, function):
        """Whether the function only waits for the proof of what it calls, so that nothing is known of its body."""
        failed = [self.failures[it] for it in self.lines_of(function)]
        return function.name in self.untried or bool(failed) and all(it.calls and not it.reasons for it in failed)

    def other_reason(self, function):
        """Why the function has no proof where no goal of its own is open."""
        failure = self.failures.get(function.name)
        if failure is None or failure.status == "could not tell":
            return "the checker could not tell"
        names = [it for it in self.errors if is_of(it, function)]
        if names:
            return f"only a proof file is refused, for a name that the edit took away: {told(names[0])}"
        return "; ".join(failure.reasons) or failure.status

    def open_error(self):
        """An error of a proof that is more than a missing name, or an open goal."""
        errors = [it for it in self.errors if not ONLY_A_NAME.search(it[2])]
        if errors:
            return told(errors[0])
        return next((it.searched for it in self.failures.values() if it.searched), None)


def is_of(error, function):
    """Whether the error is in the function's own proof files, or in those of its cycle."""
    own = f"proofs/{'/'.join(function.name.split('::')[1:])}/"
    return error[0].startswith(own) or bool(function.cycle) and f"/+{function.cycle}/" in f"/{error[0]}"


def told(error):
    return f"{error[0]}:{error[1]}: {error[2][:120]}"
