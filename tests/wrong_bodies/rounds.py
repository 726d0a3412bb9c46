"""Tries the wrong bodies of a crate in rounds: each round is one check of a copy with one edit in each function."""

import os
import shutil
import signal
import subprocess
import tempfile

from answers import SOURCES, Answer, told

PARTS = ("src", "specs", "proofs")


def linked(source, target):
    """Links a file of kept work, which a check replaces and never writes into; where it can't be linked it is copied."""
    try:
        os.link(source, target)
    except OSError:
        shutil.copy2(source, target)


def copied(source, target, copy=shutil.copy2):
    if os.path.isdir(source):
        shutil.copytree(source, target, copy_function=copy)


def no_verdict(answer):
    """Why a check did not come to judge an edit."""
    if answer.refused_early:
        return f"the checker cannot read it: {told(answer.refused_early)}"
    return f"the check gave no verdict: {answer.last[:160]}"


class Copy:
    """A copy of a crate, with the libraries below it and all that earlier checks kept."""

    def __init__(self, crate, below, room):
        self.crate, self.room, self.folder = crate, room, f"{room}/crates/{crate.name}"
        self.seconds = 0.0
        # A list of the crates alone that the check needs.
        with open(f"{crate.root}/crates.txt", encoding="utf-8") as lines:
            wanted = [it for it in lines if it.split(":")[0].split(" ")[0] in (crate.name, *below)]
        with open(f"{room}/crates.txt", "w", encoding="utf-8") as lines:
            lines.writelines(wanted)
        for name in below:
            self.fill(f"{crate.root}/crates/{name}", f"{room}/crates/{name}", "rlib")

    def fill(self, source, target, *kept):
        for part in PARTS:
            copied(f"{source}/{part}", f"{target}/{part}")
        for part in kept:
            copied(f"{source}/out/{part}", f"{target}/out/{part}", linked)

    def check(self, edits, *flags):
        """What the check says of a fresh copy with these edits."""
        shutil.rmtree(self.folder, ignore_errors=True)
        self.fill(self.crate.folder, self.folder, "incremental")
        for edit in edits:
            for path, changed in edit.changes.items():
                self.write(path, changed)
        words = ["rt", "check", "--jobs", "1", *flags]
        with tempfile.TemporaryFile("w+", errors="replace", dir=self.room) as said:
            ran = subprocess.Popen(words, cwd=self.folder, stdin=subprocess.DEVNULL, stdout=said, stderr=subprocess.STDOUT)
            _, status, used = os.wait4(ran.pid, 0)
            ran.returncode = os.waitstatus_to_exitcode(status)
            if ran.returncode in (-signal.SIGINT, -signal.SIGTERM):
                raise KeyboardInterrupt
            said.seek(0)
            self.seconds += used.ru_utime + used.ru_stime
            return Answer(said.read())

    def write(self, path, changed):
        with open(f"{self.folder}/{path}", encoding="utf-8") as text:
            lines = text.read().split("\n")
        for at, line in changed.items():
            lines[at - 1] = line
        with open(f"{self.folder}/{path}", "w", encoding="utf-8") as text:
            text.write("\n".join(lines))


class Rounds:
    """The rounds of one crate. `results` has of each edit that was tried whether it was refused, and why or why not."""

    def __init__(self, copy, edits, logs=None):
        self.copy, self.logs, self.results, self.count = copy, logs, {}, 0
        # The edits of the round that is judged.
        self.together = []
        for edit in edits:
            if edit.problem:
                self.results[edit.label] = (False, f"cannot be applied: {edit.problem}")
        self.pending = [it for it in edits if not it.problem]

    def run(self):
        while self.pending:
            self.try_together(self.next_round())

    def next_round(self):
        chosen = []
        for edit in sorted(self.pending, key=lambda it: it.is_alone):
            if not chosen or edit.can_join(chosen):
                chosen.append(edit)
        return chosen

    def try_together(self, edits):
        answer = self.copy.check(edits)
        if not answer.has_verdict or answer.refused_early:
            return self.blame(edits, answer)
        self.count, self.together = self.count + 1, edits
        self.log(answer)
        if len(edits) > 1 and self.reaches_others(edits, answer):
            return self.try_together(edits[:1])
        decided = [it for it in edits if self.judge(it, answer)]
        if not decided:
            self.settle_one(edits)

    def reaches_others(self, edits, answer):
        """Whether a function that none of the edits changes has a failure of its own: then the edits are not apart."""
        changed = {it for edit in edits for it in edit.touched}
        others = [it for it in self.copy.crate.all_functions() if it.name not in changed]
        return any(answer.own_failure(it) for it in others)

    def has_neighbours(self, edit):
        """Whether the round has another edit of the same cycle, which keeps this one's function from being proved, too."""
        return any(it.own.cycle == edit.own.cycle for it in self.together if it is not edit and it.own)

    def settle_one(self, edits):
        """Where every edit waits for what its function calls, one is tried by itself, and its answer holds."""
        if len(edits) > 1:
            return self.try_together(edits[:1])
        self.decide(edits[0], False, f"only what it calls is not proved: {edits[0].own.name} has no failure of its own")

    def judge(self, edit, answer):
        """Decides on an edit that the check reports."""
        if edit.is_of_specs():
            return self.judge_specs(edit, answer)
        failure = answer.own_failure(edit.own)
        if failure:
            return self.decide(edit, True, f"{edit.own.name}: {failure}")
        if answer.is_proved(edit.own):
            return self.decide(edit, False, f"{edit.own.name} is still proved")
        if answer.waits(edit.own) or edit.own.cycle and self.has_neighbours(edit):
            return False
        return self.decide(edit, False, f"{edit.own.name}: {answer.other_reason(edit.own)}")

    def judge_specs(self, edit, answer):
        """An edit of a definition is refused where some function's proof fails by more than a missing name."""
        failed, error = [*answer.failures], answer.open_error()
        if not failed or edit.own and edit.own.name not in failed:
            return self.decide(edit, False, f"{edit.own.name if edit.own else 'every function'} is still proved")
        named = edit.own.name if edit.own else ", ".join(failed[:3])
        if not error:
            return self.decide(edit, False, f"{named}: only names that the edit took away are missing")
        return self.decide(edit, True, f"{named}: {error}")

    def decide(self, edit, is_refused, why):
        self.results[edit.label] = (is_refused, why)
        self.pending.remove(edit)
        return True

    def blame(self, edits, answer):
        """Takes out the edits that the checker cannot read: it reads each alone, first those whose lines it names."""
        if len(edits) == 1:
            return self.decide(edits[0], False, no_verdict(answer))
        errors = [it for it in answer.errors if it[0].startswith(SOURCES)]
        named = [it for it in edits if any(line in it.lines_around(path) for path, line, _ in errors)]
        rest = [it for it in edits if it not in named]
        if not self.read_alone(named) and not self.read_alone(rest):
            self.try_together(edits[:1])

    def read_alone(self, edits):
        """Whether the checker cannot read one of these, which are then decided on."""
        before = len(self.pending)
        for edit in edits:
            answer = self.copy.check([edit], "--only", "")
            if answer.refused_early or not answer.last.startswith("only="):
                self.decide(edit, False, no_verdict(answer))
        return len(self.pending) < before

    def log(self, answer):
        if self.logs:
            with open(f"{self.logs}/{self.copy.crate.name}.{self.count}", "w", encoding="utf-8") as to:
                to.write(answer.text)
