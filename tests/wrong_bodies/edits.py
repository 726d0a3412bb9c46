"""Reads wrong bodies: edits in the form of must-fail edits, each of which the prover must refuse."""

import glob
import os
import re

from functions import functions_of, types_of

CLAUSE = re.compile(r"\s*(requires|ensures|ghost)\b")
USAGE = "a line begins with 'file: ', 'old: ', 'new: ' or 'function: '"


class Edit:
    """An edit of one crate. `changes` has each file's new lines by their numbers, `problem` why it cannot be tried."""

    def __init__(self, crate, file):
        self.crate, self.name = crate.name, os.path.basename(file)[: -len(".edit")]
        self.label = f"{self.crate}/{self.name}"
        self.changes, self.spans, self.touched = {}, {}, set()
        self.own, self.named, self.problem = None, None, None
        # An edit of something that many functions depend on is tried in a check of its own.
        self.is_alone = False
        try:
            with open(file, encoding="utf-8") as text:
                self.read(crate, text.read().split("\n"))
            self.find_function(crate)
        except (ValueError, OSError) as why:
            self.problem = str(why)

    def read(self, crate, lines):
        """Applies the pairs in turn, each to what those before it produced, and keeps the lines that differ in the end."""
        path, old, texts = None, None, {}
        for line in lines:
            word, _, rest = line.partition(": ")
            if word == "file":
                path = rest.strip()
                texts.setdefault(path, crate.text_of(path))
            elif word == "function":
                self.named = rest.strip()
            elif word == "old":
                old = rest
            elif line.startswith("new:"):
                texts[path] = replaced(path, texts.get(path), old, line[len("new:") :].removeprefix(" "))
                old = None
            elif line.strip():
                raise ValueError(f"{USAGE}, and not {line[:40]!r}")
        for path, text in texts.items():
            self.keep(crate, path, text)
        if not self.changes:
            raise ValueError("it changes nothing")

    def keep(self, crate, path, text):
        before, after = crate.text_of(path).split("\n"), text.split("\n")
        changed = {at: new for at, (was, new) in enumerate(zip(before, after), 1) if was != new}
        if any(CLAUSE.match(before[at - 1]) or CLAUSE.match(changed[at]) for at in changed) and path.startswith("src/"):
            raise ValueError(f"it changes a contract in {path}, which tries no body")
        if changed:
            self.changes[path] = changed

    def find_function(self, crate):
        """Finds the functions whose lines change; `function:` names the one that must be refused where they are not one."""
        touched = []
        for path, changed in self.changes.items():
            around = [crate.function_at(path, line) for line in changed]
            self.spans[path] = [(it.first, it.last) for it in around if it]
            self.is_alone |= path.startswith("specs/") or None in around
            touched += [it for it in dict.fromkeys(around) if it and it not in touched]
        self.touched = {it.name for it in touched}
        own = touched
        if self.named:
            own = [it for it in crate.all_functions() if f"::{it.name}".endswith(f"::{self.named}")]
        elif self.is_of_specs():
            return
        if len(own) != 1:
            which = ", ".join(it.name for it in own) or "no function"
            raise ValueError(f"it changes or names {which}: a line 'function: NAME' has to name the one that must be refused")
        self.own = own[0]

    def lines_around(self, path):
        """The lines of a file on which an error is the edit's own: those of the functions that it changes, and the changed ones."""
        lines = {*self.changes.get(path, {})}
        for first, last in self.spans.get(path, []):
            lines.update(range(first, last + 1))
        return lines

    def is_of_specs(self):
        return any(path.startswith("specs/") for path in self.changes)

    def can_join(self, others):
        """Whether it may be tried in one check with these: each edit has functions of its own."""
        return not any(self.is_alone or it.is_alone or self.touched & it.touched for it in others)


def replaced(path, text, old, new):
    if text is None or not old:
        raise ValueError("a line 'new:' stands before any 'file:' or 'old:'")
    times = text.count(old)
    if times != 1:
        raise ValueError(f"the text {old[:60]!r} stands in {path} {times} times, and not once")
    return text.replace(old, new)


class Crate:
    """A crate as its files are, whatever is tried on copies of it."""

    def __init__(self, root, name):
        self.root, self.name, self.folder = root, name, f"{root}/crates/{name}"
        self.texts, self.functions = {}, {}
        self.homes = {name: path for path in self.sources() for name in types_of(self.text_of(path))}

    def text_of(self, path):
        if os.path.normpath(path) != path or not path.startswith(("src/", "specs/")):
            raise ValueError(f"'file: {path}' is no file below src/ or specs/")
        if path not in self.texts:
            with open(f"{self.folder}/{path}", encoding="utf-8") as text:
                self.texts[path] = text.read()
        return self.texts[path]

    def functions_in(self, path):
        if path not in self.functions:
            self.functions[path] = functions_of(self.name, path, self.text_of(path), self.homes)
        return self.functions[path]

    def function_at(self, path, line):
        """The innermost function on this line of a source file."""
        if not path.endswith(".rt"):
            return None
        around = [it for it in self.functions_in(path) if it.first <= line <= it.last]
        return max(around, key=lambda it: it.first, default=None)

    def sources(self):
        files = glob.glob(f"{self.folder}/src/**/*.rt", recursive=True)
        return sorted(os.path.relpath(it, self.folder) for it in files)

    def all_functions(self):
        return [it for path in self.sources() for it in self.functions_in(path)]

    def edits(self):
        """Its wrong bodies, and the files beside them that are none."""
        folder = f"{self.folder}/wrong-bodies"
        names = sorted(os.listdir(folder)) if os.path.isdir(folder) else []
        good = [it for it in names if re.fullmatch(r"[a-z0-9_]+\.edit", it)]
        return [Edit(self, f"{folder}/{it}") for it in good], [it for it in names if it not in good]
