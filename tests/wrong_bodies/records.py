"""Records of wrong bodies that were refused: tests/wrong_bodies/refused/CRATE.

A record holds a checksum of all that an answer depends on, and what was answered. As long as the checksum is the same, a further
trial would only say the same again, which takes a processor some hours.
"""

import hashlib
import os
import re
import subprocess

from named import Named, uncommented

PARTS = ("src", "specs")
HERE = os.path.dirname(os.path.realpath(__file__))
# How a proof is searched for, which isn't part of what is said.
SOUGHT = re.compile(r"#!?\[tactic\((?:[^()]|\([^()]*\))*\)\]")
# What of this tool an answer depends on.
JUDGES = ("answers.py", "edits.py", "functions.py", "rounds.py")


def files_below(folder):
    """The files below a folder by their paths there, each with its bytes."""
    for at, folders, names in os.walk(folder):
        folders.sort()
        for name in sorted(names):
            with open(f"{at}/{name}", "rb") as file:
                yield os.path.relpath(f"{at}/{name}", folder), file.read()


def logic_of_rt():
    """The logic that proofs are checked in, as `rt version` names it. A kit with the same one can't prove what it doesn't have."""
    said = subprocess.run(["rt", "version"], stdin=subprocess.DEVNULL, stdout=subprocess.PIPE, check=False).stdout
    return said.partition(b" logic ")[2]


class Record:
    """What is on record of a crate, over the crates `below` it.

    An answer depends on what the crate says, its code, contracts and definitions, and of the crates below it on what it names of
    them (`named`). It doesn't depend on proofs, since no lemma makes true of a wrong body what is false of it; nor on comments, nor on
    the crate and file in which something named is, so that definitions may move.
    """

    def __init__(self, root, name, below):
        self.root, self.name, self.file = root, name, f"{root}/tests/wrong_bodies/refused/{name}"
        self.below = below
        self.sum = self.sum_of_all()

    def own_files(self, *parts):
        """The files of these folders of the crate, by their paths in it, each with its bytes."""
        at = f"{self.root}/crates/{self.name}"
        return {f"{part}/{path}": text for part in parts for path, text in files_below(f"{at}/{part}")}

    def sum_of_all(self):
        """The checksum of the toolchain's logic, what judges here, what is named, the crate and its edits."""
        found = hashlib.sha256(logic_of_rt())
        for name in JUDGES:
            with open(f"{HERE}/{name}", "rb") as file:
                self.add(found, name, file.read())
        own = {path: SOUGHT.sub("", text.decode(errors="replace")) for path, text in self.own_files(*PARTS).items()}
        named = Named(self.root, self.name, {f"crates/{self.name}/{path}": text for path, text in own.items()}, self.below)
        for text in named.texts():
            self.add(found, "named", text.encode())
        for it in sorted(self.known_of(named, path, text) for path, text in own.items()):
            self.add(found, "own", it.encode())
        for path, text in self.own_files("wrong-bodies").items():
            self.add(found, path, text)
        return found.hexdigest()

    def known_of(self, named, path, text):
        """What counts of an own file."""
        whole = f"crates/{self.name}/{path}"
        if path == "specs/Lib.antt":
            return ""
        return "\0".join([path, uncommented(path, named.without_imports(whole, text)), repr(named.imports(whole))])

    @staticmethod
    def add(found, name, text):
        found.update(f"{len(name.encode())} {name} {len(text)} ".encode() + text)

    def refused(self):
        """How many wrong bodies are on record as refused on just these bytes; None where a trial has to decide."""
        try:
            with open(self.file, encoding="utf-8") as lines:
                first, *rest = lines.read().splitlines()
        except (OSError, ValueError):
            return None
        return len(rest) if first == self.sum and rest else None

    def keep(self, results):
        """Records the results of a trial in which all were refused, unless what was tried has changed meanwhile."""
        if not results or not all(is_refused for is_refused, _ in results.values()) or self.sum != self.sum_of_all():
            return
        os.makedirs(os.path.dirname(self.file), exist_ok=True)
        with open(self.file, "w", encoding="utf-8") as to:
            to.write("\n".join([self.sum, *(f"{label}: {why}" for label, (_, why) in sorted(results.items()))]) + "\n")
