"""Finds what a proof can know of the crates below its own: the items that it names, and those that these name in turn.

Of a function below, a proof knows what its contract says, and of a type, a definition or a lemma all that it says. So an answer
depends on the items that are named, and on no body of a function that has a contract. A name is looked up where the file that uses
it says: among its own items and those that its `use` lines bring in.
"""

import hashlib
import os
import re
from collections import namedtuple

from functions import UNREAD, blanked

# An item of a file: its names, the types of which it is a function if it is one, and what is known of it.
Item = namedtuple("Item", "names owners text")
# What a file holds: its items, what each name that it brings in means, and all paths in it, each as a list of words.
Held = namedtuple("Held", "items scope paths")

NAME = re.compile(r"\w+(?:['-]+\w+)*'*")
PATH = re.compile(r"\b\w+(?:(?:\.|::)\w+(?:['-]\w+)*)+")

# `use path.{name, other as local}` and `use path as local`, of a source or of definitions.
USED = re.compile(r"^\s*(?:(?:pub|unfoldable|ghost)\s+)*use\s+([\w.:'-]+?)(?:(?:\.|::)\{([^}]*)\})?(?:\s+as\s+(\S+?))?;?\s*$", re.M)
USE = re.compile(r"\s*(?:(?:pub(?:\([^)]*\))?|unfoldable|ghost)\s+)*use\b")

VISIBLE = r"(?:pub(?:\([^)]*\))?\s+)?"
HEAD = rf"(?:#\[|{VISIBLE}(?:unsafe\s+)?(?:fn|struct|enum|trait|impl|const|static|type|mod|use|ghost)\b)"
TOP, MEMBER = re.compile(rf"^{HEAD}", re.M), re.compile(rf"^    {HEAD}", re.M)
DECLARES = re.compile(rf"{VISIBLE}(?:unsafe\s+)?(?:const\s+)?(fn|struct|enum|trait|const|static|type)\s+(\w+)")
BLOCK = re.compile(rf"{VISIBLE}(?:unsafe\s+)?(?:impl|trait)\b")
TYPE = re.compile(r"\b[A-Z]\w+")
ATTRIBUTE = re.compile(r"^\s*#!?\[.*\]$", re.M)
BODY = re.compile(r"^( *)\{\n.*?^\1\}", re.M | re.S)

COMMENT = re.compile(r'("(?:\\.|[^"\\])*")|--[^\n]*')
DEFINES = re.compile(r"(\s*)((?:(?:pub|abbrev|unfoldable|data|record|ruleset|module)\s+)*)([^\s:]+)(?=\s|:|$)")
CONSTRUCTOR = re.compile(r"^\s+(\S+)(?:\s*\{[^}]*\})?\s*:", re.M)


# ---- the items of a source


def pieces(text, starts):
    """What comes before the first start, and the text from each start to the next; attributes belong to what they precede."""
    at, heads = [found.start() for found in starts.finditer(text)], []
    for before, start in zip([None, *at], at):
        if before is None or not text[before:start].lstrip().startswith("#["):
            heads.append(start)
    return text[: at[0]] if at else text, [text[a:b] for a, b in zip(heads, [*heads[1:], len(text)])]


def known_of(function):
    """What is known of a function: without its body and attributes, where it has a contract."""
    return ATTRIBUTE.sub("", BODY.sub("", function, count=1)) if re.search(r"\bensures\b", function) else function


def items_of_source(text):
    """The items that another crate may know of: all types, and the functions that are public or of a trait."""
    for piece in pieces(text, TOP)[1]:
        code = ATTRIBUTE.sub("", piece).lstrip()
        found = DECLARES.match(code)
        if BLOCK.match(code):
            yield from items_of_block(piece)
        elif found and (found[1] != "fn" or code.startswith("pub fn")):
            yield Item([found[2]], frozenset(), known_of(piece))


def items_of_block(text):
    """The items of an `impl` or a trait: its head with all that isn't a function, and its functions."""
    head, members = pieces(text, MEMBER)
    owners = frozenset(TYPE.findall(re.split(r"\bwhere\b", head)[0]))
    is_shared, rest = re.search(r"\btrait\b|\bfor\b", head), [head]
    for member in members:
        code = ATTRIBUTE.sub("", member).lstrip()
        found = DECLARES.match(code)
        if not found or found[1] != "fn":
            rest += [] if USE.match(code) else [member]
        elif is_shared or code.startswith("pub fn"):
            yield Item([found[2]], owners, known_of(member))
    yield Item(sorted(owners), frozenset(), "".join(rest))


# ---- the items of definitions and lemmas


def declarations(text):
    """The declarations of a file, each with the lines that belong to it. A line that is none belongs to the one before."""
    found, indent, is_new = [], None, True
    for line in text.split("\n"):
        depth, head = len(line) - len(line.lstrip()), DEFINES.match(line)
        inside = indent is not None and depth > indent
        if not line.strip():
            is_new = True
            continue
        if USE.match(line) or (head and not inside and (head[2] or is_new and re.match(r"\s*:", line[head.end() :]))):
            found.append([line])
            indent = depth if head and re.search(r"\b(?:data|record)\b", head[2]) else None
        elif found:
            found[-1].append(line)
        is_new = False
    return ["\n".join(it) for it in found]


def items_of_definitions(text):
    """The items of a file of definitions or lemmas. The head of a module, which has no name, belongs to each item in it."""
    heads = []
    for it in declarations(text):
        head, depth = DEFINES.match(it), len(it) - len(it.lstrip())
        if USE.match(it):
            continue
        heads = [other for other in heads if len(other) - len(other.lstrip()) < depth]
        if "module" in head[2] or not re.search(r"[\w◌]", head[3]):
            heads.append(it)
        else:
            yield Item([head[3], *(CONSTRUCTOR.findall(it) if "data" in head[2] else [])], frozenset(), "\n".join([*heads, it]))


# ---- what names mean


def uncommented(path, text):
    """The lines of a file that say something, without comments."""
    if path.endswith(".rt"):
        text = UNREAD.sub(lambda it: "" if it[0].startswith(("//", "/*")) else it[0], text)
    else:
        text = COMMENT.sub(lambda it: it[1] or "", text)
    return "\n".join(it.rstrip() for it in text.split("\n") if it.strip())


def split(path):
    return [it for it in re.split(r"\.|::", path) if it]


def read(path, text):
    """What a file holds."""
    is_source = path.endswith(".rt")
    code = blanked(text) if is_source else COMMENT.sub(lambda it: it[1] or "", text)
    scope, paths = {}, [split(it) for it in PATH.findall(code)]
    for used, names, local in USED.findall(code):
        for name in filter(None, (it.strip() for it in names.replace("\n", " ").split(","))):
            of, _, as_local = name.partition(" as ")
            scope.setdefault((as_local or of).strip(), []).append([*split(used), of.strip()])
        if not names:
            scope.setdefault(local or split(used)[-1], []).append(split(used))
    return Held([*(items_of_source if is_source else items_of_definitions)(code)], scope, paths)


class Named:
    """What the files of a crate name of the crates below it. `own` are the texts of its files by their paths."""

    def __init__(self, root, name, own, below):
        self.root, self.name, self.below, self.held, self.found = root, name, below, {}, {}
        self.own = {path: read(path, text) for path, text in own.items()}
        self.sources = {it: self.sources_of(it) for it in (*below, name)}
        self.words, self.types, self.passed = set(), set(), set()
        left = []
        for path, text in own.items():
            left += self.from_own(path, self.own[path], text)
        self.follow(left)

    def sources_of(self, crate):
        folder = f"{self.root}/crates/{crate}"
        at = [f"{base}/{it}" for base, _, names in os.walk(f"{folder}/src") for it in sorted(names) if it.endswith(".rt")]
        return sorted(os.path.relpath(it, self.root) for it in at)

    def hold(self, path):
        if path not in self.held:
            with open(f"{self.root}/{path}", encoding="utf-8") as file:
                self.held[path] = read(path, file.read())
        return self.held[path]

    def from_own(self, path, held, text):
        """What a file of the crate itself names: all that its `use` lines bring in, and each path."""
        self.words |= {*NAME.findall(text)}
        ways = [way for found in (*held.scope.values(), held.paths) for way in found]
        return [it for way in ways if self.crate_of(path, way) in self.below for it in self.targets(path, way)]

    def crate_of(self, path, way):
        """The crate that a path of words leads to, used in this file."""
        words = [it for it in way if it not in ("Rattle", "pub")]
        return path.split("/")[1] if words and words[0] == "crate" else (words or [""])[0]

    def targets(self, path, way):
        """The files and names that a path of words may mean, used in this file."""
        words, crate = [it for it in way if it not in ("Rattle", "pub")], self.crate_of(path, way)
        if crate not in self.sources:
            return
        rest = [it for it in words[1:] if it != "declared"]
        part = rest.pop(0) if rest and rest[0] in ("specs", "proofs") else None
        for upto in range(len(rest), 0, -1):
            file = f"crates/{crate}/{part}/{'/'.join(rest[:upto])}.antt"
            if part and os.path.isfile(f"{self.root}/{file}"):
                yield from ((file, it) for it in (rest[upto : upto + 1] or [None]))
                return
        for file in self.sources[crate]:
            yield from ((file, it) for it in rest)

    def follow(self, left):
        """Takes what is named, and what that names in turn."""
        while left:
            path, name = left.pop()
            held = self.hold(path)
            for number, item in enumerate(held.items):
                if (path, number) not in self.found and not item.owners and name in item.names:
                    left += self.take(path, number, item)
            if (path, name) not in self.passed:
                self.passed.add((path, name))
                left += self.brought(path, name)
            if not left:
                left = self.functions()

    def brought(self, path, name):
        """What a name means that a file only brings in, and so hands on."""
        held = self.hold(path)
        if any(name in it.names for it in held.items):
            return []
        return [it for way in held.scope.get(name, []) for it in self.targets(path, way)]

    def take(self, path, number, item):
        held = self.hold(path)
        self.found[path, number] = item.text
        words = {*NAME.findall(item.text), *self.signs(held, item.text)}
        self.words |= words
        self.types |= {it for it in item.names if it}
        named = [(path, it) for it in words if any(it in other.names for other in held.items)]
        ways = [way for it in words for way in held.scope.get(it, [])]
        ways += [split(it) for it in PATH.findall(item.text)]
        return named + [it for way in ways for it in self.targets(path, way)]

    @staticmethod
    def signs(held, text):
        """The operators of a file, its own and those that it brings in, whose signs are in the text."""
        known = {it for other in held.items for it in other.names if "◌" in it} | {it for it in held.scope if "◌" in it}
        return [it for it in known if all(part in text for part in it.split("◌"))]

    def functions(self):
        """The functions of types that are named, whose own names are anywhere."""
        left = []
        for path, held in [*self.held.items()]:
            for number, item in enumerate(held.items):
                if (path, number) not in self.found and item.owners & self.types and self.words.intersection(item.names):
                    left += self.take(path, number, item)
        return left

    def texts(self):
        """The texts of what is named, without the places where they are."""
        return sorted({uncommented(path, text) for (path, _), text in self.found.items()})

    # ---- what the `use` lines and the other paths of an own file mean

    def meant(self, path, way):
        """A checksum of all that a path may mean, used in this file; None where it is nothing of these crates."""
        found, left = set(), [*self.targets(path, way)]
        for file, name in left:
            left += [it for it in self.brought(file, name) if it not in left]
            for item in self.hold(file).items:
                if name in item.names or name is None or name in item.owners:
                    found.add(uncommented(file, item.text))
        return hashlib.sha256("\0".join(sorted(found)).encode()).hexdigest() if found else None

    def imports(self, path):
        """What each local name means, by its text in place of its path."""
        found = [(local, self.meant(path, way) or way) for local, ways in self.own[path].scope.items() for way in ways if self.is_ours(path, way)]
        return sorted(found, key=repr)

    def is_ours(self, path, way):
        return self.crate_of(path, way) in self.sources

    def without_imports(self, path, text):
        """The text of an own file without the `use` lines that bring in something of these crates, and what its other paths mean."""
        left = USED.sub(lambda it: "" if self.is_ours(path, split(it[1])) else it[0], text)
        return PATH.sub(lambda it: self.meant(path, split(it[0])) or it[0], left)
