"""Finds the functions of a Rattle source file: their names as a check prints them, and the lines that they are on."""

import re
from collections import namedtuple

# `name` is the path that a check prints, `cycle` what `#[cycle(..)]` names, or None.
Function = namedtuple("Function", "name first last cycle")
# `is_inherent` is whether it is an `impl` of a type's own functions, and not of a trait.
Block = namedtuple("Block", "name first last is_inherent")

UNREAD = re.compile(
    r"""//[^\n]*|/\*.*?\*/|b?r(?P<marks>\#*)".*?"(?P=marks)|b?"(?:\\.|[^"\\])*"|b?'(?:\\[^\n]{1,9}?|[^\\'\n])'""",
    re.S,
)
# What comes before the braces of a clause, where a body would have the signature's end.
CLAUSE = re.compile(r"\b(?:requires|ensures|ghost)\*?(?:\s+\w+)?\s*:?\s*\Z")
HEADS = re.compile(r"^[ \t]*(?:pub(?:\([^)]*\))?\s+)?(?:unsafe\s+)?(impl|trait|mod)\b([^{;]*)\{", re.M)


def blanked(text):
    """The text with blanks for its comments and literals, so that each bracket left is one of the code."""
    return UNREAD.sub(lambda found: re.sub(r"[^\n]", " ", found[0]), text)


def closing(text, at):
    """Where the bracket that opens at `at` is closed."""
    depth = 0
    for found in re.finditer(r"[(\[{}\])]", text[at:]):
        depth += 1 if found[0] in "([{" else -1
        if depth == 0:
            return at + found.end()
    return len(text)


def end_of_function(text, at):
    """Where the function ends whose signature goes on at `at`: after its body, or at the `;` in place of one."""
    since = at
    while True:
        found = re.compile(r"[(\[{;]").search(text, at)
        if not found:
            return len(text)
        if found[0] == ";":
            return found.end()
        at = closing(text, found.start())
        if found[0] != "{":
            continue
        if not CLAUSE.search(text[since : found.start()]):
            return at
        since = at


def without_arguments(text):
    """A path without its generic arguments, and these arguments."""
    at = text.find("<")
    return (text, "") if at < 0 else (text[:at], text[at + 1 : text.rfind(">")])


def last_word(path):
    words = re.findall(r"\w+", without_arguments(path.replace("'", " "))[0])
    return words[-1] if words else ""


def pieces(text):
    """The arguments of a list, split at the commas that are in no bracket."""
    parts, depth = [""], 0
    for mark in text:
        depth += (mark in "<([{") - (mark in ">)]}")
        parts = parts + [""] if mark == "," and depth == 0 else parts[:-1] + [parts[-1] + mark]
    return parts


def name_of_impl(head):
    """`Type`, or for a trait's impl `TypeTraitArguments`, as a check prints it: without the impl's own type parameters."""
    head = re.split(r"\bwhere\b", head.replace("->", "  "))[0].strip()
    own = []
    if head.startswith("<"):
        depth = 0
        for at, mark in enumerate(head):
            depth += (mark == "<") - (mark == ">")
            if depth == 0:
                own = [last_word(it.partition(":")[0]) for it in pieces(head[1:at])]
                head = head[at + 1 :]
                break
    trait, is_trait, kind = head.partition(" for ")
    if not is_trait:
        return last_word(head)
    arguments = [last_word(it) for it in pieces(without_arguments(trait)[1]) if not it.strip().startswith("'")]
    return last_word(kind) + last_word(trait) + "".join(it for it in arguments if it not in own)


def blocks_of(text):
    """The `impl`, `trait` and `mod` blocks of a file."""
    found = []
    for head in HEADS.finditer(text):
        name = name_of_impl(head[2]) if head[1] == "impl" else re.search(r"\w+", head[2])[0]
        is_inherent = head[1] == "impl" and " for " not in head[2]
        found.append(Block(name, head.start(), closing(text, head.end() - 1), is_inherent))
    return found


def cycle_before(text, at):
    """What the attribute `#[cycle(..)]` above the item at `at` names."""
    start = max(text.rfind(mark, 0, at) for mark in "{};") + 1
    found = re.search(r"#\[cycle\((\w+)\)\]", text[start:at])
    return found and found[1]


def modules_of(path):
    """The modules that lead to the file `path` of a crate."""
    modules = re.sub(r"\Asrc/|\.rt\Z", "", path).split("/")
    return [] if modules in (["lib"], ["main"]) else [it for it in modules if it != "mod"]


def types_of(text):
    """The types that the file declares."""
    return set(re.findall(r"\b(?:struct|enum)\s+(\w+)", blanked(text)))


def functions_of(crate, path, text, homes):
    """The functions of the file `path` of a crate, in the file's order.

    A check names the own functions of a type by the module that declares it, whatever file they are in; `homes` has
    the file of each type.
    """
    text = blanked(text)
    blocks, found = blocks_of(text), []
    line_of = lambda at: text.count("\n", 0, at) + 1
    for head in re.finditer(r"\bfn\s+(\w+)", text):
        around = [it for it in blocks if it.first <= head.start() < it.last]
        home = homes.get(around[0].name, path) if around and around[0].is_inherent else path
        end = end_of_function(text, head.end())
        name = "::".join([crate, *modules_of(home), *(it.name for it in around), head[1]])
        found.append(Function(name, line_of(head.start()), line_of(end - 1), cycle_before(text, head.start())))
    return found
