"""The examples of a page of Markdown, by the rules that `run` describes."""

import json
import re
import tomllib
from dataclasses import dataclass
from pathlib import Path

from pages import blocks_of, span_of, unwrapped

ROOT = Path(__file__).resolve().parent.parent.parent
# What a page shows and isn't run here, each with the reason.
NOT_RUN = {
    "bash tests/run\n": "this test is a part of it",
    "run from x in whole select x.c;": "tests/performance runs it, over a table of 16 MB",
    '{"error":"memory"}': "only a refused growth of memory gives it, as in tests/growths",
    '{"error":"full"}': "no script is long enough to use up the numbers of rows",
    '{"error":"cell"}': "nobody may put rows into the one table with a range; tests/cli/new_cells_out_of_range has it",
}
# Forms, with names in place of words.
FORMS = {
    "./lq --role R --policy P [--script S] [--watch LIST] [--audit] T.csv ..\n",
    "lq --role R --policy P [--script S] [--watch LIST] [--audit] T.csv ..\n",
    "run E;", "var N = E;", "N = E;",
    "as R;", "insert T (c, ..);", "delete T x => p;",
}
STATEMENT = re.compile(r"(?:(?:run|var|as|insert|delete)\b|\w+ = ).*;")
LIKE_A_REPLY = re.compile(r'\{"|":')
# In a form of a reply: a letter for a value, and two points for items.
SHORT = re.compile(r"(?<=:)([A-Za-z])\b|\.\.")
NO_TYPE = '{"error":"type"}'

FOLDER = re.compile(r"`(examples/\w+)`")
ROLE = re.compile(r"\b[Aa]s (?:the role )?`(\w+)`")
PRINTS = re.compile(r"prints\s+(what\s+is\s+in\s+)?`([^`]+)`")
HEADER = re.compile(r"`(\w+)`\s+with\s+the\s+header\s+`([^`]+)`")
ANSWERED = re.compile(r"`([^`]+;)`\s+is\s+answered\s+`([^`]+)`")
TIMES = re.compile(r"`([^`]+);`\s+with\s+(\d+)\s+times\s+`([^`]+)`\s+before\s+its\s+`;`\s+is\s+answered\s+`([^`]+)`,"
                   r"\s+and\s+with\s+(\d+)\s+times\s+`([^`]+)`")
TYPED = re.compile(r"((?:`[^`]+`(?:,\s+|\s+and\s+|,\s+and\s+)?)+)\s+(has|have)\s+(no|a)\s+type")
POLICY = re.compile(r"policy\s+`(\w+)`")
POLICY_FILE = re.compile(r"`(examples/\w+/policy\.toml)`")


class Failure(Exception):
    """An example that can't be read, or that the program answers otherwise."""


@dataclass
class Example:
    """Commands for bash, run in a folder with files, and what they have to print. `refusal` is the only line on standard error;
    where `accepts` is there, it judges what is printed in place of `printed`."""

    place: str
    commands: str
    files: dict
    printed: bytes = b""
    refusal: bytes = b""
    status: int = 0
    accepts: object = None


def words_of(folder, role):
    """The command that serves a script on standard input over a folder of examples/."""
    tables = " ".join(f"{folder}/{path.name}" for path in sorted((ROOT / folder).glob("*.csv")))
    return f"./lq --role {role} --policy {folder}/policy.toml {tables} <script"


class Page:
    """The examples of one page. What the sentences so far have named is in `folder`, `role` and `policies`."""

    def __init__(self, name):
        self.name = name
        self.blocks = blocks_of((ROOT / name).read_text(encoding="utf-8"))
        self.folder = self.role = self.policies = None
        self.examples, self.replies = [], []

    def failure(self, line, text):
        return Failure(f"{self.name}:{line}: {text}")

    def add(self, line, commands, files, **wanted):
        self.examples.append(Example(f"{self.name}:{line}", commands, files, **wanted))

    def add_session(self, line, script, role=None, **wanted):
        """A session over the folder that was named last, as a role, or the one that was named last."""
        if not self.folder or not (role or self.role):
            raise self.failure(line, "no sentence before has named the folder and the role of this example")
        self.add(line, words_of(self.folder, role or self.role), {"script": script}, **wanted)

    def read(self):
        """Finds all examples. Fails at what is none and is not named as such."""
        for place, block in enumerate(self.blocks):
            before = self.blocks[place - 1] if place else None
            behind = self.blocks[place + 1:place + 3]
            taken = []
            if block.kind == "text":
                taken = self.read_text(block, behind)
            elif block.kind == "fence":
                self.read_fence(block, before, behind)
            elif block.kind == "table":
                taken = self.read_table(block, before)
            self.refuse_others(block, taken)
        shown = {example.printed for example in self.examples}
        for line, reply in self.replies:
            if bytes_of(reply) not in shown:
                raise self.failure(line, f"no example of this page has this reply: {reply}")
        return self.examples

    def refuse_others(self, block, taken):
        """Fails at a statement that isn't an example, and at a whole reply of a sentence that belongs to none. Notes those of tables."""
        for span, line in block.spans():
            if LIKE_A_REPLY.search(span) and not is_reply(SHORT.sub(lambda found: "0" if found[1] else "", span)):
                raise self.failure(line, f"this is like a reply, and no JSON: {span}")
            if span in taken or span in FORMS or span in NOT_RUN:
                continue
            if STATEMENT.fullmatch(span) or block.kind == "text" and is_reply(span):
                raise self.failure(line, f"this belongs to no example that can be run: {span}")
            if is_reply(span):
                self.replies.append((line, span))

    def read_text(self, block, behind):
        """The examples of a sentence, and what it names; returns the statements and replies that belong to an example."""
        for folder in FOLDER.findall(block.text):
            self.folder = folder
        roles = roles_of(self.folder)
        self.role = ([role for role in ROLE.findall(block.text) if role in roles] or [self.role])[-1]
        taken = [unwrapped(found[2]) for found in PRINTS.finditer(block.text)]
        if behind and is_table_of(behind[0], "Role", "Reply"):
            taken += statements_in(block)[-1:]
        for found in ANSWERED.finditer(block.text):
            statement, reply = map(unwrapped, found.groups())
            taken += [statement, reply]
            self.add_session(block.line_of(found.start()), statement, printed=bytes_of(reply))
        for found in TIMES.finditer(block.text):
            start, first, more, reply, second, other = map(unwrapped, found.groups())
            taken += [f"{start};", reply, other]
            self.add_session(block.line_of(found.start()), start + more * int(first) + ";", printed=bytes_of(reply))
            self.add_session(block.line_of(found.start()), start + more * int(second) + ";", printed=bytes_of(other))
        for found in TYPED.finditer(block.text):
            accepts = has_type if found[3] == "a" else has_no_type
            for span in re.findall(r"`([^`]+)`", found[1]):
                self.add_session(block.line_of(found.start()), f"run {unwrapped(span)};", accepts=accepts)
        return taken

    def read_fence(self, block, before, behind):
        """The example that a block in fences is, with the paragraph before it and the blocks after it."""
        if block.word == "csharp":
            replies = behind[0] if behind and behind[0].kind == "fence" else (behind + [None] * 2)[1]
            if replies is None or replies.word != "json" or behind[0].kind not in ("text", "fence"):
                raise self.failure(block.line, "no block of replies (`json`) stands behind these statements")
            self.add_session(block.line, block.text, printed=replies.text.encode())
        elif block.word == "sh" and block.text not in NOT_RUN:
            found = PRINTS.search(before.text) if before and before.kind == "text" else None
            if not found:
                raise self.failure(block.line, "the paragraph before doesn't say what these commands print, as in \"prints `X`\"")
            printed = (ROOT / found[2]).read_bytes() if found[1] else bytes_of(found[2])
            self.add(block.line, block.text, {}, printed=printed)
        elif block.word == "toml":
            self.read_policies(block, before.text if before else "")
        elif block.word == "json":
            if not any(it.kind == "fence" and it.word == "csharp" for it in self.before(block)):
                raise self.failure(block.line, "no block of statements (`csharp`) stands before these replies")
        elif block.word not in ("ebnf", "sh", "console") and not (block.word == "text" and block.text in FORMS):
            raise self.failure(block.line, f"a block of the kind `{block.word}` is no example that can be run, and no form")

    def read_policies(self, block, before):
        """The starts of the roles of a policy file, or the file of examples/ that the sentence before says it is."""
        file = POLICY_FILE.search(before)
        if file:
            if (ROOT / file[1]).read_text(encoding="utf-8") != block.text:
                raise self.failure(block.line, f"this is not what stands in {file[1]}")
            return
        headers = HEADER.findall(before)
        if not headers:
            raise self.failure(block.line, "the paragraph before names no table as \"`T` with the header `H`\", and no policy file")
        self.policies = block.text, dict(headers)
        for role in tomllib.loads(block.text)["role"]:
            self.add_policies(block.line, block.text, role["name"])

    def before(self, block):
        """The two blocks before this one."""
        place = self.blocks.index(block)
        return self.blocks[max(0, place - 2):place]

    def add_policies(self, line, text, role, refusal=b""):
        """A start of a role over a policy file and empty tables with the headers that were named."""
        text_of_tables = {f"{table}.csv": f"{header}\n" for table, header in self.policies[1].items()}
        command = f"./lq --role {role} --policy policy.toml {' '.join(text_of_tables)} <script"
        files = {"policy.toml": text, "script": "", **text_of_tables}
        self.add(line, command, files, refusal=refusal, status=3 if refusal else 0)

    def read_table(self, block, before):
        """The examples of a table; returns the statements that belong to one."""
        if is_table_of(block, "Role", "Reply"):
            statements = statements_in(before) if before and before.kind == "text" else []
            if not statements:
                raise self.failure(block.line, "the paragraph before has no statement that this table has replies to")
            for line, row in rows_by_head(block):
                self.add_session(line, statements[-1], role=row["Role"], printed=bytes_of(row["Reply"]))
            return [row["Reply"] for _, row in rows_by_head(block)]
        if is_table_of(block, "Reply", "Example"):
            return self.read_session(block)
        if is_table_of(block, "Rule"):
            policy = POLICY.search(before.text) if before and before.kind == "text" else None
            if not policy or not self.policies:
                raise self.failure(block.line, "no paragraph before names the policy that has these rules, or there is no file before")
            for line, row in rows_by_head(block):
                rule, word = list(row.values())[:2]
                text = with_rule(self.policies[0], policy[1], rule)
                role = tomllib.loads(text)["role"][0]["name"]
                self.add_policies(line, text, role, b"" if word == "is read" else f"lq: policy.toml: {word}\n".encode())
        return []

    def read_session(self, block):
        """The session of a table's examples, a row at a time after those before it; returns what belongs to it."""
        script, taken = "", []
        for line, row in rows_by_head(block):
            statement, reply = row["Example"], (re.findall(r"`([^`]+)`", row["Reply"]) or [row["Reply"]])[0]
            if statement:
                script += f"{statement}\n"
                taken += [statement, reply]
                self.add_session(line, script, accepts=form_of(reply))
        return taken


def form_of(reply):
    """Whether the last line that is printed has the form of a reply: a letter represents a value, or a name in a text, and `..`
    represents items."""
    parts = re.split(r'(\.\.|\b[A-Za-z]\b)', reply)
    texts = ["".join(parts[:place]).count('"') % 2 for place in range(len(parts))]
    kinds = [r"\w+" if inside else ".*" if part == ".." else r'(?:"[^"]*"|\d+)' for part, inside in zip(parts, texts)]
    form = "".join(kind if place % 2 else re.escape(part) for place, (part, kind) in enumerate(zip(parts, kinds)))
    return lambda printed: bool(re.fullmatch(form, printed.decode().removesuffix("\n").split("\n")[-1])) and printed.endswith(b"\n")


def roles_of(folder):
    """The names of the roles of a folder of examples/."""
    return [role["name"] for role in tomllib.loads((ROOT / folder / "policy.toml").read_text())["role"]] if folder else []


def is_table_of(block, *names):
    """Whether a block is a table with these columns."""
    return block.kind == "table" and set(names) <= set(block.rows[0][1])


def rows_by_head(block):
    """The rows of a table by the names of its columns, each with its line."""
    head = block.rows[0][1]
    return [(line, dict(zip(head, map(span_of, cells), strict=True))) for line, cells in block.rows[1:]]


def statements_in(block):
    """The statements of a block that aren't forms, in order."""
    return [span for span, _ in block.spans() if STATEMENT.fullmatch(span) and span not in FORMS]


def is_reply(span):
    """Whether a text is a whole reply, with no names in place of values."""
    try:
        return isinstance(json.loads(span), dict)
    except ValueError:
        return False


def bytes_of(reply):
    return f"{reply}\n".encode()


def has_no_type(printed):
    return printed == bytes_of(NO_TYPE)


def has_type(printed):
    return is_reply(printed.decode()) and not json.loads(printed).get("error")


def with_rule(text, policy, rule):
    """A policy file in which the policy of a name has another rule."""
    changed, count = re.subn(rf'(name = "{policy}"\n(?:.+\n)*?using = )".*"', lambda found: f"{found[1]}'{rule}'", text)
    if count != 1:
        raise Failure(f"the policy file has no policy {policy} with a rule")
    return changed
