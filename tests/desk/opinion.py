"""What the desk answers, computed another way: sessions, types, policies and rights are those of tests/second_opinion, which isn't part of
the program, and what is shown of them is laid out by layout.py."""

import re
import sys
from pathlib import Path

ROOT = Path(__file__).resolve().parent.parent.parent
sys.path.append(str(ROOT / "tests/second_opinion"))

from commands import options_of  # noqa: E402
from depth import DepthFault, check_depth  # noqa: E402
from grammar import Tree, parse  # noqa: E402
from layout import depth, escaped, number, reply_text, table, word, yes  # noqa: E402
from lexer import SyntaxFault, tokens_of  # noqa: E402
from opening import check_opened, opened_by  # noqa: E402
from policies import failing_check, is_visible, may_remove  # noqa: E402
from program import started  # noqa: E402
from rights import denials  # noqa: E402
from rules import holds  # noqa: E402
from scalar_types import TypeFault  # noqa: E402
from scopes import Group, Record, Row, Sequence, value  # noqa: E402
from sessions import Session, compact  # noqa: E402
from tables import records_of, without_marks  # noqa: E402

MOST_LINE_BYTES = 65_536
MOST_SCRIPT_BYTES = 1_048_576
MOST_DEPTH = 127
HINT = "One statement per line; .help lists the commands; Ctrl-D ends.\n"
# The Unicode characters with the property White_Space.
WHITE = "\t\n\v\f\r \x85\xa0\u1680\u2000\u2001\u2002\u2003\u2004\u2005\u2006\u2007\u2008\u2009\u200a\u2028\u2029\u202f\u205f\u3000"
TOO_LONG = "The line has more than 65,536 bytes, and was not read: write a shorter one.\n"
NO_TEXT = "The line is not UTF-8, and was not read: write it in UTF-8.\n"
UNKNOWN = "There is no such command. There are .tables, .roles, .names, .rights, .why, .rows, .json, .time, .run, .help and .quit.\n"
USAGES = {
    **{f".{name}": f"Write .{name} alone.\n" for name in ("tables", "roles", "names", "rights", "help", "quit")},
    ".why": "Write .why T NUMBER, where T is a table and NUMBER the number of a row, or .why T NUMBER delete, or .why T NUMBER insert.\n",
    ".rows": "Write .rows N, where N is a number.\n",
    ".json": "Write .json on or .json off.\n",
    ".time": "Write .time on or .time off.\n",
    ".run": "Write .run FILE, where FILE has no space in its name.\n",
}
# How many words a command takes after its name.
ARGUMENTS = {**dict.fromkeys(USAGES, [0]), ".why": [2, 3], **dict.fromkeys([".rows", ".json", ".time", ".run"], [1])}


class Misuse(Exception):
    """A line begins with a dot and isn't a command; the text says what is wrong."""


class End(Exception):
    """The desk ends."""


def help_text():
    """The list of the commands, as docs/GUIDE.md shows it."""
    return re.search(r"^dan> \.help\n(.*?)^```$", (ROOT / "docs/GUIDE.md").read_text(encoding="utf-8"), re.M | re.S)[1]


def type_text(its_type, is_part=False):
    if isinstance(its_type, Row):
        return its_type.table
    if isinstance(its_type, Record):
        return "{" + ", ".join(f"{name}: {type_text(member)}" for name, member in its_type.members) + "}"
    if isinstance(its_type, Sequence):
        return f"{type_text(its_type.item, True)}[]"
    if isinstance(its_type, Group):
        text = f"group of {type_text(its_type.item, True)} by {type_text(its_type.key, True)}"
        return f"({text})" if is_part else text
    return its_type


def shape_of(its_type):
    """What a value of a type is for those who read it: a sequence or a group, with the shape of an item; or neither, with the names of the
    columns of a row or the members of a record."""
    if isinstance(its_type, Sequence):
        return "sequence", shape_of(its_type.item)
    if isinstance(its_type, Group):
        return "group", shape_of(its_type.item)
    return "plain", [name for name, _ in its_type.members] if isinstance(its_type, (Row, Record)) else []


def closed(line):
    """A statement with the `;` that may be left out, in a line of its own after a comment."""
    try:
        tokens = tokens_of(line)
    except SyntaxFault:
        return line
    return f"{line}\n;" if tokens and tokens[-1].kind != ";" else line


def number_in(text):
    if not re.fullmatch("[0-9]+", text) or int(text) >= 10**18:
        raise Misuse
    return int(text)


class Numbered(Session):
    """A session that keeps the numbers of rows, and the order in which names were defined."""

    def __init__(self, session):
        super().__init__(session.tables, session.policies, session.user, session.predicates)
        self.numbers = {name: list(range(1, len(table.rows) + 1)) for name, table in self.tables.items()}
        self.next = {name: len(table.rows) + 1 for name, table in self.tables.items()}
        self.defined = []

    def define(self, name, tree, opened):
        reply = super().define(name, tree, opened)
        self.defined.append(name)
        return reply

    def insert(self, name, *cells):
        reply = super().insert(name, *cells)
        self.numbers[name].append(self.next[name])
        self.next[name] += 1
        return reply

    def delete(self, name, variable, tree):
        doomed = set(self.doomed(name, variable, tree))
        reply = super().delete(name, variable, tree)
        self.numbers[name] = [it for place, it in enumerate(self.numbers[name]) if place not in doomed]
        return reply

    def served_type(self, line):
        """The type that a line is served by; None where it serves nothing."""
        try:
            tokens = tokens_of(line)
            check_depth(tokens)
            statement = parse(tokens)
            check_opened(opened_by(tokens, {name: query.opened for name, query in self.queries.items()}))
            return value(statement.parts[0], self.scope()).type if statement.kind == "run" else None
        except (SyntaxFault, DepthFault, TypeFault):
            return None


def ranges_of(words):
    """The bounds of each column whose type gives them, by its table and its name."""
    found = {}
    for path in options_of(words).tables:
        header = next(records_of(without_marks(Path(path).read_bytes())))
        for cell in header:
            name, _, spelled = cell.decode().partition(":")
            bounds = re.fullmatch(r"int\[(.*)\.\.(.*)\]", spelled)
            if bounds:
                found[Path(path).name.removesuffix(".csv"), name] = f"int[{int(bounds[1])}..{int(bounds[2])}]"
    return found


class Desk:
    """The desk over the files that words name, in the current folder."""

    def __init__(self, words):
        options = options_of(words)
        session, _ = started(options)
        self.session, self.starting = Numbered(session), session.user
        self.ranges = ranges_of(words)
        self.most, self.is_json = 20, False
        # What it prints, what it writes to standard error, and both in their order.
        self.shown = self.hints = self.screen = ""

    def show(self, text):
        self.shown, self.screen = self.shown + text, self.screen + text

    def hint(self, text):
        self.hints, self.screen = self.hints + text, self.screen + text

    # ---- lines

    def answer_all(self, given):
        """Answers the lines of the input: what it prints, and what it writes to standard error."""
        self.hint(HINT)
        try:
            for line in self.lines_of(given):
                self.answer_bytes(line)
        except End:
            pass
        self.hint("\n")
        return self.shown, self.hints

    def lines_of(self, given):
        """The lines of bytes, with the prompt that each is typed at, and a prompt after the last."""
        lines = given.split(b"\n")
        for line in lines if lines[-1] else lines[:-1]:
            self.hint(f"{self.session.user}> ")
            yield line
        self.hint(f"{self.session.user}> ")

    def answer_bytes(self, data, is_scripted=False):
        if len(data) > MOST_LINE_BYTES:
            self.show(TOO_LONG)
            return
        try:
            line = data.decode("utf-8").strip(WHITE)
        except UnicodeDecodeError:
            self.show(NO_TEXT)
            return
        self.answer(line, is_scripted)

    def answer(self, line, is_scripted):
        if not line.startswith("."):
            self.show(self.answer_statement(closed(line)))
            return
        name, *words = [it for it in line.split(" ") if it]
        try:
            if len(words) not in ARGUMENTS.get(name, []):
                raise Misuse
            method = getattr(self, f"command_{name[1:]}")
            text = method(*words, is_scripted) if name == ".run" else method(*words)
        except Misuse:
            text = USAGES.get(name, UNKNOWN)
        self.show(text)

    def answer_statement(self, line):
        is_long = len(line.encode()) > MOST_LINE_BYTES
        its_type = None if is_long else self.session.served_type(line)
        reply = {"error": "syntax"} if is_long else self.session.replied(line)
        if reply is None:
            return ""
        if self.is_json or depth(reply) > MOST_DEPTH:
            return compact(reply)
        return reply_text(reply, shape_of(its_type), self.most)

    # ---- commands

    def command_tables(self):
        rule_of = self.denials()
        rows = []
        for name, content in self.session.tables.items():
            seen = sum(is_visible(self.session.policies, name, content, row, self.session.user) for row in content.rows)
            rule = rule_of((name, None))
            rows.append([word(name), number(seen) if rule is None else word(rule)])
            for column, its_type in content.columns.items():
                rows.append([word(""), word(""), word(column), word(self.ranges.get((name, column), its_type))])
        return table(["table", "rows seen", "column", "type"], rows)

    def command_roles(self):
        roles = self.session.policies.roles
        return table(["role", "current", "bypasses row security"],
                     [[word(name), yes(name == self.session.user), yes(role.bypass)] for name, role in roles.items()])

    def command_names(self):
        rows = []
        for name in self.session.defined:
            its_type = self.session.served_type(f"run {name};")
            kind = "variable" if name in self.session.variables else "query"
            rows.append([word(name), word(kind), word(type_text(its_type) if its_type else "none")])
        return table(["name", "kind", "type"], rows)

    def command_rights(self):
        rule_of = self.denials()
        rows = []
        for name, content in self.session.tables.items():
            for to in (*content.columns, "insert", "delete"):
                rule = rule_of((name, to))
                rows.append([word(name), word(to), yes(rule is None)] + ([] if rule is None else [word(rule)]))
        return table(["table", "use", "may", "denied by"], rows)

    def command_why(self, name, text, action=None):
        wanted = number_in(text)
        if action not in ("delete", "insert", None):
            raise Misuse
        if name not in self.session.tables:
            return f"There is no table {escaped(name)}; .tables lists the tables.\n"
        return self.reasons(name, wanted, action or "select")

    def command_rows(self, text):
        self.most = number_in(text)
        return f"Rows shown per reply: at most {self.most}.\n"

    def command_json(self, text):
        self.is_json = switch(text)
        return "Replies are shown as lines of JSON.\n" if self.is_json else "Replies are shown as tables.\n"

    def command_time(self, text):
        return "The time of each statement is reported on standard error.\n" if switch(text) else "No times are reported.\n"

    def command_run(self, name, is_scripted):
        if is_scripted:
            return "A script can't run another one.\n"
        try:
            script = Path(name).read_bytes()
        except OSError:
            return "There is no file of this name that can be read.\n"
        if len(script) > MOST_SCRIPT_BYTES:
            return "The script has more than 1,048,576 bytes, and no line of it was answered.\n"
        lines = script.split(b"\n")
        for line in lines if lines[-1] else lines[:-1]:
            self.answer_bytes(line, is_scripted=True)
        return ""

    def command_help(self):
        return help_text()

    def command_quit(self):
        raise End

    # ---- reasons

    def denials(self):
        return denials(self.session.policies, self.session.tables, self.session.user)

    def reasons(self, name, wanted, action):
        """Why the role may or may not do this with the row of this number. Of a row that neither the role sees nor the desk's first role
        by its bypass, and of one that isn't there, nothing is said."""
        policies, user, content = self.session.policies, self.session.user, self.session.tables[name]
        found = [row for row, it in zip(content.rows, self.session.numbers[name]) if it == wanted]
        if not found or not (policies.roles[self.starting].bypass or is_visible(policies, name, content, found[0], user)):
            return (f"{user} sees no row {wanted} of {name}. Whether there is one is explained only at a desk that begins as a role that "
                    "bypasses row security.\n")
        verb = "see" if action == "select" else action
        begin = f"By the policies, {user} {{}} {verb} row {wanted} of {name}: {{}}.\n"
        if name not in policies.secured:
            return begin.format("may", "the table has no row security")
        if policies.roles[user].bypass:
            return begin.format("may", "the role bypasses row security")
        return self.policies_on(begin, name, content, found[0], action)

    def policies_on(self, begin, name, content, row, action):
        policies, user = self.session.policies, self.session.user
        role, rows = policies.roles[user], []
        for policy in policies.policies:
            if policy.table == name and any(policy.applies(role, it) for it in {action, "select" if action == "delete" else action}):
                rule = policy.check if action == "insert" else policy.using
                kind = word("restrictive" if policy.is_restrictive else "permissive")
                rows.append([word(policy.name), kind, yes(holds(rule, content, row, user))])
        may = {
            "select": lambda: is_visible(policies, name, content, row, user), "delete": lambda: may_remove(policies, name, content, row, user),
            "insert": lambda: failing_check(policies, name, content, row, user) is None,
        }[action]()
        permissive = "permissive policy for reading and one for deleting" if action == "delete" else "permissive policy"
        reason = f"at least one {permissive} must be true of it, and every restrictive one"
        return begin.format("may" if may else "may not", reason) + (table(["policy", "kind", "true"], rows) if rows else "No policy applies.\n")


def switch(text):
    if text not in ("on", "off"):
        raise Misuse
    return text == "on"
