"""How the desk lays out replies: tables, lists, groups and sentences, by docs/GUIDE.md (Asking by hand, How replies are shown).

A value is what `json` reads of a reply. A cell is a text and whether it is a number.
"""

import json
import unicodedata

MOST_WIDTH = 40
FAULTS = {
    "DivideByZero": "a division by zero", "Overflow": "a number left the range of int", "NullReference": "a member of null was read",
    "InvalidOperation": "no value or no single item where one is needed",
    "ArgumentOutOfRange": "an index, or a host predicate's argument, out of range",
}
ADVICE = {
    "syntax": "this is not a statement; the statements are: run E; var N = E; N = E; as R; insert T (..); delete T x => p;",
    "type": "a name is unknown or already in use, a type doesn't fit, or the number of cells is wrong; try .tables and .names",
    "role": "the policy file has no such role; try .roles",
    "cell": "a value lies outside of its column's range; try .tables",
    "full": "the table has used up its row numbers; it takes no more rows",
    "too-deep": "the statement is too long or too deeply nested; give parts of it a name with var",
}
DONE = {"defined": "{} is defined", "assigned": "{} is assigned", "role": "the role is {}"}
COUNTED = {"inserted": "inserted", "deleted": "deleted"}


def depth(value):
    """How many arrays and objects are around what is innermost in a value."""
    if not isinstance(value, (dict, list)):
        return 0
    return 1 + max(map(depth, value.values() if isinstance(value, dict) else value), default=0)


def width(text):
    """UAX 11 and 44: a wide character takes two columns, and a mark that combines, or that isn't seen, takes none."""
    return sum(map(columns_of, text))


def columns_of(character):
    category = unicodedata.category(character)
    if category in ("Mn", "Me", "Cf"):
        return 0
    # (Python takes a code point that isn't a character for a wide one)
    return 2 if unicodedata.east_asian_width(character) in "WF" and category != "Cn" else 1


def escaped(text):
    """Control characters as RFC 8259 escapes them."""
    short = {"\t": "\\t", "\n": "\\n", "\r": "\\r"}
    return "".join(short.get(it, f"\\u{ord(it):04x}") if unicodedata.category(it) == "Cc" else it for it in text)


def text_of(value):
    if value is None:
        return "∅"
    return escaped(value if isinstance(value, str) else json.dumps(value, separators=(",", ":"), ensure_ascii=False, sort_keys=True))


def shortened(text):
    """A text that is too wide ends in an ellipsis, within the same width."""
    if width(text) <= MOST_WIDTH:
        return text
    end = next(place for place in range(len(text)) if width(text[:place + 1]) > MOST_WIDTH - 1)
    return text[:end] + "…"


def word(text):
    return escaped(text), False


def number(count):
    return str(count), True


def yes(is_so):
    return word("yes" if is_so else "no")


def cell_of(value):
    return shortened(text_of(value)), isinstance(value, int) and not isinstance(value, bool)


def filled(cell, columns, is_last):
    """Numbers to the right, all else to the left; nothing but a number's text is at the end of a line."""
    text, is_number = cell
    gap = " " * (columns - width(text))
    return gap + text if is_number else text if is_last else text + gap


def table(header, rows, indent=0):
    """A table: its header, dashes, and a line a row. A row may lack its last cells."""
    cells = [[word(name) for name in header], *rows]
    widths = [max(width(row[place][0]) for row in cells if place < len(row)) for place in range(len(header))]
    cells.insert(1, [word("-" * columns) for columns in widths])
    lines = ("  ".join(filled(cell, columns, place == len(row) - 1) for place, (cell, columns) in enumerate(zip(row, widths)))
             for row in cells)
    return "".join(f"{' ' * indent}{line}\n" for line in lines)


def plain_text(items, names, indent):
    """Rows and records as a table of the columns of their type, in its order; other items one on a line."""
    if names and all(isinstance(it, (dict, type(None))) for it in items):
        return table([shortened(escaped(name)) for name in names], [[cell_of((it or {}).get(name)) for name in names] for it in items], indent)
    return "".join(f"{' ' * indent}{text_of(it)}\n" for it in items)


def items_text(items, shape, most, indent=0):
    """The first items, by the shape of one, and how many more there are. A sequence and a group have theirs below a line."""
    if not items:
        return " " * indent + "no rows\n"
    shown, (kind, part) = items[:most], shape
    if kind == "sequence":
        text = "".join(f"{' ' * indent}Items:\n{items_text(it, part, most, indent + 2)}" for it in shown)
    elif kind == "group":
        text = "".join(group_text(it, part, most, indent) for it in shown)
    else:
        text = plain_text(shown, part, indent)
    return text + left_out(len(items) - len(shown), indent)


def left_out(count, indent):
    return f"{' ' * indent}… {count:,} more\n" if count else ""


def group_text(group, shape, most, indent=0):
    return f"{' ' * indent}Key: {text_of(group['Key'])}\n{items_text(group['items'], shape, most, indent + 2)}"


def value_text(value, names):
    """A row or a record as a table of its members, whole; another value on a line."""
    if not isinstance(value, dict):
        return f"{text_of(value)}\n"
    return table(["name", "value"], [[word(name), word(text_of(value[name]))] for name in names])


def rows_text(count):
    return "1 row" if count == 1 else f"{count:,} rows"


def fault_text(fault):
    return f"fault: {fault}, {FAULTS[fault]}"


def denied_text(rule, use):
    if rule == "no-grant":
        return f"denied: no grant covers {use}"
    if rule == "default-deny":
        return f"denied by default: no policy permits this row ({use})"
    return f"denied by {escaped(rule)}: {use}"


def reply_text(reply, shape, most):
    """What is shown of a reply by the shape of what is served: a pair of "sequence" and the shape of an item, of "group" and the shape of an
    item, or of "plain" and the names of columns or members."""
    kind, part = shape
    if "items" in reply:
        return items_text(reply["items"], part, most) + (f"{fault_text(reply['fault'])} (these are the items before it)\n" if "fault" in reply else "")
    if "value" in reply:
        return group_text(reply["value"], part, most) if kind == "group" else value_text(reply["value"], part)
    return f"{sentence_of(reply)}\n"


def sentence_of(reply):
    """The sentence of a reply without items and without a value."""
    (name, word), *more = reply.items()
    if more:
        return denied_text(reply["denied"], reply["use"])
    if name == "fault":
        return fault_text(word)
    if name == "error":
        return f"error: {ADVICE[word]}"
    return DONE[name].format(word) if name in DONE else f"{rows_text(word)} {COUNTED[name]}"
