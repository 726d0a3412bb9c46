"""Pages of Markdown, taken apart into the blocks that examples consist of."""

import re
from dataclasses import dataclass, field

SPAN = re.compile(r"`([^`]+)`")
ITEM = re.compile(r"(?:- |\d+\. )")


@dataclass
class Block:
    """A heading, a paragraph or an item of a list (`text`), a block in fences (`fence`, with the word after the fence), or a
    table. `line` is the number of its first line in the page."""

    kind: str
    line: int
    text: str = ""
    word: str = ""
    rows: list = field(default_factory=list)

    def line_of(self, place):
        """The number of the line in which a place of the text is."""
        return self.line + self.text.count("\n", 0, place)

    def spans(self):
        """What is between single backquotes, each with its line; of a table in its cells."""
        if self.kind == "table":
            return [(span, line) for line, cells in self.rows for cell in cells for span in SPAN.findall(cell)]
        return [(unwrapped(it[1]), self.line_of(it.start())) for it in SPAN.finditer(self.text)] if self.kind == "text" else []


def unwrapped(text):
    """A text whose line ends, with the blanks round them, are single blanks."""
    return re.sub(r"\s*\n\s*", " ", text)


def cells_of(line):
    """The cells of a row of a table, in which a bar is written with a backslash."""
    return [cell.strip().replace("\\|", "|") for cell in re.split(r"(?<!\\)\|", line.strip().strip("|"))]


def span_of(cell):
    """What a cell has between backquotes, where that is the whole cell, and else the cell."""
    whole = re.fullmatch(r"`([^`]+)`", cell)
    return whole[1] if whole else cell


def kind_of(line):
    """Which kind of block a line begins or goes on with."""
    if line.startswith("```"):
        return "fence"
    return "table" if line.startswith("|") else "heading" if line.startswith("#") else "text"


def fenced(lines, number):
    """The block in fences that begins at a line, and the number of the line after it."""
    end = next((it for it in range(number + 1, len(lines) + 1) if lines[it - 1].startswith("```")), len(lines) + 1)
    text = "".join(line + "\n" for line in lines[number:end - 1])
    return Block("fence", number, text, lines[number - 1].strip("`").strip()), end + 1


def blocks_of(page):
    """The blocks of a page, in order."""
    lines = page.split("\n")
    blocks, number, open_block = [], 1, None
    while number <= len(lines):
        line = lines[number - 1]
        kind = kind_of(line) if line.strip() else None
        if kind == "fence":
            block, number = fenced(lines, number)
            blocks.append(block)
            open_block = None
            continue
        if kind is None:
            open_block = None
        elif open_block is None or open_block.kind != kind or kind == "heading" or ITEM.match(line):
            open_block = Block(kind, number, line)
            blocks.append(open_block)
        else:
            open_block.text += "\n" + line
        number += 1
    for block in blocks:
        if block.kind == "table":
            rows = [(block.line + place, cells_of(row)) for place, row in enumerate(block.text.split("\n"))]
            block.rows = rows[:1] + rows[2:]
    return blocks
