"""Table files: CSV with a header `NAME:TYPE`, and the first fault of a file."""

import re
from dataclasses import dataclass, field

from lexer import is_name

MOST_BYTES = 16_777_216
MOST_COLUMNS = 100
MOST_TABLES = 64
MARK = b"\xef\xbb\xbf"

LEAST_INT, LARGEST_INT = -2147483648, 2147483647
INT_CELL = re.compile(r"(-?)([0-9]+)")
RANGE = re.compile(r"int\[([^.\]]*)\.\.([^\]]*)\]")
TRUTH_CELLS = {"true": True, "True": True, "TRUE": True, "t": True, "false": False, "False": False, "FALSE": False, "f": False}
NULL = "\\N"
CELL = re.compile(rb'(?:"((?:[^"]+|"")*)(?:"|\Z))?([^,\r\n]*)')


class TableFault(Exception):
    """The table is refused, for the reason that is on standard error."""


class NoCell(Exception):
    """A text isn't a cell of a column."""


@dataclass(frozen=True)
class Column:
    """A column's type, and for its integers the least and the largest that it takes."""

    type: str
    least: int = LEAST_INT
    largest: int = LARGEST_INT


@dataclass
class Table:
    """`columns` is a dict of each column's name to its type; a row is a dict of each column's name to its cell, None for null. `ranges`
    has the least and the largest that a column of integers takes, where its type gives them."""

    columns: dict
    rows: list
    ranges: dict = field(default_factory=dict)


def without_marks(data):
    """The bytes without the byte order marks at their head."""
    place = 0
    while data.startswith(MARK, place):
        place += len(MARK)
    return data[place:]


def record_at(data, place):
    """The cells of the record that starts at the place, and where it ends. RFC 4180: cells are parted by commas.

    A cell that starts with a double quote holds commas, line ends and doubled quotes up to the next quote that is alone,
    or to the end of the file; what follows that, up to the cell's end, is text as it is. Blanks belong to the cell.
    """
    record = []
    while True:
        found = CELL.match(data, place)
        quoted, plain = found.groups()
        record.append((quoted or b"").replace(b'""', b'"') + plain)
        place = found.end()
        if data[place:place + 1] != b",":
            return record, place
        place += 1


def records_of(data):
    """RFC 4180: a record ends by CR LF, and here by CR or LF alone too; the last one perhaps without. No empty line is one."""
    place = 0
    while True:
        while data[place:place + 1] in (b"\r", b"\n"):
            place += 1
        if place == len(data):
            return
        record, place = record_at(data, place)
        yield record


def int_of(text):
    """The int that a text spells, an optional `-` and digits, however many zeros lead."""
    found = INT_CELL.fullmatch(text)
    if found is None:
        raise NoCell
    sign, digits = found.groups()
    digits = digits.lstrip("0") or "0"
    value = int(sign + digits) if len(digits) <= 10 else LARGEST_INT + 1
    if not LEAST_INT <= value <= LARGEST_INT:
        raise NoCell
    return value


def column_of_type(spelled):
    """The column of a TYPE. The bounds of a range are spelled as cells are, and the first isn't above the second."""
    if spelled in ("int", "int?", "bool", "string"):
        return Column(spelled)
    found = RANGE.fullmatch(spelled)
    if found is None:
        raise NoCell
    least, largest = map(int_of, found.groups())
    if least > largest:
        raise NoCell
    return Column("int", least, largest)


def column_of(cell):
    """The column's name and the column that a cell `NAME:TYPE` of the header gives."""
    try:
        name, colon, spelled = cell.decode("utf-8").partition(":")
        if not is_name(name) or not colon:
            raise NoCell
        return name, column_of_type(spelled)
    except (UnicodeDecodeError, NoCell):
        raise TableFault("header") from None


def columns_of(header):
    """The header's cells in order: a cell's form comes before whether its name was there already."""
    columns = {}
    for cell in header:
        name, column = column_of(cell)
        if name in columns:
            raise TableFault("duplicate-name")
        columns[name] = column
    return columns


def value_of_cell(cell, column):
    """What a cell of the column holds. A cell that isn't UTF-8 holds nothing, whatever the column's type."""
    try:
        text = cell.decode("utf-8")
    except UnicodeDecodeError:
        raise NoCell from None
    if text == NULL and column.type in ("int?", "string") or text == "" and column.type == "int?":
        return None
    if column.type == "string":
        return text
    if column.type == "bool":
        if text not in TRUTH_CELLS:
            raise NoCell
        return TRUTH_CELLS[text]
    value = int_of(text)
    if not column.least <= value <= column.largest:
        raise NoCell
    return value


def row_of(record, columns, number):
    """A record's length comes before its cells, and these are read in order. The header is record 1, its first cell column 1."""
    if len(record) != len(columns):
        raise TableFault("csv")
    row = {}
    for place, ((name, column), cell) in enumerate(zip(columns.items(), record), 1):
        try:
            row[name] = value_of_cell(cell, column)
        except NoCell:
            raise TableFault(f"cell {number} {place}") from None
    return row


def table_of(data):
    """The table that a file's bytes give: bytes and columns are counted first, then comes the first fault, record by record."""
    if len(data) > MOST_BYTES:
        raise TableFault("too-large")
    records = records_of(without_marks(data))
    header = next(records, None)
    if header is None:
        raise TableFault("header")
    if len(header) > MOST_COLUMNS:
        raise TableFault("too-large")
    columns = columns_of(header)
    rows = [row_of(record, columns, number) for number, record in enumerate(records, 2)]
    ranges = {name: (column.least, column.largest) for name, column in columns.items() if column.type == "int"}
    return Table({name: column.type for name, column in columns.items()}, rows, ranges)


def name_of(word):
    """The table's name: the file's name after its last `/`, without `.csv` at its end."""
    name = word.rsplit("/", 1)[-1].removesuffix(".csv")
    if not is_name(name):
        raise TableFault("name")
    return name


def read_table(word, tables):
    """Adds the table of a file to the tables that are there."""
    name = name_of(word)
    try:
        with open(word, "rb") as file:
            data = file.read(MOST_BYTES + 1)
    except OSError:
        raise TableFault("read") from None
    table = table_of(data)
    if name in tables:
        raise TableFault("duplicate-table")
    if len(tables) == MOST_TABLES:
        raise TableFault("too-many")
    tables[name] = table
