"""Table files by chance: right ones in all spellings, and faulty ones. `dice` is a random.Random."""

from tables import MARK, Table

TABLE_NAMES = [
    "t", "u", "x", "row", "T", "_", "_1", "rows", "From", "int", "host", "items", "a1", "Where", "selected_", "x" * 60, "tä",
    "ｔ", "t٣", "表", "ta\u0301",
]
COLUMN_NAMES = [
    "c", "d", "C", "_", "x", "t", "id", "from_", "Select", "int", "c1", "HOST", "n" * 60, "é", "e\u0301", "列", "aª",
]
TYPES = ["int", "int", "int?", "bool", "string", "string"]
NUMBERS = [*range(10), 0, 1, 2, 10, 100, -1, -2, -10, 2147483646, 2147483647, -2147483647, -2147483648]
TEXTS = [
    "", "a", "a", "b", "ab", "aba", "A", "dan", "eve", "root", "kim", "é", "e\u0301", "😀", "a😀b", "列", " ", " a", "a,b", 'a"b',
    '"', "a\nb", "\r\n", "\x00", "\x7f\x01", "N", "\\n", "\\\\N", "null", "1", "t", "true", "//", "\ufeff", "\u2028", "x" * 300,
]
CELLS = {
    "int": NUMBERS, "int?": [*NUMBERS, *[None] * 12], "bool": [True, False], "string": [*TEXTS, *[None] * 6],
}
TRUTHS = {True: [b"true", b"True", b"TRUE", b"t"], False: [b"false", b"False", b"FALSE", b"f"]}
NO_NAMES = [
    "1t.csv", "t.txt", "from.csv", "Host.csv", "t.csv.csv", ".csv", "sub/", "t😀.csv", "t-1.csv", "t .csv", "t.CSV",
    "-h", "--help", "", "sub/.csv", "٣t.csv", "\u0301t.csv", "t².csv", "/",
]
NO_FILES = ["none.csv", "sub", "none/t.csv", "./none", "sub/none.csv", "../none.csv"]
NO_HEADERS = [
    b"a", b"a:", b"a:Int", b"a:int ", b" a:int", b"a :int", b"a: int", b":int", b"1a:int", b"from:int", b"a:int:int",
    b"a:String", b"a:bool?", b"a:string?", b"a:int ?", b"a:int??", b"a:long", b"a:text", b"a:int[1..2]?", b"a:int?[1..2]",
    b"a:int[1..]", b"a:int[..2]", b"a:int[..]", b"a:int[]", b"a:int[1]", b"a:int[2..1]", b"a:int[1..2", b"a:int[1...2]",
    b"a:int[ 1..2]", b"a:int [1..2]", b"a:int[+1..2]", b"a:int[1..2147483648]", b"a:int[-2147483649..2]", b"a:int[1-2]",
    b"a:int[1..2] ", b"a:bool[0..1]", b"a:string[0..9]", b"a:Int[1..2]", "a:int[٣..٤]".encode(), b"a:int[1..2]x", b"a:int[1..2..3]",
    b"a:int[--1..2]", b"a:int[1,2]", b"a:int(1..2)", "٣:int".encode(), "a\u00a0:int".encode(), "\u0301a:int".encode(),
    "a²:int".encode(), "é".encode(),
    b"a:int\xff", b"\xffa:int", b"", b"a:int\x00", b'a"b:int', b"a-b:int", b"Host:int", MARK + b"a:int",
]
NO_INTS = [
    b"-", b"+1", b" 1", b"1 ", b"1.0", b"1e3", b"0x1", b"--1", b"2147483648", b"-2147483649", b"9" * 10, b"9" * 40,
    b"-" + b"9" * 40, b"1_0", b"null", b"true", "é".encode(), b"1\xff", "٣".encode(), b'1"2', b"1-", b"- 1", b"1\x00", b"a",
    b"4294967297", b"18446744073709551617", MARK + b"1",
]
NO_TRUTHS = [
    b"1", b"0", b"yes", b"T", b"F", b"tRue", b"true ", b" f", b"TRue", b"falsE", b"\\N", b"", b"null", b"tt", b"t\xff", MARK + b"t",
]
NO_TEXTS = [b"\xff", b"a\x80", b"\xc3", b"\xed\xa0\x80", b"\xf0\x9f\x98", b"\\N\xff"]
NO_CELLS = {"int": [*NO_INTS, b"", b"\\N"], "int?": [*NO_INTS, b"\\n", b"\\N ", b"NULL"], "bool": NO_TRUTHS, "string": NO_TEXTS}
EMPTY_FILES = [b"", b"\n", b"\r\n\r\n", MARK, MARK + MARK + b"\n", b"\n\n\r"]
SOUP = [
    b"1", b"2", b"12", b"0", b"-3", b",", b",", b"\n", b"\n", b"\r\n", b"\r", b'"', b'"', b'""', b" ", b"-",
    b"c:int", b"d:int", MARK, b"\\N", b"t", b"f", b"e:bool", b"s:string", b"n:int?",
]


def table(dice):
    """A table's columns and rows, as its file is going to give them."""
    names = dice.sample(COLUMN_NAMES, dice.choice([1, 1, 2, 2, 3, 4, 6]))
    # At least one column of integers, which lines compare with numbers.
    types = ["int", *dice.choices(TYPES, k=len(names) - 1)]
    dice.shuffle(types)
    columns = dict(zip(names, types))
    count = dice.choice([0, 1, 2, 3, 4, 5, 6, 8, 12])
    rows = [{name: dice.choice(CELLS[its_type]) for name, its_type in columns.items()} for _ in range(count)]
    return Table(columns, rows)


def spelled_number(dice, value):
    """The digits of a cell, perhaps after zeros; zero may have a minus sign."""
    sign = "-" if value < 0 or (value == 0 and dice.random() < 0.2) else ""
    return (sign + dice.choice(["", "", "", "0", "0" * 25]) + str(abs(value))).encode()


def spelled_value(dice, value, its_type):
    """A cell that holds the value. An empty cell is null among the integers alone."""
    if value is None:
        return dice.choice([b"", b"\\N"]) if its_type == "int?" else b"\\N"
    if its_type == "bool":
        return dice.choice(TRUTHS[value])
    return value.encode() if its_type == "string" else spelled_number(dice, value)


def spelled_type(dice, content, name):
    """A column's type, now and then with a range that its cells lie in."""
    its_type = content.columns[name]
    if its_type != "int" or dice.random() < 0.6:
        return its_type
    cells = [row[name] for row in content.rows] or [dice.choice(NUMBERS)]
    least = min(min(cells), dice.choice([2147483647, 0, -3, -2147483648]))
    largest = max(max(cells), dice.choice([-2147483648, 9, 100, 2147483647]))
    return f"int[{spelled_number(dice, least).decode()}..{spelled_number(dice, largest).decode()}]"


def records(dice, content):
    """The header and the records of a table, as lists of cells."""
    header = [f"{name}:{spelled_type(dice, content, name)}".encode() for name in content.columns]
    return [header] + [[spelled_value(dice, cell, content.columns[name]) for name, cell in row.items()] for row in content.rows]


def spelled_cell(dice, cell):
    """A cell as it is, or in quotes as a whole, or its first part in quotes."""
    must_quote = any(byte in cell for byte in b',"\r\n')
    style = dice.randrange(10) if dice.random() < 0.5 else 9
    if must_quote or style < 3:
        return b'"' + cell.replace(b'"', b'""') + b'"'
    if style == 3:
        part = dice.randrange(len(cell) + 1)
        return b'"' + cell[:part] + b'"' + cell[part:]
    return cell


def spelled_record(dice, record):
    """A record of one empty cell has quotes, since an empty line isn't a record."""
    return b'""' if record == [b""] else b",".join(spelled_cell(dice, cell) for cell in record)


def spelled_file(dice, lines):
    """The bytes of a file: records parted by one or several line ends, perhaps after byte order marks."""
    ends = dice.choice([[b"\n"], [b"\n"], [b"\r\n"], [b"\r"], [b"\n", b"\r\n", b"\r", b"\n\n", b"\r\n\r\n"]])
    data = dice.choice([b""] * 6 + [MARK, MARK * 2]) + dice.choice([b""] * 8 + [b"\n", b"\r\n"])
    data += b"".join(spelled_record(dice, record) + dice.choice(ends) for record in lines)
    # What is cut off isn't part of a cell: the last record may be an empty text in quotes, but not end in a line's end.
    return data.rstrip(b"\r\n") if dice.random() < 0.2 else data


def word(dice, name):
    """A word of the command line for the table of this name."""
    others = ["{}", "./{}.csv", "sub/{}.csv", "sub/../{}.csv", "sub//{}", ".//sub/./{}.csv"]
    return dice.choice(["{}.csv"] * 6 + others).format(name)


def no_header(dice, lines):
    lines[0][dice.randrange(len(lines[0]))] = dice.choice(NO_HEADERS)


def twice_named(dice, lines):
    lines[0].insert(dice.randrange(len(lines[0]) + 1), dice.choice(lines[0]))
    for record in lines[1:]:
        record.append(b"1")


def other_length(dice, lines):
    if len(lines) == 1:
        lines.append([b"1"] * len(lines[0]))
    record = dice.choice(lines[1:])
    if dice.random() < 0.5 and len(record) > 1:
        record.pop()
    else:
        record.append(dice.choice([b"1", b"", b"a"]))


def no_cell(dice, lines):
    if len(lines) == 1:
        lines.append([b"1"] * len(lines[0]))
    record = dice.choice(lines[1:])
    place = dice.randrange(len(record))
    spelled = lines[0][place % len(lines[0])].decode(errors="replace").partition(":")[2]
    record[place] = dice.choice(NO_CELLS.get(spelled, NO_CELLS["int"]))


def past_range(dice, lines):
    """A column with a range, and a cell below or above it."""
    least, largest = dice.choice([(0, 9), (-5, -5), (1, 2147483647), (-2147483648, -1), (7, 7)])
    place = dice.randrange(len(lines[0]) + 1)
    lines[0].insert(place, f"ranged:int[{least}..{largest}]".encode())
    if len(lines) == 1:
        lines.append([b"1"] * (len(lines[0]) - 1))
    for record in lines[1:]:
        record.insert(place, spelled_number(dice, dice.choice([least, largest])))
    outside = [cell for cell in (least - 1, largest + 1, -2147483648, 2147483647) if not least <= cell <= largest]
    record = dice.choice(lines[1:])
    record[min(place, len(record) - 1)] = spelled_number(dice, dice.choice(outside))


def many_columns(dice, lines):
    count = dice.choice([99, 100, 101, 101, 102])
    for number, record in enumerate(lines):
        record += [b"1" if number else f"m{place}:int".encode() for place in range(count - len(record))]


FAULTS = [no_header, no_header, twice_named, other_length, no_cell, no_cell, past_range, many_columns]


def faulty_file(dice):
    """A file with one fault or two; or one without a header; or one that is put together from pieces. The first fault may take
    away what makes the second one."""
    kind = dice.random()
    if kind < 0.06:
        return dice.choice(EMPTY_FILES)
    if kind < 0.3:
        pieces = [dice.choice(SOUP) for _ in range(dice.randrange(16))]
        heads = [b"c:int\n", b"c:int\n", b"c:int?\n", b"c:string\n", b"c:bool\n", b"c:int,d:string\r\n", b'"c:int', b""]
        return dice.choice(heads) + b"".join(pieces)
    lines = records(dice, table(dice))
    for fault in dice.choices(FAULTS, k=dice.choice([1, 1, 1, 2])):
        fault(dice, lines)
    return spelled_file(dice, lines)
