"""Long lines of each kind: four lines of 64 KiB against two of them, and against four of half their length."""

import measuring
from measuring import Failure

# A line with its line feed, of the most bytes that a line may have.
LINE = 65_536
LINES = 4
# Where the work grew with the square of the length, this would be 4.
MOST_TIMES = 2.2
# Of a run of one line, the program's start among them. Where these run at their slowest, they take some 50 ms.
MOST_INSTRUCTIONS = 150_000_000

SYNTAX = '{"error":"syntax"}'
TYPE = '{"error":"type"}'
TOO_DEEP = '{"error":"too-deep"}'
SERVED = '{"items":[1,2]}'
ONE = '{"value":1}'


def repeated(head, text, tail):
    """A line of `text` as often as there is room for it between the head and the tail."""
    return lambda size: head + text * ((size - len((head + tail).encode())) // len(text.encode())) + tail


def groups(opening, text, closing, joint, last=";"):
    """Brackets side by side, which hold brackets side by side, which hold `text`: such a line is parsed whole, and its tree
    is as large as the line."""
    group = "(" + joint.join([opening + text * 16 + closing] * 16) + ")"
    return lambda size: "run " + joint.join([group] * ((size - 10) // len(group + joint))) + last


def to_the_left(text):
    """A tree that is as deep as the depth of a text allows: each bracket holds the next and a chain after it."""
    def line(size):
        chain = "a"
        for brackets in range(64, -1, -1):
            longer = chain + text * (254 - brackets)
            longer = f"({longer})" if brackets > 0 else longer
            if len(longer) + len("run ;") > size - 64:
                break
            chain = longer
        return f"run {chain};"
    return line


def conditions(size):
    """As many conditions as are accepted, of long integers."""
    digits = "0" * ((size - 1_600) // 125)
    return "run from x in t " + f"where {digits}1 > 0 " * 125 + "select x.c;"


def cells(size):
    """As many cells as are accepted, of long integers."""
    digits = "0" * ((size - 20) // 254 - 2)
    return "insert t (" + ",".join([digits + "7"] * 254) + ");"


def served_name(size):
    """A query that is served, whose range variable has a long name."""
    name = "x" * ((size - 40) // 2)
    return f"run from {name} in t select {name}.c;"


def side_by_side(piece):
    """The sum of as many of these as there is room for, three in each bracket: a chain of all would be too deep."""
    group = "(" + "+".join([piece] * 3) + ")"
    return lambda size: "run " + "+".join([group] * ((size - 10) // len(group + "+"))) + ";"


# A record of 100 members with names of their own, of which one is read: such a line has some 8,000 members.
RECORD = "(new{" + ",".join(f"num{number}={number % 2}" for number in range(100)) + "}.num99)"
# A query of 100 clauses: such a line has some 5,000 clauses.
QUERY = "(from x in t " + "where true " * 100 + "select x).Count()"


def counted(text, times=1):
    """The value that is a number for each time that this text is in the line."""
    return lambda line: f'{{"value":{line.count(text) * times}}}'


def sum_of_ones(line):
    return f'{{"value":{line.count("1")}}}'


def the_text(line):
    """The reply to a text in which only line ends and `é` are escaped."""
    return line.replace("run ", '{"value":').replace(";", "}").replace("\\u00e9", "é")


# What the lines consist of, how a line of a size is built, and its reply, or what gives that of the line.
KINDS = [
    ("a chain of operators", repeated("run 1", "+1", ";"), TOO_DEEP),
    ("a chain of members", repeated("run a", ".b", ";"), TOO_DEEP),
    ("a list of arguments", repeated("run a.b(1", ",1", ");"), TOO_DEEP),
    ("brackets that are open", repeated("run ", "(", ";"), TOO_DEEP),
    ("brackets that close", repeated("run ", ")", ";"), SYNTAX),
    ("brackets by turns", repeated("run ", "()", ";"), SYNTAX),
    ("semicolons", repeated("", ";", ";"), SYNTAX),
    ("names", repeated("run a", " a", ";"), SYNTAX),
    ("empty texts", repeated("run ", '""', ";"), SYNTAX),
    ("operators in groups", groups("(1", "+1", ")", "+"), sum_of_ones),
    ("operators in groups, and a fault", groups("(1", "+1", ")", "+", "+;"), SYNTAX),
    ("all levels in groups", groups("(1", "*1+1<1==1&&1||1", ")", "??"), TYPE),
    ("choices in groups", groups("(a", "?a:a", ")", "+"), TYPE),
    ("minus signs in groups", groups("(", "-", "1)", "*"), ONE),
    ("lists of arguments", groups("a.b(c", ",c", ")", "-"), TYPE),
    ("functions in groups", groups("a.b(c", ",d=>c", ")", "||"), TYPE),
    ("members in groups", groups("new{a", ",a.b", "}", "+"), TYPE),
    ("clauses in groups", groups("(from x in t ", "where x ", "select x)", "+"), TYPE),
    ("records of many members", side_by_side(RECORD), counted("new")),
    ("queries of many clauses", side_by_side(QUERY), counted("from", 2)),
    ("calls in groups", groups("(a", ".b()", ")", "+"), TYPE),
    ("a deep tree of operators", to_the_left("&&ab"), TYPE),
    ("a deep tree of members", to_the_left(".abc"), TYPE),
    ("conditions of long integers", conditions, SERVED),
    ("cells of long integers", cells, TYPE),
    ("a long text", repeated('run "', "a", '";'), the_text),
    ("a long text of other scripts", repeated('run "', "😀é列", '";'), the_text),
    ("a long text of escapes", repeated('run "', "\\n\\u00e9", '";'), the_text),
    ("a text that isn't closed", repeated('run "', "a", ";"), SYNTAX),
    ("a long integer", repeated("run ", "0", "1;"), ONE),
    ("a long integer that is none", repeated("run ", "9", ";"), SYNTAX),
    ("a long name", repeated("run ", "a", ";"), TYPE),
    ("a long name of another script", repeated("run ", "列é", ";"), TYPE),
    ("a long name that is served", served_name, SERVED),
    ("a long comment", repeated("run from x in t select x.c; //", " é(", ""), SERVED),
    ("blanks", repeated("run from x in t", " \t\r ", "select x.c;"), SERVED),
    ("a character that starts no token", repeated("run from x in t select x.c;", " ", "#"), SYNTAX),
]


def write(name, line, size, count, reply):
    """Writes a script of equal lines, and the replies to it."""
    text = line(size - 1)
    blanks = size - 1 - len(text.encode())
    if not 0 <= blanks < size // 8:
        raise ValueError(f"a line of {len(text.encode())} bytes, which has to have nearly {size}")
    with open(name + ".script", "wb") as script:
        script.write((text.encode() + b" " * blanks + b"\n") * count)
    with open(name + ".reply", "w") as replies:
        replies.write(((reply(text) if callable(reply) else reply) + "\n") * count)


# The scripts of a kind: the size of a line, and how many there are.
SCRIPTS = {"one": (LINE, 1), "half": (LINE, LINES // 2), "whole": (LINE, LINES), "short": (LINE // 2, LINES)}


def count_kind(program, line, reply):
    """The instructions of each script of a kind."""
    counts = {}
    for name, (size, count) in SCRIPTS.items():
        write(name, line, size, count, reply)
        counts[name] = measuring.count(program, "t.csv", name + ".script", name + ".reply")
    return counts


def is_met(one, half, whole, short):
    return one <= MOST_INSTRUCTIONS and whole <= MOST_TIMES * half and whole <= MOST_TIMES * short


def measure_kind(program, kind, line, reply):
    """Measures a kind of lines, prints its figures, and says whether the bounds are met."""
    try:
        counts = count_kind(program, line, reply)
    except Failure as failure:
        raise Failure(f"{kind}: {failure}") from failure
    of_count, of_length = counts["whole"] / counts["half"], counts["whole"] / counts["short"]
    print(f"lines: {kind}: {counts['one'] / 1e6:.1f} million instructions; twice the lines {of_count:.2f} times, twice the length"
          f" {of_length:.2f} times", flush=True)
    return is_met(**counts)


def compare(program):
    """Measures each kind, and fails where a bound isn't met."""
    with open("t.csv", "w") as table:
        table.write("c:int\n1\n2\n")
    slow = [kind for kind, line, reply in KINDS if not measure_kind(program, kind, line, reply)]
    if slow:
        raise Failure(f"a line takes more than {MOST_INSTRUCTIONS / 1e6:.0f} million instructions, or twice the lines or twice their"
                      f" length more than {MOST_TIMES} times as many: {', '.join(slow)}")
