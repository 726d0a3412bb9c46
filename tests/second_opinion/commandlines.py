"""Command lines by chance. `dice` is a random.Random; words are texts."""

NO_COMMANDS = [
    [], ["t.csv"], ["--role", "reader", "t.csv"], ["--policy", "p.toml", "t.csv"], ["--role", "reader", "--policy", "p.toml"],
    ["--role", "reader", "--policy", "p.toml", "--"], ["--role", "reader", "--policy"],
    ["--role", "reader", "--policy", "p.toml", "t.csv", "--role"],
    ["--role", "reader", "--policy", "p.toml", "t.csv", "--role", "reader"],
    ["--role=reader", "--role=reader", "--policy=p.toml", "t.csv"],
    ["--role", "reader", "--policy", "p.toml", "--policy=p.toml", "t.csv"],
    ["--rol", "reader", "--policy", "p.toml", "t.csv"],
    ["--Role", "reader", "--policy", "p.toml", "t.csv"], ["-r", "reader", "--policy", "p.toml", "t.csv"], ["--version"],
    ["-V"],
    ["--role", "reader", "--policy", "p.toml", "-x", "t.csv"], ["--role", "reader", "--policy", "p.toml", "t.csv", "--nope"],
    ["--role", "--policy", "p.toml", "t.csv"], ["--role", "-1", "--policy", "p.toml", "t.csv"],
    ["--role", "reader", "--policy", "-p", "t.csv"],
    ["--role", "reader", "--policy", "p.toml", "--script", "t.csv"],
    ["--script", "s.lq", "--script=s.lq", "--role=reader", "--policy=p.toml", "t.csv"],
    ["--role", "reader", "--policy", "p.toml", "t.csv", "--watch"], ["--role", "reader", "--policy", "p.toml", "--watch", "-1", "t.csv"],
    ["--role", "reader", "--policy", "p.toml", "--watch", "1", "--watch=1", "t.csv"], ["--watch", "1"], ["--watch", "x", "t.csv"],
    ["--role", "reader", "--policy", "p.toml", "--watch", "1,,2"], ["--role", "reader", "--policy", "p.toml", "--watches", "1", "t.csv"],
    ["--role", "reader", "--policy", "p.toml", "--audit=1", "t.csv"], ["--audit", "--role", "reader", "--policy", "p.toml", "--audit", "t.csv"],
    ["--nope", "--help"], ["--role", "reader", "--role", "reader", "--help"], ["--help=1"],
    ["--role", "reader", "--policy", "p.toml", "---", "t.csv"],
    ["--", "--role", "reader", "--policy", "p.toml", "t.csv"], ["--=t.csv"], ["bad.csv"], ["none.csv", "--role", "zed"],
]
# Lists of numbers, and texts that are none.
LISTS = ["1", "0", "1,2", "2,-3", "1,1", "007,-0", "2147483647,-2147483648", ",".join(map(str, range(2_000))), "0" * 40 + "1"]
NO_LISTS = [
    "", ",", "1,", ",1", "1,,2", " 1", "1 ", "1, 2", "+1", "1.5", "1;2", "a", "1,a", "2147483648", "1,-2147483649", "9" * 40, "--1", "1-",
    "0x1", "1_0", "٣", "１", "null", "1,2,", "1\n", "[1]", "é",
]
HELP = [
    ["--role", "reader", "--policy", "p.toml", "--watch", "1,,2", "t.csv", "--help"],
    ["--help"], ["-h"], ["--help", "--nope"], ["t.csv", "--help"], ["--role", "reader", "--help"], ["-h", "bad.csv"],
    ["--role", "reader", "--policy", "p.toml", "t.csv", "-h"], ["none.csv", "--help"],
]
# Calls of the few files of a fixed case.
CALLS = [
    ["--role", "reader", "--policy", "p.toml", "t.csv"], ["--role=reader", "--policy=p.toml", "t.csv"],
    ["t.csv", "--policy", "p.toml", "--role", "reader"],
    ["--role", "reader", "--policy", "p.toml", "--audit", "t.csv"], ["--audit", "t.csv", "--policy", "p.toml", "--role", "reader"],
    ["--policy", "p.toml", "t.csv", "--role=reader", "u.csv"],
    ["--role", "reader", "--policy", "p.toml", "--", "t.csv", "u.csv"],
    ["t.csv", "--role", "reader", "--policy", "p.toml", "--", "u.csv"], ["--role=", "--policy", "p.toml", "t.csv"],
    ["--role", "", "--policy", "p.toml", "t.csv"],
    ["--role=-1", "--policy", "p.toml", "t.csv"], ["--role", "-", "--policy", "p.toml", "t.csv"],
    ["--role", "reader", "--policy", "-", "t.csv"],
    ["--role", "reader", "--policy", "", "t.csv"], ["--role", "reader", "--policy", "p.toml", "-"],
    ["--role", "reader", "--policy", "p.toml", ""],
    ["--role", "reader", "--policy", "p.toml", "--", "--role"], ["--role", "reader", "--policy", "p.toml", "--", "-x.csv"],
    ["--role", "reader", "--policy", "p.toml", "--", "--"], ["--role=a=b", "--policy", "p.toml", "t.csv"],
    ["--role", "public", "--policy", "p.toml", "t.csv"],
    ["--role", "zed", "--policy", "p.toml", "t.csv"], ["--role", "Reader", "--policy", "p.toml", "t.csv"],
    ["--role", "zed", "--policy", "bad.toml", "t.csv"],
    ["--role", "zed", "--policy", "none.toml", "t.csv"], ["--role", "zed", "--policy", "p.toml", "bad.csv"],
    ["--role", "zed", "--policy", "none.toml", "bad.csv"],
    ["--role", "reader", "--policy", "sub", "t.csv"], ["--role", "reader", "--policy", "sub/", "t.csv"],
    ["--role", "reader", "--policy", "t.csv", "t.csv"],
    ["--role", "reader", "--policy", "./sub/../p.toml", "t.csv"],
    ["--role", "reader", "--policy", "p.toml", "--script", "s.lq", "t.csv"],
    ["--script=s.lq", "--role", "reader", "--policy", "p.toml", "t.csv"],
    ["--role", "reader", "--policy", "p.toml", "--script", "none.lq", "t.csv"],
    ["--role", "reader", "--policy", "p.toml", "--script", "sub", "t.csv"],
    ["--role", "reader", "--policy", "p.toml", "--script=", "t.csv"],
    ["--role", "zed", "--policy", "p.toml", "--script", "none.lq", "t.csv"],
    ["--role", "reader", "--policy", "bad.toml", "--script", "none.lq", "t.csv"],
    ["--role", "reader", "--policy", "p.toml", "--script", "none.lq", "none.csv"],
    ["--role", "reader", "--policy", "p.toml", "--script", "-", "t.csv"],
    ["--role", "reader", "--policy", "p.toml", "help"], ["--role", "reader", "--policy", "p.toml", "t.csv", "help"],
    ["--role", "help", "--policy", "help", "help"],
    *(["--role", "reader", "--policy", "p.toml", f"--watch={numbers}", "t.csv"] for numbers in [*LISTS, *NO_LISTS, "-3", "-3,2", "-", "-,1"]),
    *(["--watch", numbers, "t.csv", "--role", "reader", "--policy", "p.toml"] for numbers in ["2,-3", "1,,2", "", "-"]),
    ["--role", "zed", "--policy", "bad.toml", "--watch", "x", "bad.csv"], ["--role", "zed", "--policy", "none.toml", "--watch=x", "none.csv"],
    ["--role", "reader", "--policy", "p.toml", "--watch", "1", "bad.csv"], ["--role", "zed", "--policy", "p.toml", "--watch", "1", "t.csv"],
    ["--role", "reader", "--policy", "p.toml", "--watch", "x", "--script", "none.lq", "t.csv"],
    ["--role", "reader", "--policy", "watched.toml", "--watch", "1", "t.csv"], ["--role", "reader", "--policy", "watched.toml", "t.csv"],
]


def spelled_option(dice, name, value):
    """A value that begins with `-` is one only after a `=`."""
    return [f"{name}={value}"] if dice.random() < 0.4 or value[:1] == "-" and len(value) > 1 else [name, value]


def command_line(dice, values, tables):
    """The words of a call: options in any order before, between and after the tables, some of which may come after `--`."""
    options = [spelled_option(dice, name, value) for name, value in values.items()]
    dice.shuffle(options)
    behind = dice.randrange(len(tables) + 1) if dice.random() < 0.1 else len(tables)
    parts = [[table] for table in tables[:behind]]
    for option in options:
        parts.insert(dice.choice([0, 0, len(parts), dice.randrange(len(parts) + 1)]), option)
    return sum(parts, []) + (["--", *tables[behind:]] if behind < len(tables) else [])
