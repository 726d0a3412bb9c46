"""Lines whose replies are known beforehand, over the table `t` of one column `c` with the rows 1 and 2.

They hold for this reading as well as for the program: a reading that answers one of them otherwise compares nothing.

Each file of the folder `known_lines` has pairs of lines, a statement and its reply, between empty lines; a line that begins
with `#` describes them. Those of `over_t.txt` are over the table `t`.
"""

import json
from pathlib import Path

from scalar_examples import FAULT_ON_FIVE, FAULTS, FAULTS_OF_NULLS, ILL_TYPED, OF_NULLS, UNTYPED_OF_NULLS, VALUES
from tables import Table

FOLDER = Path(__file__).resolve().parent / "known_lines"
OVER_T = "over_t.txt"
NESTED = "run from x in t select {}{}{};"
ACUTE = "\u0301"


def pairs_in(path):
    """The statements and replies of a file."""
    pairs = []
    for block in path.read_text(encoding="utf-8").split("\n\n"):
        lines = [line for line in block.split("\n") if line and not line.startswith("#")]
        if lines:
            statement, reply = lines
            pairs.append((statement, reply + "\n"))
    return pairs


def nested(depth, value):
    """Records in one another, so deep."""
    for _ in range(depth):
        value = {"a": value}
    return value


# The items of each line.
ITEMS = {
    "run from x in t select x.c;": [1, 2],
    "run(from x in(t)select(x).c);": [1, 2],
    "run ((from x in ((t)) where ((x.c)) > ((1)) select (((x)).c)));": [2],
    "run from x in t where x.c > 0 where 2 > x.c select x.c;": [1],
    "run from x in t where 1 < x.c select x.c;": [2],
    "run from x in t where x.c == x.c where 1 != 2 where 1 == 1 select x.c;": [1, 2],
    "run from x in t where 2 < 1 select x.c;": [],
    "run from x in t select x.c > 1;": [False, True],
    "run from x in t select 1 <= x.c;": [True, True],
    "run from x in t select 1;": [1, 1],
    "run from x in t select 2147483647;": [2147483647] * 2,
    "run from x in t select -2147483648;": [-2147483648] * 2,
    "run from x in t select - \t 00002147483648;": [-2147483648] * 2,
    "run from x in t where x.c > -2147483648 select x.c;": [1, 2],
    "run from x in t select 007;": [7, 7],
    "run from x in t select 00002147483647;": [2147483647] * 2,
    "run from x in t select x.c;//;": [1, 2],
    "run from t in t select t.c;": [1, 2],
    "run from _ in t select _.c;": [1, 2],
    "run from é in t select é.c;": [1, 2],
    "run from 変数 in t select 変数.c;": [1, 2],
    f"run from e{ACUTE} in t select e{ACUTE}.c;": [1, 2],
    "run from x٣ in t select x٣.c;": [1, 2],
    "run from ª in t select ª.c;": [1, 2],
    "run from Ⅻ in t select Ⅻ.c;": [1, 2],
    "run from ℘ in t select ℘.c;": [1, 2],
    "run from a·b in t select a·b.c;": [1, 2],
    "run from x in t select !(x.c > 1);": [True, False],
    "run from x in t where true select 1;": [1, 1],
    "run from x in t where x.c == 1 || x.c == 2 && false select x.c;": [1],
    "run from x in t where !!(x.c == 2) && !false select x.c;": [2],
    "run from x in t select false || !(true && x.c < 2);": [False, True],
    "run from x in t select -x.c;": [-1, -2],
    "run from x in t select -1;": [-1, -1],
    "run from x in t select - - x.c;": [1, 2],
    "run from x in t select x.c + 1;": [2, 3],
    "run from x in t select 10 - x.c - 3;": [6, 5],
    "run from x in t select 2 + x.c * 3;": [5, 8],
    "run from x in t select -7 / (x.c + 1);": [-3, -2],
    "run from x in t select -7 % (x.c + 1);": [-1, -1],
    "run from x in t select 7 / -x.c;": [-7, -3],
    "run from x in t where x.c % 2 == 0 select x.c * x.c;": [4],
    "run from x in t where x.c - 1 < 1 && -x.c > -2 select x.c;": [1],
    NESTED.format("(" * 64, "x.c", ")" * 64): [1, 2],
    "run from x in t" + " where x.c > 0" * 82 + " where 1 == 1 where 1 == 1 select 1;": [1, 1],
    "run from x in t select (x.c < 1) == (x.c < 2);": [False, True],
    "run from x in t select x.c == null;": [False, False],
    "run from x in t where x.c != null select x.c;": [1, 2],
    'run from x in t select x.c == 1 ? "one" : "more" + null;': ["one", "more"],
    'run from x in t select x.c == 1 ? null : "more";': [None, "more"],
    "run from x in t where x == null select x.c;": [],
    "run from x in t select x != null;": [True, True],
    "run from x in t select (x.c > 1 ? x : null) == null;": [True, False],
    "run from x in t where x.c > 1 select (x.c > 1 ? x : null).c;": [2],
    "run from x in t select (x.c > 1 ? x : x).c;": [1, 2],
    "run from x in t select (x.c > 1 ? x : null) == null ? 0 : (x.c > 1 ? x : null).c;": [0, 2],
}

# The value of each expression alone, and those that fault.
RUN = {
    "run 1;": 1, "run -1;": -1, "run (1);": 1, "run((1));": 1, "run 1 - - 1;": 2, "run 4/2;": 2, "run 1<2;": True,
    "run true;": True,
    'run "";': "", 'run "a // b";': "a // b", 'run "\r\x00\t\u2028é";': "\r\0\t\u2028é",
    r'run "\'\"\\\0\a\b\f\n\r\t\v";': "'\"\\\0\a\b\f\n\r\t\v", r'run "\u0000\uFFFF\ud7FF\ue000";': "\0\uffff\ud7ff\ue000",
    'run "".Length;': 0, "run 1" + "+1" * 254 + ";": 255, "run true" + "&&true" * 254 + ";": True, "run " + "-" * 254 + "1;": 1,
    "run " + "(" * 64 + "1" + ")" * 64 + ";": 1, "run " + "(" * 64 + "-" * 190 + "1" + ")" * 64 + ";": 1,
    "run " + "(1+" * 63 + "(1)" + ")" * 63 + "+1" * 254 + ";": 318,
    'run "a"' + '+"a"' * 254 + ";": "a" * 255, 'run "a"' + '??"b"' * 254 + ";": "a",
    "run " + "true?" * 127 + "1" + ":2" * 127 + ";": 1,
    "run " + "(" * 63 + '(true?null:"a")' + '??"b")' * 63 + ";": "b", "run null" + "==null" + "==true" * 253 + ";": True,
    "run " + "new{a=" * 63 + "(1" + "+1" * 64 + ")" + "}" * 63 + ";": nested(63, 65),
}
OVERFLOW = ["run - -2147483648;", "run --2147483648;", "run 1--2147483648;", "run " + "(1+1)*" * 252 + "(1+1);"]

LEXICAL = ["1_", "1x", "1٣", "٣", "2147483649", "&", '"', r'"\q"', r'"\uDABC"', "\u00a0", "\ufeff", "é²"]
# Lexical faults come before depth, and faults of the grammar after it.
SYNTAX = [
    "run 4294967296;", "run 2147483649;", "run 1_0;", "run 1x;", "run 1é;", "run 1٣;", "run ٣;", "run 0x1;",
    "run 1" + ACUTE + ";", "run " + ACUTE + ";", 'run "a;', "run 'a';", r'run "\x41";', r'run "\U00000041";', r'run "\ud800";',
    r'run "\uDFFF";', r'run "\u12";', r'run "\q";', r'run "\";', 'run "a"b";', "run a & b;", "run a | b;", "run a[1];",
    "run @a;", "run a ~ b;", "run\x0b1;", "run\u00a01;", "run\ufeff1;", "run 1;\x00", "run /* 1 */ 1;", "run #;",
    "run " + "(" * 65 + "#", ";", "run;", "run 1", "run 1;;", "run 1; run 2;", "1;", "run 4//2;", "run (1};", "run {1};",
    "run (1;", "run ();", "run 2147483648;", "run 1 - 2147483648;", "run -(2147483648);", "run -2147483648.Foo;",
    "run - 2147483648 . Foo();", "run !2147483648;", "run 2147483648.c;", "insert t (2147483648);", "insert t ();",
    "insert t 1;", "insert t (- -1);", "insert t (1,);", "insert t (x);", "insert t ((1));", 'insert t (-"a");',
    "insert t (-null);", "insert t (+1);", "run new { (a) };", "run new { (a.b) };", "run new { a.b = 1 };", "run new { , };",
    "run new { a,, b };", "run new { a b };", "run new { 1 };", "run new { a() };", "run new { f.g() };", "run new { a + b };",
    "run new { -a.b };", "run new;", "run x => x;", "run (x => x);", "run t.Select(x => y => 1);", "run t.Select((x) => x);",
    "run t.Select((x => x));", "run t.Select(x,);", "run t.Select(,);", "run t.Select(from x in t select x);", "run f(1);",
    "run x.(y);", "run x.;", "run .x;", "run from x in from y in t select y select x;", "run from x in t;",
    "run from x in t select x.c where 1 == 1;", "run from x in t select x into;", "run from x in t select x into y;",
    "run from x in t group x;", "run from x in t orderby select x;",
    "run from x in t orderby x.c ascending descending select x;", "run from x in t let y = select x;",
    "run from x t select x;", "run from x in t join y in t on x.c == y.c select x;",
    "run from x in t join y in t on x.c equals y.c;", "run where 1 select x;",
    "run from x in t where from y in t select y select x;", "run from from in t select 1;", "run x.from;", "run x.Host;",
    "run Host;", "run Host.f;", "run Host.f();", "run Host.f(x.c, x.c, x.c);", "run Host.f(x => x);", "run Host.Host(1);",
    "run Host.f(x.c,);", "run Host.f(,);", "run Host.f(x.c, from x in t select 1);", "run Host.f(x.c, x => x);", "run Host.f.g(x.c);",
    "run a ? b;", "run a : b;", "run a ? : b;", "run a ?? ;", "run a ?. b;", "run a &&;", "run !;", "run 1 +;", "run + 1;",
    "run 1 ! 2;", "run a = 1;", "run a === b;", "run 1 2;", "var = 1;", "var x 1;", "var from = 1;", "var x = ;", "x = ;",
    "x == 1;", "x.c = 1;", "as;", "as 1;", "as a b;", "as Host;", "delete t x;", "delete t => 1;", "delete t x => y => 1;",
    "delete t x => from y in t select y;", "delete t (x => 1);", "delete;", "update t x => 1 set c = 1;", "update = 1;",
    "set = 1;", "run true.;", "run false;;", "Run 1;", "run from x in t select x.c;;",
    "run (" + "+" * 253 + ") + 1;" + "(" * 64, "run " + "(" * 64, "(" * 32 + "{" * 32, "+" * 255,
    "{" * 64 + ")" * 65 + "(" * 64, "run " + "({" * 32 + ")}" * 32 + ";", "run 1;" + "+" * 254, "run -2147483649;",
    "run from x in t select -2147483649;", "insert t (-2147483649);", "run ำ;", "run ͺ;", "run xͺ;", "run ·;", "run ‿;",
    r'run "\uDbff";', r'run "\udC00";', *["(" * 65 + fault for fault in LEXICAL], "(" * 64 + "}" * 65 + "{" * 64,
    "run " + "(1+1)*" * 127,
]

TOO_DEEP = [
    "run " + "(" * 65 + "1" + ")" * 65 + ";", "run 1" + "+1" * 255 + ";", "run " + "(" * 65, "{" * 65, "(" * 40 + "{" * 25,
    "+" * 256, "run 1; " + "(" * 65, "run 1;" + "+" * 255, "run " + "({" * 32 + "(" + ")}" * 32 + ")",
    "run " + "(" * 64 + "+" * 191, ")" * 9 + "}" * 9 + "(" * 65, "run " + "()" * 9 + "(" * 65, "Host." * 128,
    "run " + "from " * 255, "run new{a=" + "(" * 64, "run (" + "+" * 254 + ") + 1;", "run " + "1," * 255,
    "run a" + "?a:a" * 127 + "?;", "run a" + ".a" * 255 + ";", "run t" + ".f()" * 254 + ";", "run " + "-" * 255 + "1;",
    "run " + "(" * 64 + "-" * 191 + "1" + ")" * 64 + ";", "run from x in t select 1" + " into x select 1" * 126 + " into x;",
    "run 2147483648" + "+1" * 255 + ";", "insert t (" + "-2147483648," * 127 + "-2147483648);",
    "run " + "new{a=" * 63 + "(1" + "+1" * 65 + ")" + "}" * 63 + ";", "run " + "(1+1)*" * 254 + "(1+1);", "(" * 65 + " // é",
]

# A few of these lines are statements that are served: those of SERVED.
TYPE = [
    "run (-2147483648).Foo;", "run 1.c;", "run x;", "run null;", "run a ? b : c ? d : e;", "run a ? b ? c : d : e;",
    "run a ?? b ?? c;", "run a || b && c == d < e + f * -!g;", "run !!a;", "run !-a;", "run -a.b;",
    "run t.Select(x => a ? b : c, y);", "run t . Count ( ) . x ;", "run 1.Foo();", "run Host.f(x.c);", "run Host.f((x.c));",
    "run Host.f(1).g;", "run Host.f(t.Select(x => x));", "run new { a, b.c, (d).e, f.g().h };", "run new { (a.b).c };",
    "run new { \"\".a };", "run new { new {}.a };", "run new { 1.a };", "run new { Host.f(1).g };", "run new { (1 + 2).a };",
    "run new { a = b == c }.d;", "run from x in t orderby a ? b : c descending select x.c;",
    "run from x in t where x.c select x.c;", "run from x in t where 1 select x.c;", "run from x in t select -x;",
    "run from x in t select -(x.c > 1);", "run from x in t select x + 1;", "run from x in t select !x.c;",
    "run from x in t where x.c < 1 < 2 select 1;", "run from x in t where true && 1 select 1;", "run from x in u select 1;",
    "run from x in x select 1;", "run from x in t.c select 1;", "run from x in t select y.c;", "run from x in t select x.d;",
    "run from x in t select t.c;", "run from x in t where t.c > 1 select x.c;", "run from x in t select x.c.c;",
    "run from x in t select x.C;", f"run from é in t select e{ACUTE}.c;", f"run from e{ACUTE} in t select é.c;",
    "run from ﬁ in t select fi.c;", "run from ª in t select a.c;", "var x = 1;", "var x = from y in t select y;",
    "var t = t;", "_ = 1;", "x = from y in t select y.c;", "x = (1);", "as nobody;", "as reader;", "insert t (1);",
    "insert t (-2147483648);", "insert t (- 1, \"a\", true, false, null);", "insert none (1, 2);", "delete t x => x.c > 1;",
    "delete t x => a ? b : c;", "delete none x => 1;", "run from x in t select Host.f(x.c);", "run a" + ".a" * 254 + ";",
    "run Host.f(x.c, x.c);", "run Host.f((x.c), (x).c).g;", "run Host.f(1, (from x in t select 1));", "run Host._(x, x);",
    "run " + "!" * 254 + "a;", "run a" + "??a" * 254 + ";", "run a" + "?a:a" * 127 + ";", "run t.f(" + "1," * 252 + "1);",
    "run t" + ".f()" * 253 + ";", "run t" + ".f(1,1,1)" * 200 + ";", "run t.f(1+1).f(1+1);",
    "insert t (" + "1," * 253 + "1);", "run xำ;", "run x‿y;", "insert t (" + "-2147483648," * 126 + "-2147483648);",
    "run true ? x : x;", "run false ? x : null;", "run true ? null : x;",
]

# In a session of its own, of somebody who may do everything.
SERVED = {
    "var x = 1;": {"defined": "x"}, "var x = from y in t select y;": {"defined": "x"}, "as nobody;": {"error": "role"},
    "as reader;": {"role": "reader"}, "insert t (1);": {"inserted": 1}, "insert t (-2147483648);": {"inserted": 1},
    "delete t x => x.c > 1;": {"deleted": 1},
}

NOTHING = [
    "", " ", "\t\r", "//", "// run from x in t select x.c;", " //\r\x00\x0b\ufeff é",
]


# A table with nulls, which no table file gives yet: its lines hold this reading alone to what is known.
NULLS = Table(
    {"n": "int?", "s": "string", "b": "bool"},
    [{"n": None, "s": None, "b": True}, {"n": 5, "s": "ab", "b": False}],
)


def query(table, selected):
    return f"run from x in {table} select {selected};"


def scalar_lines():
    """The scalar expressions with known values, with known faults and without types: alone, and selected of two rows."""
    known = [(f"run {scalar};", {"value": value}) for scalar, value in VALUES.items()]
    known += [(f"run {scalar};", {"fault": fault}) for fault, scalars in FAULTS.items() for scalar in scalars]
    known += [(f"run {scalar};", {"error": "type"}) for scalar in ILL_TYPED]
    known += [(query("t", scalar), {"items": [value, value]}) for scalar, value in VALUES.items()]
    known += [(query("t", scalar), {"fault": fault, "items": []}) for fault, scalars in FAULTS.items() for scalar in scalars]
    return known + [(query("t", scalar), {"error": "type"}) for scalar in ILL_TYPED]


def lines_of_nulls():
    """The same over the table of nulls: with known items, a fault on its first row, and one on its second after a null."""
    known = [(query("nulls", scalar), {"items": items}) for scalar, items in OF_NULLS.items()]
    for fault, scalars in FAULTS_OF_NULLS.items():
        known += [(query("nulls", scalar), {"fault": fault, "items": []}) for scalar in scalars]
    known += [(query("nulls", scalar), {"fault": fault, "items": [None]}) for scalar, fault in FAULT_ON_FIVE.items()]
    return known + [(query("nulls", scalar), {"error": "type"}) for scalar in UNTYPED_OF_NULLS]


def known_lines():
    """Each line with its reply's value; None where there is none."""
    known = [(line, json.loads(reply)) for line, reply in pairs_in(FOLDER / OVER_T)]
    known += [(line, {"items": items}) for line, items in ITEMS.items()]
    known += [(line, {"value": value}) for line, value in RUN.items()]
    known += [(line, {"fault": "Overflow"}) for line in OVERFLOW]
    for word, lines in {"syntax": SYNTAX, "too-deep": TOO_DEEP, "type": TYPE}.items():
        known += [(line, SERVED.get(line, {"error": word})) for line in lines]
    return known + scalar_lines() + [(line, None) for line in NOTHING]
