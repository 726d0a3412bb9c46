"""Table files, policy files and roles whose answers are known beforehand, over the tables of a small company.

They hold for this reading as well as for the program: a reading that answers one of them otherwise compares nothing.
"""

from policies import as_seen, policies_of
from policy_files import (
    NO_COLUMNS, NO_PREDICATES, NO_RIGHTS, NO_RULES, NO_TOML, NO_TOTALS, NO_TRUTHS, TOTALS_AT_THE_EDGE, UNKNOWN_RIGHTS, misread_faults,
    reason,
)
from tables import MARK, TableFault, table_of

EMPLOYEES = b"""id:int,name:string,dept:int,boss:int?,salary:int,year:int
1,ann,10,,500,2000
2,bob,10,1,300,1999
3,cyd,20,1,400,1996
4,dan,30,2,300,1900
"""
DEPTS = b"id:int,title:string\n10,Sales\n20,Labs\n40,Void\n"
MARKS = b"k:int[1..9],ok:bool\n3,true\n"
FILES = {"employees.csv": EMPLOYEES, "depts.csv": DEPTS, "marks.csv": MARKS}

# The roles alone, and with all rights for each of them.
PLAIN_ROLES = 'role = [{name = "dan"}, {name = "eve"}, {name = "root", bypass = true}]\n'
MORE_PLAIN_ROLES = 'role = [{name = "dan"}, {name = "eve"}, {name = "root", bypass = true}, {name = "kim", member_of = ["dan"]},' \
    ' {name = "aid", member_of = ["root"]}, {name = "lee", member_of = ["eve", "kim"]}]\n'
ALL_RIGHTS = 'grant = [{name = "all", rights = ["employees.*", "depts.*", "marks.*"]}]\n'
ROLES, MORE_ROLES = PLAIN_ROLES + ALL_RIGHTS, MORE_PLAIN_ROLES + ALL_RIGHTS
SECURED = 'table = [{name = "employees", row_security = true}]\n'
DEPT10 = '[[policy]]\nname = "dept10"\ntable = "employees"\nto = ["dan"]\nusing = "row.dept == 10"\n'
OWN = '[[policy]]\nname = "own"\ntable = "employees"\nusing = "row.name == user"\n'
RECENT = '[[policy]]\nname = "recent"\ntable = "employees"\nkind = "restrictive"\nusing = "row.year >= 1950"\n'
COMPANY = ROLES + SECURED + DEPT10 + OWN + RECENT
WITH_MORE = MORE_ROLES + SECURED + DEPT10 + OWN + RECENT


def policy(title, rule, **more):
    """A policy of the employees with one rule; a key whose text is empty is left out."""
    lines = {"name": f'"{title}"', "table": '"employees"', "using": f"'{rule}'"} | more
    return "[[policy]]\n" + "".join(f"{key} = {value}\n" for key, value in lines.items() if value)


def right_rule(array, title, rights="[]", **more):
    """A grant or a withhold; a key whose text is empty is left out."""
    lines = {"name": f'"{title}"', "rights": rights} | more
    return f"[[{array}]]\n" + "".join(f"{key} = {value}\n" for key, value in lines.items() if value)


def toml_text(text):
    """A text in quotes; of what has to be escaped there are tabs and line ends."""
    return '"' + text.replace("\t", "\\t").replace("\n", "\\n") + '"'


def granting(*texts):
    """A grant of some rights."""
    return right_rule("grant", "all", "[" + ", ".join(map(toml_text, texts)) + "]")


ALL = ["ann", "bob", "cyd", "dan"]
RESTRICTIVE, SELECT = '"restrictive"', '"select"'
# Of each policy file and role the names of the employees that are seen.
SEEN = [
    (COMPANY, "dan", ["ann", "bob"]), (COMPANY, "eve", []), (COMPANY, "root", ALL),
    (WITH_MORE, "kim", ["ann", "bob"]), (WITH_MORE, "aid", []), (WITH_MORE, "root", ALL), (WITH_MORE, "lee", ["ann", "bob"]),
    (ROLES, "dan", ALL), (ROLES + DEPT10 + RECENT, "eve", ALL), (ROLES + SECURED, "dan", []), (ROLES + SECURED, "root", ALL),
    (ROLES + SECURED.replace("true", "false") + DEPT10, "eve", ALL), (ROLES + SECURED + RECENT, "dan", []),
    (ROLES + SECURED + OWN, "dan", ["dan"]), (ROLES + SECURED + OWN, "eve", []), (ROLES + SECURED + DEPT10, "eve", []),
    (ROLES + SECURED + OWN + DEPT10, "dan", ["ann", "bob", "dan"]),
    (ROLES + SECURED + policy("p", "true", to="[]"), "dan", []),
    (ROLES + SECURED + policy("p", "true", to='["public"]'), "dan", ALL),
    (ROLES + SECURED + policy("p", "true", to='["eve", "eve", "public"]'), "dan", ALL),
    (ROLES + SECURED + policy("p", "true") + policy("q", "row.id != 2", kind=RESTRICTIVE, to="[]"), "dan", ALL),
    (ROLES + SECURED + policy("p", "true") + policy("q", "row.id != 2", kind=RESTRICTIVE, to='["eve"]'), "dan", ALL),
    (ROLES + SECURED + policy("p", "true") + policy("q", "row.id != 2", kind=RESTRICTIVE, to='["eve"]'), "eve",
    ["ann", "cyd", "dan"]),
    (ROLES + SECURED + policy("p", "true") + policy("q", "row.id > 1", kind=RESTRICTIVE) + policy("r", "row.id < 4",
    kind=RESTRICTIVE),
     "dan", ["bob", "cyd"]),
    (ROLES + SECURED + policy("p", "row.id == 1") + policy("q", "row.id == 4"), "dan", ["ann", "dan"]),
    (ROLES + SECURED + policy("p", "true", **{"for": SELECT}), "dan", ALL),
    (ROLES + SECURED + policy("p", "true", **{"for": '"delete"'}), "dan", []),
    (ROLES + SECURED + policy("p", "", using="", check="'true'", **{"for": '"insert"'}), "dan", []),
    (ROLES + SECURED + OWN + policy("q", "false", kind=RESTRICTIVE, **{"for": '"delete"'}), "dan", ["dan"]),
    (ROLES + SECURED + policy("p", "row.id == 1", check="'row.id == 2'"), "dan", ["ann"]),
    (ROLES + SECURED + policy("p", "row.boss == null"), "dan", ["ann"]),
    (ROLES + SECURED + policy("p", "row.boss < 2"), "dan", ["bob", "cyd"]),
    (ROLES + SECURED + policy("p", "!(row.boss < 2)"), "dan", ["ann", "dan"]),
    (ROLES + SECURED + policy("p", "(row.boss ?? 0) % 2 == 0"), "dan", ["ann", "dan"]),
    (ROLES + SECURED + policy("p", "row.boss.HasValue && row.boss / 2 == 0"), "dan", ["bob", "cyd"]),
    (ROLES + SECURED + policy("p", '(row.name ?? "").Contains("n")'), "dan", ["ann", "dan"]),
    (ROLES + SECURED + policy("p", 'user.StartsWith(row.id == 3 ? "d" : "e")'), "dan", ["cyd"]),
    (ROLES + SECURED + policy("p", "row.id == 1 ? true : row.id == 4"), "dan", ["ann", "dan"]),
    (ROLES + SECURED + policy("p", "row.name == user") + policy("q", "user == \"kim\""), "eve", []),
    (WITH_MORE + policy("q", "user == \"kim\""), "kim", ["ann", "bob", "cyd"]),
    (WITH_MORE + policy("q", "user == \"dan\"", to='["dan"]'), "kim", ["ann", "bob"]),
    ("\ufeff" + COMPANY.replace("\n", "\r\n"), "dan", ["ann", "bob"]),
    (ROLES + SECURED + "policy = []\n", "dan", []), (ROLES + "table = []\n", "dan", ALL),
]

SHAPES = [
    "grants = []\n", "roles = []\n", "x = 1\n", "[role]\n", "role = 1\n",
    'role = "dan"\n', "role = [1]\n", 'role = ["dan"]\n', 'role = [{name = "dan"}, "eve"]\n', 'role = {name = "dan"}\n',
    '[policy]\nname = "p"\n',
    "[[role]]\n", 'role = [{nme = "dan"}]\n', 'role = [{name = "dan", nme = 1}]\n', 'role = [{name = 1}]\n',
    'role = [{name = 1979-05-27}]\n',
    'role = [{name = "dan", bypass = "true"}]\n', 'role = [{name = "dan", bypass = 1}]\n',
    'role = [{name = "dan", member_of = "eve"}]\n',
    'role = [{name = "dan", member_of = [1]}]\n', 'role = [{name = "dan", member_of = [["eve"]]}]\n',
    'role = [{name = "public"}]\n',
    'role = [{name = ""}]\n', 'role = [{name = "a b"}]\n', 'role = [{name = "from"}]\n', 'role = [{name = "1a"}]\n',
    'role.name = "dan"\n',
    'role = [{name.first = "dan"}]\n', 'role = [{name = "dan"}]\n[table]\n', 'table = [{name = "employees"}]\n',
    "table = [{row_security = true}]\n", 'table = [{name = "employees", row_security = 1}]\n',
    'table = [{name = "employees", row_security = true, force = true}]\n', policy("p", "true", name=""),
    policy("p", "true", table=""),
    policy("p", "", using=""), policy("", "true"), policy("no-grant", "true"), policy("default-deny", "true"),
    policy("x" * 65, "true"),
    policy("é" * 33, "true"), policy("p", "true", kind='"Permissive"'), policy("p", "true", kind='""'),
    policy("p", "true", kind="true"),
    policy("p", "true", **{"for": '"update"'}), policy("p", "true", **{"for": "[]"}), policy("p", "true", to='"public"'),
    policy("p", "true", to="[true]"), policy("p", "true", check="'true'", **{"for": SELECT}),
    policy("p", "true", rights="[]"),
    policy("p", "true", check="'true'", **{"for": '"delete"'}), policy("p", "true", check="'true'", **{"for": '"insert"'}),
    policy("p", "", using="", **{"for": '"insert"'}), policy("p", "", using="", check="'true'", **{"for": '"delete"'}),
    policy("p", "", using="", check="'true'"), policy("p", "true", using="true"), policy("p", "row.id %"),
    policy("p", "true", check="''"),
    policy("p", "row.none") + policy("q", "true", kind='"x"'), ROLES.replace("eve", "dan") + policy("p", "("),
    "grant = 1\n", 'grant = "all"\n', '[grant]\nname = "all"\nrights = []\n', "grant = [[]]\n", 'withhold = ["no-salary"]\n',
    "withhold = {}\n", 'grant = [{name = "all", rights = []}, 1]\n', "[[grant]]\n", right_rule("grant", "all", ""),
    right_rule("withhold", "no-salary", ""),
    right_rule("grant", "", name=""), right_rule("grant", "all", name="1"), right_rule("withhold", "w", "'employees.*'"),
    right_rule("grant", "all", "[1]"), right_rule("grant", "all", "['employees.*', true]"),
    right_rule("grant", "all", "[['employees.*']]"),
    right_rule("grant", "all", "{}"), right_rule("grant", "all", to='"public"'), right_rule("withhold", "w", to="[true]"),
    right_rule("grant", ""), right_rule("withhold", ""), right_rule("grant", "no-grant"), right_rule("withhold", "no-grant"),
    right_rule("grant", "default-deny"), right_rule("withhold", "default-deny"), right_rule("grant", "x" * 65),
    right_rule("withhold", "é" * 33), right_rule("grant", "all", using="'true'"), right_rule("grant", "all", table="'employees'"),
    right_rule("withhold", "w", kind='"permissive"'), right_rule("withhold", "w", right="[]"),
    right_rule("grant", "all", member_of="[]"), granting("none.*") + right_rule("withhold", "w", "['employees']"),
    policy("p", "1") + policy("p", "row.none") + granting("Host.*"),
    right_rule("grant", "all", "['none.*']") * 2 + right_rule("withhold", "w", nme="1"),
    "x = 9223372036854775807\n",
    "x = " + "[" * 80 + "]" * 80 + "\n", "#" * 1_048_577, "\x00" * 1_048_577,
]
UNKNOWN = [
    'table = [{name = "none", row_security = true}]\n', 'table = [{name = "", row_security = true}]\n',
    policy("p", "true", table='"none"'),
    policy("p", "true", table='"a b"'), policy("p", "true", to='["nobody"]'), policy("p", "true", to='[""]'),
    policy("p", "true", to='["public", "Dan"]'), ROLES + policy("p", "true", to='["dan", "kim"]'),
    policy("p", "true", table='"Employees"'),
    'role = [{name = "dan", member_of = ["dan"]}]\n', 'role = [{name = "dan", member_of = ["eve"]}, {name = "eve"}]\n',
    'role = [{name = "dan", member_of = ["public"]}]\n', 'role = [{name = "dan", member_of = [""]}]\n',
    policy("p", "row.x == 1"),
    policy("p", "row.title == user"), policy("p", "true", check="'row.none'"), policy("p", "true || row.none"),
    policy("p", "row.Id == 1"),
    policy("p", "1 + row.none") + policy("p", "1"), ROLES.replace("eve", "dan") + policy("p", "row.none"),
    policy("p", "1 + 1 == 2") + policy("q", "1") + policy("r", "row.none"),
    granting("employees.title"), granting("employees.Id"), granting("Employees.id"), granting("depts.id", "marks.*", "marks.id"),
    granting("employees.csv"), granting("employees.public"), right_rule("withhold", "w", "['none insert']"),
    right_rule("grant", "all", to='["nobody"]'), right_rule("withhold", "w", to='[""]'),
    right_rule("withhold", "w", to='["Dan", "public"]'), ROLES + right_rule("withhold", "w", to='["dan", "kim"]'),
    ROLES.replace("eve", "dan") + right_rule("withhold", "all", "['none.*']"),
    policy("p", "1") + right_rule("withhold", "p", to='["nobody"]'),
    policy("p", "Host.Watched(row.id)"), policy("p", "Host.LeapYear(row.title)"), policy("p", "Host.Under(row.id, row.none)"),
    policy("p", "1") + policy("q", "Host.leapYear(row.year)"), granting("Host.LeapYear", "Host.Watched"), granting("Host.under"),
    right_rule("withhold", "w", "['Host.LeapYear', 'Host.none']"), policy("p", "Host.LeapYear(row.year)") + granting("Host.p"),
]
DUPLICATES = [
    ROLES.replace("eve", "dan"), 'role = [{name = "dan"}, {name = "dan", member_of = ["dan"]}]\n',
    'table = [{name = "employees", row_security = true}, {name = "employees", row_security = true}]\n',
    policy("p", "true") * 2,
    policy("p", "true") + policy("p", "true", table='"depts"'), policy("p", "1") + policy("p", "true"),
    policy("p", "1 + 1 == 2") + policy("q", "1") + policy("p", "true"),
    right_rule("grant", "all") * 2, right_rule("withhold", "all") * 2, right_rule("grant", "all") + right_rule("withhold", "all"),
    policy("all", "true") + right_rule("grant", "all"), policy("w", "1") + right_rule("withhold", "w", to="[]"),
    ROLES + right_rule("withhold", "all", "['marks.k']"),
]
TYPES = [
    policy("p", "row.id"), policy("p", "row.name"), policy("p", "row.boss == row.name"), policy("p", "employees.Any()"),
    policy("p", "depts == null"), policy("p", "row.boss"), policy("p", "true", check="'row.id'"),
    policy("p", "row.id() == 1"),
    policy("p", "1 + 1 == 2") + policy("q", "row.id"), policy("p", "row.id ?? 1 == 1"), policy("p", "row.name < user"),
    policy("p", "new { row.id }.id == 1"), policy("p", "(from e in employees select e.id) == null"),
    policy("p", "Host.LeapYear(row.boss)"), policy("p", "Host.LeapYear(row.name)"), policy("p", "Host.LeapYear(row.id + 1)"),
    policy("p", "Host.LeapYear(row.dept, row.year)"), policy("p", "Host.Under(row.dept)"), policy("p", "Host.Under(row.boss, row.year)"),
    policy("p", "Host.Under(row.dept, (true ? row : row).year)"), policy("p", "Host.LeapYear(row.year) == 1"),
    policy("p", "true", check="'true || Host.LeapYear(row)'"), policy("p", "Host.LeapYear(row.year)") + policy("q", "row.id"),
]
NOT_TOTAL = [
    policy("p", "row.id + 1 > 0"), policy("p", "row.id / -2 == 0"), policy("p", "row.id % 0 == 0"),
    policy("p", "row.id / row.dept == 0"),
    policy("p", "row.boss.Value == 1"), policy("p", "row.name.Length > 1"), policy("p", "row == null"),
    policy("p", "-row.id < 0"),
    policy("p", 'row.name.Contains("a")'), policy("p", "user.Contains(row.name)"),
    policy("p", "(user ?? row.name).Contains(user)"),
    policy("p", "user.Contains(row.id == 1 ? row.name : user)"), policy("p", "row.name + user == user"),
    policy("p", "-(-2147483648) == row.id"),
    policy("p", "true") + policy("q", "true", check="'row.id * 1 == 1'"), policy("p", "(true ? row : row).id == 1"),
    policy("p", "row.boss.HasValue && row.boss.Value == 1"), policy("p", "row.id / (1) / (row.id / 1) == 0"),
    policy("p", "Host.LeapYear(row.year)"), policy("p", "Host.Under(row.dept, row.year)"), policy("p", "true || Host.LeapYear((row).year)"),
    policy("p", "!Host.Under(row.id, row.id)"), policy("p", "Host.LeapYear((true ? row : row).year)"),
    policy("p", "true", check="'false && Host.LeapYear(row.year)'"), policy("p", "Host.LeapYear(row.year) == Host.Under(row.id, row.id)"),
]
TOMLS = [piece for piece in NO_TOML if piece != MARK]
TOMLS += ["grant = [\n", ROLES + ROLES, "[[role]]\n[role]\n", "\ufeff\ufeff" + COMPANY, COMPANY[:-2], COMPANY + '"',
"#" * 1_048_574 + "\n\x00"]

WORDS = {
    "toml": TOMLS,
    "shape": [
        *SHAPES, *(policy("p", rule, using=f"'''{rule}'''") for rule in NO_RULES),
        *(right_rule("withhold", "w", f"[{toml_text(text)}]") for text in NO_RIGHTS),
    ],
    "unknown-name": [
        *UNKNOWN, *(policy("p", rule) for rule in NO_COLUMNS + NO_PREDICATES), *map(granting, UNKNOWN_RIGHTS),
    ],
    "duplicate": DUPLICATES,
    "rule-type": [*TYPES, *(policy("p", rule) for rule in NO_TRUTHS)],
    "rule-not-total": [*NOT_TOTAL, *(policy("p", rule, using=f"'''{rule}'''") for rule in NO_TOTALS)],
}
ACCEPTED = [COMPANY, WITH_MORE, "", "grant = []\n", "withhold = []\n", "grant = []\nwithhold = []\n"]
ACCEPTED += [policy("p", rule, using=f"'''\n{rule}'''") for rule in TOTALS_AT_THE_EDGE] + [
    policy("x" * 64, "true"), policy("é" * 32, "true"), policy(" ", "true"), "#" * 1_048_576, "\ufeff", "role = []\n" + OWN,
    policy("select", "true"), policy("p", "true", table='"marks"'),
    ROLES + policy("p", "true", to='["dan", "dan", "public"]'),
    right_rule("grant", "all"), right_rule("withhold", "all", to="[]"),
    granting("employees.id", "employees.id", "employees.*", "marks insert"),
    granting("Host.LeapYear", "Host.Under", "Host.LeapYear"), right_rule("withhold", "w", "['Host.Under', 'marks.k']"),
    granting("depts delete", "depts insert", "depts.*") + right_rule("withhold", "x" * 64) + right_rule(
        "withhold", " ", "['marks.ok']"),
    PLAIN_ROLES + right_rule("grant", "public", to='["dan", "dan", "public"]') + right_rule("withhold", "employees"),
    'role = [{name = "Public"}, {name = "reader", member_of = ["Public", "Public"]}]\n', "[[role]]\nname = 'é'\n",
]

# The first fault of each table file.
TABLE_WORDS = {
    b"": "header", b"id:int,id:int\n": "duplicate-name", b"id:int\nx\n": "cell 2 1", b"id:int\n1,2\n": "csv",
    b"id:int,id:int,x\n": "duplicate-name", b"id:int,x,id:int\n": "header", b"id:int?[1..2]\n": "header",
    b"id:int[2..1]\n": "header",
    b"id:int[1 ..2]\n": "header", b"id:int[+1..2]\n": "header", b"id:int[1..2147483648]\n": "header", b"id:bool?\n": "header",
    b"id:text\n": "header", b"id\n": "header", b"id:\n": "header", b"id: int\n": "header", b"k:int[1..9]\n10\n": "cell 2 1",
    b"k:int[1..9]\n1\n0\n": "cell 3 1", b"k:int[-1..1]\n-2\n": "cell 2 1", b"k:int\n 1\n": "cell 2 1",
    b"k:int\n\\N\n": "cell 2 1",
    b'k:int\n""\n': "cell 2 1", b"k:int?\nnull\n": "cell 2 1", b"k:int?\n2147483648\n": "cell 2 1",
    b"b:bool\ntRUE\n": "cell 2 1",
    b"b:bool\n1\n": "cell 2 1", b"b:bool\n\\N\n": "cell 2 1", b'b:bool\n""\n': "cell 2 1", b"s:string\n\xff\n": "cell 2 1",
    b"s:string,k:int\na\xff,x\n": "cell 2 1", b"k:int,s:string\n1,\xff,\n": "csv", b"s\xff:string\n": "header",
    b",".join([b"c:int"] * 101) + b"\n": "too-large", b",".join([b"\xff"] * 101): "too-large",
    b"s:string\n" + b"," * 101: "csv",
}
# The cells of the one column c of each table file.
TABLE_CELLS = {
    b"c:int?\n\\N\n7\n": [None, 7], b"c:bool\nTRUE\nf\n": [True, False],
    b"c:bool\ntrue\nTrue\nt\nfalse\nFalse\nFALSE\n": [True] * 3 + [False] * 3,
    b'c:string\n\\N\n""\n\n"\\N"\n\\n\n\\\\N\n': [None, "", None, "\\n", "\\\\N"],
    b'c:int?\n"\\N"\n""\n"7"\n-0\n': [None, None, 7, 0],
    b"c:int[-2..007]\n-2\n7\n-0002\n": [-2, 7, -2], b"c:int[5..5]\n5\n": [5],
    b"c:int[-2147483648..2147483647]\n-2147483648\n": [-2147483648],
    b"\xef\xbb\xbf\xef\xbb\xbfc:string\n\xef\xbb\xbf\n a \n": ["\ufeff", " a "],
    b'c:string\n"a,b\n""c"" "d\n': ['a,b\n"c" d'],
    'c:string\né\n😀\n\x00\n"\r\n"\n'.encode(): ["é", "😀", "\0", "\r\n"], b"c:int?\n": [],
}


def bytes_of(text):
    return text if isinstance(text, bytes) else text.encode()


def cells_or_reason(data):
    try:
        return [row["c"] for row in table_of(data).rows]
    except TableFault as fault:
        return str(fault)


def misread_files():
    """The files with known answers that this reading answers otherwise."""
    tables = {path.removesuffix(".csv"): table_of(data) for path, data in FILES.items()}
    wrong = [text for text, role, names in SEEN if names != [
        row["name"] for row in as_seen(policies_of(text.encode(), tables), tables, role)["employees"].rows]]
    wrong += [text for word, texts in WORDS.items() for text in texts if reason(bytes_of(text), tables) != word]
    wrong += [text for text in ACCEPTED if reason(text.encode(), tables) is not None]
    wrong += [data for data, known in (TABLE_WORDS | TABLE_CELLS).items() if cells_or_reason(data) != known]
    return wrong + misread_faults()
