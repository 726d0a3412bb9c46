"""Policy files by chance: right ones in all spellings, and faulty ones. `dice` is a random.Random.

A file is a dict of its arrays, whose entries are dicts. A rule that spells something right has the tokens of `rule`.
"""

import random
import re

import files
import scalars
from lexer import LARGEST_INT
from policies import ACTIONS, PolicyFault, policies_of
from statements import SIGNS, number_columns, number_near, spell

ROLE_NAMES = [
    "dan", "dan", "eve", "root", "kim", "aid", "reader", "_", "Public", "row", "user", "é", "e\u0301", "表", "r٣", "t",
    "x" * 70,
    "Host_",
]
POLICY_NAMES = [
    "own", "recent", "dept10", "p 1", " ", "public", "No-grant", "no-grant ", "é", "😀" * 16, "x" * 64, '"', "\\", "\t", "\n",
    "'",
    "select", "a.b", "\u2028", "\x01", "1",
]
# Those of grants and withholds; no policy by chance has one of these.
RIGHT_NAMES = [
    "all", "pay", "no-pay", "no-salary", "keep", "default-deny ", "no grant", "of é", "grant", "withhold", "z" * 64, "2", "\r",
]
NO_RIGHTS = [
    "", " ", "t", "T.c.d", "t..c", "t.", ".c", ".*", "*", "*.*", "*.c", "t.**", "t. c", "t .c", " t.c", "t.c ", "t.1", "1.c", "t.from",
    "from.c", "from insert", "t  insert", "t insert ", "t\tinsert", "t Insert", "t select", "t update", "t insert delete", "t.insert",
    "t.* insert", "t.c insert", "Host", "Host.*", "Host insert", "Host.from", "Host.", "Host.p.q", "Host.p(1)", "t*", "t.c,t.d", "t-c",
    "public", "t\n.c", "t.\u0301c", "no-grant",
]
UNKNOWN_RIGHTS = [
    "none.*", "none.c", "none insert", "none delete", "Host.p", "Host.leapYear", "Host.Watched", "host.p", "Public insert", "TABLE.*",
    "column.c", "t_.*", "e\u0301.*",
]
TOTAL = {
    "int": ["bool ? int : int", "int? ?? int", "int DIVIDE DIVISOR", "row . COLUMN:int", "row . COLUMN:int"],
    "int?": [
        "bool ? int? : int?", "bool ? int : int?", "bool ? int? : null", "int? ?? int?", "int? ?? null",
        "int? DIVIDE DIVISOR",
        "row . COLUMN:int?", "row . COLUMN:int?",
    ],
    "bool": [
        "! bool", "bool && bool", "bool || bool", "int COMPARE int", "int EQUAL int", "int? COMPARE int", "int? EQUAL int?",
        "bool ? bool : bool", "bool EQUAL bool", "string EQUAL string", "string EQUAL string", "string EQUAL null",
        "null EQUAL null", "int EQUAL null", "int? EQUAL null", "int? . HasValue", "sure . SEARCH ( sure )",
        "sure . SEARCH ( sure )", "row . COLUMN:bool", "row . COLUMN:bool",
    ],
    "string": [
        "string ?? string", "string ?? null", "bool ? string : string", "bool ? string : null", "row . COLUMN:string",
        "row . COLUMN:string",
    ],
    "sure": ["string ?? sure", "string ?? sure", "bool ? sure : sure"],
}
TOTAL = {its_type: [form.split() for form in forms] for its_type, forms in TOTAL.items()}
DIVISORS = ["1", "2", "3", "10", "007", "2147483647"]

NO_RULES = [
    "", " ", "//", "row.c %", "true;", "run true", "row.c = 1", "(true", "true)", "true true", "from x in t select true",
    "x => true",
    "row.from == 1", '"a', "'a'", "1_0 == 1", "2147483648 == 1", "row..c", "row.c ==", "@", "Host.p()", "new { 1 }.a",
    "\u00a0true",
    "(" * 65 + "true" + ")" * 65, "!" * 256 + "true", "true" + "&&true" * 256, "true //" + " " * 65_530, "true\ufeff",
    "tru\\e",
]
NO_COLUMNS = [
    "row.none", "row.none == 1", "foo == row.none", "(row).none", "row.none.Length > 1", "t.Any(x => row.none)",
    "row.Length == 1",
    "new { row.none }.none == 1", "(from x in t select row.none) == null", "1 + row.none", "!row.HasValue",
    "row.none ?? true",
    "(from row in row.none select 1) == null", "(from x in t join row in row.none on 1 equals 1 select 1) == null",
    "(from x in t join row in t on row.none equals 1 select 1) == null",
    "(from row in t select 1 into y select row.none) == null",
    "(from x in t let row = row.none select 1) == null", "t.Any(x => x) && row.none", "(from x in t join row in t on 1 equals 1"
    " into g select row.none) == null", "(from x in t orderby 1, row.none descending select 1) == null",
    "(from row in t group 1 by 1 into y where row.none select 1) == null", "row.a(row.none)", "row.c(row.none)", "row.none.x",
    "t.Any(row => true) && row.none", "new { a = row.none }.a", "true ? row.none : 1 < 2", "row.none(1) || row.none",
]
NO_PREDICATES = ["Host.p(1)", "Host.LeapYear(row.none)", "true || Host.p(true)", "Host.p(Host.q(1))", "t.Any(x => Host.p(x))"]
NO_TRUTHS = [
    "1", '"a"', "null", "user", "row", "-1", "foo", "foo == 1", "t.Any()", "t == null", "new { a = true }.a", "user.none",
    "user == 1",
    "row == row", "row == user", "true + 1", "user + 1 == user", "row.none()", "row.none(1) == 1",
    "user.Any(row => row.none)",
    "(from x in t select 1) == null", "(from row in t where row.none select row.none) == null", "true ?? false", "1 == true",
    "true == null", "user ? 1 : 2", "!user", "user && true", "user.Length", "null ?? true", "true ? null : true",
    "user.Contains(null)",
    "(from x in t join row in t on 1 equals row.none select row.none) == null",
    "t.Any(x => t.Any(row => t.Any(y => row.none)))",
    "(from row in t let x = (from y in row.none select 1) select row.none) == null", "user.Contains(1)", "1 < user",
    "user == row.none()",
    "(from x in t join y in t on 1 equals 1 into row select row.none) == null", "Public == user", "user.Length == user",
    "x.c == 1",
    "(from x in t select 1 into row select row.none) == null", "user.contains(user)", "user.Contains(user, user)",
    "1 ?? 2 == 2", "Host.LeapYear(1)", "Host.LeapYear(user)", "Host.Under(row, row)", "Host.LeapYear(row, row)", "!Host.Under(row)",
    "Host.LeapYear(user.Length)",
]
NO_TOTALS = [
    "1 + 1 == 2", "2 * 3 > 1", "1 - 1 == 0", "row == null", "null != row", "(true ? row : null) == null", "user.Length > 1",
    'user + "a" == user', "-(1 + 1) < 0", "- -1 == 1", "-(-2147483648) == 1", "- -2147483648 < 1", "1 / 0 == 1", "1 % 0 == 0",
    "1 / -1 == 1", "1 / -2147483648 == 0", "1 % (1 / 1) == 0", "1 / (true ? 1 : 2) == 1", "true || 1 + 1 == 2",
    "false && 2 * 2 == 4",
    'user.Contains(true ? "a" : null)', 'user.StartsWith((true ? null : "a") ?? null)', '(true ? null : user).EndsWith("a")',
    '((true ? "a" : null) ?? null).Contains("a")', "1 / 00 == 1", "true ? true : 1 + 1 == 2", "!(1 - 1 == 1)",
    "-(0 - 1) == 1",
    '(user ?? null).Contains("a")', "\"a\".Contains(user + user)", "(true ? 1 : (false ? 1 : 2) + 1) == 1",
    "null + user == null",
]
TOTALS_AT_THE_EDGE = [
    "-(5) < 0", "-((5)) < 0", "- 2147483648 < 0", "-2147483648 / 1 < 0", "1 / 007 == 0", "-0 == 0", "user == user",
    "null == null",
    '"a".Contains("")', 'user.StartsWith(null == null ? "a" : user)', "((user)) . EndsWith ( user )", "1 / (2) == 0",
    "5 % 2147483647 == 5",
    "-5 / 2 == -2", '((true ? null : "a") ?? user).Contains(user)', "true // a comment", "\r\n\ttrue\n// é\n",
    "(" * 64 + "true" + ")" * 64,
    "!" * 255 + "true", "true" + "&&true" * 255, "true //" + "é" * 32_764, "(1 == 1) == (2 > 1)", "null == user", "1 == null",
    "!false",
    "false ? false : true ? true : false", "\"\\u0000\" != user", "user.Contains(user ?? user)",
    "(true ? user : user).Contains(user)",
]


class RuleScope(scalars.Scope):
    """What has a type in a rule of a table, in total forms alone. The row by itself is none."""

    slips = 0

    def __init__(self, table):
        super().__init__("row", table, TOTAL)

    def add_leaves(self):
        self.choices |= {"DIVIDE": ["/", "%"], "DIVISOR": DIVISORS}
        texts = [[f'"{name}"'] for name in ("dan", "eve", "root", "a", "ab")]
        self.leaves["sure"] = [*([text] for text in scalars.LITERALS["string"]), *texts, *[["user"]] * 12]
        self.leaves["string"] += self.leaves["sure"]
        self.leaves["int"] += [["-", "1"], ["-", "2147483648"]]


def total(dice, its_type, scope, fuel):
    """A total expression of the type, as its level and its tokens."""
    forms = scope.forms[its_type]
    if fuel == 0 or not forms or dice.random() < 0.15:
        words = dice.choice(scope.leaves[its_type])
        return scalars.level_of(words), words
    return scalars.filled(dice, dice.choice(forms), scope, lambda _, inner: total(dice, inner, scope, fuel - 1))


def rule(dice, table):
    """The text of a rule that is right. Line ends may be between its tokens."""
    kind = dice.random()
    texts = [column for column, its_type in table.columns.items() if its_type == "string"]
    if kind < 0.03:
        return dice.choice(TOTALS_AT_THE_EDGE)
    if kind < 0.1:
        words = [dice.choice(["true", "true", "false"])]
    elif kind < 0.25 and texts:
        words = ["row", ".", dice.choice(texts), dice.choice(["==", "==", "!="]), "user"]
    elif kind < 0.55:
        words = shown(dice, table).replace(".", " . ").split()
    else:
        words = total(dice, "bool", RuleScope(table), dice.choice([1, 2, 2, 3, 4]))[1]
    text = spell(dice, words)
    return text.replace(" ", "\n") if dice.random() < 0.1 and "//" not in text else text


def shown(dice, table):
    """A rule that is true of about half of the rows."""
    column = dice.choice(number_columns(table))
    number = number_near(dice, table, column)
    return f"row.{column} {dice.choice(SIGNS)} {number if int(number) <= LARGEST_INT else 7}"


def role(dice, name, earlier):
    made = {"name": name}
    if dice.random() < 0.5:
        made["member_of"] = [dice.choice(earlier) for _ in range(dice.choice([0, 1, 1, 2]))] if earlier else []
    if dice.random() < 0.35:
        made["bypass"] = dice.random() < 0.4
    return made


def policy(dice, name, roles, tables):
    """A policy of one of the tables, with all keys that it needs, and of the others some."""
    table = dice.choice(list(tables))
    made = {"name": name, "table": table}
    kind, action = dice.choice(["permissive"] * 3 + ["restrictive"]), dice.choice(ACTIONS[:2] * 5 + ACTIONS)
    if kind != "permissive" or dice.random() < 0.3:
        made["kind"] = kind
    if action != "all" or dice.random() < 0.3:
        made["for"] = action
    if dice.random() < 0.65:
        made["to"] = dice.choice([[], ["public"], *([role] for role in roles), [dice.choice(roles), dice.choice(roles)]])
    if action != "insert":
        made["using"] = rule(dice, tables[table])
    if action == "insert" or action == "all" and dice.random() < 0.3:
        made["check"] = rule(dice, tables[table])
    return made


def right(dice, tables):
    """A right to a column, to all of a table's, or to a statement."""
    name, table = dice.choice(list(tables.items()))
    column = dice.choice(list(table.columns))
    return dice.choice([f"{name}.{column}"] * 12 + [f"{name}.*", f"{name} insert", f"{name} delete"])


def all_rights(dice, tables):
    """The rights to all columns of the tables, in any order; some may be there twice."""
    found = []
    for name, table in tables.items():
        each = [f"{name}.{column}" for column in table.columns]
        found += dice.choice([[f"{name}.*"], [f"{name}.*"], each, [*each, f"{name}.*"]])
    dice.shuffle(found)
    return found


def right_rule(dice, name, rights, roles):
    """A grant or a withhold of the rights, to everybody or to some."""
    made = {"name": name, "rights": rights}
    if dice.random() < 0.7:
        made["to"] = dice.choice([["public"], ["public"], [], *([role] for role in roles), [dice.choice(roles), dice.choice(roles)]])
    return made


def open_rights(dice, tables, roles):
    """Grants of all rights to everybody, and withholds that nobody meets: these list nobody, or cover no column."""
    names = dice.sample(RIGHT_NAMES, dice.choice([1, 1, 2, 3, 4]))
    grants = [{"name": names[0], "rights": all_rights(dice, tables)}]
    withholds = []
    for name in names[1:]:
        rights = [right(dice, tables) for _ in range(dice.choice([0, 1, 2, 3]))]
        if dice.random() < 0.5:
            grants.insert(dice.randrange(len(grants) + 1), right_rule(dice, name, rights, roles))
        elif dice.random() < 0.5:
            withholds.append({"name": name, "to": [], "rights": rights})
        else:
            withholds.append(right_rule(dice, name, [it for it in rights if " " in it], roles))
    return {"grant": grants, "withhold": withholds}


def some_rights(dice, tables, roles):
    """Grants and withholds by which a role may use some columns and others not."""
    names = dice.sample(RIGHT_NAMES, dice.choice([1, 2, 3, 3, 4, 5]))
    grants = [{"name": "given", "rights": all_rights(dice, {name: tables[name] for name in tables if dice.random() < 0.95})}]
    if dice.random() < 0.25:
        grants = [right_rule(dice, "given", all_rights(dice, tables), roles)]
    elif dice.random() < 0.2:
        grants[0]["rights"] = [text for text in grants[0]["rights"] if "*" not in text and dice.random() < 0.8]
    withholds = []
    for name in names:
        made = right_rule(dice, name, [right(dice, tables) for _ in range(dice.choice([0, 1, 1, 2, 3]))], roles)
        (grants if dice.random() < 0.25 else withholds).append(made)
    return {"grant": grants, "withhold": withholds}


def right_file(dice, tables, rights_of=open_rights):
    """A file without faults, over the tables by name. Row security is on for most tables, and each has some policy then."""
    names = list(dict.fromkeys(dice.choices(ROLE_NAMES, k=dice.choice([1, 2, 3, 3, 4, 5]))))
    roles = [role(dice, name, names[:place]) for place, name in enumerate(names)]
    secured = [name for name in tables if dice.random() < 0.75]
    entries = [{"name": name, "row_security": True} for name in secured]
    entries += [{"name": name, "row_security": False} for name in tables if name not in secured and dice.random() < 0.5]
    dice.shuffle(entries)
    titles = dice.sample(POLICY_NAMES, dice.choice([0, 1, 2, 3, 4, 4, 5, 6]))
    policies = [policy(dice, title, names, tables) for title in titles]
    # Most tables have a policy that shows something to everybody, since without one there is nothing to see.
    for place, name in enumerate(secured):
        if dice.random() < 0.8:
            using = dice.choice(["true", shown(dice, tables[name]), shown(dice, tables[name])])
            policies.insert(dice.randrange(len(policies) + 1), {"name": f"shown{place}", "table": name, "using": using})
    return {"role": roles, "table": entries, "policy": policies, **rights_of(dice, tables, names)}


class Raw(str):
    """A value as it is spelled in TOML."""


WRONG_VALUES = {
    "text": [1, 0, True, [], {}, ["a"], Raw("1979-05-27"), Raw("1.5"), Raw("07:32:00"), Raw("0x1F"), Raw("inf"),
    {"name": "a"}],
    "flag": ["true", 1, 0, [], {}, [True], Raw("1979-05-27T07:32:00Z"), Raw("nan")],
    "texts": ["public", True, 1, {}, [1], ["public", 1], [["public"]], [{}], [True], Raw("1_000")],
    "array": ["a", 1, True, {}, {"name": "dan"}, [1], ["dan"], [[]], [{"name": "dan"}, 1], Raw("1979-05-27")],
}
KINDS = {
    "name": "text", "member_of": "texts", "bypass": "flag", "row_security": "flag", "table": "text", "kind": "text",
    "for": "text",
    "to": "texts", "using": "text", "check": "text", "rights": "texts",
}
OTHER_KEYS = ["nme", "Name", "", "names", "right", "member-of", "rowsecurity", "role", "policy", "with_check", "é", "name ",
"FOR"]


def entries_of(file, *arrays):
    return [entry for array in arrays for entry in file[array]]


def any_policy(dice, file, tables, actions=ACTIONS):
    """A policy of the file, or one more, for one of these actions, with the rules that it needs."""
    name = next(name for name in ("more", "more1", "more2", "more3") if name not in [it["name"] for it in file["policy"]])
    fitting = [it for it in file["policy"] if it.get("for", "all") in actions]
    if not fitting or dice.random() < 0.3:
        action = dice.choice(actions)
        made = {"name": name, "table": dice.choice(list(tables)), "for": action}
        made |= {key: "true" for key in (["check"] if action == "insert" else ["using"])}
        file["policy"].insert(dice.randrange(len(file["policy"]) + 1), made)
        fitting = [made]
    return dice.choice(fitting)


def other_key(dice, file, tables):
    value = dice.choice(["a", 1, True, [], {}, [{}], ["public"]])
    if dice.random() < 0.4:
        file[dice.choice(["grants", "withholds", "roles", "", "public", "Role", "tables", "é"])] = value
    elif dice.random() < 0.3:
        dice.choice(entries_of(file, "grant", "withhold"))[dice.choice(["table", "using", "for", "kind", "bypass"])] = value
    else:
        dice.choice(entries_of(file, *file))[dice.choice(OTHER_KEYS[:6])] = value


def wrong_value(dice, file, tables):
    entry = dice.choice(entries_of(file, *file))
    key = dice.choice(list(entry))
    entry[key] = dice.choice(WRONG_VALUES[KINDS[key]])


def wrong_array(dice, file, tables):
    file[dice.choice(list(file))] = dice.choice(WRONG_VALUES["array"])


def missing_key(dice, file, tables):
    entry = dice.choice([
        file["role"][0], any_policy(dice, file, tables), any_policy(dice, file, tables, ("insert",)), any_right_rule(dice, file),
    ])
    keys = ("name", "table", "using" if "using" in entry else "check", "rights")
    del entry[dice.choice([key for key in keys if key in entry])]


def wrong_text(dice, file, tables):
    key, texts = dice.choice([
        ("name", ["", "no-grant", "default-deny", "x" * 65, "😀" * 17, "é" * 33]),
        ("kind", ["", "Permissive", "all", "allow"]),
        ("for", ["", "update", "ALL", "selects", "public"]),
    ])
    rules = any_right_rule(dice, file) if key == "name" and dice.random() < 0.5 else any_policy(dice, file, tables)
    rules[key] = dice.choice(texts)


def any_right_rule(dice, file):
    """A grant or a withhold of the file, or one more."""
    array = dice.choice(["grant", "withhold"])
    if not file[array] or dice.random() < 0.3:
        file[array].append({"name": f"one {array} more", "rights": []})
    return dice.choice(file[array])


def with_right(texts):
    """A text that isn't a right, or one to what isn't there, among those of a grant or a withhold."""

    def change(dice, file, tables):
        rights = any_right_rule(dice, file)["rights"]
        rights.insert(dice.randrange(len(rights) + 1), dice.choice(texts))

    return change


def no_column(dice, file, tables):
    """A right to a column that another table has, or none."""
    name, table = dice.choice(list(tables.items()))
    columns = [column for other in tables.values() for column in other.columns if column not in table.columns]
    any_right_rule(dice, file)["rights"].append(f"{name}.{dice.choice([*columns, 'none', 'Insert', name + '_'])}")


def no_role_name(dice, file, tables):
    names = ["public", "", "a b", "1a", "from", "Host", "as", "a-b", "a.b", " dan", "dan\n", "\u0301a", "٣", "null",
    "no-grant"]
    file["role"].append({"name": dice.choice(names)})


def other_rules(dice, file, tables):
    """A rule that its action forbids, or one that it needs is not there."""
    if dice.random() < 0.5:
        any_policy(dice, file, tables, ("select", "delete"))["check"] = "true"
    else:
        any_policy(dice, file, tables, ("insert",))["using"] = "true"


def with_rule(texts):
    """A fault of a rule, which any policy may have in the place of one of its rules."""

    def change(dice, file, tables):
        entry = any_policy(dice, file, tables)
        entry[dice.choice([key for key in ("using", "check") if key in entry])] = dice.choice(texts)

    return change


def no_table(dice, file, tables):
    name = dice.choice(["none", "", "a b", "T_", "from", "public", "t.csv", "dan\n"])
    if dice.random() < 0.5:
        file["table"].append({"name": name, "row_security": dice.random() < 0.5})
    else:
        any_policy(dice, file, tables)["table"] = name


def no_role(dice, file, tables):
    """A role that isn't there, or as one to be a member of, one that doesn't come earlier."""
    if dice.random() < 0.4:
        entry = any_right_rule(dice, file) if dice.random() < 0.5 else any_policy(dice, file, tables)
        to = entry.setdefault("to", [])
        to.insert(dice.randrange(len(to) + 1), dice.choice(["nobody", "", "Public_", "a b", "PUBLIC"]))
    else:
        place = dice.randrange(len(file["role"]))
        later = [it["name"] for it in file["role"][place:]]
        file["role"][place].setdefault("member_of", []).append(dice.choice([*later, "public", "nobody", ""]))


def twice(dice, file, tables):
    """A second entry of one name. One of a role comes last, and is a member of others."""
    array = dice.choice([array for array in file if file[array]])
    entry = dict(dice.choice(file[array]))
    if array in NAMED_ALIKE:
        array = dice.choice(NAMED_ALIKE)
        rule = {"table": dice.choice(list(tables)), "using": "true"} if array == "policy" else {"rights": []}
        entry = {"name": entry["name"], **rule}
    entry.pop("member_of", None)
    file[array].append(entry)


# The arrays no two entries of which may have one name.
NAMED_ALIKE = ("policy", "grant", "withhold")
# Each fault with the reason that a file with it alone is refused for.
FAULTS = [
    (other_key, "shape"), (wrong_value, "shape"), (wrong_array, "shape"), (missing_key, "shape"), (wrong_text, "shape"),
    (no_role_name, "shape"), (other_rules, "shape"), (with_rule(NO_RULES), "shape"), (no_table, "unknown-name"),
    (no_role, "unknown-name"), (with_rule(NO_COLUMNS), "unknown-name"), (with_rule(NO_PREDICATES), "unknown-name"),
    (with_right(NO_RIGHTS), "shape"), (with_right(NO_RIGHTS), "shape"), (with_right(UNKNOWN_RIGHTS), "unknown-name"),
    (no_column, "unknown-name"), (twice, "duplicate"), (twice, "duplicate"), *[(with_rule(NO_TRUTHS), "rule-type")] * 3,
    *[(with_rule(NO_TOTALS), "rule-not-total")] * 3,
]


def spelled_text(dice, text):
    """A text in one of the four kinds of quotes. What has to be escaped is, and by chance more."""
    simple = not re.search(r"[\x00-\x08\x0a-\x1f\x7f]", text)
    kind = dice.random()
    if kind < 0.25 and simple and "'" not in text:
        return f"'{text}'"
    if kind < 0.3 and simple and "'" not in text:
        return f"'''\n{text}'''" if dice.random() < 0.5 else f"'''{text}'''"
    more = r"|[^\x00-\x7f]" if dice.random() < 0.2 else ""
    is_long = kind < 0.4
    escaped = re.sub(r'["\\]', r"\\\g<0>", text)
    # `tomllib` and the program differ in line ends inside of texts, which a rule doesn't show, but a name does.
    plain = r"\n" if is_long and len(text) > 2 and dice.random() < 0.7 else ""
    escaped = re.sub(rf"(?![\t{plain}])[\x00-\x1f\x7f]{more}", lambda found: spelled_escape(ord(found[0])), escaped)
    if not is_long:
        return f'"{escaped}"'
    # A line end after the quotes isn't part of the text. A backslash at a line's end takes all blanks after it.
    fronts = ["\n"] if escaped[:1] in ("", " ", "\t", "\n") else ["\n", "\n", "", "\\\n  "]
    return f'"""{dice.choice(fronts)}{escaped}"""'


def spelled_escape(code):
    short = {8: "b", 9: "t", 10: "n", 12: "f", 13: "r"}
    if code in short:
        return "\\" + short[code]
    return f"\\u{code:04x}" if code < 0x10000 else f"\\U{code:08X}"


def spelled_key(dice, key):
    bare = re.fullmatch(r"[A-Za-z0-9_-]+", key) is not None
    if bare and dice.random() < 0.85:
        return key
    return f"'{key}'" if dice.random() < 0.3 and "'" not in key else f'"{key}"'


def spelled_pair(dice, key, value):
    return f"{spelled_key(dice, key)}{dice.choice([' = ', '=', ' =  '])}{spelled_value(dice, value)}"


def spelled_value(dice, value):
    if isinstance(value, Raw):
        return str(value)
    if isinstance(value, str):
        return spelled_text(dice, value)
    if isinstance(value, list):
        joint, ends = dice.choice([(", ", ["", ""]), (",", ["", ""]), (",\n", ["\n", "\n"]), (",\n  ", ["\n  ", ",\n"])])
        return "[" + ends[0] + joint.join(spelled_value(dice, part) for part in value) + (ends[1] if value else "") + "]"
    if isinstance(value, dict):
        return "{" + ", ".join(spelled_pair(dice, *pair) for pair in value.items()) + "}"
    return {True: "true", False: "false"}[value] if isinstance(value, bool) else str(value)


def shuffled(dice, entry):
    pairs = list(entry.items())
    dice.shuffle(pairs)
    return pairs


def spelled_file(dice, file):
    """The text of a file: pairs first, then arrays of tables in sections."""
    lines, sections = [], []
    for array, entries in shuffled(dice, file):
        listed = isinstance(entries, list) and entries and all(isinstance(entry, dict) for entry in entries)
        if entries == [] and array in KNOWN and dice.random() < 0.5:
            continue
        if not listed or dice.random() < 0.4:
            lines.append(spelled_pair(dice, array, entries))
        else:
            name = spelled_key(dice, array)
            for entry in entries:
                sections += [f"[[{name}]]", *(spelled_pair(dice, *pair) for pair in shuffled(dice, entry))]
    spaced = []
    for line in [*lines, *sections]:
        spaced += [line + dice.choice(["", "", "", " ", "\t# a comment", " # é [[role]]"]),
        *dice.choice([[], [], [], [""], ["# = "]])]
    end = dice.choice(["\n", "\n", "\r\n"])
    # A line end inside a text in quotes is a blank of the rule, whichever it is.
    text = "\n".join(spaced).replace("\n", end) + dice.choice([end, ""])
    return ("\ufeff" if dice.random() < 0.05 else "") + text


KNOWN = ("role", "table", "policy", "grant", "withhold")
FAULTS_TRIED = 400
NO_TOML = [
    b"x", b"x =", b"= 1", b"[x", b"[[x]", b"x = [", b"x = {", b'x = "', b"x = '", b'x = """', b"x = tru", b"x = 01",
    b"x = 1.", b"x = 1__0",
    b"x = 0X1", b"x = 1e", b"x = 'a' 'b'", b"x = 1 y = 2", b'x = "\\q"', b'x = "\\ud800"', b'x = "\\u12"', b'x = "\x01"',
    b"# \x00",
    b"x = 1\ny = 1\nx = 2", b"[x]\n[x]", b"[z]\nx = 1\n[z.x]", b"[[x]]\n[x]", b"[z]\nx = []\n[[z.x]]", b"x.y = 1\nx = 2",
    b"x = {y = 1}\nx.z = 2",
    b"\xff", b"# \xc3", b"x = '\xed\xa0\x80'", b"x = 1\r2", b"\x0b", b"x = 1979-13-27", b"x = 1979-02-30", b"x = 25:00:00",
    b"x = 9223372036854775808", b"x = -9223372036854775809", b"x = [0xFFFFFFFFFFFFFFFF]", b"x = 1, y = 2", b"x = [1 2]",
    b"x = [,]",
    b"\xef\xbb\xbf", "é = 1".encode(), b"x = {,}", b"x = + 1", b"x : 1", b"x.= 1", b".x = 1", b"[]", b"[ ]", b"[x.]",
    b"x = _1",
    b"x = " + b"[" * 81 + b"]" * 81, b"x = [" + b"[" * 5_000,
]
ODD_BYTES = [b'"', b"'", b"#", b"[", b"]", b"=", b".", b",", b"\n", b"\r", b" ", b"a", b"0", b"_", b"-", b"\x00", b"\x7f",
b"\xff", b"{", b"}",
             b"\\", b"\\u", b"+", b":", "é".encode()]


def no_toml(dice, data):
    """What isn't TOML in front of the file or after it; a fault in a section is one wherever it is."""
    piece = dice.choice(NO_TOML)
    first = piece == b"\xef\xbb\xbf" and not data.startswith(piece)
    return data + b"\n" + piece + b"\n" if not first else piece * 2 + data


def other_bytes(dice, data):
    """The file with a piece missing, or put in, or cut off. What the two versions of TOML read otherwise is left alone."""
    place = dice.randrange(len(data) + 1)
    edited = dice.choice([
        data[:place], data[:place] + data[place + dice.choice([1, 1, 2, 5, 20]):],
        data[:place] + dice.choice(ODD_BYTES) + data[place:], data[:place] + dice.choice(ODD_BYTES) + data[place + 1:],
    ])
    # Line ends and last commas in inline tables, two escapes, and line ends that `tomllib` changes inside of texts.
    return data if b"{" in edited or re.search(rb"\\[ex]|\r", edited) else edited


def misread_faults():
    """The files with one fault that are refused for another reason than the fault is one for."""
    wrong = []
    for number in range(FAULTS_TRIED):
        dice = random.Random(f"fault {number}")
        tables = {name: files.table(dice) for name in dice.sample(files.TABLE_NAMES, 2)}
        data, known = faulty_file(dice, tables)
        if known and reason(data, tables) != known:
            wrong.append(data)
    return wrong


def reason(data, tables):
    """The reason of a policy file's refusal; None where it is accepted."""
    try:
        policies_of(data, tables)
        return None
    except PolicyFault as fault:
        return str(fault)


def faulty_file(dice, tables):
    """The bytes of a file with one fault or two, and the reason of its refusal where the fault is the only one."""
    file = right_file(dice, tables)
    if dice.random() < 0.3:
        data = spelled_file(dice, file).encode()
        return (no_toml(dice, data), "toml") if dice.random() < 0.5 else (other_bytes(dice, data), None)
    faults = [dice.choice(FAULTS)]
    faults[0][0](dice, file, tables)
    if dice.random() < 0.25 and all(isinstance(entries, list) for entries in file.values()):
        return spelled_file(dice, with_second_fault(dice, file, tables)).encode(), None
    return spelled_file(dice, file).encode(), faults[0][1]


def with_second_fault(dice, file, tables):
    """One more fault that comes after the others: another entry."""
    array, more = "policy", {"name": "second", "table": dice.choice(list(tables)), "using": "true"}
    kind = dice.randrange(8)
    if kind == 0:
        more["nme"] = 1
    elif kind == 1:
        more["table"] = "none"
    elif kind == 2:
        file.setdefault("role", []).extend([{"name": "second"}, {"name": "second"}])
    elif kind < 6:
        more["using"] = dice.choice([NO_TRUTHS, NO_TOTALS, NO_COLUMNS][kind - 3])
    else:
        array = dice.choice(["grant", "withhold"])
        more = {"name": "second", "rights": []}
        more |= dice.choice([{"nme": 1}, {"rights": ["t"]}, {"rights": ["none.*"]}, {"name": "shown0"}])
    if isinstance(file.get(array), list):
        file[array].append(more)
    return file
