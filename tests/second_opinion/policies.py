"""Policy files: TOML that names roles, tables with row security, policies, grants and withholds; and the rows that policies show.

The library `tomllib` reads TOML 1.0, and the program reads TOML 1.1. Files on which the two differ aren't cases here: line ends
and a comma after the last key in an inline table, the escapes `\\e` and `\\x`, and times without seconds, which 1.1 has. Of what
1.1 leaves to its readers, the width of integers and the depth of arrays are looked at here as the program's page states them; a
number with a fraction beyond the floats of 64 bits, the depth of inline tables and the number of parts of a key are not.
"""

import tomllib
from collections import Counter
from dataclasses import dataclass, field, replace

from lexer import is_name
from predicates import WITHOUT_LIST
from rights import NO_GRANT, NoRight, RightRule, STATEMENTS, is_known, parted, rule_of as right_rule_of
from rules import Known, NoRule, UnknownName, check_names, holds, is_total, is_truth, rule_of
from tables import MARK

MOST_BYTES = 1_048_576
MOST_DEPTH = 80
MOST_NAME_BYTES = 64
ACTIONS = ("all", "select", "insert", "delete")
DEFAULT_DENY = "default-deny"
NO_POLICY_NAMES = (NO_GRANT, DEFAULT_DENY)

REQUIRED = object()
TEXT, FLAG, TEXTS = "a text", "a truth value", "an array of texts"
# Of each array the keys of its entries, with the kind of each value, and what is taken where it is absent.
ARRAYS = {
    "role": {"name": (TEXT, REQUIRED), "member_of": (TEXTS, []), "bypass": (FLAG, False)},
    "table": {"name": (TEXT, REQUIRED), "row_security": (FLAG, REQUIRED)},
    "policy": {
        "name": (TEXT, REQUIRED), "table": (TEXT, REQUIRED), "kind": (TEXT, "permissive"), "for": (TEXT, "all"),
        "to": (TEXTS, ["public"]), "using": (TEXT, None), "check": (TEXT, None),
    },
    **dict.fromkeys(("grant", "withhold"), {"name": (TEXT, REQUIRED), "to": (TEXTS, ["public"]), "rights": (TEXTS, REQUIRED)}),
}
# The arrays of which no two entries have one name, be they of one array or of two.
NAMED_APART = [("role",), ("table",), ("policy", "grant", "withhold")]


class PolicyFault(Exception):
    """The policy file is refused, for the reason that is on standard error."""


@dataclass
class Role:
    """`within` are the names of all roles that it is in."""

    within: set
    bypass: bool


@dataclass
class Policy:
    """A policy of one table; a rule that it doesn't have is None."""

    name: str
    table: str
    is_restrictive: bool
    action: str
    to: list
    using: object
    check: object

    def applies(self, role, action):
        return self.action in ("all", action) and any(name == "public" or name in role.within for name in self.to)


@dataclass
class Policies:
    """`secured` are the names of the tables with row security. Policies, grants and withholds are in the order of the file."""

    roles: dict = field(default_factory=dict)
    secured: set = field(default_factory=set)
    policies: list = field(default_factory=list)
    grants: list = field(default_factory=list)
    withholds: list = field(default_factory=list)


def depth_of(value):
    """How deep arrays are nested, also in a table's. (Those of sections count here and not in the program: no case
    comes near the limit there.)"""
    parts = value.values() if isinstance(value, dict) else value if isinstance(value, list) else ()
    return isinstance(value, list) + max(map(depth_of, parts), default=0)


def check_width(value):
    """TOML 1.1, integers: those of 64 bits are read, and others are a fault."""
    if isinstance(value, dict):
        value = list(value.values())
    if isinstance(value, list):
        for part in value:
            check_width(part)
    elif isinstance(value, int) and not isinstance(value, bool) and not -(1 << 63) <= value < 1 << 63:
        raise PolicyFault("toml")


def document_of(data):
    """The document of a file's bytes, as dicts and lists."""
    try:
        document = tomllib.loads(data.removeprefix(MARK).decode("utf-8"))
        if depth_of(document) > MOST_DEPTH:
            raise PolicyFault("toml")
    except (ValueError, RecursionError):
        # No UTF-8 and no TOML are such errors, and a number of more digits than Python reads.
        raise PolicyFault("toml") from None
    check_width(document)
    return document


def is_of(kind, value):
    if kind == TEXTS:
        return isinstance(value, list) and all(isinstance(text, str) for text in value)
    return isinstance(value, str if kind == TEXT else bool)


def entry_of(keys, given):
    """An entry with a value for each of its keys."""
    if not isinstance(given, dict) or not given.keys() <= keys.keys():
        raise PolicyFault("shape")
    entry = {}
    for name, (kind, absent) in keys.items():
        if name in given and not is_of(kind, given[name]) or name not in given and absent is REQUIRED:
            raise PolicyFault("shape")
        entry[name] = given.get(name, absent)
    return entry


def tree_of(text):
    try:
        return None if text is None else rule_of(text)
    except NoRule:
        raise PolicyFault("shape") from None


def is_rule_name(name):
    return 1 <= len(name.encode()) <= MOST_NAME_BYTES and name not in NO_POLICY_NAMES


def check_right_shape(entry):
    """The rights of a grant or a withhold become pairs."""
    try:
        entry["rights"] = [parted(text) for text in entry["rights"]]
    except NoRight:
        raise PolicyFault("shape") from None
    if not is_rule_name(entry["name"]):
        raise PolicyFault("shape")


def check_policy_shape(entry):
    """What only some policies have: the rules by the action. Both become trees."""
    fits = entry["kind"] in ("permissive", "restrictive") and entry["for"] in ACTIONS
    fits = fits and is_rule_name(entry["name"])
    fits = fits and (entry["using"] is None) == (entry["for"] == "insert")
    fits = fits and (entry["check"] is None if entry["for"] in ("select", "delete") else True)
    fits = fits and (entry["check"] is not None if entry["for"] == "insert" else True)
    if not fits:
        raise PolicyFault("shape")
    entry["using"], entry["check"] = tree_of(entry["using"]), tree_of(entry["check"])


def arrays_of(document):
    """The entries of each array, of the right shape."""
    if not document.keys() <= ARRAYS.keys():
        raise PolicyFault("shape")
    arrays = {}
    for name, keys in ARRAYS.items():
        given = document.get(name, [])
        if not isinstance(given, list):
            raise PolicyFault("shape")
        arrays[name] = [entry_of(keys, entry) for entry in given]
    if not all(is_name(role["name"]) and role["name"] != "public" for role in arrays["role"]):
        raise PolicyFault("shape")
    for entry in arrays["policy"]:
        check_policy_shape(entry)
    for entry in right_entries(arrays):
        check_right_shape(entry)
    return arrays


def right_entries(arrays):
    return [*arrays["grant"], *arrays["withhold"]]


def rules_in(entry):
    return [rule for rule in (entry["using"], entry["check"]) if rule is not None]


def known_by(entry, tables, predicates):
    """What the rules of a policy may name."""
    return Known(tables[entry["table"]].columns, predicates)


def check_known(arrays, tables, predicates):
    """Every name of a table, role, column or predicate is that of one; a role is a member of earlier ones alone."""
    roles = [role["name"] for role in arrays["role"]]
    known = all(set(role["member_of"]) <= set(roles[:place]) for place, role in enumerate(arrays["role"]))
    known = known and all(entry["name"] in tables for entry in arrays["table"])
    known = known and all(entry["table"] in tables for entry in arrays["policy"])
    known = known and all({*entry["to"]} <= {"public", *roles} for entry in [*arrays["policy"], *right_entries(arrays)])
    known = known and all(is_known(right, tables, predicates) for entry in right_entries(arrays) for right in entry["rights"])
    if not known:
        raise PolicyFault("unknown-name")
    try:
        for entry in arrays["policy"]:
            for rule in rules_in(entry):
                check_names(rule, known_by(entry, tables, predicates))
    except UnknownName:
        raise PolicyFault("unknown-name") from None


def check_rules(arrays, tables, predicates):
    """All types come before the first rule's totality."""
    rules = [(rule, known_by(entry, tables, predicates)) for entry in arrays["policy"] for rule in rules_in(entry)]
    if not all(is_truth(*rule) for rule in rules):
        raise PolicyFault("rule-type")
    if not all(is_total(rule) for rule, _ in rules):
        raise PolicyFault("rule-not-total")


def roles_of(entries):
    """PostgreSQL, role membership: along any chain; bypassing isn't inherited."""
    roles = {}
    for entry in entries:
        within = {entry["name"]}.union(*(roles[name].within for name in entry["member_of"]))
        roles[entry["name"]] = Role(within, entry["bypass"])
    return roles


def policy_of(entry):
    check = entry["using"] if entry["check"] is None and entry["for"] == "all" else entry["check"]
    is_restrictive = entry["kind"] == "restrictive"
    return Policy(entry["name"], entry["table"], is_restrictive, entry["for"], entry["to"], entry["using"], check)


def policies_of(data, tables, predicates=WITHOUT_LIST):
    """The policies of a file's bytes, over the tables and the host predicates by name. The kinds of faults come in the order of these
    steps."""
    if len(data) > MOST_BYTES:
        raise PolicyFault("shape")
    arrays = arrays_of(document_of(data))
    check_known(arrays, tables, predicates)
    for names in NAMED_APART:
        if max(Counter(entry["name"] for name in names for entry in arrays[name]).values(), default=0) > 1:
            raise PolicyFault("duplicate")
    check_rules(arrays, tables, predicates)
    secured = {entry["name"] for entry in arrays["table"] if entry["row_security"]}
    rules = [[right_rule_of(entry, tables) for entry in arrays[name]] for name in ("grant", "withhold")]
    return Policies(roles_of(arrays["role"]), secured, [policy_of(entry) for entry in arrays["policy"]], *rules)


def read_policies(word, tables, predicates):
    try:
        with open(word, "rb") as file:
            data = file.read(MOST_BYTES + 1)
    except OSError:
        raise PolicyFault("read") from None
    return policies_of(data, tables, predicates)


def forbidding(policies, name, action, rule_for, table, row, user):
    """PostgreSQL, CREATE POLICY: what forbids a row, None where nothing does. One permissive policy that applies has to admit it, and
    the first restrictive one, in the order of the file, that is false of it forbids it."""
    if name not in policies.secured or policies.roles[user].bypass:
        return None
    found = [policy for policy in policies.policies if policy.table == name and policy.applies(policies.roles[user], action)]
    true = {policy.name for policy in found if holds(rule_for(policy), table, row, user)}
    if not any(policy.name in true for policy in found if not policy.is_restrictive):
        return DEFAULT_DENY
    return next((policy.name for policy in found if policy.is_restrictive and policy.name not in true), None)


def is_visible(policies, name, table, row, user, action="select"):
    """Whether the role sees a row; or for the action `delete`, as far as the policies for this decide it, may remove it."""
    return forbidding(policies, name, action, lambda policy: policy.using, table, row, user) is None


def may_remove(policies, name, table, row, user):
    """Whether the role sees a row and may remove it, too."""
    return all(is_visible(policies, name, table, row, user, action) for action in ("select", "delete"))


def failing_check(policies, name, table, row, user):
    """What forbids that the role puts in a row; None where it may. Whether it sees the row makes no difference."""
    return forbidding(policies, name, "insert", lambda policy: policy.check, table, row, user)


def as_seen(policies, tables, user):
    """PostgreSQL, row security policies: the tables without the rows that the role may not see."""
    return {
        name: replace(table, rows=[row for row in table.rows if is_visible(policies, name, table, row, user)])
        for name, table in tables.items()
    }


def all_open(tables, user):
    """The policies of a role that sees every row and has all rights."""
    rights = {(name, to) for name, table in tables.items() for to in (*table.columns, *STATEMENTS)} | {
        ("Host", name) for name in WITHOUT_LIST}
    return Policies(roles_of([{"name": user, "member_of": [], "bypass": False}]), grants=[RightRule("all", ["public"], rights)])
