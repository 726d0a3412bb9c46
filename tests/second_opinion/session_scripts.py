"""Scripts of sessions by chance: which statements follow one another, and which replies they are to get.

A script has a theme, which decides how often a statement of each kind is tried, and what reply a line of the kind is chosen for.
"""

import session_changes
import session_lines
import session_refusals
from policies import DEFAULT_DENY
from session_writer import Writer

STATEMENTS = 20
NOTHING = ["", " ", "\t", "// nothing", "\r", "//"]


def served(_, reply):
    return "items" in reply or "value" in reply


def anything(_, reply):
    return True


def tells(key):
    return lambda _, reply: key in reply


def refused(word):
    return lambda _, reply: reply.get("error") == word


def removes(_, reply):
    return reply.get("deleted", 0) > 0


def removes_none(_, reply):
    return reply.get("deleted") == 0


def restricted(writer, reply):
    """Whether a reply is a denial by a restrictive policy, and not by a right."""
    return any(reply.get("denied") == policy.name for policy in writer.session.policies.policies)


def checked(writer, reply):
    return restricted(writer, reply) or reply.get("denied") == DEFAULT_DENY


# Of each kind of line what makes it, and the replies that it is chosen for, each with its weight.
KINDS = {
    "run": (session_lines.run, {served: 7, anything: 2, tells("fault"): 2, tells("denied"): 1}),
    "scalar": (session_lines.define_scalar, {tells("defined"): 6, anything: 2, tells("fault"): 1, tells("denied"): 1}),
    "query": (session_lines.define_query, {tells("defined"): 1}),
    "assign": (session_lines.assign, {tells("assigned"): 5, anything: 2, tells("fault"): 1, tells("denied"): 1}),
    "as": (session_lines.become, {anything: 1}),
    "insert": (session_changes.insert, {
        tells("inserted"): 6, refused("cell"): 3, checked: 2, restricted: 2, tells("denied"): 1, anything: 1,
    }),
    "delete": (session_changes.delete, {removes: 4, tells("fault"): 3, removes_none: 1, tells("denied"): 1, anything: 1}),
    "no syntax": (session_refusals.no_syntax, {refused("syntax"): 3, anything: 1}),
    "too deep": (session_refusals.too_deep, {anything: 1}),
    "no type": (session_refusals.no_type, {refused("type"): 3, anything: 1}),
    "no role": (session_refusals.no_role, {anything: 1}),
    "forbidden": (session_refusals.forbidden, {tells("denied"): 3, anything: 2}),
    "opening": (session_refusals.opening_too_much, {anything: 1}),
    "climb": (session_refusals.climb, {anything: 1}),
}
# What has to be there before a line of a kind.
NEEDED = {"assign": Writer.variables, "opening": Writer.queries}
REFUSED = {"no syntax": 2, "too deep": 2, "no type": 4, "no role": 2, "forbidden": 5}
# Of each theme how often it is chosen, and of each kind of line how often it is in such a script.
THEMES = {
    "mixed": (5, {"run": 36, "scalar": 6, "query": 11, "assign": 9, "as": 9, "insert": 14, "delete": 10, **REFUSED}),
    "rows": (4, {"run": 26, "scalar": 4, "query": 6, "assign": 4, "as": 7, "insert": 30, "delete": 26, **REFUSED}),
    "names": (3, {"run": 50, "scalar": 8, "query": 16, "assign": 14, "as": 5, "insert": 5, "delete": 6, **REFUSED}),
    "roles": (2, {"run": 44, "scalar": 4, "query": 10, "assign": 5, "as": 24, "insert": 10, "delete": 8, **REFUSED}),
    "climbing": (3, {"run": 12, "scalar": 2, "query": 3, "as": 5, "insert": 4, "delete": 4, "climb": 20, "opening": 50}),
}
# The first lines of a script define what the others read.
FIRST = {theme: ["scalar", "query", "scalar", "query"] for theme in THEMES} | {"climbing": ["scalar", "query"] + ["climb"] * 9}


def chosen(dice, weights):
    return dice.choices(list(weights), list(weights.values()))[0]


def line_of_kind(writer, kind):
    make, replies = KINDS[kind]
    return writer.wanted(make, chosen(writer.dice, replies))


def kind_of_line(writer, theme, place):
    if place < len(FIRST[theme]) and writer.dice.random() < 0.85:
        return FIRST[theme][place]
    _, weights = THEMES[theme]
    return chosen(writer.dice, {kind: weight for kind, weight in weights.items() if kind not in NEEDED or NEEDED[kind](writer)})


def script(writer):
    """The lines of a script, in which the writer has none yet. Often what a line changed, or would have changed, is looked at after it;
    and now and then lines of nothing come between the others."""
    dice = writer.dice
    theme = chosen(dice, {name: weight for name, (weight, _) in THEMES.items()})
    look = None
    for place in range(STATEMENTS):
        words = look(writer, words) if look and dice.random() < 0.45 else line_of_kind(writer, kind_of_line(writer, theme, place))
        look = look_behind(words, writer.write(words))
        if dice.random() < 0.03:
            writer.lines.append(dice.choice(NOTHING))
    return writer.lines


def look_behind(words, reply):
    """What makes a line that shows what this one changed, or that it changed nothing; None after a line that reads."""
    if words[0] in ("run", "as") or "defined" in reply:
        return None
    return session_lines.look if {"error", "denied", "fault"} & reply.keys() else session_lines.look_again
