"""What scripts meet that ask host predicates: words for those who count scripts.

Each word is there once for a script, however often it is met. Where it is of calls, these are some that the program has made.
"""

from host_counts import is_nested
from lexer import tokens_of

CLAUSES = ("from", "let", "where", "join", "on", "equals", "orderby", "select", "group", "by")
BEGINNINGS = {"run": "run", "var": "var", "name": "=", "delete": "delete"}


def places_of(tokens):
    """The clauses and the methods in which a line asks predicates, also those round the nearest one."""
    # For each open bracket, and for the line around them, the clause or the method in it.
    words, found = [""], set()
    for place, token in enumerate(tokens):
        if token.kind in ("(", "{"):
            before = tokens[place - 1]
            words.append(before.value if before.kind == "name" else "")
        elif token.kind in (")", "}"):
            words = words[:-1] or [""]
        elif token.kind in CLAUSES:
            words[-1] = token.kind
        elif token.kind == "Host":
            found.update(words)
    return found - {""}


def words_of_calls(step, stretch, tokens):
    """Words for a statement that has made these calls."""
    says = any(token.kind == "Host" for token in tokens)
    yield "calls"
    yield f"calls of {BEGINNINGS[tokens[0].kind]}"
    yield from (f"calls in {place}" for place in places_of(tokens))
    if not says:
        yield "calls by a named query alone"
    if is_nested(tokens):
        yield "calls in a query in another"
    if step.hidden:
        yield "calls with hidden rows"
    if step.moved.intersection(stretch):
        yield "calls behind removed rows"
    if "fault" in step.reply:
        yield "calls before a fault"
        yield f"calls before {step.reply['fault']}"
    if tokens[0].kind == "delete" and step.reply.get("deleted"):
        yield "calls that removed rows"


def words_of_none(step):
    """Words for a statement that has made no calls, where it names some, or asks some predicate, and may not make them."""
    if step.named and "denied" in step.reply:
        yield "denied, and calls named"
    if "error" in step.reply and "Host" in step.line:
        yield "refused, and a predicate asked"


def words_of(steps, stretches):
    """The words of a script, each once, whose calls are all some that its statements may make."""
    found = set()
    for step, stretch in zip(steps, stretches, strict=True):
        found.update(words_of_calls(step, stretch, tokens_of(step.line)) if stretch else words_of_none(step))
    if len({step.user for step, stretch in zip(steps, stretches) if stretch}) > 1:
        found.add("calls as two roles")
    return found
