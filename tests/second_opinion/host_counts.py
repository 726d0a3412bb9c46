"""What the lines of cases by chance meet that ask host predicates: how often each kind of reply, and each kind of denial.

A line asks one where the word `Host` is in it, or where it names a query whose own line asks one.
"""

import json
from collections import Counter

from lexer import SyntaxFault, tokens_of
from opening import opening_names
from program import lines_of
from rights import NO_GRANT


def kind_of(reply):
    """A refusal's word, a fault's name, or what the reply has."""
    if "items" in reply and "fault" not in reply:
        return "items" if reply["items"] else "no items"
    return next((str(reply[key]) for key in ("error", "fault") if key in reply), next(iter(reply)))


def counts_of(case, given):
    """The counts of a case, of which this is the wanted answer."""
    counts, named = Counter(), set()
    replies = iter(given.output.decode().split("\n")[:-1]) if given.output else iter(())
    for line in lines_of(case.script) if given.output else ():
        try:
            tokens = tokens_of(line)
        except SyntaxFault:
            next(replies)
            continue
        if not tokens:
            continue
        reply = json.loads(next(replies))
        says = any(token.kind == "Host" for token in tokens)
        opens = bool(named & set(opening_names(tokens)))
        if says or opens:
            counts.update(met(reply, tokens, says))
        if "defined" in reply and (says or opens):
            named.add(reply["defined"])
    return counts


def is_nested(tokens):
    """Whether a predicate is asked in a query, or in a lambda, that is itself in one."""
    # For each open bracket, and for the line around them, whether a query or a lambda has begun there.
    levels = [False]
    for token in tokens:
        if token.kind in ("(", "{"):
            levels.append(False)
        elif token.kind in (")", "}"):
            levels = levels[:-1] or [False]
        elif token.kind in ("from", "=>"):
            levels[-1] = True
        elif token.kind == "Host" and sum(levels) > 1:
            return True
    return False


def met(reply, tokens, says):
    """Words for a reply to a line that asks, itself or by a named query alone. A line is nested where it asks in a query in another one, and
    is neither refused nor denied."""
    yield "replies"
    yield kind_of(reply)
    if not says:
        yield "by a named query"
    if is_nested(tokens) and not {"error", "denied"} & reply.keys():
        yield "nested"
    if reply.get("use", "").startswith("Host."):
        yield "denied by no grant" if reply["denied"] == NO_GRANT else "denied by a withhold"
