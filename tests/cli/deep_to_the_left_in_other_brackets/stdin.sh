python3 - <<'END'
# As deep, but each level is an argument, a function, a member, the argument of a host's predicate or a part of a query.
# What stands in front of a bracket weighs on all levels within it: so many tokens outside of the bracket, in it, and in it
# behind the next level.
def left(opening, closing, weights, text, more=0):
    outside, inside, behind = weights
    step = 1 + outside + inside
    most = min(64 // opening.count("(") if "(" in opening else 64, (254 - inside - behind) // step)
    line = "a"
    for level in range(most, -1, -1):
        room = 254 - step * level - (outside if level < most else 0) - (behind if level > 0 else 0)
        line += text * (room + (more if level == most else 0))
        if level > 0:
            line = opening + line + closing
    return f"run {line};"


def show(opening, closing, *weights):
    for text in ("+1", ".c", "&&b"):
        print(f"// {opening} .. {closing} {text}")
        print(left(opening, closing, weights, text))
        print(left(opening, closing, weights, text, 1))
        print("run from x in t select x.c;")


show("a.b(", ")", 1, 0, 0)
show("a.b(c=>", ")", 1, 1, 0)
show("Host.p(", ")", 2, 0, 0)
show("new{a=", "}", 1, 1, 0)
show("(from x in ", " select x)", 0, 2, 1)
show("(from x in t where ", " select x)", 0, 3, 1)
show("(from x in t select ", ")", 0, 3, 0)
END
