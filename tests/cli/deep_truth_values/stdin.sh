python3 - <<'END'
# The deepest trees of truth values. Joined from the left they grow on each of 65 levels, since a bracket that is closed weighs
# nothing any more: over 10,000 operators, one below the other, as many as a line of the limit has. Joined from the right they have as many levels as brackets.
def left(first, text, room, most):
    line = first
    for brackets in range(most, -1, -1):
        line += text * (room - brackets)
        if brackets > 0:
            line = f"({line})"
    return line


def right(text, last, most=64):
    return f"{text}(" * most + last + ")" * most


def signs(count, brackets):
    even, more = divmod(count, brackets + 1)
    return "(".join("!" * (even + (level < more)) for level in range(brackets + 1))


for value in (
    left("true", "&&true", 251, 45), left("false", "||false", 251, 38), left("true", "&&true||false", 125, 40),
    right("true&&", "true"), right("false||", "false"), right("!", "true"),
):
    print(f"run from x in t select {value};")
for brackets in (0, 1, 31, 64):
    for count in (250 - brackets, 251 - brackets):
        print(f"run from x in t select {signs(count, brackets)}true{')' * brackets};")
print(f"run from x in t where {left('x.c==x.c', '&&x.c<2', 82, 40)} select x.c;")
END
