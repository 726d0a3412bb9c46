python3 - <<'END'
# What is joined from the left grows deeper on each of 65 levels, since a bracket that is closed weighs nothing any more: a
# tree of over 14,000 operators, one below the other, as what a query selects. Behind each stands a good line.
def left(text, room, most=64, longer=None):
    line = "a"
    for brackets in range(most, -1, -1):
        line += text * (room - brackets + (brackets == longer))
        if brackets > 0:
            line = f"({line})"
    return line


def show(text, room=251, most=64):
    print(f"// {text}")
    print(f"run from x in t select {left(text, room, most)};")
    print("run from x in t select x.c;")


for operator in "* / % + - < > <= >= == != && ||".split():
    show(f"{operator}1")
show(".c")
# The brackets of a call are open for a moment, so there is room for one less.
show(".c()", 250, 63)
END
