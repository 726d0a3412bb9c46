python3 - <<'END'
# `??` and `?:` lead to the right, as deep as the weight allows: alone, spread over so many brackets, and in the middle of
# each choice.
def show(line, deeper):
    print(f"run {line};")
    print(f"run {deeper};")
    print("run from x in t select x.c;")


def spread(text, brackets, count):
    even, more = divmod(count, brackets + 1)
    levels = [text * (even + (level < more)) for level in range(brackets + 1)]
    return "(".join(levels) + "a" + ")" * brackets


for brackets in (0, 1, 2, 30, 64):
    left = 254 - brackets
    print(f"// {brackets} brackets")
    show(spread("a??", brackets, left), spread("a??", brackets, left + 1))
    show(spread("a?b:", brackets, left // 2), spread("a?b:", brackets, left // 2 + 1))
    show(spread("a??b?c:", brackets, left // 3), spread("a??b?c:", brackets, left // 3 + 1))
print("// choices in the middle of choices")
show("a?" * 127 + "b" + ":c" * 127, "a?" * 128 + "b" + ":c" * 128)
show("a?b??" * 84 + "b" + ":c" * 84, "a?b??" * 85 + "b" + ":c" * 85)
show("a?(" * 64 + "a?" * 63 + "b" + ":c" * 63 + "):c" * 64, "a?(" * 64 + "a?" * 64 + "b" + ":c" * 64 + "):c" * 64)
END
