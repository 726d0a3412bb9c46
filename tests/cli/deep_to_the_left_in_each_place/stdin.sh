python3 - <<'END'
# Trees of over 14,000 operators, one below the other, in each place where an expression may stand: what stands in front of
# it and behind it, and how many operators there is room for. Then such trees that are past the limit on the level of the
# line, a middle and the innermost level.
def left(text, room, most=64, longer=None):
    line = "a"
    for brackets in range(most, -1, -1):
        line += text * (room - brackets + (brackets == longer))
        if brackets > 0:
            line = f"({line})"
    return line


PLACES = [
    ("run ", "", 254),
    ("var n = ", "", 253),
    ("n = ", "", 254),
    ("delete t x => ", "", 253),
    ("run from x in ", " select x.c", 250),
    ("run from x in t where ", " select x.c", 249),
    ("run from x in t where x.c > ", " select x.c", 247),
    ("run from x in t let y = ", " select x.c", 248),
    ("run from x in t orderby ", " select x.c", 249),
    ("run from x in t group ", " by x.c", 249),
    ("run from x in t group x by ", "", 250),
    ("run from x in t join y in ", " on x.c equals y.c select x.c", 244),
]
for head, tail, room in PLACES:
    print(f"// {head} .. {tail}")
    print(f"{head}{left('.c', room)}{tail};")
    print(f"{head}{left('==1', room)}{tail};")
    print("run from x in t select x.c;")
for longer in (0, 32, 64):
    print(f"run {left('-1', 254, 64, longer)};")
print("run from x in t select x.c;")
END
