python3 - <<'END'
# Arithmetic joined from the left that grows deeper on each of 65 levels, since a bracket that is closed weighs nothing any more:
# 14,235 operators, one below the other.
def left(first, text, room=251, most=64):
    line = first
    for brackets in range(most, -1, -1):
        line += text * (room - brackets)
        if brackets > 0:
            line = f"({line})"
    return line


for first, text in (("0", "+1"), ("0", "-1"), ("7", "*1"), ("7", "/1"), ("7", "%9"), ("2147469412", "+1"), ("2147469413", "+1")):
    print(f"run from x in t select {left(first, text)};")
END
