python3 - <<'END'
# The most signs in front of an operand, spread over so many brackets: `run`, the line and each bracket weigh one, too.
def signs(text, count):
    return (text * count)[:count]


for brackets in (0, 1, 2, 31, 32, 63, 64):
    for text in ("-", "!", "-!", "!!-"):
        count = 254 - brackets
        even, more = divmod(count, brackets + 1)
        levels = [signs(text, even + (level < more)) for level in range(brackets + 1)]
        print(f"// {brackets} brackets, {text}")
        print(f"run {'('.join(levels)}1{')' * brackets};")
        print(f"run {'('.join(levels)}-1{')' * brackets};")
        print(f"run {signs(text, count)}{'(' * brackets}1{')' * brackets};")
        print(f"run {'(' * brackets}{signs(text, count)}2147483647{')' * brackets};")
        print("run from x in t select x.c;")
END
