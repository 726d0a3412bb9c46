python3 - <<'END'
# The ways to nest in turn, each line beginning with another one, until 64 brackets are open or the weight is 256; then with
# a long chain behind each bracket.
WAYS = [
    ("a.b(c=>", ")", 3),
    ("new{a=", "}.a", 3),
    ("(from x in ", " select x)", 3),
    ("-(", ")", 2),
    ("a??(", ")", 2),
    ("a?b:(", ")", 3),
    ("a*(", ")", 2),
    ("Host.p(", ")", 3),
    ("(", ")?a:b", 1),
    ("(from x in t group x by ", " into y orderby y select y)", 5),
    ("a.b(c,", ",d)", 3),
    ("(from x in t join y in ", " on x equals y into g let z=g select z)", 5),
]


def nested(first, count, chain, middle):
    ways = [WAYS[(first + turn) % len(WAYS)] for turn in range(count)]
    line = middle
    for opening, closing, _ in reversed(ways):
        line = opening + line + closing + chain
    return line


def most(first, room):
    count = weight = 0
    while count < 64 and weight + WAYS[(first + count) % len(WAYS)][2] <= room:
        weight += WAYS[(first + count) % len(WAYS)][2]
        count += 1
    return count, weight


for first in range(len(WAYS)):
    print(f"// beginning with {WAYS[first][0]}")
    # Behind what is innermost, 6 tokens that count may still come in the same bracket.
    count, weight = most(first, 248)
    print(f"run {nested(first, count, '', '-' * (248 - weight) + 'a')};")
    count, weight = most(first, 148)
    print(f"run {nested(first, count, '.d' * 100, '-' * (248 - weight) + 'a')};")
    print(f"run {nested(first, 65, '', 'a')};")
    print("run from x in t select x.c;")
END
