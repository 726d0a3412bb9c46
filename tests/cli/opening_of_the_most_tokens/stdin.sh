python3 - <<'END'
# Queries that open twice what the one before opens, and lines that open with them 65,536 tokens and one more. They are of no rows.
import re


def size_of(line):
    return len(re.findall(r"\w+|=>|[^\w\s]", line))


def filled(line, size):
    """With as many tokens as it lacks of a size in the place of its `#`: calls that skip nothing, of five tokens or six."""
    lacking = size - size_of(line.replace("#", ""))
    sixes = lacking % 5
    return line.replace("#", ".Skip(0)" * ((lacking - 6 * sixes) // 5) + ".Skip(-1)" * sixes)


size = 1_010
print(filled("var q0 = depts.Where(d => d.id > 99)#;", size))
for place in range(1, 6):
    line = f"var q{place} = q{place - 1}.Concat(q{place - 1});"
    print(line)
    size = size_of(line) + 2 * size
room = 65_536 - 2 * size
for head, tail in (
    ("run ", ".Count();"), ("var m = ", ".Count();"), ("m = ", ".Count();"), ("delete employees e => ", ".Any();"), ("var q = ", ";"),
):
    print(filled(f"{head}q5.Concat(q5)#{tail}", room + 1))
    print(filled(f"{head}q5.Concat(q5)#{tail}", room))
print("// what is defined opens that much for whoever names it, be it in a statement that runs nothing")
for line in ("run q;", "as q;", "run new { q = 1 };", "run new { a = 1 }.q;", "insert marks (4, true);", "run q5.Count();", "run m;"):
    print(line)
END
