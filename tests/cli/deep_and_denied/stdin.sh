python3 - <<'END'
# The one use without a right at the bottom, at the top and at the end of deep trees, and in deep values that are served; behind each
# denied line stands one of the same form that is answered.
def left(first, text, last=""):
    """Joined from the left, so that the tree grows deeper on each of 65 levels: some 7,000 operators, one below the other."""
    line = first
    for brackets in range(64, -1, -1):
        line += text * ((249 - brackets) // 2)
        line = f"({line})" if brackets > 0 else line
    return line + last


def show(line, denied, allowed):
    print(f"run {line.replace('@', denied)};")
    print(f"run {line.replace('@', allowed)};")


print("// the first of all operands, the last one, and one in the innermost of 64 brackets")
show("from x in t select " + left("x.@", "+x.c"), "d", "c")
show("from x in t select " + left("x.c", "+x.c", "+x.@"), "d", "c")
show("from x in t select " + "x.c+(" * 64 + "x.@" + ")" * 64, "d", "c")
show("from x in t where " + "(x.c>0&&" * 60 + "x.@>0" + ")" * 60 + " select 1", "d", "c")
print("// behind many methods, in lambdas in one another, and behind many clauses")
show("t" + ".Where(x=>x.c>0)" * 125 + ".First().@", "d", "c")
show("".join(f"t.Select(x{place}=>" for place in range(63)) + "x0.@" + ")" * 63, "d", "c")
show("from x in t select x" + " into x where x.c>0 select x" * 45 + " into x select x.@", "d", "c")
show("from x in t" + "".join(f" let y{place}=x.c" for place in range(80)) + " select x.@", "d", "c")
show("from x in t" + " orderby x.c" * 100 + ",x.@ select 1", "d", "c")
print("// in a row that is served in records, groups or sequences, so deep, and in such that are counted")
show("new{a=" * 63 + "t.First()@" + "}" * 63, "", ".c")
show("t" + ".Select(x=>new{x})" * 60 + ".First()@", "", ".x" * 60 + ".c")
show("(from x in " * 60 + "t" + " group x by 1)" * 60 + "@", "", ".Count()")
show("".join(f"t.Select(x{place}=>" for place in range(60)) + "x0@" + ")" * 60, "", ".c")
END
