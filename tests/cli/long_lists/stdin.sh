python3 - <<'END'
# The longest lists that the weight allows, one part more, and a good line.
def show(head, part, tail, most):
    print(f"// {head} {part} .. {tail}")
    print(f"{head}{part * most}{tail};")
    print(f"{head}{part * (most + 1)}{tail};")
    print("run from x in t select x.c;")


show("insert t (-7", ",8", ")", 252)
show('insert t ("a"', ",null", ")", 253)
show("run a.b(c", ",c", ")", 252)
show("run a.b(c=>d", ",c=>d", ")", 125)
show("run new{a", ",a", "}", 252)
show("run new{a", ",a", ",}", 251)
show("run new{a=1", ",b=1", "}", 125)
show("run new{a.b", ",a.b", "}", 125)
show("run from x in t orderby x", ",x", " select x", 250)
show("run from x in t orderby x descending", ",x descending", " select x", 124)
show("run from x in t", " where x", " select x", 251)
show("run from x in t", " let y=x", " select y", 125)
show("run from x in t", " from y in x", " select y", 125)
show("run from x in t", " join y in t on x equals y", " select y", 62)
show("run from x in t", " join y in t on x equals y into z", " select z", 50)
show("run from x in t select x", " into y select y", "", 125)
show("run from x in t select x", " into y group y by y", "", 83)
show("run from x in t select x", " into y where y select y", "", 83)
show("run a", ".b(c)", "", 253)
show("run a", ".b(c=>d)", "", 252)
END
