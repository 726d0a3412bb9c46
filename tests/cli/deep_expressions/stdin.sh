python3 - <<'END'
# What stands in front of an open bracket is repeated until 64 brackets are open or the weight is 256, of which the head of
# the line takes its part, each bracket one, and each token in front of a bracket that counts one. What is left is filled up
# with minus signs. Behind the deepest line come one of one more sign, one of one more bracket, and a good line.
def show_in(head, room, opening, closing, weight):
    brackets = opening.count("(") + opening.count("{")
    most = min(64 // brackets, room // (weight + brackets))
    left = room - most * (weight + brackets)
    print(f"// {head}{opening} .. {closing}")
    print(f"{head}{opening * most}{'-' * left}1{closing * most};")
    print(f"{head}{opening * most}{'-' * (left + 1)}1{closing * most};")
    print(f"{head}{opening * (most + 1)}1{closing * (most + 1)};")
    print("run from x in t select x.c;")


def show(opening, closing, weight, behind=0):
    show_in("run ", 254 - behind, opening, closing, weight)
    show_in("run from x in t select ", 251 - behind, opening, closing, weight)


show("(", ")", 0)
show("-(", ")", 1)
show("!(", ")", 1)
show("-!-(", ")", 3)
for operator in "* / % + - < > <= >= == != && || ??".split():
    show(f"1{operator}(", ")", 1)
    show("(", f"){operator}1", 0)
show("a?(", "):b", 1)
show("a?b:(", ")", 2)
show("(", ")?a:b", 0)
show("(", ").a", 0)
show("(", ").a()", 0)
show("a.b(", ")", 1)
show("a.b(c,d,", ")", 3)
show("a.b(", ",c)", 1, 1)
show("a.b(c=>", ")", 2)
show("a.b(c=>d,e=>", ").f", 4)
show("a.b(c=>-(", "))", 3)
show("Host.p(", ")", 2)
show("new{a=", "}", 2)
show("new{a,b=", "}", 3)
show("new{a=", ",}.a", 2, 1)
show("new{a=(", ")}", 2)
show("new{(", ").a}", 1)
show("new{a.b(", ").c}", 2)
show("a.b((", "))", 1)
END
