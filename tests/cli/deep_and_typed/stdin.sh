python3 - <<'END'
# Typed expressions and queries as deep and as long as the limits of depth allow, one part more, and a good line. In a part `#` is its
# number from 1 on, and `@` the number before.
def show(head, part, middle, most, closing=""):
    for count in (most, most + 1):
        parts = "".join(part.replace("#", str(place)).replace("@", str(place - 1)) for place in range(1, count + 1))
        print(f"{head}{parts}{middle.replace('#', str(count))}{closing * count};")
    print("run one.Count();")


show("run one", ".Skip(0)", ".Count()", 252)
show("run one", ".Where(x => x.c > 0)", ".First().c", 250)
show("run one", ".Concat(one)", ".Count()", 252)
show("run one", ".Reverse().DefaultIfEmpty()", ".Single().s", 126)
show("run one", ".Select(x => new { x.c })", ".Distinct().Last()", 249)
show("run ", "(from x in ", "one", 64, " where x.c == 3 select x)")
show("run ", "(from x in ", "one", 64, " orderby x.c, x.n descending select x)")
show("run ", "(from x in ", "one", 64, " group x by 1)")
show("run ", "one.Select(x# => ", "x#.n", 64, ")")
show("run ", "one.Select(x# => ", "1 / (x#.c - 3)", 63, ")")
show("run ", "one.First(x# => one.Any(y => y.c == x#.c) && ", "true", 50, ").c == 3 && one.All(x => x.n == null)")
show("run ", "(from x# in one select ", "x#", 63, ")")
show("run ", "one.Sum(x# => x#.c + ", "0", 50, ")")
show("run ", "new { a = ", "one", 64, " }")
show("run from x in one select x", " into y select y", "", 125)
show("run from x in one group x by x.c", " into y group y by y.Key", "", 62)
show("run from x in one", " from x# in one", " select x#.c", 125)
show("run from x0 in one", " let x# = x@", " select x#.s", 125)
show("run from x0 in one", " join x# in one on x@.c equals x#.c", " select x#", 41)
show("run from x in one", " join y in one on x.c equals y.c into g#", " select g#.Count() + x.c", 35)
show("run from x in one", " orderby x.s, x.n descending", " select x.c", 50)
END
