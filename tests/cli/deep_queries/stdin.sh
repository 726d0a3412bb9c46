python3 - <<'END'
# Queries in parentheses, in each place of a query where one may stand: as many as the weight of 256 allows. `run` and the
# line weigh two, each parenthesis one, and each token in front of it that counts one; what is left is filled up with
# minus signs. Behind the deepest line come one of one more sign, one of one more query, and a good line.

def show(opening, closing, weight, behind=0):
    brackets = opening.count("(") + opening.count("{")
    most = min(64 // brackets, (254 - behind) // (weight + brackets))
    left = 254 - behind - most * (weight + brackets)
    print(f"// {opening} .. {closing}")
    print(f"run {opening * most}{'-' * left}1{closing * most};")
    print(f"run {opening * most}{'-' * (left + 1)}1{closing * most};")
    print(f"run {opening * (most + 1)}1{closing * (most + 1)};")
    print("run from x in t select x.c;")


show("(from x in ", " select x)", 2, 1)
show("(from x in t where ", " select x)", 3, 1)
show("(from x in t select ", ")", 3)
show("(from x in t let y = ", " select y)", 4, 1)
show("(from x in t from y in ", " select y)", 4, 1)
show("(from x in t join y in ", " on x equals y select y)", 4, 3)
show("(from x in t join y in t on ", " equals y select y)", 5, 2)
show("(from x in t join y in t on x equals ", " into g select g)", 6, 2)
show("(from x in t orderby ", " descending select x)", 3, 2)
show("(from x in t orderby x descending, ", " select x)", 5, 1)
show("(from x in t group ", " by x)", 3, 1)
show("(from x in t group x by ", ")", 4)
show("(from x in t select x into y where ", " select y)", 5, 1)
show("(from x in t where x.a(y => ", ") select x)", 5, 0)
show("(from x in t select new { a = ", " })", 5)
END
