python3 - <<'END'
# Records of records: r1 is of two ints and has three parts, r2 of two such records, and so on; r10 has 2,047 parts, r9 1,023 and
# r8 511. Each line is just within the limit of 4,096 parts, or just past it.
lets = "let r0 = 1 " + " ".join(f"let r{place} = new {{ a = r{place - 1}, b = r{place - 1} }}" for place in range(1, 11))
PARTS_4093 = "new { a = r10, b = r9, c = r8, d = r8 }"
PARTS_4095 = "new { a = r10, b = r10 }"
PARTS_4096 = "new { a = r10, b = r10, c = 1 }"
PARTS_4097 = "new { a = r10, b = r10, c = 1, m }"


def show(comment, *ends):
    print("//", comment)
    for end in ends:
        print(f"run from m in marks {lets} {end};")


show("an expression, a part of another, and what a name stands for", f"where {PARTS_4096} != null select m.k",
     f"where {PARTS_4097} != null select m.k", f"select {PARTS_4096}.c", f"select {PARTS_4097}.c",
     f"let r = {PARTS_4096} select r.c", f"let r = {PARTS_4097} select 1")
show("the type of an expression counts alone, and not what led to it", f"select {PARTS_4095}.b{'.a' * 10}",
     f"let r = {PARTS_4096} let s = new {{ r.a, r.b, m }} select s.m.k")
show("a sequence has one part more, and so has a query up to `into`", f"select {PARTS_4095} into r select r.a{'.b' * 10}",
     f"select {PARTS_4096} into r select r.c", f"select marks.Select(n => {PARTS_4095}).Count()",
     f"select marks.Select(n => {PARTS_4096}).Count()", f"select (from n in marks select {PARTS_4095}).Count()",
     f"select (from n in marks select {PARTS_4096}).Count()", f"select {PARTS_4096}")
show("a sequence of groups has two parts beside the key and the items", f"group {PARTS_4093} by m.k into g select g.Key",
     f"group {PARTS_4093} by new {{ m.k }} into g select 1")
END
