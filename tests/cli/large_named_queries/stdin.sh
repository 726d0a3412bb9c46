python3 - <<'END'
# Named queries of some 8,000 tokens each: eight of them side by side in a line open less than 65,536 tokens, and nine more.
condition = "(" + "&&".join(["(" + "&&".join(["(d.id>9)"] * 16) + ")"] * 62) + ")"
names = [f"q{place}" for place in range(8)]
for place, name in enumerate(names):
    print(f"var {name} = depts.Where(d => {condition} && d.id > {place * 5});")
print("run " + ".Concat(".join(names) + ")" * 7 + ".Count();")
print("run " + ".Concat(".join([*names, "q0"]) + ")" * 8 + ".Count();")
print("run " + " + ".join(f"{name}.Count()" for name in names) + ";")
print("run " + " + ".join(f"{name}.Count()" for name in [*names, "q7"]) + ";")
print("run q7.Concat(q3).Select(d => d.id);")
print("run depts.Count(d => q4.Any(x => x.id == d.id) || q5.Any(x => x.id > d.id) && !q6.All(x => x == null));")
END
