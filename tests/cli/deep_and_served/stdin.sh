python3 - <<'END'
# 64 parentheses, which leave nothing in a tree, and 65 of them.
for count in (64, 65):
    opening, closing = "(" * count, ")" * count
    print(f"run from x in t select {opening}x.c{closing};")
    print(f"run from x in t select {opening}x{closing}.c;")
    print(f"run from x in {opening}t{closing} select x.c;")
    print(f"run from x in t where {opening}x.c{closing} > 1 select x.c;")
    print(f"run from x in t where 2 > {opening}x.c{closing} select x.c;")
    print(f"run from x in t where {opening}x.c > 1{closing} select x.c;")
    print(f"run from x in t where {opening}-2147483648{closing} < x.c select x.c;")
    print(f"run {opening}from x in t select x.c{closing};")
    outside = count - 24
    print(f"run {'(' * outside}from x in (t) where (({'(' * 22}x{')' * 22}).c) <= 1 select x.c{')' * outside};")
    print(f"// {count} brackets side by side, and in different places")
    before, behind = opening[:64], closing[:64]
    print(f"run from x in {before}t{behind} where {before}x.c{behind} >= {before}2{behind} select {opening}x.c{closing};")
END
