python3 - <<'END'
# Eight named queries, each as deep as a line may be and round the one before, and a line as deep round the last: trees of more than
# 2,000 operators, one below the other, and of more than 500 lambdas. Behind each stands a good line.
def show(letter, source_of, end):
    for place in range(8):
        print(f"var {letter}{place} = {source_of('one' if place == 0 else f'{letter}{place - 1}')};")
    print(f"run {source_of(f'{letter}7')}{end};")
    print(f"run {letter}7 . Concat({letter}7){end};")
    print("run one.Count();")


def chain(part, count):
    return lambda name: name + part * count


def lambdas(name):
    return "one.Where(x0 => " + "".join(f"one.Any(x{place} => " for place in range(1, 60)) + f"{name}.Any()" + ")" * 60


show("a", chain(".Skip(0)", 252), ".Count()")
show("b", chain(".Where(x => x.c > 0)", 249), ".Count()")
show("c", chain(".Select(x => x)", 251), ".Count()")
show("d", chain(".Reverse()", 252), ".Count()")
show("e", chain(".Concat(one)", 252), ".Count()")
show("f", chain(".DefaultIfEmpty()", 252), ".Count()")
show("g", lambdas, ".Count()")
END
