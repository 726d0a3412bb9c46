python3 - <<'END'
# The deepest line, one sign more, one bracket more, and a good line: first of an expression alone, then of what a query selects.
# A deepest line has a type where it is a number or a record; in its innermost bracket an even number of minus signs stands before
# the 1, or an odd number where a query selects it. Of members of records it is the other way round.
TYPE, FAULT = '{"error":"type"}', "DivideByZero"
# By each operator: 1 and the bracket, and the bracket and 1, 64 times each.
ALONE = {"*": (1, 1), "/": (1, 1), "%": (FAULT, 0), "+": (65, 65), "-": (1, -63)}
SELECTED = {"*": (-1, -1), "/": (-1, -1), "%": (FAULT, 0), "+": (63, 63), "-": (-1, -65)}
# How many other forms, none of which has a type, stand before the records, and behind them.
BEFORE, BEHIND = 12, 3


def block(deepest):
    print(deepest, '{"error":"too-deep"}', '{"error":"too-deep"}', '{"items":[1,2]}', sep="\n")


def show(alone, selected):
    block('{"fault":"%s"}' % alone if alone == FAULT else '{"value":%d}' % alone)
    block('{"fault":"%s","items":[]}' % selected if selected == FAULT else '{"items":[%d,%d]}' % (selected, selected))


def show_record(alone, selected, depth):
    """Of records in one another, so deep."""
    value, item = ('{"a":' * depth + str(number) + "}" * depth for number in (alone, selected))
    block('{"value":%s}' % value)
    block('{"items":[%s,%s]}' % (item, item))


def show_untyped(count):
    for _ in range(2 * count):
        block(TYPE)


show(1, -1)
show(1, -1)
show_untyped(2)
for operator in "* / % + - < > <= >= == != && || ??".split():
    if operator in ALONE:
        for alone, selected in zip(ALONE[operator], SELECTED[operator]):
            show(alone, selected)
    else:
        show_untyped(2)
show_untyped(BEFORE)
show_record(1, -1, 64)
show_untyped(1)
show(-1, 1)
show_record(1, -1, 32)
show_untyped(BEHIND)
END
