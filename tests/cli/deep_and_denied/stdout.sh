python3 - <<'END'
OPERATORS = sum((249 - brackets) // 2 for brackets in range(65))


def inside(opening, value, closing, depth):
    return opening * depth + value + closing * depth


def show(reply, use="t.d"):
    print('{"denied":"no-grant","use":"%s"}' % use)
    print(reply)


show('{"items":[%d]}' % (OPERATORS + 1))
show('{"items":[%d]}' % (OPERATORS + 2))
show('{"items":[65]}')
show('{"items":[1]}')
show('{"value":1}')
show('{"items":[%s]}' % inside("[", "1", "]", 62))
show('{"items":[1]}')
show('{"items":[1]}')
show('{"items":[1]}')
show('{"value":%s}' % inside('{"a":', "1", "}", 63))
show('{"value":1}')
show('{"value":1}')
show('{"items":[%s]}' % inside("[", "1", "]", 59))
END
