python3 - <<'END'
# The only row of the table, and a value inside of others, so deep.
ROW = '{"c":3,"n":null,"s":"a"}'


def show(reply):
    print(reply, '{"error":"too-deep"}', '{"value":1}', sep="\n")


def inside(opening, value, closing, depth):
    return opening * depth + value + closing * depth


def show_value(value):
    show('{"value":%s}' % value)


def show_item(item):
    show('{"items":[%s]}' % item)


show_value("1")
show_value("3")
show_value("253")
show_value('"a"')
show_value('{"c":3}')
show_item(ROW)
show_item(ROW)
show_item(inside('{"Key":1,"items":[', ROW, "]}", 64))
show_item(inside("[", "null", "]", 63))
show('{"fault":"DivideByZero","items":[]}')
show_value("true")
show_item(inside("[", ROW, "]", 62))
show_value("150")
show_value(inside('{"a":', "[%s]" % ROW, "}", 64))
show_item(ROW)
show_item(inside('{"Key":3,"items":[', ROW, "]}", 63))
show_item("3")
show_item('"a"')
show_item(ROW)
show_item("4")
show_item("3")
END
