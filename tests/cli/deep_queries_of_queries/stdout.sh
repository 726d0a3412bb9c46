python3 - <<'END'
def show(letter, value, twice):
    for place in range(8):
        print(f'{{"defined":"{letter}{place}"}}')
    for number in (value, twice, 1):
        print(f'{{"value":{number}}}')


for letter in "abcd":
    show(letter, 1, 2)
show("e", 1 + 9 * 252, 2 * (1 + 8 * 252))
show("f", 1, 2)
show("g", 1, 2)
END
