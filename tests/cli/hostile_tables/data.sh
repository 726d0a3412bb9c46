# Table files that are made to be dear to read, each of at most a byte more than the limit.
python3 - <<'END'
import os

LIMIT = 16_777_216


def filled(head, piece, tail=b"", size=LIMIT):
    """As often a piece as there is room for it."""
    return head + piece * ((size - len(head) - len(tail)) // len(piece)) + tail


FILES = {
    "marks": filled(b"", b"\xef\xbb\xbf"),
    "line_ends": filled(b"", b"\r\n"),
    "quotes": filled(b"", b'"'),
    "open_quote": filled(b'c:string,"', b"a,\n"),
    "nul": filled(b"", b"\0"),
    "commas": filled(b"", b","),
    "columns_101": b",".join(b"c%d:int" % number for number in range(101)) + b"\n",
    "limit_and_one": filled(b"c:string\n", b"a", size=LIMIT + 1),
    "limit_and_one_of_marks": filled(b"", b"\xef\xbb\xbf", b"c:string\n\n\n", LIMIT + 1),
    "header_of_one_cell": filled(b"c:", b"int"),
    "long_name_without_a_type": filled(b"", b"c"),
    "huge_int": filled(b"c:int\n", b"9"),
    "huge_range": filled(b"c:int[1..", b"9", b"]\n"),
    "open_quote_in_the_last_cell": filled(b'c:int\n1\n"2', b"\n3"),
    "commas_in_a_record": filled(b"c:int,d:int\n", b","),
    "no_text_at_the_end": filled(b"c:string\n", b"a", b"\xff"),
    "nul_cells": filled(b"c:int\n", b"\0\n"),
}
for name, data in FILES.items():
    os.mkdir(name)
    with open(f"{name}/t.csv", "wb") as file:
        file.write(data)
END
[ "$(stat -c %s limit_and_one/t.csv)" -eq 16777217 ] && [ "$(stat -c %s limit_and_one_of_marks/t.csv)" -eq 16777217 ] || exit 1
