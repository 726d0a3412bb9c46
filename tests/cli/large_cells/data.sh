# Table files of the limit of 16,777,216 bytes or nearly so, of one row. Its text c has the length of the line.
python3 - <<'END'
import os

LIMIT = 16_777_216
columns = b",".join(b"c%d:string" % number for number in range(99))
cells = b",".join([b"a" * 84_000] * 99)
FILES = {
    "one_cell": b"c:string\n" + b"a" * 16_777_207,
    "one_quoted_cell": b'c:string\n"' + b'""' * 8_388_602 + b'"\n',
    "open_quote": b'c:string\n"' + b"\n" * 16_777_206,
    "hundred_columns": b"c:string," + columns + b"\n" + b"a" * 8_388_500 + b"," + cells,
    "nul": b"c:string\n" + b"\0" * 16_777_207,
    "marks_before": b"\xef\xbb\xbf" * 5_592_401 + b"c:string\na\n",
    "zeros": b"d:int,c:string\n" + b"0" * 16_777_190 + b"7,aaaaaaa\n",
}
for name, data in FILES.items():
    os.mkdir(name)
    with open(f"{name}/t.csv", "wb") as file:
        file.write(data)
    if not LIMIT - 100_000 < len(data) <= LIMIT:
        raise SystemExit(f"{name} has {len(data)} bytes")
END
