# Files that are made to be dear to read, each of at most a byte more than the limit.
python3 - <<'END'
LIMIT = 1_048_576
POLICY = b"[[policy]]\nname = 'p'\ntable = 'employees'\n"


def filled(head, piece, tail=b"", size=LIMIT):
    """As often a piece as there is room for it."""
    return head + piece * ((size - len(head) - len(tail)) // len(piece)) + tail


FILES = {
    "truncated": b'role = [{name = "dan"}]\n[[policy]]\nname = "p"\ntable = "emplo',
    "byte_ff": b'role = [{name = "dan"}]\n# \xff\n',
    "limit_and_one": filled(b"", b"#", size=LIMIT + 1),
    "limit_and_one_of_nul": filled(b"", b"\0", size=LIMIT + 1),
    "arrays_10000_deep": b"x = " + b"[" * 10_000 + b"]" * 10_000,
    "open_arrays": filled(b"x = ", b"["),
    "inline_tables_10000_deep": b"x = " + b"{a=" * 10_000 + b"1" + b"}" * 10_000,
    "key_of_10000_parts": b"a." * 9_999 + b"a = 1",
    "section_of_10000_parts": b"[" + b"a." * 9_999 + b"a]",
    "key_of_81_parts": b"a." * 80 + b"a = 1",
    "key_of_80_parts": b"a." * 79 + b"a = 1",
    "key_of_a_megabyte": filled(b"", b"a", b" = 1"),
    "quoted_key_of_a_megabyte": filled(b'"', b"\\n", b'" = 1'),
    "name_of_a_megabyte": filled(b"[[policy]]\ntable = 'employees'\nusing = 'true'\nname = '", b"a", b"'\n"),
    "rule_of_a_megabyte": filled(POLICY + b"using = '", b" ", b"true'\n"),
    "rule_over_its_limit": POLICY + b"using = 'true" + b" " * 65_533 + b"'\n",
    "key_twice": b"x = 1\n" + filled(b"", b"#", b"\nx = 1\n", LIMIT - 6),
    "section_twice": b"[x]\n" + filled(b"", b"#", b"\n[x]\n", LIMIT - 4),
    "integers": filled(b"x = [", b"1,", b"]\n"),
    "empty_arrays": filled(b"role = [", b"[],", b"]\n"),
    "empty_entries": filled(b"", b"[[role]]\n"),
    "many_keys": b"".join(b"k%d=1\n" % number for number in range(100_000)),
    "open_text_of_a_megabyte": filled(b'x = "', b"a"),
    "quotes": filled(b"x = ", b'"'),
    "brackets": filled(b"", b"["),
    "nul": filled(b"", b"\0"),
    "number_of_a_megabyte": filled(b"x = ", b"9"),
    "right_of_a_megabyte": filled(b"[[grant]]\nname = 'all'\nrights = ['", b"a", b"']\n"),
    "right_with_a_column_of_a_megabyte": filled(b"[[grant]]\nname = 'all'\nrights = ['employees.", b"a", b"']\n"),
    "right_of_blanks": filled(b"[[withhold]]\nname = 'w'\nrights = ['employees", b" ", b"insert']\n"),
    "right_of_dots": filled(b"[[withhold]]\nname = 'w'\nrights = ['employees", b".", b"id']\n"),
    "rights_to_no_table": filled(b"[[grant]]\nname = 'all'\nrights = [", b"'a.*',", b"]\n"),
    "grants_of_one_name": filled(b"", b"[[grant]]\nname='a'\nrights=[]\n"),
    "empty_grants": filled(b"", b"[[grant]]\n"),
    "rule_of_brackets": POLICY + b"using = '" + b"(" * 65_536 + b"'\n",
    "rule_of_sums": POLICY + b"using = 'row.id" + b"+1" * 32_000 + b" > 0'\n",
}
for name, data in FILES.items():
    with open(f"{name}.toml", "wb") as file:
        file.write(data)
END
[ "$(stat -c %s limit_and_one.toml limit_and_one_of_nul.toml | sort -u)" = 1048577 ] || exit 1
