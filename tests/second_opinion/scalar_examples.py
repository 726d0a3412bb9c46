"""Scalar expressions without names whose values or faults are known beforehand, and such that have no type."""

ACUTE = "\u0301"

VALUES = {
    # Arithmetic, up to both ends of the ints.
    "1 - 2 - 3": -4, "1 - (2 - 3)": 2, "100 / 10 / 5": 2, "100 / (10 / 5)": 50, "2 + 3 * 4": 14, "-2 - -3": 1,
    "-7 / 2": -3, "-7 % 2": -1, "7 / -2": -3, "7 % -2": 1, "-7 / -2": 3, "-7 % -2": -1, "0 / -5": 0, "1 % -2147483648": 1,
    "2147483646 + 1": 2147483647, "-2147483647 - 1": -2147483648, "-2147483647 + -1": -2147483648,
    "2147483646 - -1": 2147483647, "-65536 * 32768": -2147483648, "46341 * 46340": 2147441940, "-2147483647 / -1": 2147483647,
    "-2147483648 / 1": -2147483648, "-2147483647 % -1": 0, "-2147483648 % 1": 0, "- -2147483647": 2147483647,
    # Truth values; what isn't needed isn't evaluated.
    "true || 1 / 0 == 0": True, "false && 1 / 0 == 0": False, "true ? 1 : 1 / 0": 1, "false ? 1 / 0 : 2": 2,
    "true == true": True, "true == false": False, "true != false": True, "1 < 2 == 2 < 3": True, "1 == 1 == true": True,
    "!true == false": True, "false ? true : false ? true : true": True, "true ? false : false ? true : true": False,
    # Texts are their characters.
    '""': "", '"a"': "a", '"😀"': "😀", r'"\u00e9\ud7ff\uE000"': "é\ud7ff\ue000", 
    r'"\'\"\\\0\a\b\f\n\r\t\v"': "'\"\\\0\a\b\f\n\r\t\v",
    '"\x01\x7f\u2028//"': "\x01\x7f\u2028//", r'"\\u0041"': "\\u0041",
    '"a" == "a"': True, '"a" == "A"': False, '"a" != "b"': True, r'"é" == "\u00e9"': True, f'"é" == "e{ACUTE}"': False,
    '"" == "\\0"': False, 'true ? "a" : "b"': "a",
    # Null is as the empty text in a sum of texts, and equals nothing else.
    '"a" + "b"': "ab", '"a" + null': "a", 'null + "a"': "a", r'"a" + null + "\u00e9"': "aé", '"a" + ("b" + "c") + ""': "abc",
    '"a" + "b" == "ab"': True, '"" == null': False, 'null != "a"': True, 'null + "" == null': False, '"" + null == ""': True,
    "null == null": True, "null != null": False, "1 == null": False, "null != -1": True, "0 == null": False,
    "null == null == true": True, '"a" == null || null == "b"': False,
    # What may be null, and what is put for it.
    '"a" ?? "b"': "a", '"a" ?? null': "a", '"a" ?? "b" ?? null': "a", '("a" ?? "b") ?? "c"': "a", '"" ?? "b"': "",
    '("a" ?? "b") == "a"': True, '"a" ?? "b" + "c"': "a", '("a" ?? "b") + "c"': "ac", 'false ? "a" : "b" ?? "c"': "b",
    '"a" ?? (1 / 0 == 0 ? "b" : "c")': "a",
    # A choice of a text and null may be null.
    'true ? "a" : null': "a", 'false ? "a" : null': None, 'true ? null : "a"': None, 'false ? null : "a"': "a",
    '(false ? "a" : null) == null': True, 'null != (false ? "a" : null)': False, '(false ? "a" : null) == ""': False,
    '(true ? null : "a") == (false ? "b" : null)': True, '(false ? "a" : null) + "b"': "b", '(false ? "a" : null) + null': "",
    '(false ? "a" : null) + (false ? "a" : null) == ""': True, '(false ? "a" : null) ?? "b"': "b",
    '(false ? "a" : null) ?? null': None, '(false ? "a" : null) ?? (true ? null : "b") ?? "c"': "c",
    '((false ? "a" : null) ?? "bc").Length': 2, 'true ? "a" : false ? "b" : null': "a", 'false ? "a" : true ? null : "b"': None,
    # A text's length is that of its UTF-16.
    '"".Length': 0, '"a".Length': 1, '"é".Length': 1, f'"e{ACUTE}".Length': 2, '"列".Length': 1, '"😀".Length': 2,
    '"a😀b".Length': 4,
    '"\uffff".Length': 1, '"\U00010000".Length': 2, '"\U0010ffff".Length': 2, r'"\0\u00e9\"".Length': 3, "-\"ab\".Length": -2,
    '("a" + "bc").Length': 3, '(null + "").Length': 0, '("a" ?? null).Length': 1, '1 + "ab".Length * 2': 5,
    '"ab".Length == null': False,
    '("a").Length > 0 ? "b" : "c"': "b",
    # A text is searched for another by their bytes, which finds whole characters.
    '"abc".StartsWith("ab")': True, '"abc".StartsWith("bc")': False, '"abc".StartsWith("abc")': True,
    '"abc".StartsWith("abcd")': False,
    '"abc".EndsWith("bc")': True, '"abc".EndsWith("ab")': False, '"abc".EndsWith("abc")': True, '"abc".EndsWith("zabc")': False,
    '"abc".Contains("b")': True, '"abc".Contains("ac")': False, '"abc".Contains("abc")': True, '"abc".Contains("abcd")': False,
    '"ababac".Contains("abac")': True, '"aab".Contains("ab")': True, '"aaa".Contains("aaaa")': False,
    '"abc".Contains("B")': False,
    '"".StartsWith("")': True, '"".EndsWith("")': True, '"".Contains("")': True, '"a".StartsWith("")': True,
    '"a".EndsWith("")': True,
    '"😀".Contains("")': True, '"".StartsWith("a")': False, '"".EndsWith("a")': False, '"".Contains("\0")': False,
    r'"a\0b".Contains("\0b")': True, '"a".Contains("\0")': False, '"a😀é".EndsWith("😀é")': True, '"é".Contains("e")': False,
    f'"e{ACUTE}".StartsWith("e")': True, f'"e{ACUTE}".Contains("é")': False, r'"é列".StartsWith("\u00e9")': True,
    '"a".Contains("a" + null)': True, '("a" + "b").EndsWith("b")': True, '!"a".Contains("b")': True,
    '"a".Contains("a") == true': True,
    '"a" . Contains ( ("a") )': True, '"ab".Contains("b") ? "ab".Length : 0': 2,
    'false && "a".Contains(1 / 0 == 0 ? "a" : "b")': False,
}

FAULTS = {
    "DivideByZero": [
        "1 / 0", "1 % 0", "0 / 0", "0 % 0", "-2147483648 / 0", "1 / (1 - 1)", "1 / 0 == null", "1 / 0 + (2147483647 + 1)",
        "1 % 0 * (2147483647 * 2)", "1 / 0 == 2147483647 + 1", "false || 1 / 0 == 0", "true && 1 / 0 == 0",
        "1 / 0 == 0 || true", "1 / 0 == 0 ? 1 : 2", "true ? 1 / 0 : 1", "null == 1 / 0",
        '"a".Contains(1 / 0 == 0 ? "a" : "b")', '(1 / 0 == 0 ? "a" : "b").EndsWith(2147483647 + 1 == 0 ? "a" : "b")',
        '(false ? "a" : null).Contains(1 / 0 == 0 ? "a" : "b")', "1 / 0 + (false ? \"a\" : null).Length",
        '(1 / 0 == 0 ? "a" : null) == null', '(false ? "a" : null) ?? (1 / 0 == 0 ? "a" : "b")',
        '(1 / 0 == 0 ? "a" : "b").Length', '(1 / 0 == 0 ? "a" : "b") ?? "c"',
        '(1 / 0 == 0 ? "a" : "b") + (2147483647 + 1 == 0 ? "a" : "b")',
    ],
    "NullReference": [
        '(false ? "a" : null).Length', '(true ? null : "a").Length + 1 / 0', '(false ? "a" : null).StartsWith("a")',
        '(false ? "a" : null).EndsWith("")', '(true ? null : "").Contains("")', '"a".StartsWith(false ? "a" : null)',
        '"".EndsWith(true ? null : "a")', '"a".Contains((false ? "a" : null) ?? null)',
        '(false ? "a" : null).Contains(true ? null : "a")', '(false ? "a" : null).Length == 1 / 0',
        '"a".Contains(true ? null : "a") || true',
    ],
    "Overflow": [
        "2147483647 + 1", "1 + 2147483647", "-2147483648 + -1", "-2147483648 - 1", "2147483647 - -1", "0 - -2147483648",
        "65536 * 32768", "-65536 * 32769", "46341 * 46341", "-2147483648 * -2147483648", "- -2147483648", "-(-2147483648)",
        "-2147483648 / -1", "-2147483648 % -1", "2147483647 + 1 - 1", "2147483647 + 1 + 1 / 0", "2147483647 * 2 < 1 % 0",
        '(2147483647 + 1 == 0 ? "a" : "b") == (1 / 0 == 0 ? "a" : "b")',
    ],
}

ILL_TYPED = [
    "null", "(null)", "-null", "!null", "null + null", "1 + null", "null + 1", "null - 1", "1 * null", "1 / null", "1 < null",
    "null >= null", "null && true", "true || null", "null ? 1 : 2", "true == null", "null != false", "null.c",
    "null == null == null",
    '-"a"', '!"a"', '"a" - "b"', '"a" * 2', '"a" + 1', '1 + "a"', '"a" + true', '1 + 1 + "a"', '"a" < "b"', '"a" >= null',
    '"a" == 1', '1 != "a"', '"a" == true', "1 == true", "true < false", "true + true", '"a" && true', '"a" ? 1 : 2', '"a".c',
    'true ? "a" : 1', "1 == 1 == 1", "1 < 2 < 3", "1 ? 2 : 3", "-true", "!1", "x.c == null + null", "x + null", 'x == "a"',
    "x == 1",    "x == x", "t == null", 'x + "a"',
    "1 ?? 2", "1 ?? null", "null ?? 1", 'null ?? "a"', "null ?? null", "true ?? false",
    '"a" ?? 1', '"a" ?? true', '"a" ?? null ?? "b"', '"a" ?? "b" == "a"', '"a" ?? "b" ? 1 : 2', "x ?? x", "x ?? null", "x.c ?? 1",
    "true ? 1 : null", "false ? null : 1", "true ? null : null", "true ? true : null", "false ? null : false", "true ? x : 1",
    "true ? x : x.c", "true ? t : null", "true ? null : t", "x ? 1 : 2",
    "(true ? x : null) + null", "(true ? x : null) == x", "(true ? x : null) == 1", "(true ? x : null).d",
    "(true ? null : null).c",
    "(true ? x : null) ?? x", "(x == null) == null", "x == null == null", "x < null", "!(x ?? null)", "null.Length",
    "null.HasValue", "null.Value", "1.Length", "1.Value", "1.HasValue", "true.Length", "true.Value", '"a".Value',
    '"a".HasValue', '"a".length', '"a".Length()', '"a".Length.Length', '"a" + "b".Length', '-"a".Length.c', "x.Length", "x.Value",
    "x.c.Length", "x.c.HasValue", "t.Length",
    '"a".Contains(null)', '"a".StartsWith(null)', '"a".EndsWith(null)', '"a".Contains()', '"a".Contains("a", "b")',
    '"a".Contains(1)',
    '"a".Contains(true)', '"a".Contains(y => "a")', '"a".contains("a")', '"a".Contains', '"a".IndexOf("a")', '"a".ToString()',
    'null.Contains("a")', '1.Contains("1")', "1.Contains(1)", 'true.EndsWith("e")', 't.Contains("a")', 'x.Contains("a")',
    'x.c.Contains("1")', '"a".Contains("a").Contains("a")', '"a".Contains("a").Length', '"a" + "a".Contains("a")',
    '-"a".Contains("a")', '"a".Contains(null ?? "a")', '"a".Contains(x)', '"a".Contains(x.c)',
    '"a".Contains((from y in t select "a"))',
]

# What is selected of the table of nulls, whose rows have n null and 5, s null and "ab", b true and false.
OF_NULLS = {
    "x.n": [None, 5], "x.s": [None, "ab"], "-x.n": [None, -5], "x.n + 1": [None, 6], "2 - x.n * x.n": [None, -23],
    "x.n < 6": [False, True], "x.n >= x.n": [False, True], "!(x.n < 6)": [True, False], "x.n == x.n": [True, True],
    "x.n == null": [True, False], "null != x.n": [False, True], "x.n == 5": [False, True], "x.n != 5": [True, False],
    "x.s + x.s": ["", "abab"], "x.s + null": ["", "ab"], 'x.s + "c"': ["c", "abc"], "x.s == null": [True, False],
    'x.s != "ab"': [True, False], "x.s + null == null": [False, False], "x.b == (x.n == null)": [True, True],
    "x.b ? 1 : x.n": [1, 5], "x.b ? x.n : 1": [None, 1], "x.n == (x.b ? x.n : 5)": [True, True],
    "x.n ?? 7": [7, 5], "x.n ?? null": [None, 5], "x.n ?? x.n": [None, 5], "x.n ?? x.n ?? 1": [1, 5], "x.n ?? 5 + 1": [6, 5],
    "(x.n ?? 5) + 1": [6, 6], 'x.s ?? "c"': ["c", "ab"], "x.s ?? null": [None, "ab"], 'x.s ?? x.s ?? "d"': ["d", "ab"],
    "x.b ? 3 : x.n ?? 1 / 0": [3, 5],
    "x.n.HasValue": [False, True], "x.n.HasValue ? x.n.Value : 0": [0, 5], "(x.n * 2).HasValue": [False, True],
    "(x.s + null).Length": [0, 2], '(x.s ?? "abc").Length': [3, 2], "x.s == null || x.s.Length == 2": [True, True],
    '(x.s ?? "b").StartsWith("b")': [True, False], '"ab".Contains(x.s + null)': [True, True],
    'x.s != null && x.s.EndsWith("b")': [False, True],
    "x.b ? x.n : null": [None, None], "x.b ? null : x.n": [None, 5], "x.b ? 1 : x.b ? null : x.n": [1, 5],
    "x.b ? null : x.s": [None, "ab"],
    "(x.b ? null : x.n).HasValue": [False, True], "(x.b ? x.n : null) + 1": [None, None], "(x.b ? null : x) == null": [True,
    False],
    "(x.b ? x : null) != null": [True, False], "x == null": [False, False], "null != x": [True, True], "(x.b ? x : x).s": [None,
    "ab"],
    "(x.b ? x : null) == null ? 1 : (x.b ? x : null).n": [None, 1],
    "x.b ? x : null": [{"n": None, "s": None, "b": True}, None],
}
# What faults on its first row.
FAULTS_OF_NULLS = {
    "DivideByZero": ["x.n + 1 / 0", "1 / 0 == x.n", "x.n ?? 1 / 0", "1 / 0 + x.n.Value", 'x.s.Contains(1 / 0 == 0 ? "a" : "b")'],
    "Overflow": ["(x.n < 2147483647 + 1)"],
    "InvalidOperation": ["(x.b ? null : x.n).Value", "x.n.Value", "(x.n + 1).Value", "x.n.Value + 1 / 0"],
    "NullReference": [
        "(x.b ? null : x).n", "(x.b ? null : x).s.Length", "x.s.Length", "x.s.Length + 1 / 0", 'x.s.StartsWith("a")',
        'x.s.EndsWith("")', 'x.s.Contains(x.s)', '"a".StartsWith(x.s)',
        '"".EndsWith(x.s)', '"a".Contains(x.s)', 'x.s.Contains("a") || 1 / 0 == 0',
    ],
}
FAULT_ON_FIVE = {"x.n / 0": "DivideByZero", "x.n % (x.n - 5)": "DivideByZero", "x.n + 2147483647": "Overflow"}
UNTYPED_OF_NULLS = [
    "x.n + null", "x.n < null", "x.n == true", "x.s - x.s", "x.s + x.n", "x.s == x.n", "x.b == null", "x.b + x.b", "x.b < x.b",
    "x.n ? 1 : 2", "x.b ? x.n : x.s", "x.b ? x.b : x.n",
    "x.n ?? x.s", "x.n ?? true", "x.s ?? 1", "x.b ?? true", "null ?? x.n", "1 ?? x.n", "x.n ?? 1 ?? 2",
    "x.n.Length", "x.s.Value", "x.s.HasValue", "x.b.Value", "x.b.HasValue", "(x.n ?? 1).Value", "x.n.Value.Value", "x.n.value",
    "x.s.Contains(x.n)", "x.n.Contains(x.s)", "x.s.Contains(null)", "x.b.Contains(x.b)",
    "x.b ? x.b : null", "x.b ? null : x.n == 5", "x.b ? x : x.n", "(x.b ? x : null).none", "x ?? null",
    "x.b == null",
]
