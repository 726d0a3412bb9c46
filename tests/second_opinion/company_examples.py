"""Lines whose replies are known, over the tables of the small company, as the role dan sees them: those of the files in the
folder `known_lines` but for `over_t.txt`, and some long and some deep ones.
"""

from examples import FOLDER, OVER_T, pairs_in
from policies import policies_of
from policy_examples import COMPANY, FILES
from sessions import reply_of
from tables import table_of


def records(count):
    """Clauses that give the names r0, r1, .. to an int and to records: r1 is of two ints, r2 of two such records, and so on."""
    lets = ["let r0 = 1"] + [f"let r{place} = new {{ a = r{place - 1}, b = r{place - 1} }}" for place in range(1, count + 1)]
    return " ".join(lets)


def long_lines():
    """Types at the limit of parts, and a text with all escapes. The types of r10, r9 and r8 have 2,047, 1,023 and 511 parts."""
    head = f"run from m in marks {records(10)} "
    parts_4093 = "new { a = r10, b = r9, c = r8, d = r8 }"
    parts_4095 = "new { a = r10, b = r10 }"
    parts_4096 = "new { a = r10, b = r10, c = 1 }"
    parts_4097 = "new { a = r10, b = r10, c = 1, m }"
    served = [
        f"where {parts_4095} != null select m.k;", f"where {parts_4096}.c == 1 select m.k;",
        f"where {parts_4095}.b{'.a' * 10} == 1 select 3;", f"select {parts_4095} into r select r.a{'.b' * 10} + 2;",
        f"let r = {parts_4096} select r.c + 2;", f"let r = {parts_4096} let s = new {{ r.a, r.b, m }} select s.m.k;",
        f"group {parts_4093} by m.k into g select g.Key;", f"select (from n in marks select {parts_4095}).Count() + 2;",
        f"select marks.Select(n => {parts_4095}).First().a{'.a' * 10} + 2;",
        f"select new {{ {parts_4096}.a, r10, m }}.m.k;",
    ]
    refused = [
        f"where {parts_4097} != null select m.k;", f"where {parts_4097}.c == 1 select m.k;",
        f"select {parts_4096} into r select r.c;", f"select {parts_4096};", f"let r = {parts_4097} select 3;",
        f"group {parts_4093} by new {{ m.k }} into g select 3;",
        f"select (from n in marks select {parts_4096}).Count();", f"select marks.Select(n => {parts_4096}).Count();",
    ]
    lines = [(head + end, '{"items":[3]}\n') for end in served]
    lines.append((r'run depts.Take(1).Select(d => new { t = "\b\f\n\r\t\"\\\u0001\u001f\u007f\u2028é" });',
                  r'{"items":[{"t":"\b\f\n\r\t\"\\\u0001\u001f' + '\x7f\u2028é"}]}\n'))
    return lines + [(head + end, '{"error":"type"}\n') for end in refused]


def deep_lines():
    """Lines near the limits of depth, over the table of one row."""
    values = {
        "marks" + ".Skip(0)" * 252 + ".Count()": "1", "marks" + ".Select(m => m)" * 250 + ".First().k": "3",
        "marks" + ".Where(m => m.ok)" * 250 + ".Count()": "1", "marks" + ".Reverse()" * 252 + ".Any()": "true",
        "marks" + ".Concat(marks)" * 200 + ".Count()": "201", "marks" + ".Union(marks)" * 200 + ".Count()": None,
        "marks.Select(m => m.k)" + ".Distinct().Intersect(marks.Select(m => m.k))" * 100 + ".Sum()": "3",
        "(from m in " * 63 + "marks" + " select m)" * 63 + ".Single().k": "3",
    }
    items = {
        "new { a = " * 60 + "marks" + " }" * 60 + ".a" * 60: '{"k":3,"ok":true}',
        "".join(f"marks.Select(m{place} => " for place in range(60)) + "1" + ")" * 60: "[" * 59 + "1" + "]" * 59,
        "from m in marks select m.k" + " into k where k > 0 select k" * 60: "3",
        "from m in marks" + "".join(f" from m{place} in marks" for place in range(110)) + " select m109.k": "3",
        "from m in marks" + "".join(f" let k{place} = m.k" for place in range(80)) + " select k79": "3",
        "from m in marks" + "".join(f" join n{place} in marks on m.k equals n{place}.k" for place in range(40)) + " select 3": "3",
        "from m in marks" + " orderby m.k, m.ok descending" * 40 + " select m.k": "3",
    }
    known = [(f"run {line};", f'{{"value":{value}}}\n' if value else '{"error":"type"}\n') for line, value in values.items()]
    return known + [(f"run {line};", f'{{"items":[{value}]}}\n') for line, value in items.items()]


def by_file():
    """The pairs of each file over the small company, and those of the long and the deep lines."""
    pairs = {path.name: pairs_in(path) for path in sorted(FOLDER.glob("*.txt")) if path.name != OVER_T}
    return {**pairs, "long lines": long_lines(), "deep lines": deep_lines()}


def scripts():
    """The statements of each file as a script."""
    return ["\n".join(line for line, _ in pairs).encode() for pairs in by_file().values()]


def misread_of_company():
    """The lines that this reading answers otherwise."""
    tables = {path[:-len(".csv")]: table_of(data) for path, data in FILES.items()}
    policies = policies_of(COMPANY.encode(), tables)
    return [line for pairs in by_file().values() for line, reply in pairs if reply_of(line, tables, policies, "dan") != reply]
