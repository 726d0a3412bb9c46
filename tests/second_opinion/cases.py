"""The cases: the fixed ones, mostly at the limits, and then those generated at random, each from its number alone."""

import random
from dataclasses import dataclass, field

import commandlines
import company_examples
import examples
import files
import host_examples
import host_lines
import host_sessions
import planned_lines
import policy_examples
import policy_files
import queries
import query_lines
import right_examples
import right_lines
import scalars
import sentences
import session_examples
import session_files
import session_scripts
import statements
from policies import policies_of
from predicates import predicates_of
from session_writer import Writer
from tables import MARK, table_of

FIRST_OF_SENTENCES = 4300
FIRST_OF_SCALARS = 4600
FIRST_OF_POLICIES = 4720
# Known lines over the small company, then queries by chance of those who have all rights, and of those who have some.
FIRST_OF_COMPANY = 6020
FIRST_OF_QUERIES = FIRST_OF_COMPANY + len(company_examples.by_file())
FIRST_OF_RIGHTS = 6820
# Known sessions, and then sessions by chance.
FIRST_OF_KNOWN_SESSIONS = 7120
FIRST_OF_SESSIONS = FIRST_OF_KNOWN_SESSIONS + len(session_examples.KNOWN)
SESSIONS = 600
# Queries by chance that ask host predicates, and then sessions that do.
FIRST_OF_HOSTS = FIRST_OF_SESSIONS + SESSIONS
FIRST_OF_HOST_SESSIONS = FIRST_OF_HOSTS + 160
# Queries by chance whose conditions, keys, aggregates and orders are found out once.
FIRST_OF_PLANNED = FIRST_OF_HOST_SESSIONS + 120
CASES = FIRST_OF_PLANNED + 160
LINES_OF_QUERIES = 20
NO_UTF8 = [
    b"\x80", b"\xff", b"\xc3", b"\xc0\x80", b"\xe2\x82", b"\xed\xa0\x80", b"\xf4\x90\x80\x80", b"\xf0\x9f\x98", b"\xef\xbb",
    b"\xf8\x88\x80\x80\x80",
]
RUN = b"run from x in t select x.c;\n"
TABLE_OF_SCRIPT = b"c:int\n1\n2\n"
# The options of most fixed cases.
OPTIONS = [b"--role", b"reader", b"--policy", b"p.toml"]
POLICY_PATHS = ["p.toml", "p.toml", "./p.toml", "sub/p", "policy .toml", "é"]
# What is on standard input where the script is a file.
NOT_READ = b"run 7;\n"


@dataclass
class Case:
    """What the program is run on. The words name files of the folder that it runs in; the folder `sub` is always there. The
    script is standard input, or where `script_file` names it, that file."""

    words: list
    files: dict = field(default_factory=dict)
    script: bytes = RUN
    can_read: bool = True
    can_write: bool = True
    script_file: str = None

    def input(self):
        return NOT_READ if self.script_file else self.script

    def all_files(self):
        return self.files | ({self.script_file: self.script} if self.script_file else {})


def policy_over(*tables):
    """The policy file of a reader who has all rights on the tables."""
    rights = ", ".join(f'"{name}.*"' for name in tables)
    return {"p.toml": f'role = [{{name = "reader"}}]\ngrant = [{{name = "all", rights = [{rights}]}}]\n'.encode()}


def of_script(script, **more):
    """A case of a script over one small table."""
    return Case([*OPTIONS, b"t.csv"], policy_over("t") | {"t.csv": TABLE_OF_SCRIPT}, script, **more)


def of_file(data, script=RUN + b"run from x in t where x.c > 1 select x.c;\n"):
    """A case of one table file."""
    return Case([*OPTIONS, b"t.csv"], policy_over("t") | {"t.csv": data}, script)


def of_words(*words):
    """A case of words over the same few files."""
    data = {"t.csv": b"c:int\n1\n", "u.csv": b"c:int\n2\n", "sub/t.csv": b"c:int\n3\n", "s.lq": b"run 4;\n"}
    data |= {"bad.csv": b"c\n", "sub/bad/t.csv": b"c\n", "from.csv": b"c:int\n", "bad.toml": b"x = 1\n"}
    data["watched.toml"] = b'role = [{name = "reader"}]\ngrant = [{name = "all", rights = ["t.*", "Host.Watched"]}]\n'
    ends = {word.rsplit(b"/", 1)[-1] for word in words}
    loaded = [name for name in ("t", "u") if ends & {name.encode(), f"{name}.csv".encode()}]
    return Case(list(words), policy_over(*loaded) | data, RUN + b"run from x in u select x.c;\n")


def of_company(policies, role="dan", script=b"run from e in employees select e.name;\nrun from d in depts select d.id;\n", more=(),
               data=policy_examples.FILES):
    """A case of a policy file over the tables of the small company; `more` are more words, in front of the tables."""
    words = ["--role", role, "--policy", "policy.toml", *more, *data]
    return Case([word.encode() for word in words], data | {"policy.toml": policies}, script)


def of_many_tables(count, *more):
    """A case of so many tables, and more words after them."""
    data = {f"t{number}.csv": f"c:int\n{number}\n".encode() for number in range(count)}
    script = b"".join(b"run from x in t%d select x.c;\n" % number for number in range(count + 1))
    words = [*OPTIONS, *(name.encode() for name in data), *more]
    data |= policy_over(*(f"t{number}" for number in range(count)))
    return Case(words, data | {"bad.csv": b"c\n", "sub/t0.csv": b"c:int\n"}, script)


def columns(count, kind=b":int"):
    return b",".join(b"c%d" % number + kind for number in range(count)) + b"\n"


def padded(data, size):
    """The script with blanks in front of its first line's statement, so that it has this size; each other line is full."""
    blanks = b"".join(b" " * 65_536 + b"\n" for _ in range((size - len(data)) // 65_537))
    return blanks + b" " * (size - len(data) - len(blanks)) + data


def word_cases():
    """Words of the command line: options, files that are there or not, names, doubled names, and the number of tables."""
    calls = [*commandlines.CALLS, *commandlines.NO_COMMANDS, *commandlines.HELP]
    words = [
        [b"t.csv"], [b"\xff.csv"], [b"t.csv", b"\xff"], [b"bad.csv", b"\xff"], [b""], [b"t.csv", b""], [b"t.csv", b"t.csv"],
        [b"t.csv", b"sub/t"], [b"t.csv", b"bad.csv", b"none.csv"], [b"none.csv", b"bad.csv"], [b"t.csv", b"sub/bad/t.csv"],
        [b"from.csv"], [b"from.csv", b"bad.csv"], [b"--", b"t.csv"], [b"--version"], [b"t.csv/"],
        [b"t.csv/t"], [b"sub"], [b"sub/"], [b"\n"], ["é".encode()], [b"x" * 300], [b"u.csv", b"t.csv"], [b"u.csv", b"./sub/t.csv"],
        [b"./././t.csv", b"sub/../u.csv"],
    ]
    many = [
        of_many_tables(64), of_many_tables(65), of_many_tables(66), of_many_tables(63, b"sub/t0.csv"),
        of_many_tables(64, b"sub/t0.csv"), of_many_tables(64, b"none.csv"), of_many_tables(64, b"bad.csv"),
        of_many_tables(64, b"from.csv"), of_many_tables(65, b"bad.csv"),
    ]
    called = [of_words(*(word.encode() for word in call)) for call in calls]
    return called + [of_words(*OPTIONS, *some) for some in words] + many


def table_cases():
    """The order of two faults, numbers of columns, and sizes of a file. A cell of many zeros makes a large file read fast."""
    large = b"c:int\n" + b"0" * 16_777_209 + b"7"
    return [of_file(data) for data in [
        b"a:int,a:int,b\n", b"b,a:int,a:int\n", b"a:int,b,a:int\n", b"a:int,a:int\nx\n", b"a:int\nx\n1,2\n", b"a:int\n1,2\nx\n",
        b"a:int\nx,y\n", b"a:int,b:int\nx,y\n", b"a:int,b:int\n1,y\nx,1\n", b"a:int,b:int\n1,2\n\n\r\n1,y\n",
        columns(100), columns(101), columns(101, b""), columns(100) + b"1\n", columns(99) + b",".join([b"1"] * 99),
        b"a:int," * 100 + b"a:int\n", b"c:int\n" + columns(101), b"c:int\n1\n" + b"," * 101 + b"\n",
        b"," * 99, b"," * 100, b'"' + b"," * 200 + b'"',
        large, large + b"\n", MARK + large, MARK + large.replace(b"000", b"", 1), columns(101) + b"x" * 16_777_216,
        b"c\n" + b"\xff" * 16_777_215, b"\n" * 16_777_217, b"c:int\n" + b"-12\n" * 30_000,
    ]]


def company_cases():
    """Table files and policy files with known answers."""
    known = [of_company(text.encode(), role) for text, role, _ in policy_examples.SEEN]
    known += [of_company(policy_examples.bytes_of(text)) for texts in policy_examples.WORDS.values() for text in texts]
    known += [of_company(text.encode(), role, right_examples.script_of(lines)) for text, role, lines in right_examples.KNOWN]
    known += [
        of_company(it.policies.encode(), it.role, right_examples.script_of(it.pairs), it.words(), it.files())
        for it in host_examples.KNOWN]
    # An accepted file may have other roles.
    known += [of_company(text.encode(), role) for text in policy_examples.ACCEPTED for role in ("dan", "reader")]
    files_of = policy_examples.TABLE_WORDS | policy_examples.TABLE_CELLS
    script = RUN + b"run from x in t select x.c == null;\nrun from x in t where x.c select 1;\nrun from x in t select x.c.Length;\n"
    return known + [of_file(data, script) for data in files_of]


def size_cases():
    """Sizes of a script and of its lines, in bytes."""
    line = RUN.rstrip(b"\n")
    return [of_script(script) for script in [
        padded(RUN, 1_048_576), padded(RUN, 1_048_577), padded(line, 1_048_576), padded(line, 1_048_577),
        MARK + padded(RUN, 1_048_573), MARK + padded(RUN, 1_048_574), b"\n" * 1_048_576, b"\xff\n" * 524_289,
        padded(RUN, 65_537), b" " + padded(RUN, 65_537), padded(line, 65_536), b" " + padded(line, 65_536),
        padded(line + b"\r\n", 65_537), b" " + padded(line + b"\r\n", 65_537),
        MARK + padded(RUN, 65_534), MARK + padded(RUN, 65_535),
        RUN + b" " * 65_536, RUN + b" " * 65_537, b"x" * 65_537 + b"\n", RUN + b"\xff" * 65_536, RUN + b"\xff" * 65_537,
        RUN + b"//" + "é".encode() * 32_767 + b"\n", RUN + b"//" + "é".encode() * 32_767 + b" \n",
        b"run from x in t where x.c == " + b"0" * 65_000 + b"2 select x.c;\n",
        b"run from " + b"x" * 65_000 + b" in t select x.c;\n",
        b"run from " + b"x" * 32_000 + b" in t select " + b"x" * 32_000 + b".c;\n",
        b"run " * 16_000 + b"\n", RUN * 4_000, b";\n" * 4_000,
    ]]


def text_cases():
    """Lines with known replies, words that may be reserved, queries that C# has, byte order marks, and line ends."""
    names = [*statements.KEYWORDS, *map(str.title, statements.KEYWORDS), *map(str.upper, statements.KEYWORDS)]
    return [of_script(script) for script in [
        "\n".join(line for line, _ in examples.known_lines()).encode(),
        "\n".join(f"run from {name} in t select {name}.c;" for name in names).encode(),
        "\n".join(f"run {query};" for query in statements.OTHER_QUERIES).encode(),
        "\n".join(f"{query};" for query in statements.OTHER_QUERIES).encode(),
        b"", b"\n", MARK, MARK * 3 + RUN, MARK + b"\n" + MARK + RUN, b" " + MARK + RUN, MARK[:2] + RUN, RUN.rstrip(b"\n"),
        RUN.rstrip(b"\n") + b"\r", RUN.replace(b"\n", b"\r\n") * 3, RUN.replace(b" ", b"\n"), b"\xfe\xff" + RUN,
        RUN + b"\x00\n" + RUN, b"// \xff\n" + RUN,
    ]]


def device_cases():
    """Standard input that can't be read, and standard output that takes nothing."""
    return [
        of_script(RUN, can_read=False), of_script(RUN, can_read=False, can_write=False), of_script(RUN, can_write=False),
        of_script(b"", can_write=False), of_script(b"//\n", can_write=False), of_script(b";", can_write=False),
        of_script(b"\xff", can_write=False), of_script(RUN * 40_000, can_write=False),
        Case([*OPTIONS, b"--script", b"s.lq", b"t.csv"], policy_over("t") | {"t.csv": TABLE_OF_SCRIPT}, can_read=False,
             script_file="s.lq"),
    ]


def fixed_cases():
    """Cases that chance would hardly give."""
    return word_cases() + table_cases() + company_cases() + size_cases() + text_cases() + device_cases()


def chosen_tables(dice):
    """Some tables of different names."""
    names = dice.sample(files.TABLE_NAMES, dice.choice([1, 1, 2, 2, 3, 5]))
    return {name: files.table(dice) for name in names}


def script_of(dice, tables, line=statements.line, count=15):
    """Some lines, mostly all ended by LF; now and then byte order marks at the head, or CR LF everywhere."""
    lines = [line(dice, tables) for _ in range(dice.randrange(count // 4 + 1, count + 1))]
    end = dice.choice(["\n", "\n", "\n", "\r\n", "\n\n"])
    script = dice.choice([b""] * 8 + [MARK, MARK * 2]) + (end.join(lines) + dice.choice([end, end, end, ""])).encode()
    if dice.random() < 0.02:
        place = dice.randrange(len(script) + 1)
        return script[:place] + dice.choice(NO_UTF8) + script[place:]
    return script


def chosen_role(dice, roles):
    """A role of the policy file, or now and then one that isn't there."""
    return dice.choice(roles) if dice.random() < 0.97 else dice.choice(["zed", "public", "", "Dan", "dan ", "-"])


def filed(dice, tables):
    """The word of each table, and the files that the words name."""
    words = {name: files.word(dice, name) for name in tables}
    return words, {words[name]: files.spelled_file(dice, files.records(dice, table)) for name, table in tables.items()}


def call(dice, tables, policies, role, script, watched=None):
    """A call over table files, a policy file and a script, which is standard input or a file; perhaps with a list of numbers."""
    return call_over(dice, *filed(dice, tables), policies, role, script, watched)


def call_over(dice, words, data, policies, role, script, watched=None):
    path = dice.choice(POLICY_PATHS)
    values = {"--role": role, "--policy": path} | ({} if watched is None else {"--watch": watched})
    script_file = dice.choice(["s.lq", "./s", "sub/s.lq"]) if dice.random() < 0.15 else None
    if script_file:
        values["--script"] = script_file
    line = commandlines.command_line(dice, values, list(words.values()))
    return Case([word.encode() for word in line], data | {path: policies}, script, script_file=script_file)


def served_case(dice):
    """Right table files in all spellings, a right policy file over them, and a script."""
    tables = chosen_tables(dice)
    file = policy_files.right_file(dice, tables)
    role = chosen_role(dice, [entry["name"] for entry in file["role"]])
    return call(dice, tables, policy_files.spelled_file(dice, file).encode(), role, script_of(dice, tables))


def refused_case(dice):
    """A case like those, in which one word or one file more, at any place, most probably ends the program."""
    case = served_case(dice)
    kind = dice.random()
    if kind < 0.1:
        word = dice.choice(files.NO_NAMES)
    elif kind < 0.15:
        word = dice.choice(files.NO_FILES)
    elif kind < 0.2:
        word = "sub/" + dice.choice([path for path in case.files if path not in POLICY_PATHS]).rsplit("/", 1)[-1]
        case.files.setdefault(word, b"c:int\n1\n")
    else:
        word = "more.csv"
        case.files[word] = files.faulty_file(dice)
        case.script += b"\nrun from x in more select x.c;\nrun from x in more where x.c > 1 select x.c;\n"
    case.words.insert(dice.randrange(len(case.words) + 1), word.encode())
    return case


def policy_case(dice):
    """A case of a policy file with a fault or two."""
    tables = chosen_tables(dice)
    data, _ = policy_files.faulty_file(dice, tables)
    return call(dice, tables, data, dice.choice(policy_files.ROLE_NAMES), script_of(dice, tables, count=4))


def lines_case(dice, line):
    """A script of many lines of one kind."""
    tables = chosen_tables(dice)
    data = {f"{name}.csv": files.spelled_file(dice, files.records(dice, table)) for name, table in tables.items()}
    return Case([*OPTIONS, *(path.encode() for path in data)], policy_over(*tables) | data, script_of(dice, tables, line, 60))


def queries_case(dice, line=query_lines.line, rights_of=policy_files.open_rights):
    """Queries by chance, over small tables under some policies."""
    tables = queries.tables(dice)
    file = policy_files.right_file(dice, tables, rights_of)
    if dice.random() < 0.3:
        # Row security is off, so that there are rows to query.
        file["table"] = []
    role = dice.choice([entry["name"] for entry in file["role"]])
    script = "".join(line(dice, tables).replace("\n", " ") + "\n" for _ in range(LINES_OF_QUERIES))
    return call(dice, tables, policy_files.spelled_file(dice, file).encode(), role, script.encode())


def rights_case(dice):
    """Such queries, and lines with several columns, of a role that may not use all of them."""
    return queries_case(dice, lambda *those: dice.choice([query_lines, right_lines]).line(*those), policy_files.some_rights)


def session_case(dice):
    """A session by chance, of a role that has some rights. Its script is written for the tables and the policies that the files give."""
    words, data = filed(dice, session_files.tables(dice))
    tables = {name: table_of(data[word]) for name, word in words.items()}
    file = session_files.policy_file(dice, tables)
    policies = policy_files.spelled_file(dice, file).encode()
    role = dice.choice(file["role"])["name"]
    lines = session_scripts.script(Writer(dice, tables, policies_of(policies, tables), role))
    return call_over(dice, words, data, policies, role, ("\n".join(lines) + dice.choice(["\n", ""])).encode())


def hosts_case(dice):
    """Queries by chance that ask host predicates, of a role that has rights to most of them."""
    watched = dice.choice([None, *host_lines.LISTS])
    tables = host_lines.tables(dice)
    file = policy_files.right_file(dice, tables, host_lines.rights_of(watched))
    if dice.random() < 0.4:
        file["table"] = []
    role = dice.choice([entry["name"] for entry in file["role"]])
    script = "".join(host_lines.line(dice, tables, watched).replace("\n", " ") + "\n" for _ in range(LINES_OF_QUERIES))
    return call(dice, tables, policy_files.spelled_file(dice, file).encode(), role, script.encode(), watched)


def host_session_case(dice):
    """A session by chance in which host predicates are asked."""
    watched = dice.choice([None, *host_lines.LISTS])
    predicates = predicates_of(watched)
    words, data = filed(dice, host_lines.tables(dice))
    tables = {name: table_of(data[word]) for name, word in words.items()}
    file = session_files.policy_file(dice, tables)
    host_lines.add_rights(dice, file, [role["name"] for role in file["role"]], watched)
    policies = policy_files.spelled_file(dice, file).encode()
    role = dice.choice(file["role"])["name"]
    writer = Writer(dice, tables, policies_of(policies, tables, predicates), role, predicates, host_lines.scope_of(watched))
    script = "\n".join(host_sessions.script(writer)).encode()
    return call_over(dice, words, data, policies, role, script, watched)


def case_of(number, fixed):
    """The case of a number: first the fixed ones, then those by chance, whose number is the seed; that of a session, that of a case of
    host predicates, and that of queries which are found out once, is counted from the first of its kind on. The known lines over the small company and the known sessions are between these."""
    if number < len(fixed):
        return fixed[number]
    if FIRST_OF_COMPANY <= number < FIRST_OF_QUERIES:
        return of_company(policy_examples.COMPANY.encode(), script=company_examples.scripts()[number - FIRST_OF_COMPANY])
    if FIRST_OF_KNOWN_SESSIONS <= number < FIRST_OF_SESSIONS:
        text, pairs = session_examples.KNOWN[number - FIRST_OF_KNOWN_SESSIONS]
        return of_company(text.encode(), script=session_examples.script_of(pairs))
    if number >= FIRST_OF_PLANNED:
        return queries_case(random.Random(f"planned {number - FIRST_OF_PLANNED}"), planned_lines.line)
    if number >= FIRST_OF_HOST_SESSIONS:
        return host_session_case(random.Random(f"hosts in session {number - FIRST_OF_HOST_SESSIONS}"))
    if number >= FIRST_OF_HOSTS:
        return hosts_case(random.Random(f"hosts {number - FIRST_OF_HOSTS}"))
    if number >= FIRST_OF_SESSIONS:
        return session_case(random.Random(f"session {number - FIRST_OF_SESSIONS}"))
    dice = random.Random(number)
    if number >= FIRST_OF_QUERIES:
        return rights_case(dice) if number >= FIRST_OF_RIGHTS else queries_case(dice)
    if number >= FIRST_OF_POLICIES:
        return policy_case(dice)
    if number >= FIRST_OF_SENTENCES:
        return lines_case(dice, sentences.line if number < FIRST_OF_SCALARS else scalars.line)
    return refused_case(dice) if dice.random() < 0.2 else served_case(dice)
