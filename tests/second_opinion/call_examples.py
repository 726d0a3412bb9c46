"""Statements that ask host predicates, and the calls that each may make, over the tables of the small company; and logs that hold a call which
their statements may not make.

The calls are known beforehand: a reading that says others, or that finds such a log good, compares nothing.
"""

from audits import faults_of, step_of
from host_examples import ASKING, LEAPS, ZED, Known, desk
from session_examples import DESK

ANN, BOB = "LeapYear employees 1 year 2000 true", "LeapYear employees 2 year 1999 false"
CYD, DAN = "LeapYear employees 3 year 1996 true", "LeapYear employees 4 year 1900 false"
LEAPING = "run employees.Where(e => Host.LeapYear(e.year)).Select(e => e.name);"
DEPTS = [f"LeapYear depts {row} id {number} {answer}" for row, number, answer in [(1, 10, "false"), (2, 20, "true"), (3, 40, "true")]]
UNDER = ["Under employees 1 dept 10 year 2000 true", "Under employees 2 dept 10 year 1999 true"]
WATCHED = desk("Watched", "LeapYear")

# Sessions with, for the reply of each statement, the calls that it may make. Those of the worked rows first.
KNOWN = [
    Known(DESK, [(f"run {LEAPS};", [ANN, BOB])]),
    Known(desk("LeapYear", recent=""), [(f"run {LEAPS};", [ANN, BOB, DAN])], employees=ZED),
    Known(DESK, [(f"run {LEAPS};", [ANN, BOB])], employees=ZED),
    Known(DESK, [("run employees.Where(e => Host.Watched(e.id));", [])], watched="1"),
    Known(DESK, [("run employees.Where(e => e.dept == 20 && Host.LeapYear(e.year)).Count();", [ANN, BOB])]),
    Known(ASKING, [
        ("run employees.Where(e => Host.Under(e.dept, e.year)).Select(e => e.id);", UNDER),
        ("run employees.Where(e => Host.Under(e.year, e.id)).Select(e => e.id);", []),
        ("run employees.Where(e => Host.Under(e.id, e.boss));", []),
        ("run employees.Where(e => Host.Under(e.dept, e.dept)).Select(e => e.id);",
         ["Under employees 1 dept 10 dept 10 false", "Under employees 2 dept 10 dept 10 false"]),
    ]),
    Known(DESK, [("run employees.Where(e => Host.Under(e.dept, e.year)).Select(e => e.id);", [])]),
    Known(WATCHED, [
        ("run employees.Select(e => Host.Watched(e.id) == Host.LeapYear(e.year));",
         [ANN, BOB, "Watched employees 1 id 1 false", "Watched employees 2 id 2 true"]),
        ("run Host.Watched(marks.First().k);", ["Watched marks 1 k 3 true"]),
        ("run employees.Where(e => Host.Watched(e.salary));", []),
    ], watched="2,3"),
    # What is named where it is never evaluated, what is read of other rows, and what is never of a row that is there.
    Known(DESK, [
        ("run false && Host.LeapYear(employees.First().year);", [ANN, BOB]),
        ("run depts.Where(d => employees.Any(e => Host.LeapYear(e.year)) && Host.LeapYear(d.id)).Select(d => d.title);", [ANN, BOB, *DEPTS]),
        ("run depts.Where(d => false).DefaultIfEmpty().Select(d => Host.LeapYear(d.id));", DEPTS),
        ("run 1 / 0 == 1 && Host.LeapYear(depts.First().id);", DEPTS),
        ("run from e in employees group e by Host.LeapYear(e.year) into g select g.Count();", [ANN, BOB]),
    ]),
    # Named queries, variables and roles; rows that come and go. A number isn't given again.
    Known(DESK, [
        ("var q = employees.Where(e => Host.LeapYear(e.year)).Select(e => e.id);", []),
        ("run q;", [ANN, BOB]), ("run depts.Select(q => q.id);", []), ("var n = q.Count();", [ANN, BOB]), ("n = n + q.First();", [ANN, BOB]),
        ("run n;", []), ("as eve;", []), ("run q;", []), ("as nobody;", []), ("as root;", []), ("run q;", [ANN, BOB, CYD, DAN]),
        ('insert employees (5, "eli", 10, null, 100, 2004);', []), ("as dan;", []),
        ("run q;", [ANN, BOB, "LeapYear employees 5 year 2004 true"]),
        ("delete employees e => Host.LeapYear(e.year) && e.id == 5;", [ANN, BOB, "LeapYear employees 5 year 2004 true"]),
        ('insert employees (5, "eli", 10, null, 100, 2004);', []), ("run q;", [ANN, BOB, "LeapYear employees 6 year 2004 true"]),
    ]),
    # Refused and denied statements.
    Known(DESK, [
        ("run employees.Where(e => Host.LeapYear(e.year)).Select(e => e.salary);", []),
        ("run employees.Where(e => Host.LeapYear(e.year);", []), ("run employees.Where(e => Host.LeapYear(e.name));", []),
        ("var employees = employees.Any(e => Host.LeapYear(e.year));", []), ("n = employees.Any(e => Host.LeapYear(e.year));", []),
        ("delete depts d => Host.LeapYear(d.id);", []), ("delete employees e => Host.LeapYear(e.year) ? 1 : 2;", []), ("", []),
    ]),
]
# What a log has of the last of some lines, of which those before it have the calls that are given first.
WRONG = [
    ([LEAPING], [], [CYD]), ([LEAPING], [], [ANN, DAN]), ([LEAPING], [], ["LeapYear employees 1 year 2000 false"]),
    ([LEAPING], [], ["LeapYear employees 1 year 2004 true"]), ([LEAPING], [], ["LeapYear employees 2 year 2000 true"]),
    ([LEAPING], [], ["LeapYear employees 1 id 1 false"]), ([LEAPING], [], ["LeapYear depts 1 id 10 false"]), ([LEAPING], [], [*UNDER, ANN]),
    ([LEAPING], [], [ANN + " "]), ([LEAPING], [], [""]), ([LEAPING], [], [ANN.lower()]),
    ([LEAPING, "run employees.Count();"], [ANN], [ANN]), ([LEAPING, "as eve;", LEAPING], [ANN], [BOB]),
    ([LEAPING, "run employees.Where(e => Host.LeapYear(e.year)).Select(e => e.salary);"], [], [ANN]),
    (["var q = employees.Where(e => Host.LeapYear(e.year));"], [], [ANN]),
    (["delete employees e => Host.LeapYear(e.year);", LEAPING], [ANN], [ANN]),
    (['insert employees (5, "eli", 10, null, 100, 2004);'], [], ["LeapYear employees 5 year 2004 true"]),
]


def misread_calls():
    """The lines whose calls this reading says otherwise."""
    misread = []
    for known in KNOWN:
        session = known.session()
        misread += [line for line, calls in known.pairs if step_of(session, line).allowed != set(calls)]
    return misread


def steps_of(lines):
    session = Known(DESK, []).session()
    return [step_of(session, line) for line in lines]


def misjudged_logs():
    """The lines of logs that are found good, or wrong, and aren't."""
    found = []
    for lines, before, wrong in WRONG:
        steps = steps_of(lines)
        logs = [before] * (len(lines) - 1)
        if faults_of(steps, [*logs, before]) or not faults_of(steps, [*logs, before + wrong]):
            found.append(lines[-1])
    turned = faults_of(steps_of([LEAPING, LEAPING]), [[ANN, BOB], [BOB, ANN, BOB]])
    return found if turned else [*found, LEAPING]
