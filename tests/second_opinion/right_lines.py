"""Lines by chance in which several columns are used in one clause, so that it shows which of them comes first.

`dice` is a random.Random. In a form T and U are tables, x is a row of T, and y and z are rows of U; `x?` is a column of x, `x=` a
condition on some, AND a sign, M the next of some members' names in any order, and a word with bars means one of its parts.
"""

from statements import spell

FORMS = """
    from x in T where x= AND x= select x?
    from x in T where ! ( x= ) where x= select x
    from x in T orderby x? , x? descending|ascending select x?|x
    from x in T let v = x? from y in U where y= select new { M = v , M = y }
    from x in T group x? by x?
    from x in T group new { M = x? , M = x? } by new { M = x? , M = x? } into g select g|g.Key
    from x in T group x by x? into g select new { M = g.Count() , M = g.First() }
    from x in T join y in U on x= equals y= select x?|y?|x|y
    from x in T join y in U . Where ( z => z= ) on x= equals y= into g select new { M = x? , M = g }
    from x in T join y in U on new { a = x= , b = x= } equals new { a = y= , b = y= } where y= select x?
    from x in T select new { M = x? , M = x? } into r from y in U where y= select r
    new { M = T.First() , M = U.Last() }
    new { M = U , M = new { M = T.First() , M = U.First().HERE } }
    T . Select ( x => new { M = x? , M = U , M = x } )
    T . Select ( x => new { M = U . Where ( y => y= ) , M = x } )
    T . Select ( x => U . Where ( y => x= && y= ) . Select ( y => y? ) )
    T . Where ( x => x= ) . Take ( U . Count ( y => y= ) ) . Select ( x => x? )
    T . Count ( x => true|false AND x= )
    T . Any ( x => x= ? true|false : x= )
    T . Take ( true|false ? 1 : U . Count ( y => y= ) ) . Any ( x => x= )
    T . All ( x => U . Any ( y => y= ) == x= )
""".strip().split("\n")
MEMBERS = ["z", "y1", "m", "c1", "a", "B"]


def column(dice, row, table):
    return f"{row} . {dice.choice(list(table.columns))}"


def condition(dice, row, table):
    """Two columns of one type that are the same or not."""
    first = dice.choice(list(table.columns))
    alike = [name for name, its_type in table.columns.items() if its_type == table.columns[first]]
    return f"( {row} . {first} {dice.choice(['==', '!='])} {row} . {dice.choice(alike)} )"


def word_of(dice, word, names, tables, members):
    """What is put for a form's word."""
    table = tables[names["T" if word[0] == "x" else "U"]]
    if word in ("T", "U"):
        return names[word]
    if word[0] in "xyz" and word[1:] in ("?", "="):
        return {"?": column, "=": condition}[word[1:]](dice, word[0], table)
    if word.startswith(("T.", "U.")):
        inside = names[word[0]] + word[1:]
        return inside.replace("HERE", dice.choice(list(tables[names["U"]].columns)))
    return {"M": members[-1], "AND": dice.choice(["&&", "||"])}.get(word, word)


def line(dice, tables):
    """A line of one of the forms; now and then its two tables are one."""
    names = dict(zip("TU", dice.choices(list(tables), k=2)))
    members = dice.sample(MEMBERS, len(MEMBERS))
    words = []
    for word in dice.choice(FORMS).split():
        words += word_of(dice, dice.choice(word.split("|")), names, tables, members).split()
        members = members[:-1] if word == "M" else members
    return spell(dice, ["run", *words, ";"])
