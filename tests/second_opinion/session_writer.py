"""What writes scripts of sessions by chance: it keeps the session that its lines make by this reading. So it knows what names mean,
and may try a line before it is written, to meet replies that chance hardly gives.

`dice` is a random.Random. A line is the list of its tokens' spellings until the end.
"""

from itertools import islice

from grammar import Tree
from meaning import value_of
from predicates import WITHOUT_LIST
from queries import PRIMARY, Part, Scope
from scalar_meaning import Fault
from scopes import row_of, typed
from sessions import Session
from statements import spell

NAMES = ["n", "m", "q", "p", "x", "e", "v", "a", "id", "k", "Count", "é", "items", "Key", "w", "r", "h", "_"]
# A named query of more items isn't written: queries of it would take long.
MOST_ITEMS = 20
TRIES = 10


def node_of(session, name):
    """What the session means by a name."""
    return typed(Tree("name", (name,)), session.scope())


def is_large(session, name):
    try:
        return len(list(islice(value_of(node_of(session, name), {}), MOST_ITEMS + 1))) > MOST_ITEMS
    except Fault:
        return False


class Writer:
    """A script's lines so far, and the session after them. `scope_of` makes the scopes that expressions are written in."""

    def __init__(self, dice, tables, policies, user, predicates=WITHOUT_LIST, scope_of=Scope):
        self.dice = dice
        self.scope_of = scope_of
        self.session = Session(tables, policies, user, predicates)
        self.lines = []
        # Of each variable and each named query its type, and of each query the names in its line.
        self.given = {}
        self.names_in = {}

    def scope(self):
        return self.scope_of({}, self.session.tables, self.given)

    def variables(self):
        return list(self.session.variables)

    def queries(self):
        return [Part(PRIMARY, [name], self.given[name]) for name in self.session.queries]

    def table(self):
        """The name of a table, and the type of its rows."""
        name = self.dice.choice(list(self.session.tables))
        return name, row_of(name, self.session.tables[name])

    def free_name(self):
        """A name that nothing has; now and then one in use."""
        if self.given and self.dice.random() < 0.04:
            return self.dice.choice([*self.given, *self.session.tables])
        free = [name for name in NAMES if name not in self.given and name not in self.session.tables]
        return self.dice.choice(free) if free else "s" * len(self.given)

    def tried(self, words):
        """What the line would be answered now; None where it would leave a named query of too many items."""
        session = self.session.copied()
        reply = session.replied(" ".join(words))
        return None if reply.get("defined") in session.queries and is_large(session, words[1]) else reply

    def wanted(self, make, fits, tries=TRIES):
        """One of a few lines, the reply to which fits; else another of them. It isn't written here."""
        left = ["run", "1", ";"]
        for _ in range(tries):
            words = make(self)
            reply = self.tried(words)
            if reply is not None and fits(self, reply):
                return words
            left = words if reply is not None else left
        return left

    def write(self, words):
        line = spell(self.dice, words).replace("\n", " ")
        self.lines.append(line)
        reply = self.session.replied(line)
        name = reply.get("defined")
        if name is not None:
            self.given[name] = node_of(self.session, name).type
            self.names_in[name] = [word for word in words[3:] if word in self.given or word in self.session.tables]
        return reply

    def read_by(self, name):
        """The variables, queries and tables that a named query reads, itself or by others."""
        found, left = [], [name]
        while left:
            more = [word for word in self.names_in.get(left.pop(), ()) if word not in found]
            found += dict.fromkeys(more)
            left += more
        return found
