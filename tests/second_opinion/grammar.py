"""The tree of a statement. Each line of the grammar is one function of that name, which reads its tokens from left to right."""

import sys
from dataclasses import dataclass

from lexer import LARGEST_INT, SyntaxFault

# 64 brackets, each of which takes some twenty calls here, and chains of 255 signs; Python stops at 1,000 calls by itself.
sys.setrecursionlimit(5_000)


@dataclass(frozen=True)
class Tree:
    """A form of the grammar, named by its sign or its first word, and its parts: trees, names and values."""

    kind: str
    parts: tuple = ()


class Tokens:
    """The tokens of a line, and how many of them were read."""

    def __init__(self, tokens):
        self.tokens = tokens
        self.place = 0

    def next_is(self, *kinds):
        return self.place < len(self.tokens) and self.tokens[self.place].kind in kinds

    def next_are(self, first, second):
        """Whether the next token is of one kind and the one after it of the other."""
        return [token.kind for token in self.tokens[self.place:self.place + 2]] == [first, second]

    def take(self, *kinds):
        """Reads the next token, which has to be of one of these kinds."""
        if not self.next_is(*kinds):
            raise SyntaxFault(f"token {self.place + 1} is none of {kinds}")
        self.place += 1
        return self.tokens[self.place - 1]

    def skip(self, *kinds):
        """Reads the next token where it is of one of these kinds, and returns whether it was."""
        if not self.next_is(*kinds):
            return False
        self.place += 1
        return True


def whole(tokens, part):
    """The tree of a part that all the tokens spell."""
    reader = Tokens(tokens)
    tree = part(reader)
    if reader.place < len(tokens):
        raise SyntaxFault("tokens behind it")
    return tree


def parse(tokens):
    """The statement that all tokens of a line spell."""
    return whole(tokens, statement)


def parse_condition(tokens):
    """The expression that all tokens of a rule spell."""
    return whole(tokens, expression)


def listed(reader, part):
    """part {"," part}"""
    parts = [part(reader)]
    while reader.skip(","):
        parts.append(part(reader))
    return tuple(parts)


def statement(reader):
    """statement = "run" top ";" | "var" name "=" top ";" | name "=" top ";" | "as" name ";"
    | "insert" name "(" cell {"," cell} ")" ";" | "delete" name name "=>" expression ";"

    The tree's parts are the names in front, and what follows them. An assignment's kind is "=".
    """
    first = reader.take("run", "var", "name", "as", "insert", "delete")
    kind = "=" if first.kind == "name" else first.kind
    parts = [] if kind == "run" else [first.value if kind == "=" else reader.take("name").value]
    if kind in ("var", "="):
        reader.take("=")
    if kind == "insert":
        reader.take("(")
        parts += listed(reader, cell)
        reader.take(")")
    elif kind == "delete":
        parts.append(reader.take("name").value)
        reader.take("=>")
        parts.append(expression(reader))
    elif kind != "as":
        parts.append(top(reader))
    reader.take(";")
    return Tree(kind, tuple(parts))


def cell(reader):
    """cell = ["-"] integer | "-" least | text | "true" | "false" | "null"

    The tree is a literal's; that of a number has its sign.
    """
    if reader.skip("-"):
        token = reader.take("integer", "least")
        return Tree("integer", (-(LARGEST_INT + 1) if token.kind == "least" else -token.value,))
    token = reader.take("integer", "text", "true", "false", "null")
    return Tree(token.kind, (token.value,))


def top(reader):
    """top = query | expression"""
    return query(reader) if reader.next_is("from") else expression(reader)


def expression(reader):
    """expression = coalescing ["?" expression ":" expression]"""
    tree = coalescing(reader)
    if not reader.skip("?"):
        return tree
    true = expression(reader)
    reader.take(":")
    return Tree("?", (tree, true, expression(reader)))


def coalescing(reader):
    """coalescing = disjunction ["??" coalescing]"""
    tree = disjunction(reader)
    return Tree("??", (tree, coalescing(reader))) if reader.skip("??") else tree


def repeated(*signs):
    """What reads part {sign part}; the operators associate to the left."""

    def read(reader, part):
        tree = part(reader)
        while reader.next_is(*signs):
            sign = reader.take(*signs).kind
            tree = Tree(sign, (tree, part(reader)))
        return tree

    return read


DISJUNCTION, CONJUNCTION, EQUALITY = repeated("||"), repeated("&&"), repeated("==", "!=")
RELATION, SUM, PRODUCT = repeated("<", ">", "<=", ">="), repeated("+", "-"), repeated("*", "/", "%")


def disjunction(reader):
    """disjunction = conjunction {"||" conjunction}"""
    return DISJUNCTION(reader, conjunction)


def conjunction(reader):
    """conjunction = equality {"&&" equality}"""
    return CONJUNCTION(reader, equality)


def equality(reader):
    """equality = relation {("==" | "!=") relation}"""
    return EQUALITY(reader, relation)


def relation(reader):
    """relation = sum {("<" | ">" | "<=" | ">=") sum}"""
    return RELATION(reader, sum_)


def sum_(reader):
    """sum = product {("+" | "-") product}"""
    return SUM(reader, product)


def product(reader):
    """product = unary {("*" | "/" | "%") unary}"""
    return PRODUCT(reader, unary)


def unary(reader):
    """unary = primary | "-" least | ("!" | "-") unary

    ECMA-334, unary minus: after a minus sign the size of the least int is one literal with it.
    """
    if reader.next_are("-", "least"):
        reader.take("-")
        reader.take("least")
        return Tree("integer", (-LARGEST_INT - 1,))
    if reader.next_is("!", "-"):
        return Tree("unary " + reader.take("!", "-").kind, (unary(reader),))
    return primary(reader)


def primary(reader):
    """primary = operand {"." name ["(" [argument {"," argument}] ")"]}"""
    tree = operand(reader)
    while reader.skip("."):
        tree = Tree(".", (tree, reader.take("name").value))
        if reader.skip("("):
            arguments = () if reader.next_is(")") else listed(reader, argument)
            reader.take(")")
            tree = Tree("call", (tree, arguments))
    return tree


def operand(reader):
    """operand = integer | text | "true" | "false" | "null" | name | "(" top ")" | predicate | record
    where predicate and record mean the two lines of the grammar that start with "Host" and "new"

    Parentheses leave no trace in the tree.
    """
    token = reader.take("integer", "text", "true", "false", "null", "name", "(", "Host", "new")
    if token.kind == "(":
        tree = top(reader)
        reader.take(")")
        return tree
    if token.kind == "Host":
        return predicate(reader)
    if token.kind == "new":
        return record(reader)
    return Tree(token.kind, (token.value,))


def predicate(reader):
    """predicate = "Host" "." name "(" expression ["," expression] ")" """
    reader.take(".")
    name = reader.take("name").value
    reader.take("(")
    arguments = [expression(reader)]
    if reader.skip(","):
        arguments.append(expression(reader))
    reader.take(")")
    return Tree("Host", (name, *arguments))


def record(reader):
    """record = "new" "{" [member {"," member} [","]] "}" """
    members = []
    reader.take("{")
    while not reader.next_is("}"):
        members.append(member(reader))
        if not reader.skip(","):
            break
    reader.take("}")
    return Tree("new", tuple(members))


def member(reader):
    """member = name "=" expression | name | primary "." name

    A member without a name of its own is recognized by its tokens: parentheses leave no trace, but `(a)` isn't a member.
    """
    if reader.next_are("name", "="):
        name = reader.take("name").value
        reader.take("=")
        return Tree("member", (name, expression(reader)))
    first = reader.place
    tree = primary(reader)
    kinds = [token.kind for token in reader.tokens[first:reader.place]]
    if kinds != ["name"] and kinds[-2:] != [".", "name"]:
        raise SyntaxFault("a member without a name")
    return Tree("member", (reader.tokens[reader.place - 1].value, tree))


def argument(reader):
    """argument = expression | name "=>" expression"""
    if not reader.next_are("name", "=>"):
        return expression(reader)
    name = reader.take("name").value
    reader.take("=>")
    return Tree("=>", (name, expression(reader)))


def query(reader):
    """query = "from" name "in" expression body

    ECMA-334, query expressions: a query starts with a from clause and ends with a select or group clause.
    """
    clauses, end, rest = body(reader, [clause(reader)])
    return Tree("query", (clauses, end, rest))


def body(reader, clauses):
    """body = {clause} ("select" expression | "group" expression "by" expression) ["into" name body]"""
    while not reader.next_is("select", "group"):
        clauses.append(clause(reader))
    kind = reader.take("select", "group").kind
    parts = [expression(reader)]
    if kind == "group":
        reader.take("by")
        parts.append(expression(reader))
    rest = (reader.take("name").value, body(reader, [])) if reader.skip("into") else None
    return clauses, Tree(kind, tuple(parts)), rest


def clause(reader):
    """clause = "from" name "in" expression | "let" name "=" expression | "where" expression
    | "join" name "in" expression "on" expression "equals" expression ["into" name] | "orderby" key {"," key}"""
    kind = reader.take("from", "let", "where", "join", "orderby").kind
    if kind == "where":
        return Tree(kind, (expression(reader),))
    if kind == "orderby":
        return Tree(kind, listed(reader, key))
    parts = [reader.take("name").value]
    words = {"from": ["in"], "let": ["="], "join": ["in", "on", "equals"]}[kind]
    for word in words:
        reader.take(word)
        parts.append(expression(reader))
    if kind == "join" and reader.skip("into"):
        parts.append(reader.take("name").value)
    return Tree(kind, tuple(parts))


def key(reader):
    """key = expression ["ascending" | "descending"]"""
    tree = expression(reader)
    if reader.skip("descending"):
        return Tree("descending", (tree,))
    reader.skip("ascending")
    return Tree("ascending", (tree,))
