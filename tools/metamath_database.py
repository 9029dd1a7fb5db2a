"""Reads a Metamath database (.mm): its labelled statements in database order, their mandatory hypotheses, and the place of
each proof. One pass over the file; proofs are not read here, only their places are kept.

This is a reader and no verifier: it trusts what a verifier has checked (declarations, disjointness, proofs) and reports only
what it cannot read. `$c`, `$v` and `$d` are passed over: a symbol is a variable where a `$f` for it is active.
"""
import re

# Document 01's kinds of statement.
ASSERTION, FLOATING, ESSENTIAL = 0, 1, 2
KIND_OF_KEYWORD = {b'a': ASSERTION, b'p': ASSERTION, b'f': FLOATING, b'e': ESSENTIAL}

COMMENT = re.compile(rb'\$\(.*?\$\)', re.DOTALL)
# No symbol and no label has a `$` in it, so outside comments every `$` begins a keyword.
ITEM = re.compile(rb'''\s*+(?:
    (?P<brace>\$[{}])
  | \$[cvd]\s[^$]*\$\.
  | (?P<label>[A-Za-z0-9._-]+)\s+\$(?P<keyword>[feap])\s(?P<symbols>[^$]*)(?:\$=(?P<proof>[^$]*))?\$\.
  )(?!\S)''', re.VERBOSE)


class DatabaseFault(Exception):
    """The file cannot be read as a database."""


class Statement:
    """A labelled statement. `number` is its place in database order, `hypotheses` the numbers of its mandatory hypotheses in
    that order, `proof` where the bytes between `$=` and `$.` start and end (None where it has none)."""
    __slots__ = ('number', 'kind', 'label', 'hypotheses', 'proof')

    def __init__(self, number, kind, label, hypotheses, proof):
        self.number = number
        self.kind = kind
        self.label = label
        self.hypotheses = hypotheses
        self.proof = proof


class Database:
    """`text` is the file with every comment turned into as many blanks, so that places in it are places in the file."""

    def __init__(self, text):
        self.text = text
        self.statements = []
        self.by_label = {}

    def add(self, kind, label, hypotheses, proof):
        if label in self.by_label:
            raise DatabaseFault('label %s stands twice' % label.decode())
        statement = Statement(len(self.statements), kind, label, hypotheses, proof)
        self.statements.append(statement)
        self.by_label[label] = statement
        return statement

    def theorems(self):
        return [statement for statement in self.statements if statement.proof]

    def proof_words(self, theorem):
        start, end = theorem.proof
        return self.text[start:end].split()


class Scope:
    """What is active at a place of the database."""

    def __init__(self):
        self.floating_of = {}       # variable -> number of its active `$f`
        self.variables = []         # those variables, in order of declaration
        self.essentials = []        # (number of an active `$e`, numbers of the `$f` of its variables)
        self.blocks = []            # what was active where each open block began

    def open_block(self):
        self.blocks.append((len(self.variables), len(self.essentials)))

    def close_block(self):
        if not self.blocks:
            raise DatabaseFault('$} without ${')
        variables, essentials = self.blocks.pop()
        for variable in self.variables[variables:]:
            del self.floating_of[variable]
        del self.variables[variables:]
        del self.essentials[essentials:]

    def add_floating(self, number, symbols):
        if len(symbols) != 2 or symbols[1] in self.floating_of:
            raise DatabaseFault('$f must be a type and a variable that has no active $f')
        self.floating_of[symbols[1]] = number
        self.variables.append(symbols[1])

    def add_essential(self, number, symbols):
        self.essentials.append((number, self.floatings_in(symbols)))

    def floatings_in(self, symbols):
        return {self.floating_of[symbol] for symbol in symbols if symbol in self.floating_of}

    def mandatory(self, symbols):
        """The active `$e` and the `$f` of every variable in them or in `symbols`, in database order."""
        numbers = self.floatings_in(symbols)
        for essential, floatings in self.essentials:
            numbers.add(essential)
            numbers |= floatings
        return tuple(sorted(numbers))


def blank_comments(data):
    """Comments may stand anywhere between words, also inside a statement or a proof."""
    text = COMMENT.sub(lambda comment: b' ' * len(comment.group()), data)
    at = text.find(b'$(')
    if at >= 0:
        raise DatabaseFault('line %d: comment without end' % line_of(data, at))
    return text


def line_of(data, at):
    return data.count(b'\n', 0, at) + 1


def read_item(database, scope, item):
    """One brace or statement."""
    brace, keyword = item['brace'], item['keyword']
    if brace == b'${':
        scope.open_block()
    elif brace == b'$}':
        scope.close_block()
    elif keyword:
        if (item['proof'] is not None) != (keyword == b'p'):
            raise DatabaseFault('$p must have a proof, and only $p')
        read_statement(database, scope, item)


def read_statement(database, scope, item):
    kind = KIND_OF_KEYWORD[item['keyword']]
    symbols = item['symbols'].split()
    hypotheses = scope.mandatory(symbols) if kind == ASSERTION else ()
    proof = item.span('proof') if item['keyword'] == b'p' else None
    statement = database.add(kind, item['label'], hypotheses, proof)
    if kind == FLOATING:
        scope.add_floating(statement.number, symbols)
    elif kind == ESSENTIAL:
        scope.add_essential(statement.number, symbols)


def read_database(data):
    """The database in these bytes; a DatabaseFault names the line that cannot be read."""
    database, scope, at = Database(blank_comments(data)), Scope(), 0
    text = database.text
    while item := ITEM.match(text, at):
        try:
            read_item(database, scope, item)
        except DatabaseFault as fault:
            raise DatabaseFault('line %d: %s' % (line_of(data, item.end()), fault)) from None
        at = item.end()
    rest = text[at:].split(None, 1)
    if rest:
        line = line_of(data, text.index(rest[0], at))
        reason = 'included files are not read' if rest[0] == b'$[' else 'no statement can be read here'
        raise DatabaseFault('line %d: %s' % (line, reason))
    if scope.blocks:
        raise DatabaseFault('at the end: ${ without $}')
    return database
