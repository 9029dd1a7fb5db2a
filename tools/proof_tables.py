"""From a proof in a Metamath database to document 01's table.

Entries: each distinct subtree of the proof is ONE entry, in order of first completion, so QED is the last entry. This is what
the Rust's ProofTreeArray holds after reading the proof, less its entries for hypotheses that no step uses. Which subtrees the
database's own proof shares makes no difference, so a normal and a compressed proof of one tree give one table.

Statements: those that steps use, the theorem, and the mandatory hypotheses of all these, in database order. The `$f` of a dummy
variable is a floating statement outside the theorem's list.
"""
import re
import struct

CODE = re.compile(rb'[U-Y]*[A-T]Z?')

LIMITS = (('s', 4096), ('h', 65535), ('n', 8192), ('c', 65535))
LONGEST_LABEL = 255


class ProofFault(Exception):
    """The proof cannot be read."""


class IncompleteProof(Exception):
    """The proof has a `?` step."""


class OverLimit(Exception):
    """The table would pass limits of document 01; `names` are those limits."""

    def __init__(self, names, message):
        super().__init__(message)
        self.names = names


class CodeNumbers(dict):
    """Code with or without `Z` -> (its number, is it marked). Filled as codes are met: databases repeat a few thousand."""

    def __missing__(self, code):
        letters = code.rstrip(b'Z')
        leading = 0
        for letter in letters[:-1]:
            leading = 5 * leading + letter - ord('U') + 1
        self[code] = answer = (20 * leading + letters[-1] - ord('A'), letters != code)
        return answer


CODE_NUMBERS = CodeNumbers()


class TreeStack:
    """The stack of a proof that is being read, over its distinct subtrees. A tree is a tuple: the statement's number, then the
    entry numbers of its children."""

    def __init__(self, statements):
        self.statements = statements
        self.trees = []
        self.entry_of = {}
        self.stack = []

    def apply(self, number):
        """The step of the statement with this number."""
        stack = self.stack
        count = len(self.statements[number].hypotheses)
        if count > len(stack):
            raise ProofFault('too few items on the stack for %s' % self.statements[number].label.decode())
        base = len(stack) - count
        tree = (number, *stack[base:])
        del stack[base:]
        entry = self.entry_of.setdefault(tree, len(self.trees))
        if entry == len(self.trees):
            self.trees.append(tree)
        stack.append(entry)


def statement_number(database, label):
    statement = database.by_label.get(label)
    if statement is None:
        raise ProofFault('no statement is called %s' % label.decode('ascii', 'replace'))
    return statement.number


def read_compressed(database, theorem, words, reading):
    if b')' not in words:
        raise ProofFault('no ) after the label list')
    close = words.index(b')')
    named = [*theorem.hypotheses, *(statement_number(database, label) for label in words[1:close])]
    letters = b''.join(words[close + 1:])
    codes = CODE.findall(letters)
    if sum(map(len, codes)) != len(letters):
        raise ProofFault('malformed letters')
    marked = []
    for code in codes:
        number, is_marked = CODE_NUMBERS[code]
        if number < len(named):
            reading.apply(named[number])
        elif number - len(named) < len(marked):
            reading.stack.append(marked[number - len(named)])
        else:
            raise ProofFault('the letters %s name nothing yet' % code.decode())
        if is_marked:
            marked.append(reading.stack[-1])


def test_order(database, number, names):
    """An explicit proof may name the hypotheses in another order than the database's; such a proof is not read."""
    for name, hypothesis in zip(names, database.statements[number].hypotheses):
        if name and name != database.statements[hypothesis].label:
            label = database.statements[number].label.decode()
            raise ProofFault('the hypotheses of %s are named out of database order' % label)


def read_words(database, words, reading):
    """A normal or packed proof, explicit or not: words `label`, `name:label`, `name`, each label or name after an optional
    `hypothesis=`."""
    marked = {}
    hypothesis_names = []       # for each item of the stack the hypothesis that its word names, or nothing
    for word in words:
        mark, colon, step = word.rpartition(b':')
        hypothesis_name, _, name = step.rpartition(b'=')
        if name in marked and name not in database.by_label:
            reading.stack.append(marked[name])
        else:
            number = statement_number(database, name)
            reading.apply(number)
            base = len(reading.stack) - 1
            test_order(database, number, hypothesis_names[base:])
            del hypothesis_names[base:]
        hypothesis_names.append(hypothesis_name)
        if colon:
            marked[mark] = reading.stack[-1]


def trees_of(database, theorem):
    """The distinct subtrees of the theorem's proof, in order of first completion."""
    words = database.proof_words(theorem)
    if any(b'?' in word for word in words):
        raise IncompleteProof('the proof has a ? step')
    reading = TreeStack(database.statements)
    if words[:1] == [b'(']:
        read_compressed(database, theorem, words, reading)
    else:
        read_words(database, words, reading)
    if len(reading.stack) != 1:
        raise ProofFault('%d items on the stack at the end' % len(reading.stack))
    return reading.trees


def listed_statements(database, theorem, trees):
    """Numbers of the table's statements in the database, in database order."""
    statements = database.statements
    numbers = {tree[0] for tree in trees}
    numbers.add(theorem.number)
    for number in list(numbers):
        numbers.update(statements[number].hypotheses)
    return sorted(numbers)


def test_limits(counts, statements):
    over = [(name, count, limit) for (name, limit), count in zip(LIMITS, counts) if count > limit]
    longest = max(len(statement.label) for statement in statements)
    if longest > LONGEST_LABEL:
        over.append(('label', longest, LONGEST_LABEL))
    if over:
        message = ', '.join('%s = %d over %d' % item for item in over)
        raise OverLimit([name for name, _, _ in over], message)


def section(records):
    """Words of records that each end in a list: (words before the list's start and length, list). Then all lists in one."""
    words, contents = [], []
    for before, items in records:
        words += before
        words += (len(contents), len(items))
        contents += items
    return words, contents


def table_of(database, theorem, trees):
    """The table as (words, label bytes)."""
    numbers = listed_statements(database, theorem, trees)
    statements = [database.statements[number] for number in numbers]
    place = {number: index for index, number in enumerate(numbers)}
    counts = (len(statements), sum(len(statement.hypotheses) for statement in statements),
              len(trees), sum(len(tree) - 1 for tree in trees))
    test_limits(counts, statements)
    records, label_start = [], 0
    for statement in statements:
        records.append(((statement.kind, label_start, len(statement.label)), [place[x] for x in statement.hypotheses]))
        label_start += len(statement.label)
    statement_words, hypotheses = section(records)
    entry_words, children = section(((place[tree[0]],), tree[1:]) for tree in trees)
    offsets, at = [], 10
    for part in (statement_words, hypotheses, entry_words, children):
        offsets.append(at)
        at += len(part)
    header = [*counts, *offsets, place[theorem.number], len(trees) - 1]
    words = header + statement_words + hypotheses + entry_words + children
    return words, b''.join(statement.label for statement in statements)


def table_file(words, labels):
    """The bytes of a table file: a count of words, the words, all u32 little-endian, then the label bytes to the end."""
    return struct.pack('<%dI' % (len(words) + 1), len(words), *words) + labels


def read_table_file(content):
    """(words, label bytes) of a table file."""
    count, = struct.unpack_from('<I', content)
    return struct.unpack_from('<%dI' % count, content, 4), content[4 + 4 * count:]
