"""Tables for tests/bench: `bench_tables.py KIND STATEMENTS ENTRIES` writes a table file to standard output, the same each time.

random  Entries use statements with up to four hypotheses; children are drawn from the fifty entries before their parent, so that many
        are shared, and most are not reached from QED. The normal list stays under a million steps.
chain   Every entry but the leaves has the one before it as first child and a leaf or an earlier entry as second: all are reached, and
        the walk is as deep as the table is long. The normal list is mostly too long.
spine   All entries are reached and the normal list has just under a million steps: a spine each of whose entries has one of a row of
        trees of growing size as second child.
late    The same, with most entries in a chain that is listed first, so that the trees stand late among the entries.
example Document 01's table E, which has 8 statements and 5 entries."""
import os
import random
import struct
import sys


def encode(statements, entries, theorem, qed):
    """The words and label bytes of document 01. statements: (kind, label, hypotheses); entries: (statement, children)."""
    s, n = len(statements), len(entries)
    h, c = sum(len(x[2]) for x in statements), sum(len(x[1]) for x in entries)
    words = [s, h, n, c, 10, 10 + 5 * s, 10 + 5 * s + h, 10 + 5 * s + h + 3 * n, theorem, qed]
    labels, hyps = b"", 0
    for kind, label, hypotheses in statements:
        words += [kind, len(labels), len(label), hyps, len(hypotheses)]
        labels += label.encode()
        hyps += len(hypotheses)
    for _, _, hypotheses in statements:
        words += hypotheses
    first = 0
    for statement, children in entries:
        words += [statement, first, len(children)]
        first += len(children)
    for _, children in entries:
        words += children
    return words, labels


def label(draw, taken):
    while True:
        text = "".join(draw.choice("abcdefghijklmnopqrstuvwxyz0123456789.-_") for _ in range(draw.randint(2, 12)))
        if text not in taken:
            taken.add(text)
            return text


def statements_of(draw, s, most):
    taken, floating, essential = set(), max(2, s // 8), max(1, s // 16)
    made = [(1, label(draw, taken), []) for _ in range(floating)] + [(2, label(draw, taken), []) for _ in range(essential)]
    while len(made) < s:
        made.append((0, label(draw, taken), sorted(draw.sample(range(floating), min(draw.randint(0, most), floating)))))
    return made


def table(s, n, most, seed):
    draw = random.Random(seed)
    statements = statements_of(draw, s, most)
    assertions = [k for k in range(s) if statements[k][0] == 0]
    # no essential: the theorem has none, and the compressed form would be refused 11
    leaves = [k for k in range(s) if not statements[k][2] and statements[k][0] != 2]
    entries, sizes = [], []
    for e in range(n):
        statement = draw.choice(assertions if e > 3 else leaves)
        children = [draw.randint(max(0, e - 50), e - 1) for _ in statements[statement][2]] if e > 3 else []
        if sum(sizes[c] for c in children) > 800000:
            statement, children = draw.choice(leaves), []
        entries.append((statement, children))
        sizes.append(1 + sum(sizes[c] for c in children))
    qed = max(range(n), key=lambda e: sizes[e])
    theorem = next(k for k in reversed(range(s)) if statements[k][0] == 0)
    return encode(statements, entries, theorem, qed)


def binary(draw, s, leaves):
    """Leaves, the theorem, and statements with two hypotheses."""
    taken = set()
    made = [(1, label(draw, taken), []) for _ in range(leaves)] + [(0, label(draw, taken), list(range(leaves)))]
    return made + [(0, label(draw, taken), [0, 1]) for _ in range(s - leaves - 1)]


def chain(s, n, seed):
    draw, leaves = random.Random(seed), 5
    entries = [(k, []) for k in range(leaves)]
    while len(entries) < n:
        e = len(entries)
        second = draw.randrange(e) if draw.random() < 0.3 else draw.randrange(leaves)
        entries.append((draw.randrange(leaves + 1, s), [e - 1, second]))
    return encode(binary(draw, s, leaves), entries, leaves, n - 1)


def spine(s, n, block, seed, most=1000000):
    """The first `block` entries are a chain with leaves; then a row of trees; then the spine."""
    draw, leaves = random.Random(seed), 5
    entries, sizes = [(k, []) for k in range(leaves)], [1] * leaves

    def add(first, second):
        entries.append((draw.randrange(leaves + 1, s), [first, second]))
        sizes.append(1 + sizes[first] + sizes[second])
        return len(entries) - 1

    last = 0
    while len(entries) < block:
        last = add(last, draw.randrange(leaves))
    row, tree, step = [], 1, 1
    while sizes[tree] < 2 * most // (n - len(entries)):
        tree = add(tree, step)
        row.append(tree)
        if len(row) % 30 == 0:
            step = tree
    while len(entries) < n:
        left = n - len(entries)
        budget = most - sizes[last] - 2 * left
        within = [t for t in row if sizes[t] * left <= budget]
        last = add(last, draw.choice(within[-3:]) if within else draw.randrange(leaves))
    return encode(binary(draw, s, leaves), entries, leaves, n - 1)


if __name__ == "__main__":
    kind, s, n = sys.argv[1], int(sys.argv[2]), int(sys.argv[3])
    if kind == "example":
        with open(os.path.join(os.path.dirname(os.path.abspath(__file__)), "..", "examples", "e.table"), "rb") as file:
            sys.stdout.buffer.write(file.read())
        sys.exit()
    words, labels = {
        "random": lambda: table(s, n, 3, 1),
        "chain": lambda: chain(s, n, 7),
        "spine": lambda: spine(s, n, 0, 1),
        "late": lambda: spine(s, n, n - 400, 1),
    }[kind]()
    sys.stdout.buffer.write(struct.pack("<%dI" % (len(words) + 1), len(words), *words) + labels)
