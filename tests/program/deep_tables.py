"""deep_tables.py FOLDER: the deepest tables that document 01 allows, as table files.

Each entry is the parent of the one before it: deep-1.table once, deep-8.table eight times, so that it has 65,512 child references.
Both have 4,096 statements, whose labels have 64 bytes.
"""
import os
import sys

sys.path.insert(0, os.path.join(os.path.dirname(os.path.abspath(__file__)), '..', '..', 'tools'))
from proof_tables import section, table_file  # noqa: E402

STATEMENTS, LABEL_LENGTH = 4096, 64


def deep_table(entries, children):
    """Statements: `children` floating ones, the assertion that all of them are hypotheses of, then assertions with none."""
    records = []
    for number in range(STATEMENTS):
        kind = 1 if number < children else 0
        hypotheses = range(children) if number == children else ()
        records.append(((kind, LABEL_LENGTH * number, LABEL_LENGTH), hypotheses))
    statement_words, hypotheses = section(records)
    entry_words, child_words = section(((0,), ()) if entry == 0 else ((children,), [entry - 1] * children) for entry in range(entries))
    offsets, at = [], 10
    for part in (statement_words, hypotheses, entry_words, child_words):
        offsets.append(at)
        at += len(part)
    header = [STATEMENTS, len(hypotheses), entries, len(child_words), *offsets, children, entries - 1]
    labels = b''.join(b'%0*d' % (LABEL_LENGTH, number) for number in range(STATEMENTS))
    return table_file(header + statement_words + hypotheses + entry_words + child_words, labels)


for children, entries in ((1, 8192), (8, 8190)):
    with open(os.path.join(sys.argv[1], 'deep-%d.table' % children), 'wb') as file:
        file.write(deep_table(entries, children))
