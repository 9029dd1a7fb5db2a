#!/usr/bin/env python3
"""Tests of tools/mm2table and tools/table2mm on a small database. Run it as it is, or by `python3 -m unittest`."""
import io
import os
import subprocess
import sys
import tempfile
import unittest

HERE = os.path.dirname(os.path.abspath(__file__))
TOOLS = os.path.join(HERE, '..', '..', 'tools')
SMALL = os.path.join(HERE, 'small.mm')
sys.path.insert(0, TOOLS)
import packs                                                                    # noqa: E402
from metamath_database import DatabaseFault, read_database                      # noqa: E402
from proof_tables import CODE_NUMBERS, OverLimit, ProofFault, read_table_file   # noqa: E402
from proof_tables import table_of, trees_of                                     # noqa: E402

COMPLETE = ['id', 'id.compressed', 'id.packed', 'syl', 'dummy', 'late', 'again', 'same']
DECLARATIONS = b'$c T s |- $. $v x $. tx $f T x $. ts $a T s x $. '


def read(path):
    with open(path, 'rb') as file:
        return file.read()


def expected_tables():
    """Theorem -> (words, label bytes) as stored."""
    tables, words = {}, None
    with open(os.path.join(HERE, 'expected.txt')) as file:
        for line in file:
            fields = line.partition('#')[0].split()
            if fields[:1] == ['theorem']:
                theorem = fields[1]
            elif fields[:1] == ['labels']:
                words = []
                tables[theorem] = (words, ''.join(fields[1:]).encode())
            elif fields:
                words += map(int, fields)
    return tables


def table(data, label):
    database = read_database(data)
    theorem = database.by_label[label.encode()]
    return table_of(database, theorem, trees_of(database, theorem))


def run(tool, *arguments):
    return subprocess.run([sys.executable, os.path.join(TOOLS, tool), *arguments], capture_output=True)


def essentials(count):
    return b''.join(b'e%d $e |- $. ' % number for number in range(count))


def wide_proof(rules):
    """A theorem under 4,000 essential hypotheses; each rule of its proof takes them all, and what the rule before it gave."""
    declared = b''.join(b'%s $a T x $. ' % rule for rule in sorted(set(rules)))
    hypotheses = b' '.join(b'e%d' % number for number in range(4000))
    steps = b''.join(b' %s %s' % (hypotheses, rule) for rule in rules)
    return DECLARATIONS + essentials(4000) + declared + b'th $p T x $= tx' + steps + b' $.'


class Tables(unittest.TestCase):
    def test_stored_tables(self):
        for theorem, stored in expected_tables().items():
            with self.subTest(theorem=theorem):
                self.assertEqual(table(read(SMALL), theorem), stored)

    def test_one_tree_gives_one_table_in_every_style(self):
        words, labels = table(read(SMALL), 'id')
        for theorem in ('id.compressed', 'id.packed'):
            other_words, other_labels = table(read(SMALL), theorem)
            length_of_last_label = 10 + 5 * 9 + 2
            other_words[length_of_last_label] = len('id')
            self.assertEqual(other_words, words)
            self.assertEqual(other_labels, labels[:-len('id')] + theorem.encode())

    def test_a_variable_of_two_blocks_has_two_hypotheses(self):
        self.assertEqual(table(read(SMALL), 'again')[1], b'wpidagain.sagain')

    def test_explicit_words(self):
        data = DECLARATIONS + b'th $p T s s x $= %s $.'
        plain = table(data % b'tx ts ts', 'th')
        self.assertEqual(table(data % b'tx=tx tx=ts th=ts', 'th'), plain)
        with self.assertRaises(ProofFault):
            table(data % b'ty=tx tx=ts th=ts', 'th')

    def test_codes(self):
        numbers = {b'A': 0, b'T': 19, b'UA': 20, b'YT': 119, b'UUA': 120}
        for code, number in numbers.items():
            self.assertEqual(CODE_NUMBERS[code], (number, False))
            self.assertEqual(CODE_NUMBERS[code + b'Z'], (number, True))


class Faults(unittest.TestCase):
    def limits_passed(self, data):
        with self.assertRaises(OverLimit) as caught:
            table(data, 'th')
        return caught.exception.names

    def test_limit_of_entries(self):
        data = DECLARATIONS + b'th $p T x $= tx %s $.'
        self.assertEqual(table(data % (8191 * b'ts '), 'th')[0][2], 8192)
        self.assertEqual(self.limits_passed(data % (8192 * b'ts ')), ['n'])

    def test_limit_of_labels(self):
        data = DECLARATIONS + b'%s $a T s x $. th $p T s x $= tx %s $.'
        self.assertEqual(len(table(data % (255 * b'a', 255 * b'a'), 'th')[1]), len('txth') + 255)
        self.assertEqual(self.limits_passed(data % (256 * b'a', 256 * b'a')), ['label'])

    def test_limit_of_statements(self):
        data = DECLARATIONS + essentials(4094) + b'th $p T x $= tx $.'
        self.assertEqual(table(data, 'th')[0][0], 4096)
        self.assertEqual(self.limits_passed(data.replace(b'th ', b'extra $e |- $. th ')), ['s'])

    def test_limits_of_references(self):
        """Rules with 4,001 hypotheses, used one upon the other: 16 rules and the theorem, then one rule 17 times."""
        many_rules = wide_proof([b'rule%d' % number for number in range(16)])
        self.assertEqual(self.limits_passed(many_rules), ['h'])
        self.assertEqual(self.limits_passed(wide_proof(17 * [b'rule0'])), ['c'])
        self.assertEqual(table(wide_proof(16 * [b'rule0']), 'th')[0][3], 16 * 4001)

    def test_faulty_proofs(self):
        for proof in (b'', b'ts', b'tx tx', b'unknown', b'( ts AB', b'( ts ) AC', b'( ts ) AU', b'( ts ) ZA', b'( ts ) A1',
                      b'( ts ) AZZ', b'( unknown ) A'):
            with self.subTest(proof=proof), self.assertRaises(ProofFault):
                table(DECLARATIONS + b'th $p T s x $= ' + proof + b' $.', 'th')

    def test_faulty_databases(self):
        for data in (b'$( no end', b'$[ other.mm $]', b'th $p T $.', b'ax $a T $= ? $.', b'$}', b'${', b'th $q T $.',
                     b'ax $a T $. ax $a T $.', b'tx $f T x y $.', b'ax $a T'):
            with self.subTest(data=data), self.assertRaises(DatabaseFault):
                read_database(DECLARATIONS + data)

    def test_the_fault_names_its_line(self):
        with self.assertRaisesRegex(DatabaseFault, '^line 3: '):
            read_database(b'$( one\n two $)\n th $p T $.')


class CommandMm2table(unittest.TestCase):
    def test_all_into_a_pack(self):
        with tempfile.TemporaryDirectory() as folder:
            pack = os.path.join(folder, 'all.pack')
            done = run('mm2table', SMALL, '--all', '--pack', pack)
            self.assertEqual(done.returncode, 0)
            self.assertEqual(done.stderr.splitlines(), [
                b'todo: left out: the proof has a ? step', b'todo.compressed: left out: the proof has a ? step',
                b'8 tables, 2 incomplete, 0 over a limit, 0 cannot be read'])
            records = list(packs.read_records(io.BytesIO(read(pack))))
        self.assertEqual([label.decode() for label, _ in records], COMPLETE)
        for label, content in records:
            words, labels = read_table_file(content)
            self.assertEqual((list(words), labels), table(read(SMALL), label.decode()))

    def test_chosen_theorems_into_a_folder(self):
        with tempfile.TemporaryDirectory() as folder:
            done = run('mm2table', SMALL, 'syl', 'same', '--out', folder)
            self.assertEqual((done.returncode, sorted(os.listdir(folder))), (0, ['same.table', 'syl.table']))
            content = read(os.path.join(folder, 'same.table'))
        words = b''.join(word.to_bytes(4, 'little') for word in [30, *expected_tables()['same'][0]])
        self.assertEqual(content, words + b'wpsame.1same')

    def test_proofs_that_are_left_out(self):
        with tempfile.TemporaryDirectory() as folder:
            path = os.path.join(folder, 'faulty.mm')
            with open(path, 'wb') as file:
                file.write(DECLARATIONS + b'short $p T s x $= ts $. good $p T x $= tx $. ')
                file.write(b'long $p T x $= tx %s $.' % (9000 * b'ts '))
            done = run('mm2table', path, '--all', '--out', folder)
            self.assertEqual(sorted(os.listdir(folder)), ['faulty.mm', 'good.table'])
        self.assertEqual(done.returncode, 1)
        self.assertEqual(done.stderr.splitlines(), [
            b'short: cannot be read: too few items on the stack for ts', b'long: left out: n = 9001 over 8192',
            b'1 tables, 0 incomplete, 1 over a limit, 1 cannot be read'])

    def test_bad_arguments(self):
        for arguments in ((SMALL,), (SMALL, 'min'), (SMALL, 'nothing'), (SMALL, 'id', '--all'), (SMALL + '.none', '--all')):
            with self.subTest(arguments=arguments), tempfile.TemporaryDirectory() as folder:
                self.assertNotEqual(run('mm2table', *arguments, '--out', folder).returncode, 0)
                self.assertEqual(os.listdir(folder), [])


class CommandTable2mm(unittest.TestCase):
    TEXT = b'      ( wi id ) AAB $.'
    LATE = b'      wp $.'

    def setUp(self):
        folder = tempfile.TemporaryDirectory()
        self.addCleanup(folder.cleanup)
        self.folder = folder.name

    def write(self, name, content):
        path = os.path.join(self.folder, name)
        with open(path, 'wb') as file:
            file.write(content)
        return path

    def pack(self, *records):
        file = io.BytesIO()
        for label, text in records:
            packs.write_record(file, label, text)
        return self.write('texts.pack', file.getvalue())

    def wanted(self):
        """The small database with the texts of `id` and `late`, made by cutting at the bytes around the two proofs."""
        data = read(SMALL)
        before, rest = data.split(b'id $p |- ( p -> p ) $=', 1)
        middle, rest = rest.split(b'mp $.', 1)[1].split(b'$p |- ( s -> p ) $=', 1)
        after = rest.split(b'mp $.', 1)[1]
        return (before + b'id $p |- ( p -> p ) $=\n' + self.TEXT + middle + b'$p |- ( s -> p ) $=\n' + self.LATE + after)

    def test_three_forms_of_texts(self):
        pack = self.pack((b'late', self.LATE), (b'id', self.TEXT))
        lines = self.write('answers', b'id repr yes\nid text0 %s\nid text2 00\nid end\nlate text0 %s\n' % (
            self.TEXT.hex().encode(), self.LATE.hex().encode()))
        self.write('id.text', self.TEXT)
        self.write('late.text', self.LATE)
        for texts in (pack, lines, self.folder):
            done = run('table2mm', SMALL, texts)
            self.assertEqual((done.returncode, done.stderr), (0, b'2 proofs replaced\n'))
            self.assertEqual(done.stdout, self.wanted())

    def test_no_texts_change_nothing(self):
        self.assertEqual(run('table2mm', SMALL, self.pack()).stdout, read(SMALL))

    def refused(self, texts):
        done = run('table2mm', SMALL, texts)
        self.assertEqual((done.returncode, done.stdout), (1, b''))
        self.assertRegex(done.stderr, rb'^table2mm: .*\n$')

    def test_faulty_texts_write_nothing(self):
        good = self.TEXT
        for records in ([(b'nothing', good)], [(b'mp', good)], [(b'id', good), (b'id', good)], [(b'id', b' ( wi id ) AAB')],
                        [(b'id', b' ( wi id ) AAB$.')], [(b'id', good + good)], [(b'id', good + b'\n')]):
            with self.subTest(records=records):
                self.refused(self.pack(*records))

    def test_a_line_without_text_writes_nothing(self):
        self.refused(self.write('answers', b'id text0 LOOP\n'))

    def test_a_cut_pack_writes_nothing(self):
        path = self.pack((b'id', self.TEXT))
        content = read(path)
        for length in (1, 2, 5, 6, 8, len(content) - 1):
            with self.subTest(length=length):
                self.refused(self.write('texts.pack', content[:length]))


def main():
    result = unittest.TextTestRunner(verbosity=1).run(unittest.defaultTestLoader.loadTestsFromModule(sys.modules[__name__]))
    failed = len({getattr(test, 'test_case', test).id() for test, _ in result.failures + result.errors})
    print('%d passed, %d failed' % (result.testsRun - failed, failed))
    sys.exit(1 if failed else 0)


if __name__ == '__main__':
    main()
