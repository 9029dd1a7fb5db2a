#!/usr/bin/env python3
"""Brings the repository's own names to one spelling: functions, lemmas and fields in snake case, types as they are.

usage: tools/respell.py [--list]          at the top of the repository, once, after port.py

A name that is declared in a file of specs/ or proofs/ and has a capital inside or a dash turns: `maxStatements` to `max_statements`,
`fits-step` to `fits_step`. Names that begin with a capital are types and facts: these stay, but for a dash. Names that a library declares,
names of steps and goals that Rattle makes, and what stands in strings stay. It turns antt files, clauses and `ghost use` lines of sources,
must-fail edits of either and code spans of documents. --list prints the table and what falls together, and writes nothing."""
import glob
import os
import re
import sys

WORD = re.compile(r'[^\s(){}.;,@"«»`]+')
HEAD = re.compile(r'^(\s*)(?:abbrev |unfoldable )?(?:pub )?([^\s(){}.;,@"«»:=]+)(?: [^:=\n]*)? :(?: |$)')
FIELDS = re.compile(r'^\s+(?:pub )((?:[^\s(){}.;,@"«»:=]+ )+): ')
ARM = re.compile(r'^\s*(?:pub )?(?:record|data|ruleset|module) ([^\s(){}.;,@"«»:=]+)')
CLAUSE = re.compile(r'\b(?:requires|ensures)\s*(?:\w+\s*)?\{|\bghost\s+\w+\s*:\s*\{')
LIBRARY = re.compile(r'^(?:abbrev )?(?:pub )?use ((?:mathlib|native|lib|borrow|Prim|denote|contract|types|prog|mir|seplogic|Rattle\.std)[^\s{]*)\.\{([^}]*)\}', re.M)


def snake(name):
    out = re.sub(r'(?<=[a-z0-9])([A-Z])(?=[a-z0-9])', lambda m: '_' + m[1].lower(), name) if name[0].islower() else name
    out = re.sub(r'(?<=[a-z])([A-Z])(?![A-Za-z])', lambda m: '_' + m[1], out) if name[0].islower() else out
    return re.sub(r'(?<=[^\s-])-(?=[^\s-])', '_', out)


def antt_files():
    return sorted(p for p in glob.glob('crates/*/*/**/*.antt', recursive=True) if '/out/' not in p)


def generated(path):
    return os.path.basename(path) == 'Proof.antt'


def declared():
    own, library = {}, set()
    for path in antt_files():
        text = open(path, encoding='utf-8').read()
        for m in LIBRARY.finditer(text):
            library |= {w.split(' as ')[0].strip() for w in m[2].split(',')}
        if generated(path):
            continue
        for line in text.split('\n'):
            if line.lstrip().startswith('--'):
                continue
            for m in (HEAD.match(line), ARM.match(line)):
                if m:
                    own.setdefault(m.groups()[-1], path)
            m = FIELDS.match(line)
            if m:
                for w in m[1].split():
                    own.setdefault(w, path)
    return own, library


def fields():
    """The fields of the repository's records, but for those that read like a function of the sources."""
    names, functions = set(), set()
    for path in antt_files():
        inside = False
        for line in open(path, encoding='utf-8'):
            if re.match(r'^\s*(?:pub )?record ', line):
                inside = True
            elif inside and line.strip() and not line.startswith(' '):
                inside = False
            m = re.match(r'^\s+pub ((?:[^\s(){}.;,@"«»:=]+ )+): ', line)
            if inside and m:
                names |= set(m[1].split())
    for path in glob.glob('crates/*/src/**/*.rt', recursive=True):
        functions |= set(re.findall(r'\bfn (\w+)', open(path, encoding='utf-8').read()))
    return {n for n in names if snake(n) not in functions}


# where two names would fall together, the lemma or the local one gets another
APART = {'label-in': 'label_is_in', 'is-assertion': 'kind_is_assertion', 'normal-of': 'normal_says', 'packed-of': 'packed_says',
         'tree-of': 'tree_of_lem', 'all-below': 'all_below_lem', 'over_zero': 'over_zero_lem'}
LOCAL = {'crates/roundtrip/specs/Replays.antt': {'no_room': 'has_room'}}


def table():
    own, library = declared()
    rows = {}
    for name in own:
        if name in library or '◌' in name or not re.search(r'[A-Za-z]', name):
            continue
        new = snake(name)
        if new != name:
            rows[name] = new
    together = {}
    for old, new in rows.items():
        together.setdefault(new, []).append(old)
    for new, olds in together.items():
        if len(olds) == 2:
            lemma = [o for o in olds if '-' in o]
            assert len(lemma) == 1, olds
            rows[lemma[0]] = new + '_lem'
    rows.update(APART)
    return rows, library


def turn_words(text, rows, path):
    if path in LOCAL:
        rows = {**rows, **LOCAL[path]}

    def one(m):
        word = m[0]
        if word not in rows:
            bare = word.rstrip("'")
            return rows[bare] + word[len(bare):] if bare in rows and bare != word and word not in rows else word
        if generated(path) and m.start() and text[m.start() - 1] == '.' and not text[:m.start() - 1].endswith(']'):
            before = re.search(r'[^\s(){};,@"«»`]+$', text[:m.start()])
            if before and re.match(r'[a-z]', before[0]) and not before[0].startswith('tie.') and not before[0].startswith('Rattle'):
                return rows[word] if word in FIELD_NAMES else word
        return rows[word]
    return WORD.sub(one, text)


def clause_end(text, at):
    depth = 1
    while depth and at < len(text):
        depth += {'{': 1, '}': -1}.get(text[at], 0)
        at += 1
    return at


def turn_source(text, rows, path):
    out, at = [], 0
    while True:
        ms = [m for m in (CLAUSE.search(text, at), re.compile(r'^ghost use [^;]*;', re.M).search(text, at)) if m]
        if not ms:
            out.append(text[at:])
            return ''.join(out)
        m = min(ms, key=lambda x: x.start())
        out.append(text[at:m.start()])
        end = m.end() if m[0].startswith('ghost use') else clause_end(text, m.end())
        out.append(turn_words(text[m.start():end], rows, path))
        at = end


def turn_rest(text, words):
    """Names that an earlier script turned in the antt files alone, and projections, which are written tight."""
    text = re.sub(r'\((\w+) \.(\w+)\)', r'\1.\2', text)
    text = re.sub(r'(?<=[\w)]) \.(?=[a-z])', '.', text)
    return WORD.sub(lambda m: snake(m[0]) if m[0] not in words and '◌' not in m[0] and snake(m[0]) in words else m[0], text)


def turn_edit(text, rows, path, words):
    out, source = [], False
    for line in text.split('\n'):
        if line.startswith('file:'):
            source = line.strip().endswith('.rt')
        if line.startswith(('old:', 'new:')):
            if not source or re.search(r'\b(?:requires|ensures)\b|ghost ', line):
                line = line[:4] + turn_words(line[4:], rows, path)
                line = line if source else line[:4] + turn_rest(line[4:], words)
        elif not line.startswith('file:'):
            line = turn_words(line, rows, path)
        out.append(line)
    return '\n'.join(out)


def turn_page(text, rows, words):
    def span(m):
        return m[0] if '/' in m[0] else WORD.sub(lambda w: snake(w[0]) if w[0] not in words and snake(w[0]) in words else w[0], turn_words(m[0], rows, 'page'))
    return re.sub(r'`[^`\n]+`', span, text)


FIELD_NAMES = set()


def main(argv):
    rows, library = table()
    FIELD_NAMES.update(fields())
    words = {}
    for path in antt_files():
        for w in set(WORD.findall(open(path, encoding='utf-8').read())):
            words.setdefault(w, path)
    together = {}
    for old, new in rows.items():
        together.setdefault(new, []).append(old)
    for new, olds in sorted(together.items()):
        if len(olds) > 1 or new in words:
            print('together:', new, olds, words.get(new, ''))
    if '--list' in argv:
        for old, new in sorted(rows.items()):
            print(old, new)
        return 0
    for path in antt_files():
        write(path, turn_words, rows, path)
    for path in sorted(glob.glob('crates/*/src/**/*.rt', recursive=True)):
        write(path, turn_source, rows, path)
    words = set()
    for path in antt_files():
        words |= set(WORD.findall(open(path, encoding='utf-8').read()))
    for path in sorted(glob.glob('crates/*/must-fail/*.edit')):
        write(path, lambda text, r, p: turn_edit(text, r, p, words), rows, path)
    for path in sorted(glob.glob('docs/*.md') + glob.glob('*.md')):
        text = open(path, encoding='utf-8').read()
        new = turn_page(text, rows, words)
        if new != text:
            open(path, 'w', encoding='utf-8').write(new)
    return 0


def write(path, turn, rows, where):
    text = open(path, encoding='utf-8').read()
    new = turn(text, rows, where)
    if new != text:
        open(path, 'w', encoding='utf-8').write(new)


if __name__ == '__main__':
    raise SystemExit(main(sys.argv[1:]))
