#!/usr/bin/env python3
"""make.py OUT FILE..: turns scripts of the oracle's text with their answers into antt facts about the rules.

OUT becomes a crate folder: specs/Run.antt runs calls on the rules; each specs/ScriptN.antt has the calls of a script and the
fact that the rules answer each of them as the file says. `mix` is left out: the rules do not mix."""
import os
import shutil
import sys

QUEUES, KINDS = ['Append', 'Rewrite'], ['compression.None', 'compression.Lz4']
ABSENT, REFUSED, OK = 2 ** 64, 2 ** 65, 2 ** 66


def listed(terms):
    return '(' + ' ∷ '.join([*terms, '[]']) + ')'


def flat(lists):
    return [n for l in lists for n in l]


class Tokens:
    """The tokens of a line. What reads one gives its term in antt, and its numbers in an answer."""

    def __init__(self, text):
        self.words, self.at = text.split(' '), 0

    def word(self):
        self.at += 1
        return self.words[self.at - 1]

    def number(self):
        n = self.word()
        return n, [int(n)]

    def queue(self):
        q = int(self.word())
        return QUEUES[q], [q]

    def flag(self):
        return ['false', 'true'][int(self.word())], []

    def bytes(self):
        w = self.word()
        b = [] if w == '.' else list(bytes.fromhex(w))
        return listed(map(str, b)), [len(b), *b]

    def maybe(self, read):
        if self.words[self.at] == '-':
            self.at += 1
            return 'None', [ABSENT]
        term, numbers = read()
        return '(Some %s)' % term, numbers

    def row(self, *reads):
        got = [read() for read in reads]
        return ' '.join(t for t, _ in got), flat(n for _, n in got)

    def several(self, read):
        got = [read() for _ in range(int(self.word()))]
        return listed(t for t, _ in got), [len(got), *flat(n for _, n in got)]

    def file(self):
        term, numbers = self.row(self.queue, self.number)
        return '(file %s)' % term, numbers

    def gate(self):
        """A file of which only the number is read."""
        self.word()
        return self.number()

    def kind(self):
        c = int(self.word())
        return KINDS[c], [c]

    def entry(self):
        i, a = self.number()
        bare = self.words[self.at] == '-'
        block, b = self.maybe(lambda: self.row(self.queue, self.number, self.number, self.number))
        rest, c = self.row(self.kind, self.number, self.number)
        head = 'bare %s' % i if bare else 'entry %s %s' % (i, block[6:-1])
        return '%s %s' % (head, rest), a + b + c

    def entries(self):
        return self.several(self.entry)

    def pair(self):
        return self.row(self.bytes, self.bytes)

    def held(self):
        return self.row(self.bytes, self.bytes, self.file)

    def span(self):
        return self.row(self.number, self.number)

    def item(self):
        letter = self.word()
        forms = {
            'E': ('(entries %s)', [self.entries]),
            'P': ('(kv %s (put %s %s))', [self.bytes, lambda: self.maybe(self.bytes), lambda: self.maybe(self.file)]),
            'D': ('(kv %s del)', [self.bytes]),
            'C': ('(command (compact %s))', [self.number]),
            'X': ('(command clean)', []),
        }
        form, reads = forms[letter]
        (g, a), got = self.number(), [read() for read in reads]
        return 'item %s %s' % (g, form % tuple(t for t, _ in got)), ['EPDCX'.index(letter), *a, *flat(n for _, n in got)]

    def rest(self):
        return self.row(*[lambda: self.maybe(self.number)] * (len(self.words) - self.at))


# how a call's answer lines are read
def answer(read):
    return lambda lines: read(Tokens(lines[0]))[1]


DONE = lambda lines: [OK]
NUMBERS = answer(Tokens.rest)
ENTRIES = answer(Tokens.entries)
PAIRS = answer(lambda t: t.several(t.pair))

# queries: the term, what it takes, how the answer is read
QUERIES = {
    'get': ('q_get', lambda t: [t.bytes], answer(lambda t: t.maybe(t.bytes))),
    'scan': ('q_scan', lambda t: [lambda: t.maybe(t.bytes), lambda: t.maybe(t.bytes), t.flag, t.number], PAIRS),
    'get_entry': ('q_entry', lambda t: [t.number], answer(lambda t: t.maybe(t.entry))),
    'fetch_entries_to': ('q_fetch', lambda t: [t.number, t.number, lambda: t.maybe(t.number)], ENTRIES),
    'fetch_entry_indexes_before': ('q_before', lambda t: [t.number], ENTRIES),
    'fetch_rewritten_entry_indexes': ('q_rewritten', lambda t: [], ENTRIES),
    'fetch_kvs_before': ('q_kvs_before', lambda t: [t.number], PAIRS),
    'fetch_rewritten_kvs': ('q_rewritten_kvs', lambda t: [], PAIRS),
    'min_file_seq': ('q_min', lambda t: [t.queue], NUMBERS),
    'has_at_least_some_entries_before': ('q_has', lambda t: [t.gate, t.number], NUMBERS),
    'first_index': ('q_first', lambda t: [], NUMBERS),
    'last_index': ('q_last', lambda t: [], NUMBERS),
    'rewrite_count': ('q_rewrite_count', lambda t: [], NUMBERS),
    'count': ('q_count', lambda t: [], NUMBERS),
    'live': ('q_live', lambda t: [], NUMBERS),
}

# changes of a table: the term, what it takes
CHANGES = {
    'append': ('appended true %s', lambda t: [t.entries]),
    'replay_append': ('appended false %s', lambda t: [t.entries]),
    'replay_rewrite': ('λ t. Ok (replayed_rewrite %s t)', lambda t: [t.entries]),
    'rewrite': ('rewritten %s %s', lambda t: [lambda: t.maybe(t.number), t.entries]),
    'put': ('λ t. Ok (put_key %s (record { value = %s; file = %s }) t)', lambda t: [t.bytes, t.bytes, t.file]),
    'delete': ('λ t. Ok (delete_key %s t)', lambda t: [t.bytes]),
    'rewrite_key': ('rewritten_key %s %s %s', lambda t: [t.bytes, lambda: t.maybe(t.number), t.number]),
    'apply_rewrite_atomic_group': ('spanned (record { start = %s; end = %s })', lambda t: [t.number, t.number]),
}

# calls of a context that take nothing
ASKED = {
    'live': ('asks %s live_text', NUMBERS),
    'groups': ('asks %s (λ c. listed num (group_numbers c))', NUMBERS),
    'is_empty': ('asks %s (λ c. bit (is_empty c))', NUMBERS),
    'cleaned': ('takes %s', NUMBERS),
}


def table_dump(lines):
    head, entries, keys = [Tokens(l.split(' ', 1)[1]) for l in lines]
    numbers = head.row(head.number, lambda: head.maybe(head.number), head.number, lambda: head.maybe(head.span))[1]
    return numbers + entries.entries()[1] + keys.several(keys.held)[1]


def context_dump(lines):
    kind = 2 if lines[0] == 'index' else int(lines[0].split(' ')[1])
    at = 1 + 3 * sum(l.startswith('group ') for l in lines)
    groups = [table_dump(lines[i:i + 3]) for i in range(1, at, 3)]
    cleaned = [int(n) for n in lines[at].split(' ')[1:]]
    tombstones = [Tokens(l[10:]).item()[1] for l in lines if l.startswith('tombstone ')]
    return [kind, len(groups), *flat(groups), *cleaned, len(tombstones), *flat(tombstones), *flat(parts(lines[at + 1:]))]


def parts(lines):
    """The waiting parts: the items' number stands before the items, the tombstones' before these."""
    for i, line in enumerate(lines):
        if line.startswith('waiting '):
            head = [int(w) for w in line.split(' ')[1:]]
            items, dead = head[4], head[5]
            rows = [Tokens(l.split(' ', 1)[1]).item()[1] for l in lines[i + 1:i + 1 + items + dead]]
            yield [*head[:5], *flat(rows[:items]), dead, *flat(rows[items:])]


class Script:
    """Gives the term of each call of a script, and how its answer is read."""

    def __init__(self):
        self.groups, self.queues = {}, {}

    def call(self, text):
        t = Tokens(text)
        word = t.word()
        if word == 'try':
            term, read = self.call(text[4:])
            return 'attempt (%s)' % term, read
        n, name = t.word(), t.word()
        if word == 'q':
            return self.query('asks_group %s %s' % (n, name), t.word(), t)
        return self.table_call(n, name, t) if word == 't' else self.context_call(n, name, t)

    def query(self, asks, name, t):
        term, reads, read = QUERIES[name]
        return '%s (%s %s)' % (asks, term, t.row(*reads(t))[0]), read

    def context_call(self, n, name, t):
        if name == 'new':
            return 'new_context %s %s' % (n, t.queue()[0]), DONE
        if name in ('merge', 'join'):
            return 'combines %s %s %s' % (n, t.word(), name), DONE
        if name == 'dump':
            return 'asks %s context_text' % n, context_dump
        if name in ASKED:
            term, read = ASKED[name]
            return term % n, read
        file = t.row(t.queue, t.number)[0]
        call = {'replay': 'replay', 'live_append': 'append'}.get(name) or 'rewrite ' + t.maybe(t.number)[0]
        return 'writes_context %s (%s (batch %s %s))' % (n, call, file, t.several(t.item)[0]), DONE

    def table_call(self, n, name, t):
        if name == 'new':
            self.groups[n] = t.word()
            return 'new_table %s' % n, DONE
        if name == 'dump':
            return 'asks_table %s (q_dump %s)' % (n, self.groups[n]), table_dump
        if name == 'compact_to':
            return 'compacts %s %s' % (n, t.word()), NUMBERS
        if name == 'merge_newer_neighbor':
            newer = t.word()
            return 'merges_table %s %s %s' % (self.queues.get(newer, 'Append'), n, newer), DONE
        if name == 'merge_append_table':
            return 'joins_table %s %s' % (n, t.word()), DONE
        if name not in CHANGES:
            return self.query('asks_table %s' % n, name, t)
        if name == 'replay_rewrite':
            self.queues[n] = 'Rewrite'
        term, reads = CHANGES[name]
        return 'writes_table %s done (%s)' % (n, term % tuple(read()[0] for read in reads(t))), DONE


def expected(read, lines):
    w = lines[0].split(' ')
    if w[0] not in ('no', 'panic', 'law', 'refused'):
        return read(lines)
    return [REFUSED, int(w[1]), int(w[2]) if len(w) > 2 and w[2] != '-' else ABSENT]


def calls_of(path):
    """Line number, call and answer lines of each call."""
    out = []
    for at, line in enumerate(open(path, encoding='utf-8').read().split('\n'), 1):
        if line.startswith('= '):
            out[-1][2].append(line[2:])
        elif line and not line.startswith('#'):
            out.append((at, line, []))
    return out


def scripts_of(path):
    """The terms of each script's calls with their answers."""
    out = []
    for at, text, lines in calls_of(path):
        if text.startswith('script'):
            out.append([])
            script = Script()
        elif not text.startswith('mix'):
            term, read = script.call(text)
            out[-1].append('line %d (%s) %s' % (at, term, listed(map(str, expected(read, lines)))))
    return out


def write(out, scripts):
    here = os.path.dirname(os.path.abspath(__file__))
    head = open(here + '/head.txt', encoding='utf-8').read()
    for folder in ('specs', 'src'):
        os.makedirs('%s/%s' % (out, folder))
    open(out + '/src/lib.rt', 'w').write('// Facts about the rules, made of scripts with the answers of the oracle.\n#![tactic(auto)]\n')
    shutil.copy(here + '/calls.txt', out + '/specs/Run.antt')
    for n, lines in enumerate(scripts):
        with open('%s/specs/Script%d.antt' % (out, n), 'w', encoding='utf-8') as f:
            f.write(head + '\nabbrev pub lines : List Line\nlines =\n    ' + '\n    ∷ '.join([*lines, '[]']))
            f.write('\n\npub agrees : differences lines ≡ []\nunfolding opened\nagrees = refl\n')
    names = ['Run'] + ['Script%d' % n for n in range(len(scripts))]
    open(out + '/specs/Lib.antt', 'w').write(''.join('pub mod %s\n' % name for name in names))


if __name__ == '__main__':
    found = [s for path in sys.argv[2:] for s in scripts_of(path)]
    write(sys.argv[1], found)
    print('%d scripts, %d calls' % (len(found), sum(map(len, found))))
