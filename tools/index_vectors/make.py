#!/usr/bin/env python3
"""Writes the files of crates/index_vectors/data and prints what the program has to write.

Usage, at the repository's root, after oracle/build: tools/index_vectors/make.py > crates/index_vectors/stdout

Calls come from oracle/bench and oracle/vectors. They are asked of the Rust (`oracle answer law`), and its answers are laid out as
numbers; crates/index_vectors/README.md has the layout.
- bench_N.txt: document 01's bench cases, its open points, and the calls of crates/rules/proofs/Script.antt.
- tables_N.txt: the scripts of one group's table, as scripts of that group: once in Append contexts, and once in the index.
- index_N.txt: the scripts of contexts and the index.
"""
import pathlib
import subprocess

ROOT = pathlib.Path(__file__).resolve().parents[2]
ORACLE = ROOT / 'oracle' / 'target' / 'release' / 'oracle'
DATA = ROOT / 'crates' / 'index_vectors' / 'data'

# the bytes of a file at most
MOST = 260000

# ---- scripts


def calls(path):
    """The calls of a file of scripts, without their answers."""
    lines = (ROOT / path).read_text().splitlines()
    return [line.split() for line in lines if line and line[0] not in '=#']


def answered(script):
    """The calls of a script with the Rust's answer lines behind each."""
    text = '\n'.join(' '.join(words) for words in script) + '\n'
    run = subprocess.run([ORACLE, 'answer', 'law'], input=text, capture_output=True, text=True, check=True)
    out = []
    for line in run.stdout.splitlines():
        if line.startswith('= '):
            out[-1][1].append(line[2:].split())
        elif line and not line.startswith('#'):
            out.append((line.split(), []))
    return out


def scripts(path, kinds):
    """The scripts of a file that have calls of the given kinds alone."""
    found = []
    for words in calls(path):
        if words[0] == 'script':
            found.append([])
        if words[0] != 'try':
            found[-1].append(words)
    return [script for script in found if all(words[0] in kinds for words in script[1:])]


def contexts(*paths):
    """The scripts of contexts and the index."""
    return [words for path in paths for script in scripts(path, 'cq') for words in script]


class Tables:
    """The scripts of tables as scripts of one group."""

    def __init__(self):
        self.group, self.script = {}, []

    def say(self, *words):
        self.script.append([str(w) for w in words])

    def take(self, words):
        if words[0] == 'script':
            self.script.append(words)
            return
        table, call = words[1], words[2]
        if hasattr(self, 't_' + call):
            getattr(self, 't_' + call)(table, *words[3:])
        elif call in ('live', 'dump'):
            self.say('c', table, call)
        else:
            self.say('q', table, self.group[table], call, *words[3:])

    def t_append(self, table, *entries):
        self.appended(table, 'E', *entries)

    def t_replay_append(self, table, *entries):
        self.appended(table, 'E', *entries)

    def t_put(self, table, *words):
        self.appended(table, 'P', *words)

    def t_delete(self, table, key):
        self.appended(table, 'D', key)

    def t_compact_to(self, table, index):
        self.appended(table, 'C', index)

    def t_replay_rewrite(self, table, *entries):
        self.rewritten(table, 9, '-', 'E', *entries)

    def t_rewrite(self, table, gate, *entries):
        self.rewritten(table, 9, gate, 'E', *entries)

    def t_rewrite_key(self, table, key, gate, seq):
        self.rewritten(table, seq, gate, 'P', key, '-', '-')

    def t_apply_rewrite_atomic_group(self, table, start, end):
        pass

    def t_merge_newer_neighbor(self, table, newer):
        pass

    def t_merge_append_table(self, table, newer):
        pass


class InContexts(Tables):
    """Each table is a group of an Append context. A table that is laid over another is joined to an empty Rewrite context."""

    def t_new(self, table, group):
        self.group[table] = group
        self.say('c', table, 'new', 0)

    def appended(self, table, kind, *words):
        self.say('c', table, 'replay', 0, 1, 1, kind, self.group[table], *words)

    def rewritten(self, table, seq, gate, kind, *words):
        pass

    def t_merge_newer_neighbor(self, table, newer):
        self.say('c', table, 'merge', newer)

    def t_merge_append_table(self, table, newer):
        self.say('c', 9, 'new', 1)
        self.say('c', 9, 'join', newer)
        self.say('c', 9, 'live')
        self.say('c', 9, 'dump')


class InIndex(Tables):
    """Each table is a group of an index."""

    def t_new(self, table, group):
        self.group[table] = group
        self.say('c', table, 'new', 1)
        self.say('c', 9, 'new', 0)
        self.say('c', table, 'join', 9)

    def appended(self, table, kind, *words):
        self.say('c', table, 'live_append', 0, 1, 1, kind, self.group[table], *words)

    def rewritten(self, table, seq, gate, kind, *words):
        self.say('c', table, 'live_rewrite', 1, seq, gate, 1, kind, self.group[table], *words)


class InRewriteContexts(InContexts):
    """Each table is a group of a Rewrite context, to which Append contexts are joined. Its span is made by marks."""

    def t_new(self, table, group):
        self.group[table] = self.group['1' + table] = group
        self.say('c', table, 'new', 1)
        self.say('c', '1' + table, 'new', 0)

    def appended(self, table, kind, *words):
        super().appended('1' + table, kind, *words)

    def t_put(self, table, key, value, *file):
        if file[0] == '1':
            self.rewritten(table, file[1], '-', 'P', key, value, *file)
        else:
            self.appended(table, 'P', key, value, *file)

    def t_delete(self, table, key):
        self.appended(table, 'D', key)
        self.rewritten(table, 9, '-', 'D', key)

    def t_compact_to(self, table, index):
        self.appended(table, 'C', index)
        self.rewritten(table, 9, '-', 'C', index)

    def rewritten(self, table, seq, gate, kind, *words):
        self.say('c', table, 'replay', 1, seq, 1, kind, self.group[table], *words)

    def t_apply_rewrite_atomic_group(self, table, start, end):
        group = self.group[table]
        self.say('c', table, 'replay', 1, start, 2, 'P', group, '5f5f01', '00', 1, start, 'E', group, 0)
        self.say('c', table, 'replay', 1, end, 1, 'P', group, '5f5f01', '02', 1, end)

    def t_merge_append_table(self, table, newer):
        self.say('c', table, 'join', '1' + newer)


def tables(*paths):
    """The scripts of tables, as scripts of contexts and the index."""
    made = []
    for kind in [InContexts, InIndex, InRewriteContexts]:
        for path in paths:
            script = kind()
            for words in (words for one in scripts(path, 't') for words in one):
                script.take(words)
            made += script.script
    return made


# ---- arguments and answers as numbers

WIDTH = 14
NO_FILE = 2

# places of an area
KIND_AT = 9376
TOMBSTONES_AT = 9443
WAITING_AT = 10019
TOMBSTONE_BYTES = 16384


class Tokens:
    """The words of a call, taken one after another."""

    def __init__(self, words):
        self.words, self.at = words, 0

    def word(self):
        self.at += 1
        return self.words[self.at - 1]

    def number(self):
        return int(self.word())

    def absent(self):
        """Whether the next word says that something is absent; if so it is taken."""
        if self.words[self.at] != '-':
            return False
        self.at += 1
        return True

    def maybe(self):
        """A number that may be absent: 1 and the number, or 0 0."""
        return [0, 0] if self.absent() else [1, self.number()]

    def bytes(self):
        word = self.word()
        return b'' if word == '.' else bytes.fromhex(word)

    def maybe_bytes(self):
        return None if self.absent() else self.bytes()

    def file(self):
        return [NO_FILE, 0] if self.absent() else [self.number(), self.number()]

    def block(self):
        return [NO_FILE, 0, 0, 0] if self.absent() else [self.number() for _ in range(4)]

    def entry(self):
        return [self.number(), *self.block(), self.number(), self.number(), self.number()]

    def end(self):
        assert self.at == len(self.words), self.words


class Batch:
    """Items with their entries and bytes, as they are lent (log_batch/specs/Lent.antt)."""

    def __init__(self, tokens):
        self.items, self.entries, self.bytes = [], [], b''
        for _ in range(tokens.number()):
            self.item(tokens)

    def place(self, data):
        self.bytes += data
        return [len(self.bytes) - len(data), len(data)]

    def item(self, tokens):
        kind, group = tokens.word(), tokens.number()
        row = [group, *getattr(self, 'item_' + kind)(tokens)]
        self.items += row + [0] * (9 - len(row))

    def item_E(self, tokens):
        at, count = len(self.entries) // 8, tokens.number()
        for _ in range(count):
            self.entries += tokens.entry()
        return [0, at, count]

    def item_X(self, tokens):
        return [1]

    def item_C(self, tokens):
        return [2, tokens.number()]

    def item_P(self, tokens):
        key = self.place(tokens.bytes())
        value = [0, 0, 0] if tokens.absent() else [1, *self.place(tokens.bytes())]
        return [3, *key, *value, *tokens.file()]

    def item_D(self, tokens):
        return [4, *self.place(tokens.bytes())]


def refused(line):
    """The number of a refusal with 1 and its position, or 0 0; None for an answer."""
    if line[0] not in ('no', 'panic', 'law'):
        return None
    place = line[2] if len(line) > 2 else '-'
    return [int(line[1]), *([0, 0] if place == '-' else [1, int(place)])]


ACCEPTED = [0, 0, 0]


def rows_of_keys(tokens):
    """How many keys, and for each its lengths; then 32 bytes for each key and 32 for its value."""
    count, lens, data = tokens.number(), [], b''
    for _ in range(count):
        key, value = tokens.bytes(), tokens.bytes()
        lens += [len(key), len(value)]
        data += key.ljust(32, b'\0') + value.ljust(32, b'\0')
    return count, lens + list(data)


def rows_of_entries(tokens):
    count = tokens.number()
    return count, [n for _ in range(count) for n in tokens.entry()]


def fields_and_rows_of_entries(tokens):
    """How many entries; each field of all of them, as a fetch into slices has it, and then each entry."""
    count, rows = rows_of_entries(tokens)
    return count, [n for j in range(8) for n in rows[j::8]] + rows


def rows_of_numbers(tokens):
    count = tokens.number()
    return count, [tokens.number() for _ in range(count)]


# ---- rows

class File:
    """The rows of a file of data."""

    def __init__(self):
        self.lines, self.count, self.areas, self.name = [], 0, {}, ''

    def length(self):
        return sum(len(line) + 1 for line in self.lines)

    def add(self, other):
        self.lines += other.lines
        self.count += other.count

    def area(self, context):
        return self.areas.setdefault(context, len(self.areas))

    def row(self, what, context, want, *, other=0, group=0, args=(), room=0, items=(), entries=(), data=b''):
        args = list(args) + [0] * (5 - len(args))
        area = self.area(context)
        assert area < 8 and other < 8
        self.lines.append('# %s' % self.name)
        ends = [WIDTH]
        for numbers in (items, entries, data, want):
            ends.append(ends[-1] + len(numbers))
        head = [ends[4], what, area, other, group, *args, room, *ends[1:4]]
        assert len(head) == WIDTH and want
        for numbers, width in ((head, WIDTH), (items, 9), (entries, 8), (list(data), 32), (want, 32)):
            for i in range(0, len(numbers), width):
                self.lines.append(' '.join(str(n) for n in numbers[i:i + width]))
        self.count += 1

    def lists(self, what, context, line, rows, most, **words):
        """A query with a lent list: with just enough room, and with too little."""
        no = refused(line)
        if no:
            self.row(what, context, no, room=most, **words)
            return
        tokens = Tokens(line)
        count, numbers = rows(tokens)
        tokens.end()
        if 0 < count and most:
            self.row(what, context, [19, 0, 0], room=count - 1, **words)
        self.row(what, context, [0, count, 0] + numbers, room=count, **words)

    # -- calls that write

    def c_new(self, c, t, said):
        self.row(0, c, ACCEPTED, args=[t.number()])

    def batch(self, what, c, batch, args, line):
        self.row(what, c, refused(line) or ACCEPTED, args=args, items=batch.items, entries=batch.entries, data=batch.bytes)

    def c_replay(self, c, t, said):
        file = t.file()
        self.batch(1, c, Batch(t), file, said[0])

    def c_merge(self, c, t, said):
        self.row(2, c, refused(said[0]) or ACCEPTED, other=self.area(t.word()))

    def c_join(self, c, t, said):
        self.row(3, c, refused(said[0]) or ACCEPTED, other=self.area(t.word()))

    def c_live_append(self, c, t, said):
        file = t.file()
        self.batch(4, c, Batch(t), file, said[0])

    def c_live_rewrite(self, c, t, said):
        args = t.file() + t.maybe()
        self.batch(5, c, Batch(t), args, said[0])

    def c_cleaned(self, c, t, said):
        self.lists(9, c, said[0], rows_of_numbers, 64)

    # -- queries of all groups

    def c_live(self, c, t, said):
        for queue, count in enumerate(said[0]):
            self.row(62, c, [0, int(count), 0], args=[queue])

    def c_groups(self, c, t, said):
        self.lists(60, c, said[0], rows_of_numbers, 8)

    def c_is_empty(self, c, t, said):
        self.row(61, c, [0, int(said[0][0]), 0])

    # -- a dump: what stands in the area (docs/ARCHITECTURE.md)

    def c_dump(self, c, t, said):
        tombstones, waiting = [], [0, 0]
        for line in said:
            tokens = Tokens(line)
            word = tokens.word()
            if word == 'context':
                kind = tokens.number()
            elif word == 'index':
                kind = 2
            elif word == 'group':
                group, first = tokens.number(), tokens.maybe()
                rewritten = tokens.number()
                span = [0] if tokens.absent() else [1, tokens.number(), tokens.number()]
            elif word == 'entries':
                count, entries = rows_of_entries(tokens)
            elif word == 'keys':
                self.group(c, group, first, rewritten, span, count, entries, tokens)
            elif word == 'cleaned':
                cleaned = rows_of_numbers(tokens)[1]
            elif word == 'tombstone':
                tombstones.append(Batch(Tokens(['1'] + line[1:])))
            elif word == 'item':
                waiting[0] += 1
                waiting[1] += len(Batch(Tokens(['1'] + line[1:])).entries) // 8
        if kind < 2:
            self.row(70, c, [kind, len(tombstones), len(cleaned)] + cleaned, args=[KIND_AT])
            self.row(70, c, waiting, args=[WAITING_AT])
            self.tombstones(c, tombstones)
        else:
            self.row(70, c, [kind], args=[KIND_AT])
            self.row(70, c, [len(cleaned)] + cleaned, args=[KIND_AT + 2])

    def group(self, c, group, first, rewritten, span, count, entries, tokens):
        """The header, the rows of entries and of keys of a group's stretch; and a scan of all keys with their values."""
        number, keys, said = tokens.number(), [], []
        for _ in range(number):
            said += tokens.words[tokens.at:tokens.at + 2]
            keys += [len(tokens.bytes()), len(tokens.bytes()), *tokens.file()]
        self.row(72, c, ([first[1]] if count else []) + [count, rewritten] + span, group=group, args=[2 if count else 3])
        self.row(72, c, [number], group=group, args=[8])
        if count:
            self.row(72, c, entries, group=group, args=[10])
        if number:
            self.row(72, c, keys, group=group, args=[522])
            count, rows = rows_of_keys(Tokens([str(number)] + said))
            self.row(40, c, [0, count, 0] + rows, group=group, args=[0, 0, 0, 0, count], room=count)

    def tombstones(self, c, listed):
        """The row of each tombstone, so far as its kind has numbers, and of a Del the key."""
        for j, batch in enumerate(listed):
            if batch.items[1] == 4:
                batch.items[2] = j * 64
                if batch.bytes:
                    self.row(71, c, list(batch.bytes), args=[TOMBSTONE_BYTES + j * 64])
            self.row(70, c, batch.items[:{1: 2, 2: 3, 4: 4}[batch.items[1]]], args=[TOMBSTONES_AT + j * 9])

    # -- queries of a group

    def q_get(self, c, g, t, said):
        line = said[0]
        if refused(line):
            want = refused(line)
        elif line == ['-']:
            want = [0, 0, 0]
        else:
            value = Tokens(line).bytes()
            want = [1, len(value), 0] + list(value)
        self.row(32, c, want, group=g, data=t.bytes())

    def q_get_entry(self, c, g, t, said):
        line = said[0]
        want = refused(line) or ([0, 0, 0] if line == ['-'] else [0, 1, 0] + Tokens(line).entry())
        self.row(30, c, want, group=g, args=[t.number()])

    def q_has_at_least_some_entries_before(self, c, g, t, said):
        line, seq = said[0], t.file()[1]
        self.row(31, c, refused(line) or [0, int(line[0]), 0], group=g, args=[seq, t.number()])

    def q_scan(self, c, g, t, said):
        start, end = t.maybe_bytes(), t.maybe_bytes()
        data = (start or b'') + (end or b'')
        args = [int(start is not None), len(start or b''), int(end is not None), t.number(), t.number()]
        self.lists(40, c, said[0], rows_of_keys, 16, group=g, args=args, data=data)

    def q_fetch_kvs_before(self, c, g, t, said):
        self.lists(41, c, said[0], rows_of_keys, 16, group=g, args=[t.number()])

    def q_fetch_rewritten_kvs(self, c, g, t, said):
        self.lists(42, c, said[0], rows_of_keys, 16, group=g)

    def q_fetch_entries_to(self, c, g, t, said):
        self.lists(50, c, said[0], fields_and_rows_of_entries, 0, group=g, args=[t.number(), t.number(), *t.maybe()])

    def q_fetch_entry_indexes_before(self, c, g, t, said):
        self.lists(51, c, said[0], fields_and_rows_of_entries, 0, group=g, args=[t.number()])

    def q_fetch_rewritten_entry_indexes(self, c, g, t, said):
        self.lists(52, c, said[0], fields_and_rows_of_entries, 0, group=g)

    def found(self, what, c, g, said, args=()):
        line = said[0]
        self.row(what, c, refused(line) or [0, *Tokens(line).maybe()], group=g, args=args)

    def q_first_index(self, c, g, t, said):
        self.found(10, c, g, said)

    def q_last_index(self, c, g, t, said):
        self.found(11, c, g, said)

    def q_min_file_seq(self, c, g, t, said):
        self.found(12, c, g, said, [t.number()])

    def q_rewrite_count(self, c, g, t, said):
        line = said[0]
        self.row(21, c, refused(line) or [0, int(line[0]), 0], group=g)

    def q_count(self, c, g, t, said):
        line = said[0]
        no = refused(line)
        counts = [0] * 4 if no else [int(n) for n in line]
        for what, count in ((20, counts[0] + counts[1]), (21, counts[1]), (22, counts[2] + counts[3])):
            self.row(what, c, no or [0, count, 0], group=g)

    def take(self, words, said):
        tokens = Tokens(words)
        kind = tokens.word()
        if kind == 'script':
            self.script, self.areas = tokens.word(), {}
            return
        c = tokens.word()
        g = tokens.number() if kind == 'q' else None
        call = tokens.word()
        self.name = ' '.join([self.script] + words[:4])
        made = getattr(self, '%s_%s' % (kind, call))
        made(c, tokens, said) if g is None else made(c, g, tokens, said)
        tokens.end()


def files(script):
    """The rows of scripts, in files that each have whole scripts and are not too long."""
    made = [File()]
    for words, said in answered(script):
        if words[0] == 'script':
            one = File()
            one.take(words, said)
            made.append(one)
        else:
            made[-1].take(words, said)
    packed = [made[0]]
    for one in made[1:]:
        if MOST < packed[-1].length() + one.length():
            packed.append(File())
        packed[-1].add(one)
    return packed


def main():
    for old in DATA.glob('*.txt'):
        old.unlink()
    bench = ['oracle/bench/%s.txt' % name for name in ('takes', 'readings', 'script')]
    made = {
        'bench': contexts(*bench) + tables(bench[0]),
        'tables': tables('oracle/vectors/memtable.txt'),
        'index': contexts('oracle/vectors/index.txt'),
    }
    for name, script in made.items():
        for i, file in enumerate(files(script)):
            path = DATA / ('%s_%d.txt' % (name, i + 1))
            path.write_text('\n'.join(file.lines) + '\n')
            print('%s: %d calls, 0 differ' % (path.name, file.count))


main()
