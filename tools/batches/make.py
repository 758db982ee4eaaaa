#!/usr/bin/env python3
"""Writes the cases of crates/batch_cases to standard output. The expected answers are 01's, set down by hand."""
APPEND, REWRITE, LIVE_APPEND, LIVE_REWRITE = CALLS = range(4)
NAME = ['Append replay', 'Rewrite replay', 'live append', 'live rewrite']
WRITES = [0, 1, 0, 1]
TOP = 2**64 - 1
RESERVED = b'__\1'


class Batch:
    """Items with their entries and bytes, as they are lent. `q` is the queue of the files."""

    def __init__(self, q):
        self.q, self.items, self.entries, self.bytes = q, [], [], b''

    def row(self, *numbers):
        self.items += numbers
        return self

    def full(self, group, tag, *numbers):
        return self.row(group, tag, *numbers, *[0] * (7 - len(numbers)))

    def place(self, data):
        self.bytes += data
        return len(self.bytes) - len(data), len(data)

    def list(self, *entries, group=1):
        at = len(self.entries) // 8
        for e in entries:
            self.entries += e
        return self.full(group, 0, at, len(entries))

    def run(self, first, count, group=1):
        return self.list(*[entry(first + i, self.q) for i in range(count)], group=group)

    def clean(self, group=1):
        return self.full(group, 1)

    def compact(self, index, group=1):
        return self.full(group, 2, index)

    def put(self, key, value=b'v', queue=None, group=1, told=None):
        """`value` None: no value; `queue` 2: no file; `told`: another number where 1 says that there is a value."""
        a, b = self.place(key)
        d, e = self.place(value) if value is not None else (0, 0)
        c = told if told is not None else int(value is not None)
        return self.full(group, 3, a, b, c, d, e, self.q if queue is None else queue, 1)

    def delete(self, key, group=1):
        return self.full(group, 4, *self.place(key))

    def mark(self, status, group=1):
        return self.put(RESERVED, bytes([status]), group=group)


def entry(index, queue, seq=1, offset=0, length=0, compression=0, entry_offset=0, entry_len=10):
    return [index, queue, seq, offset, length, compression, entry_offset, entry_len]


def lines(numbers, width):
    numbers = list(numbers)
    for i in range(0, len(numbers), width):
        print(*numbers[i:i + width])


def case(says, call, answer, fill):
    b = Batch(WRITES[call])
    fill(b)
    number, place = answer or (0, 0)
    print('# %s, %s: %s' % (NAME[call], says, '%d at %d' % answer if answer else 'passes'))
    print(call, number, place, len(b.items), len(b.entries), len(b.bytes))
    lines(b.items, 9)
    lines(b.entries, 8)
    lines(b.bytes, 32)


def each(says, answer, fill, calls=CALLS):
    for call in calls:
        case(says, call, answer, fill)


def several(n, at=None):
    """n items, with a long key at a place."""

    def fill(b):
        for i in range(n):
            b.put(b'k' * (33 if i == at else 1))

    return fill


other = lambda b: 1 - b.q
reads = [APPEND, REWRITE, LIVE_APPEND]
rest = [APPEND, LIVE_APPEND, LIVE_REWRITE]

# 2
each('an empty batch', None, lambda b: b)
each('a list of 33 entries', (2, 0), lambda b: b.run(1, 33))
each('a list of 32 entries', None, lambda b: b.run(1, 32))
each('a key of 33 bytes', (2, 0), lambda b: b.put(b'k' * 33))
each('a key and a value of 32 bytes', None, lambda b: b.put(b'k' * 32, b'v' * 32))
each('a value of 33 bytes', (2, 1), lambda b: b.clean().put(b'k', b'v' * 33))
each('a deleted key of 33 bytes', (2, 0), lambda b: b.delete(b'k' * 33))
each('33 items', (2, 32), several(33))
each('32 items', None, several(32))
each('40 items, a long key at 5', (2, 5), several(40, 5))
each('40 items, a long key at 35', (2, 32), several(40, 35))
each('a reserved key with a value of 33 bytes', (2, 0), lambda b: b.put(RESERVED, b'v' * 33))
# 3
each('a Put without value', (3, 0), lambda b: b.put(b'k', None), reads)
case('a Put without value', LIVE_REWRITE, None, lambda b: b.put(b'k', None))
each('a Put without file', (3, 0), lambda b: b.put(b'k', queue=2), reads)
case('a Put without file', LIVE_REWRITE, None, lambda b: b.put(b'k', queue=TOP))
each('an empty key and an empty value', None, lambda b: b.put(b'', b''))
each('an entry without a file, by its queue', (3, 0), lambda b: b.list(entry(5, b.q), entry(6, 2)))
each('an entry without a file, by its compression type', (3, 0), lambda b: b.list(entry(5, b.q, compression=2)))
each('an entry without a file, by its entry offset', (3, 0), lambda b: b.list(entry(5, other(b), entry_offset=2**32)))
each('the highest entry offset, any block', None, lambda b: b.list(entry(5, b.q, TOP, TOP, TOP, 1, 2**32 - 1)))
each('indexes with a gap', (3, 1), lambda b: b.clean().list(entry(5, b.q), entry(6, b.q), entry(8, b.q)))
each('indexes that stand still', (3, 0), lambda b: b.list(entry(5, b.q), entry(5, b.q)))
each('indexes that fall', (3, 0), lambda b: b.list(entry(5, b.q), entry(4, b.q)))
each('the highest number, then 0', (3, 0), lambda b: b.list(entry(TOP, b.q), entry(0, b.q)))
each('lists of no entry and of one', None, lambda b: b.list().list(entry(9, b.q)))
case('a reserved Put without value', REWRITE, (3, 1), lambda b: b.clean().put(RESERVED, None))
case('a reserved Put without value, in a marked batch', REWRITE, (3, 1), lambda b: b.mark(0).put(RESERVED, None))
each('a reserved Put without value', None, lambda b: b.put(RESERVED, None), rest)
each('a reserved Put without file', None, lambda b: b.put(RESERVED, b'vv', queue=2))
# 4
each('index 2^63-1', None, lambda b: b.list(entry(2**63 - 1, b.q)))
each('index 2^63', (4, 0), lambda b: b.list(entry(2**63 - 1, b.q), entry(2**63, b.q)))
each('entry length 2^25', None, lambda b: b.list(entry(1, b.q, entry_len=2**25)))
each('entry length 2^25+1', (4, 0), lambda b: b.list(entry(1, b.q), entry(2, b.q, entry_len=2**25 + 1)))
each('Compact to 2^63-1', None, lambda b: b.compact(2**63 - 1), reads)
each('Compact to 2^63', (4, 0), lambda b: b.compact(2**63))
# 5
each('an entry of the other queue', (5, 0), lambda b: b.list(entry(1, b.q), entry(2, other(b))))
each("a Put of the other queue's file", (5, 0), lambda b: b.put(b'k', queue=other(b)), reads)
case("a Put of the other queue's file", LIVE_REWRITE, None, lambda b: b.put(b'k', queue=other(b)))
each("a reserved Put of the other queue's file", None, lambda b: b.put(RESERVED, b'vv', queue=other(b)))
# 6
case('Del', LIVE_REWRITE, (6, 0), lambda b: b.delete(b'k'))
case('Compact', LIVE_REWRITE, (6, 0), lambda b: b.compact(7))
case('Clean', LIVE_REWRITE, None, lambda b: b.clean())
case('a reserved Del', LIVE_REWRITE, None, lambda b: b.delete(RESERVED))
each('Del, Compact and Clean', None, lambda b: b.delete(b'k').compact(7).clean(), reads)
# 7
for status in range(3):
    case('a mark of status %d' % status, REWRITE, None, lambda b: b.run(1, 2).mark(status))
for status in (3, 255):
    case('a mark of status %d' % status, REWRITE, (7, 1), lambda b: b.run(1, 2).mark(status))
each('a mark of status 3, two marks and two groups', None, lambda b: b.mark(3).mark(0).clean(2), rest)
case('a second mark', REWRITE, (7, 2), lambda b: b.mark(0).clean().mark(0))
case('another group before the mark', REWRITE, (7, 0), lambda b: b.clean(2).mark(0))
case('another group after the mark', REWRITE, (7, 2), lambda b: b.mark(0).clean().clean(2))
case('another group before a mark of status 3', REWRITE, (7, 0), lambda b: b.clean(2).mark(3))
case("another group's reserved Del", REWRITE, (7, 1), lambda b: b.mark(1).delete(RESERVED, 2))
case('a second mark of another group', REWRITE, (7, 1), lambda b: b.mark(1).mark(1, 2))
case('two groups, a reserved Put of two bytes, one of none and a reserved Del', REWRITE, None,
     lambda b: b.put(RESERVED, b'\0\0').put(RESERVED, b'', group=2).delete(RESERVED, 3))
case("two groups, a Put of '__' with byte 2", REWRITE, None, lambda b: b.put(b'__\2', b'\0').clean(2))
# what is reserved
for key in (b'__', b'__\2', b'__\1\2', b'_a\1', b'a_\1', b'\1__'):
    case('a Put of %s without value' % key.hex(), APPEND, (3, 0), lambda b: b.put(key, None))
# the least number, at its first item
case('item 0 meets 5, item 2 meets 3', APPEND, (3, 2), lambda b: b.put(b'k', queue=1).clean().put(b'k', None))
case('item 0 meets 7, item 2 meets 4', REWRITE, (4, 2), lambda b: b.clean(2).mark(0).compact(2**63))
case('item 0 meets 6, item 1 meets 4', LIVE_REWRITE, (4, 1), lambda b: b.delete(b'k').compact(2**63))
case('item 0 meets 6, item 1 meets 5', LIVE_REWRITE, (5, 1), lambda b: b.delete(b'k').list(entry(1, 0)))
case('item 0 meets 3, item 3 meets 2', LIVE_APPEND, (2, 3), lambda b: b.put(b'k', None).clean().clean().run(1, 33))
case('items 1 and 3 meet 5', APPEND, (5, 1), lambda b: b.clean().list(entry(1, 1)).clean().list(entry(2, 1)))
case('one item meets 4 and 5', APPEND, (4, 0), lambda b: b.list(entry(2**63, 1)))
case('one item meets 2, 3, 4 and 5', APPEND, (2, 0), lambda b: b.list(*[entry(2**63, 1 + i % 2) for i in range(33)]))
case('33 items, item 0 meets 3', APPEND, (2, 32), lambda b: several(32)(b.put(b'k', None)))
case('33 items, the last one malformed', APPEND, (2, 32), lambda b: several(32)(b) or b.full(1, 9))
# rows that are no item
each('tag 5', (3, 1), lambda b: b.clean().full(1, 5))
each('the highest tag', (3, 0), lambda b: b.full(1, TOP))
each('a last row of one number', (3, 1), lambda b: b.clean().row(1))
each('a last row of eight numbers', (3, 0), lambda b: b.row(1, 1, 0, 0, 0, 0, 0, 0))
each('a value told by 2', (3, 0), lambda b: b.put(b'k', told=2))
each('a key past the bytes', (3, 0), lambda b: b.place(b'k') and b.full(1, 4, 1, 3))
each('a key whose place and length wrap', (3, 0), lambda b: b.full(1, 4, TOP, 2))
each('a value past the bytes', (3, 0), lambda b: b.full(1, 3, 0, 0, 1, 0, 1, b.q, 1))
each('a value whose place and length wrap', (3, 0), lambda b: b.full(1, 3, 0, 0, 1, 2, TOP, b.q, 1))
each('a list past the entries', (3, 0), lambda b: b.full(1, 0, 0, 1))
each('a list of 33 past the entries', (3, 0), lambda b: b.full(1, 0, 0, 33))
each('a list whose rows wrap', (3, 0), lambda b: b.full(1, 0, 2**61, 0))
each('a list whose place and count wrap', (3, 0), lambda b: b.full(1, 0, TOP, 1))
each('a list at a row of entries that is cut short', (3, 0), lambda b: b.entries.extend(entry(1, b.q)[:7]) or b.full(1, 0, 0, 1))
case('a malformed row of another group than the mark', REWRITE, (3, 1), lambda b: b.mark(0).full(2, 7))
