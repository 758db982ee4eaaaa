#!/usr/bin/env python3
"""Writes crates/takes_vectors/data, args and stdout anew: inputs of document 01's program `takes`, and what the Rust prints for each.

It needs the driver of the Rust, which oracle/build makes."""
import os
import re
import subprocess

ROOT = os.path.join(os.path.dirname(os.path.abspath(__file__)), '..', '..')
ORACLE = os.path.join(ROOT, 'oracle/target/release/oracle')
CRATE = os.path.join(ROOT, 'crates/takes_vectors')

# 01's own example, and its bench cases that runs of an Append context can show.
EXAMPLE = b'E,7,1,1,10,10,10\nP,7,1,6b,76\nM\nE,7,3,2,20,20\nC,7,2\nD,7,6b\nP,9,2,61,\n'


def ones(n):
    return b','.join([b'1'] * n)


BENCH = {
    'bench_02_one_pass': b'E,7,1,1,%s\nE,7,4,2,1,1,1\nC,7,7\n' % ones(10),
    'bench_02_two_runs': b'E,7,1,1,%s\nM\nE,7,4,2,1,1,1\nC,7,7\n' % ones(10),
    'bench_10': b'E,7,5,1,1,1,1,1\nC,7,5\nM\nC,7,7\nM\nC,7,20\nE,7,3,2,1\n',
    'bench_11_index': b'E,7,9223372036854775807,1,1\nE,8,9223372036854775808,1,1\n',
    'bench_11_entries': b'E,7,1,1,%s\nE,7,33,1,%s\nE,7,65,1,1\n' % (ones(32), ones(32)),
}

# Lines of every malformed kind, among them some that are nearly so.
MALFORMED = [
    b'', b' ', b'Q,1', b'e,7,1,1,5', b'EE,7,1,1,5', b'7', b',', b',E', b'M,', b'M ', b' M', b'm', b'MM',
    b'E', b'E,', b'E,7', b'E,7,1', b'E,7,1,1', b'E,7,1,1,', b'E,7,1,1,5,', b'E,7,1,,5', b'E,,1,1,5', b'E,7,,1,5',
    b'E,7,1,1,4294967295', b'E,7,1,1,4294967296', b'E,7,1,1,00000000000000000000000000000005', b'E,7,1,1,5 ', b'E,7,1,1,\t5',
    b'E,7,+1,1,5', b'E,7,-1,1,5', b'E,7, 1,1,5', b'E,7,0x1,1,5', b'E,7,1.0,1,5', b'E,7,"1",1,5', b'E,7,1,1,5\r', b'E,7,1,1,5\0', b'\xff',
    b'E,18446744073709551615,1,1,5', b'E,18446744073709551616,1,1,5', b'E,7,18446744073709551616,1,5', b'E,7,1,18446744073709551616,5',
    b'E,99999999999999999999999999,1,1,5', b'E,7,18446744073709551615,1,5', b'E,7,18446744073709551615,1,5,5',
    b'E,7,18446744073709551584,1,%s' % ones(32), b'E,7,18446744073709551584,1,%s' % ones(33), b'E,7,1,1,%s' % ones(33),
    b'E,7,1,1,%s,x' % ones(32), b'E,7,1,1,x,%s' % ones(32), b'E,7,1,1,%s,4294967296,%s' % (ones(16), ones(16)), b'E,7,1,1,%s,' % ones(40),
    b'E,7,1,1,%s,,1' % ones(40), b'E,7,1,1,%s' % ones(2000),
    b'P,7,1,6b', b'P,7,1,6b,', b'P,7,1,,', b'P,7,1,,76', b'P,7,1,6b,76,', b'P,7,1,6,76', b'P,7,1,6b,7', b'P,7,1,6g,76', b'P,7,1,6B,7f', b'P,7,1,6b,7G',
    b'P,7,1,6b6,76', b'P,,1,6b,76', b'P,7,,6b,76', b'P,7,x,6b,76', b'P,7,18446744073709551616,6b,76', b'P,7,1, 6b,76', b'P,7,1,0x6b,76',
    b'P,7,1,%s,76' % (b'6b' * 32), b'P,7,1,%s,76' % (b'6b' * 33), b'P,7,1,%s6,76' % (b'6b' * 33), b'P,7,1,%sx6,76' % (b'6b' * 40),
    b'P,7,1,6b,%s' % (b'76' * 32), b'P,7,1,6b,%s' % (b'76' * 33), b'P,7,1,6b,%s7' % (b'76' * 33), b'P,7,1,5f5f01,', b'P,7,1,5F5F01,00', b'P,7,1,5f5f01',
    b'D', b'D,7', b'D,7,', b'D,7,6b', b'D,7,6', b'D,7,6b,', b'D,,6b', b'D,x,6b', b'D,7,zz', b'D,7,%s' % (b'6b' * 33), b'D,7,%s6' % (b'6b' * 33), b'D,7,5f5f01',
    b'C', b'C,7', b'C,7,', b'C,7,1', b'C,7,-1', b'C,7,1,', b'C,7,9223372036854775807', b'C,7,9223372036854775808', b'C,7,18446744073709551616', b'C,,1', b'C,7,1a',
    b'X', b'X,', b'X,7,', b'X,7', b'X,-7', b'X,7\r', b'X,18446744073709551615', b'X,18446744073709551616',
]


def vectors():
    """The inputs of oracle/vectors/takes.txt."""
    text = open(os.path.join(ROOT, 'oracle/vectors/takes.txt'), 'rb').read()
    for script in re.split(rb'(?m)^script ', text)[1:]:
        lines = script.split(b'\n')
        yield 'script_%02d' % int(lines[0]), b''.join(x[2:] + b'\n' for x in lines[1:] if x.startswith(b'> '))


def inputs():
    yield 'example', EXAMPLE
    yield from BENCH.items()
    yield 'malformed', b'\n'.join(MALFORMED) + b'\n'
    yield 'malformed_last', b'E,7,1,1,5\nM\nE,7,9,1,5\nQ'
    yield 'no_newline', b'E,7,1,1,5\nE,7,2,1,5'
    yield 'empty', b''
    yield 'only_newlines', b'\n\n\n'
    yield from vectors()
    yield 'long', subprocess.run([ORACLE, 'takes', 'long', '10000', '300'], capture_output=True, check=True).stdout


def main():
    data = os.path.join(CRATE, 'data')
    os.makedirs(data, exist_ok=True)
    for old in os.listdir(data):
        os.remove(os.path.join(data, old))
    names, printed = [], []
    for name, text in inputs():
        names.append(name + '.txt')
        with open(os.path.join(data, names[-1]), 'wb') as f:
            f.write(text)
        out = subprocess.run([ORACLE, 'takes'], input=text, capture_output=True, check=True).stdout
        printed.append(b'# %s\n' % names[-1].encode() + out)
    with open(os.path.join(CRATE, 'args'), 'w') as f:
        f.write(''.join(n + '\n' for n in names))
    with open(os.path.join(CRATE, 'stdout'), 'wb') as f:
        f.write(b''.join(printed))
    print('%d inputs, %d lines printed' % (len(names), b''.join(printed).count(b'\n') - len(names)))


main()
