#!/usr/bin/env python3
"""Writes crates/group_cases/stdin and stdout: inputs of the program `overlap`, each with what it must write, as tests/model.py
works it out; the stored groups of the oracle follow, with what they were answered.

    group_cases.py           writes
    group_cases.py --check   compares; what was stored has to be the model's answer too
"""
import itertools, os, struct, sys

from model import group, overlap, record


def F(**parts):
    """The first read of the paper's whole case, but for these parts."""
    return record(**{'flags': 65, **parts})


def L(**parts):
    """The last read of that case, but for these parts."""
    return record(**{'flags': 129, 'pos': 10, 'bases': (2, 4, 1, 1), 'quals': (20, 30, 10, 40), **parts})


bare = record(name=b'', l_name=0, flags=0, ops=(), bases=(), quals=())
full = F(tags=bytes(65536 - 2 - 4 - len(F())))
cases = [
    ('nothing at all', b''),
    ('one digit', b'0'),
    ('digit too high', b'03' + group(F(), L())),
    ('first digit wrong', b'30'),
    ('letter', b'0x'),
    ('byte below 0', b'/0'),
    ('an empty group', b'00'),
    ('200 records', b'00' + group(*[bare] * 200)),
    ('one record', b'00' + group(F())),
    ('256 records', b'00' + group(*[bare] * 256)),
    ('257 records', b'00' + group(*[bare] * 257)),
    ('one byte after 256', b'00' + group(*[bare] * 256) + b'x'),
    ('one byte for a size', b'00' + group(F()) + b'\1'),
    ('three bytes for a size', b'00' + group(F(), L()) + b'\1\0\0'),
    ('size past the end', b'00' + group(F()) + struct.pack('<I', 41) + b'x' * 40),
    ('size far past the end', b'00' + struct.pack('<I', 70000) + b'x' * 100),
    ('size of 0', b'00' + group(F(), b'')),
    ('31 bytes', b'00' + group(bytes(31))),
    ('32 bytes', b'00' + group(bytes(32))),
    ('name past the record', b'00' + group(bytes(8) + b'\1' + bytes(23))),
    ('operations past it', b'00' + group(F(n_ops=9))),
    ('bases past it', b'00' + group(F(l_seq=6))),
    ('qualities end with it', b'00' + group(F(l_seq=4))),
    ('tags after them', b'00' + group(F(tags=b'NM'), L(tags=b'X'))),
    ('the whole case', b'00' + group(F(), L())),
    ('MaxQual and MaskBoth', b'11' + group(F(), L())),
    ('PassThrough, MaskLower', b'22' + group(F(), L())),
    ('first after last', b'00' + group(L(), F())),
    ('an N on one side', b'00' + group(F(bases=(1, 15, 4, 8)), L())),
    ('other names', b'00' + group(F(name=b'a'), L(name=b'b'))),
    ('a name and its front', b'00' + group(F(name=b'ab'), L(name=b'a'))),
    ('empty names', b'00' + group(F(name=b''), L(name=b''))),
    ('name lengths 0 and 1', b'00' + group(F(name=b'', l_name=0), L(name=b''))),
    ('both flags: a first', b'00' + group(F(flags=193), L())),
    ('two firsts', b'00' + group(F(), L(flags=193))),
    ('no end flag', b'00' + group(F(flags=1), L())),
    ('secondary', b'00' + group(F(flags=321), L())),
    ('supplementary', b'00' + group(F(), L(flags=2177))),
    ('secondary later', b'00' + group(F(), L(), F(flags=321, pos=10))),
    ('a later first', b'00' + group(F(pos=10), L(), F())),
    ('a later last', b'00' + group(F(), L(pos=500), L())),
    ('three firsts, two lasts', b'00' + group(F(pos=1), L(pos=2), F(pos=3), L(), F())),
    ('unmapped', b'00' + group(F(flags=69), L())),
    ('other reference', b'00' + group(F(ref=1), L())),
    ('both without reference', b'00' + group(F(ref=-1), L(ref=-1))),
    ('unplaced', b'00' + group(F(pos=-1), L())),
    ('apart', b'00' + group(F(pos=900), L())),
    ('touching', b'00' + group(F(pos=6), L())),
    ('two pairs', b'00' + group(F(), F(name=b'b', pos=11), L(name=b'b'), L())),
    ('code 9, no mate', b'00' + group(F(ops=((4, 9),)))),
    ('code 9 in the first', b'00' + group(L(), F(ops=((4, 9),)))),
    ('code 9 in the last', b'00' + group(F(), L(ops=((4, 9),)))),
    ('length 0 behind', b'00' + group(F(ops=((4, 0), (0, 0))), L())),
    ('length 0 before', b'00' + group(F(), L(ops=((0, 4), (4, 0))))),
    ('lengths 0 between', b'00' + group(F(ops=((1, 0), (0, 0), (1, 1), (0, 7), (2, 0))), L(ops=((1, 0), (0, 2), (0, 0), (1, 2), (3, 0))))),
    ('length 0 and code 9', b'00' + group(F(), L(ops=((4, 0), (0, 9))))),
    ('0M alone', b'00' + group(F(ops=((0, 0),)), L())),
    ('0M alone, no bases', b'00' + group(F(), L(ops=((0, 0),), bases=(), quals=()))),
    ('read total one off', b'00' + group(F(), L(ops=((3, 0),)))),
    ('reference end at its limit', b'00' + group(F(pos=2147483642), L(pos=2147483642))),
    ('reference end one past it', b'00' + group(F(pos=2147483642), L(pos=2147483643))),
    ('a late refusal', b'00' + group(F(), L(), F(name=b'b'), L(name=b'b', ops=((3, 0), (0, 0))))),
    ('both refused: the first', b'00' + group(F(name=b'b', ops=((4, 9),)), F(ops=((0, 0),)), L(), L(name=b'b'))),
    ('refused but unmapped', b'00' + group(F(flags=69, ops=((4, 9),)), L())),
    ('128 pairs', b'00' + group(*[x for k in range(128) for x in (F(name=b'n%d' % k), L(name=b'n%d' % k))])),
    ('mates far apart', b'00' + group(*[F(name=b'n%d' % k) for k in range(128)], *[L(name=b'n%d' % k) for k in range(128)])),
    ('input of 65,536 bytes', b'00' + group(full)),
    ('input of 65,537 bytes', b'00' + group(full) + b'x'),
    ('too long, wrong digits', b'xx' + bytes(65536)),
]


def stored():
    """The groups of the stored list, each with what the program must write (oracle/README.md)."""
    with open('oracle/stored/groups.bin', 'rb') as f:
        data = f.read()
    count, = struct.unpack_from('<I', data, 4)
    at = 8
    for k in range(count):
        n, m = struct.unpack_from('<II', data, at)
        yield f'stored group {k}', data[at + 8:at + 8 + n], data[at + 8 + n:at + 8 + n + m]
        at += 8 + n + m


def files():
    """What the program crate group_cases reads, and what it writes where all is as expected."""
    own = ((name, s, overlap(s)) for name, s in cases)
    read, written = b'', b''
    for name, s, want in itertools.chain(own, stored()):
        head = name.encode().ljust(32)
        read += head + struct.pack('<II', len(s), len(want)) + s + want
        written += head + b'as expected\n'
    return {'crates/group_cases/stdin': read, 'crates/group_cases/stdout': written}


def check():
    """Whether the files are what is written here, and the stored answers are the model's too; prints what isn't."""
    faults = [f'{name}: the model writes something else' for name, s, want in stored() if overlap(s) != want]
    for path, data in files().items():
        with open(path, 'rb') as f:
            if f.read() != data:
                faults.append(f'{path}: it isn\'t what tests/group_cases.py writes')
    for fault in faults:
        print(fault)
    print(f'group cases: {len(cases)} of our own and {len(list(stored()))} stored, {len(faults)} faults')
    return 1 if faults else 0


os.chdir(os.path.join(os.path.dirname(os.path.abspath(__file__)), '..'))
if sys.argv[1:] == ['--check']:
    sys.exit(check())
for path, data in files().items():
    with open(path, 'wb') as f:
        f.write(data)
