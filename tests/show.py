#!/usr/bin/env python3
"""What example/show.py says of each kind of file, and of what is no group: lines and exit, never a traceback."""
import os, subprocess, sys

import model

os.chdir(os.path.join(os.path.dirname(os.path.abspath(__file__)), '..'))
FILE = 'target/tests/shown'
tried = bad = 0


def frame(flags, quality, code=0):
    """A frame: a record named a, with one base A and one operation of length 1 at 10."""
    return model.frame(model.record(flags=flags, ops=((1, code),), bases=(1,), quals=(quality,)))


def shows(what, exit_code, lines, *args):
    """Runs show.py with these arguments, and compares all that it prints."""
    global tried, bad
    done = subprocess.run([sys.executable, 'example/show.py', *args], stdout=subprocess.PIPE, stderr=subprocess.STDOUT, text=True)
    expected = ''.join(line + '\n' for line in lines)
    tried += 1
    if (done.returncode, done.stdout) != (exit_code, expected):
        bad += 1
        print(f'{what}\n expected: exit {exit_code}\n{expected} got: exit {done.returncode}\n{done.stdout}', end='')


def shows_file(what, data, exit_code, *lines):
    with open(FILE, 'wb') as f:
        f.write(data)
    shows(what, exit_code, lines, FILE)


def no_group(what, data, why):
    shows_file(what, data, 1, f'show.py: {FILE} is no group: {why}')


FRAMES = frame(65, 30) + frame(129, 20)
RAW = FRAMES + model.trailer(0, 1, 2, 2, [0] * 4, len(FRAMES))
AFTER = frame(65, 50) + frame(129, 50)
CORRECTED = AFTER + model.trailer(1, 0, 0, 2, [1, 1, 0, 1], len(AFTER))
SHOWN = ['  a first reference 0 from  10   1M   A 30', '  a last  reference 0 from  10   1M   A 20']
SHOWN_AFTER = [line[:-2] + '50' for line in SHOWN]
SHOWN_TRAILER = '  trailer: corrected, growth of the counts 1 1 0 1; strategies 0 0'
USAGE = ['show.py: name one file, as: python3 example/show.py example/group']


def groups():
    shows_file('a group', b'00' + FRAMES, 0, *SHOWN)
    shows_file('a group without records', b'21', 0, '  no records')
    shows_file('frames alone', FRAMES, 0, *SHOWN)
    shows_file('what overlap writes', b'ok 2 1 1 1 1 0 1\n' + AFTER, 0, '  answer: ok 2 1 1 1 1 0 1', *SHOWN_AFTER)
    shows_file('a raw filed group', RAW, 0, *SHOWN, '  trailer: raw; strategies 1 2')
    shows_file('a corrected filed group', CORRECTED, 0, *SHOWN_AFTER, SHOWN_TRAILER)
    shows_file('a trailer alone', bytes(50), 0, '  no records', '  trailer: raw; strategies 0 0')
    shows_file('what overlap_filed writes', b'ok 2 1 1 1 1 0 1\n' + CORRECTED, 0, '  answer: ok 2 1 1 1 1 0 1', *SHOWN_AFTER, SHOWN_TRAILER)
    shows_file('an operation code above 8', frame(65, 30, 9), 0, SHOWN[0].replace('1M', '1?'))


def lines_alone():
    shows_file('already done', b'done 2 1 1 0 1\n', 0, '  answer: done 2 1 1 0 1',
               '  already done: the filed group was corrected before. No group follows.')
    shows_file('refused', b'no 7 3\n', 0, '  answer: no 7 3',
               "  refused with number 7, place 3: the operations don't account for the bases. No group follows.")
    shows_file('an unknown number', b'no 16 0\n', 0, '  answer: no 16 0',
               '  refused with number 16, place 0: a number that no refusal has. No group follows.')


def no_groups():
    shows('no argument', 1, USAGE)
    shows('two arguments', 1, USAGE, 'a', 'b')
    shows('a missing file', 1, ['show.py: target/tests/missing: No such file or directory'], 'target/tests/missing')
    shows('a folder', 1, ['show.py: target/tests: Is a directory'], 'target/tests')
    no_group('an empty file', b'', 'it has no bytes')
    within = 'at the record with index {}: the group ends within a record (refusal 11)'
    no_group('a text', b'No group at all.\n', within.format(0))
    no_group('digits alone', b'0012345678', within.format(0))
    no_group('torn frames', FRAMES[:-1], within.format(1))
    short = 'at the record with index {}: record under 32 bytes (refusal 1)'
    no_group('a short record', b'00' + frame(65, 30) + b'\x1f\0\0\0' + bytes(31), short.format(1))
    no_group('a size of 0 in a group', b'00' + bytes(50), short.format(0))
    no_group('a name past the end', b'\x20\0\0\0' + bytes(8) + b'\1' + bytes(23),
             'at the record with index 0: name and operations reach past the record (refusal 3)')
    no_group('bases past the end', b'\x20\0\0\0' + bytes(16) + b'\1' + bytes(15),
             'at the record with index 0: bases and qualities reach past the record (refusal 4)')
    no_group('a torn trailer', RAW[:-1], 'no trailer, or not the last 50 bytes (refusal 20)')
    no_group('a trailer of another group', frame(65, 30) + RAW[-50:], "the trailer doesn't fit the group (refusal 21)")


os.makedirs(os.path.dirname(FILE), exist_ok=True)
groups()
lines_alone()
no_groups()
print(f'example/show.py: {tried} runs, {bad} differ')
sys.exit(1 if bad else 0)
