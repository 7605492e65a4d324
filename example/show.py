#!/usr/bin/env python3
"""Shows a group as a person reads it: for each record its name, place, operations, bases and qualities.

    show.py FILE     FILE is what the program `overlap` reads (two digits first) or writes (a line first), a
                     filed group, what `overlap_filed` writes, or frames alone

A file that is none of these is told in one line on standard error, with exit 1. It only reads how bytes are laid out;
what becomes of them is worked out in tests/model.py."""
import os, re, struct, sys

LETTERS, OPERATIONS = '=ACMGRSVTWYHKDBN', 'MIDNSHP=X'
TRAILER = struct.Struct('<IBBI4QQ')
TABLE = os.path.join(os.path.dirname(os.path.abspath(__file__)), '..', 'hosts', 'c', 'answers.def')


class NoGroup(Exception):
    """Why bytes are no group."""


def words(number):
    """What the number of a refusal means."""
    with open(TABLE, encoding='utf-8') as f:
        found = re.search(rf'(?m)^REFUSAL\({number},.*"(.*)"\)$', f.read())
    return found.group(1) if found else 'a number that no refusal has'


def fault(number, index):
    return NoGroup(f'at the record with index {index}: {words(number)} (refusal {number})')


def records(group, filed):
    """What is shown of framed records, and where the frames end: at the end, or in a filed group at four zero bytes."""
    found, at = [], 0
    while at < len(group) and not (filed and group[at:at + 4] == bytes(4)):
        size = int.from_bytes(group[at:at + 4], 'little')
        if at + 4 + size > len(group):
            raise fault(11, len(found))
        found.append(parts(group[at + 4:at + 4 + size], len(found)))
        at += 4 + size
    return found, at


def parts(r, index):
    """What is shown of a record."""
    if len(r) < 32:
        raise fault(1, index)
    ref, pos, name_length, _, _, ops, flags, l_seq = struct.unpack_from('<iiBBHHHI', r)
    operations = 32 + name_length
    bases = operations + 4 * ops
    quals = bases + (l_seq + 1) // 2
    if bases > len(r):
        raise fault(3, index)
    if quals + l_seq > len(r):
        raise fault(4, index)
    name = ''.join(chr(b) if 32 < b < 127 else '?' for b in r[32:32 + max(name_length - 1, 0)])
    cigar = ''.join(f'{w >> 4}{(OPERATIONS + "?" * 7)[w & 15]}' for w in struct.unpack_from(f'<{ops}I', r, operations))
    read = '  '.join(f'{LETTERS[r[bases + i // 2] >> (0 if i % 2 else 4) & 15]} {r[quals + i]:2}' for i in range(l_seq))
    place = 'first' if flags & 64 else 'last' if flags & 128 else 'other'
    return f'  {name} {place:5} reference {ref} from {pos + 1:>3} {cigar:>4}   {read}'


def trailer(group, at, count):
    """What is shown of the trailer that ends a filed group."""
    if len(group) - at != TRAILER.size:
        raise NoGroup(f'{words(20)} (refusal 20)')
    _, state, strategies, recorded, *growth, distance = TRAILER.unpack_from(group, at)
    if state > 1 or strategies > 8 or recorded != count or distance != at or (state == 0 and any(growth)):
        raise NoGroup(f'{words(21)} (refusal 21)')
    said = f'corrected, growth of the counts {" ".join(map(str, growth))}' if state else 'raw'
    return f'  trailer: {said}; strategies {strategies // 3} {strategies % 3}'


def group_lines(group, filed):
    """The lines for framed records; with filed, a trailer may stand behind them."""
    found, at = records(group, filed)
    return (found or ['  no records']) + ([trailer(group, at, len(found))] if at < len(group) else [])


def answer_lines(line, rest):
    """The lines for what a program wrote: its answer, and the group that follows."""
    refused = re.fullmatch(r'no (\d+) (\d+)', line)
    if refused:
        number, place = refused.groups()
        return [f'  answer: {line}', f'  refused with number {number}, place {place}: {words(number)}. No group follows.']
    if line.startswith('done'):
        return [f'  answer: {line}', '  already done: the filed group was corrected before. No group follows.']
    return [f'  answer: {line}'] + group_lines(rest, True)


def lines(data):
    """The lines for a file. One that fits as it stands is a filed group or frames; else its beginning says what it is."""
    answer = re.match(rb'((?:ok|done|no)(?: \d+)+)\n', data)
    if answer:
        return answer_lines(answer.group(1).decode(), data[answer.end():])
    try:
        return group_lines(data, True)
    except NoGroup:
        if re.match(rb'[0-2][0-2]', data):
            return group_lines(data[2:], False)
        raise


def main(args):
    if len(args) != 1:
        sys.exit('show.py: name one file, as: python3 example/show.py example/group')
    try:
        with open(args[0], 'rb') as f:
            data = f.read()
        if not data:
            raise NoGroup('it has no bytes')
        print('\n'.join(lines(data)))
    except OSError as e:
        sys.exit(f'show.py: {args[0]}: {e.strerror}')
    except NoGroup as e:
        sys.exit(f'show.py: {args[0]} is no group: {e}')


if __name__ == '__main__':
    main(sys.argv[1:])
