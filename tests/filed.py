#!/usr/bin/env python3
"""Files groups and sends them through the program overlap_filed: the line and the frames against those of `overlap`, the
trailer's counts against the line; the corrected group sent again; and every part of it that a torn write could leave.

    filed.py OVERLAP OVERLAP_FILED FILE GROUP...     FILE is the program of hosts/c/file.c; a group has two digits first
"""
import re, subprocess, sys

import model

overlap, overlap_filed, file = sys.argv[1:4]
filed = fronts = 0


def run(data, *command):
    done = subprocess.run(command, input=data, capture_output=True)
    return done.stdout, done.stderr


def same(what, expected, got):
    if expected != got:
        sys.exit(f'{what}\n expected: {expected}\n got:      {got}')


def correct(what, digits, frames):
    """Files the frames, corrects the group and sends it again; gives the corrected group."""
    raw, said = run(frames, file, *digits)
    same(f'{what}: filing', b'', said)
    line, _, corrected_frames = run(digits.encode() + frames, overlap)[0].partition(b'\n')
    filed_line, _, corrected = run(raw, overlap_filed)[0].partition(b'\n')
    same(f'{what}: line', line, filed_line)
    records, _, _, *growth = map(int, line.split()[1:])
    trailer = model.trailer(1, int(digits[0]), int(digits[1]), records, growth, len(frames))
    same(f'{what}: frames', corrected_frames, corrected[:-50])
    same(f'{what}: trailer', trailer, corrected[-50:])
    again = 'done ' + ' '.join(map(str, [records, *growth])) + '\n'
    same(f'{what}: sent again', again.encode(), run(corrected, overlap_filed)[0])
    return corrected


for path in sys.argv[4:]:
    with open(path, 'rb') as f:
        digits, frames = f.read(2).decode(), f.read()
    for other in (m + k for m in '012' for k in '012'):
        correct(f'{path}, strategies {other}', other, frames)
        filed += 1
    corrected = correct(path, digits, frames)
    for n in range(len(corrected)):
        answer = run(corrected[:n], overlap_filed)[0]
        same(f'{path}, {n} bytes of the corrected group, {answer}: refused', True, bool(re.fullmatch(rb'no \d+ \d+\n', answer)))
        fronts += 1
    same(f'{path}: a byte more', b'no 20 0\n', run(corrected + b'\0', overlap_filed)[0])
    same(f'{path}: filing a part', (b'', b'no 11 1\n'), run(frames[:-1], file, *digits))
    same(f'{path}: filing for strategy 3', (b'', b'no 10 0\n'), run(frames, file, '0', '3'))
print(f'filed groups: {filed} corrected as `overlap` does and known when sent again, {fronts} torn parts refused')
