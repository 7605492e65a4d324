"""The paper in Python, by the plainest means, and the only text of it in this language: how records, groups and trailers
are built, and what the program `overlap` must write for an input."""
import struct

TRAILER = struct.Struct('<IBBI4QQ')
NO_CALL = 15                     # the code of N
READ, REFERENCE = (0, 1, 4, 7, 8), (0, 2, 3, 7, 8)  # codes of the operations that use the read, and the reference


class Refused(Exception):
    """A refusal: its number and its place."""


# ---- Building ----

def record(name=b'a', flags=65, pos=9, ops=((4, 0),), bases=(1, 2, 4, 8), quals=(30, 30, 30, 30), ref=0, tags=b'',
           l_name=None, l_seq=None, n_ops=None):
    """A record. Operations are lengths and codes. What l_name, l_seq and n_ops say goes before what the parts have; a name
    gets its zero byte unless l_name is given."""
    name = name + b'\0' if l_name is None else name
    n = len(name) if l_name is None else l_name
    packed = bytes((a << 4) | b for a, b in zip(list(bases)[::2], list(bases[1::2]) + [0]))
    head = struct.pack('<iiBBHHHIiii', ref, pos, n, 60, 4681, len(ops) if n_ops is None else n_ops, flags,
                       len(bases) if l_seq is None else l_seq, 0, 0, 0)
    return head + name + b''.join(struct.pack('<I', length * 16 + code) for length, code in ops) + packed + bytes(quals) + tags


def frame(r):
    return struct.pack('<I', len(r)) + r


def group(*records):
    return b''.join(map(frame, records))


def trailer(state, agreement, disagreement, records, growth, distance):
    """The trailer of a filed group: state 0 is raw, 1 corrected."""
    return TRAILER.pack(0, state, 3 * agreement + disagreement, records, *growth, distance)


# ---- A record ----

def number(r, at, width):
    return int.from_bytes(r[at:at + width], 'little')


def signed(r, at):
    return int.from_bytes(r[at:at + 4], 'little', signed=True)


def ref_id(r):
    return signed(r, 0)


def pos(r):
    return signed(r, 4)


def flags(r):
    return number(r, 14, 2)


def l_seq(r):
    return number(r, 16, 4)


def bases_at(r):
    return 32 + r[8] + 4 * number(r, 12, 2)


def qualities_at(r):
    return bases_at(r) + (l_seq(r) + 1) // 2


def operations(r):
    return [divmod(number(r, 32 + r[8] + 4 * k, 4), 16) for k in range(number(r, 12, 2))]


def check_record(r, place):
    """Refusals 1 to 4."""
    if len(r) < 32:
        raise Refused(1, place)
    if len(r) > 65536:
        raise Refused(2, place)
    if bases_at(r) > len(r):
        raise Refused(3, place)
    if qualities_at(r) + l_seq(r) > len(r):
        raise Refused(4, place)


def check_operations(r, place):
    """Refusals 5, 7 and 8."""
    for length, code in operations(r):
        if code > 8:
            raise Refused(5, place)
    if l_seq(r) and operations(r) and sum(length for length, code in operations(r) if code in READ) != l_seq(r):
        raise Refused(7, place)
    if pos(r) + sum(length for length, code in operations(r) if code in REFERENCE) > 2147483646:
        raise Refused(8, place)


def sitting(r):
    """The index of the base at each position, counted from 1, where one sits."""
    found, i, p = {}, 0, pos(r) + 1
    for length, code in operations(r):
        for k in range(min(length, max(l_seq(r) - i, 0)) if code in READ and code in REFERENCE else 0):
            found[p + k] = i + k
        i += length * (code in READ)
        p += length * (code in REFERENCE)
    return found


def called(r, i):
    """Base i: its code and its quality."""
    return r[bases_at(r) + i // 2] >> (0 if i % 2 else 4) & 15, r[qualities_at(r) + i]


def put(r, i, code, quality):
    k = bases_at(r) + i // 2
    r[k] = (r[k] & 15) | code << 4 if i % 2 == 0 else (r[k] & 240) | code
    r[qualities_at(r) + i] = quality


# ---- A pair ----

def not_compared(a, b):
    return (flags(a) | flags(b)) & 4 or ref_id(a) != ref_id(b) or pos(a) < 0 or pos(b) < 0


def treated(x, y, agreement, disagreement):
    """What two called bases at a shared position become, and by how much the last count grows."""
    (v, e), (w, f) = x, y
    masked = (NO_CALL, 2)
    if v == w:
        to = [(min(e + f, 93),) * 2, (max(e, f),) * 2, (e, f)][agreement]
        return (v, to[0]), (w, to[1]), int(to != (e, f))
    if disagreement == 0 and e != f:
        winner = (v if e > f else w, max(abs(e - f), 2))
        return winner, winner, 2
    if disagreement < 2 or e == f:
        return masked, masked, 2
    return (masked, y, 1) if e < f else (x, masked, 1)


def correct(a, b, agreement, disagreement, counts):
    """Corrects a pair that isn't refused and adds to the counts; whether the two overlap."""
    if not_compared(a, b):
        return False
    x, y = sitting(a), sitting(b)
    shared = sorted(set(x) & set(y))
    for p in shared:
        mine, other = called(a, x[p]), called(b, y[p])
        if NO_CALL in (mine[0], other[0]):
            continue
        after, other_after, corrected = treated(mine, other, agreement, disagreement)
        put(a, x[p], *after)
        put(b, y[p], *other_after)
        counts[0] += 1
        counts[1 if mine[0] == other[0] else 2] += 1
        counts[3] += corrected
    return bool(shared)


# ---- A group ----

def cut(frames):
    """The records of framed ones."""
    records, at = [], 0
    while at < len(frames):
        k = len(records)
        if k == 256:
            raise Refused(12, 256)
        if len(frames) - at < 4 or at + 4 + number(frames, at, 4) > len(frames):
            raise Refused(11, k)
        r = bytearray(frames[at + 4:at + 4 + number(frames, at, 4)])
        check_record(r, k)
        records.append(r)
        at += 4 + len(r)
    return records


def pairs(records):
    """The indexes of each first and its last, in order of the first's."""
    first, last = {}, {}
    for i, r in enumerate(records):
        name = bytes(r[32:32 + max(r[8] - 1, 0)])
        if flags(r) & (256 | 2048):
            continue
        if flags(r) & 64:
            first[name] = i
        elif flags(r) & 128:
            last[name] = i
    return sorted((i, last[name]) for name, i in first.items() if name in last)


def corrected_group(s):
    """What is written for an input that isn't refused."""
    if len(s) > 65536:
        raise Refused(14, 0)
    if len(s) < 2 or s[0] not in b'012' or s[1] not in b'012':
        raise Refused(10, 0)
    records = cut(s[2:])
    found = pairs(records)
    for i, j in found:
        if not not_compared(records[i], records[j]):
            check_operations(records[i], i)
            check_operations(records[j], j)
    counts = [0, 0, 0, 0]
    met = sum(correct(records[i], records[j], s[0] - 48, s[1] - 48, counts) for i, j in found)
    return b'ok %d %d %d %d %d %d %d\n' % (len(records), len(found), met, *counts) + group(*records)


def overlap(s):
    """What the program `overlap` must write for this input."""
    try:
        return corrected_group(s)
    except Refused as refusal:
        return b'no %d %d\n' % refusal.args
