//! Seeded random pairs: well formed, damaged, and at the extremes of every number.
use crate::record::*;
use crate::rng::Rng;

/// Qualities at which the rule turns: around 2, half of 93, 93, and the ends.
pub const TURNING: [u8; 10] = [0, 1, 2, 3, 46, 47, 92, 93, 94, 255];

/// A read whose operations and bases fit each other; all nine operations, all sixteen codes. In a third
/// of the reads one operation in three has length 0.
pub fn read(r: &mut Rng) -> Read {
    let mut read = Read { flags: flags(r), name: name(r), spare: r.below(16) as u8, ..Read::default() };
    read.unread = std::array::from_fn(|_| r.next() as u8);
    let count = match r.below(16) {
        0 => 0,
        1..=4 => 1,
        5..=14 => r.range(2, 6),
        _ => r.range(7, 40),
    };
    let longest = if r.one_in(2000) { 12_000 } else { r.pick(&[2, 2, 9, 9, 40, 150]) };
    let zeros = r.one_in(3);
    for _ in 0..count {
        let code = if r.one_in(2) { M } else { r.below(9) as u32 };
        let length = if zeros && r.one_in(3) { 0 } else { r.range(1, longest) as u32 };
        read.ops.push((code, length));
    }
    let bases = match read.ops.len() {
        0 => r.below(12),
        _ if r.one_in(16) => 0,
        _ => read.read_length(),
    };
    read.codes = codes(r, bases);
    read.quals = qualities(r, bases);
    if r.one_in(2) {
        let n = r.below(50);
        read.tags = r.bytes(n);
    }
    read
}

fn flags(r: &mut Rng) -> u16 {
    let any = r.next() as u16;
    if r.one_in(40) { any | 4 } else { any & !4 }
}

fn name(r: &mut Rng) -> Vec<u8> {
    let n = match r.below(20) {
        0 => 0,
        1 => 255,
        _ => 1 + r.below(9),
    };
    r.bytes(n)
}

fn codes(r: &mut Rng, n: u64) -> Vec<u8> {
    let style = r.below(4);
    let mut one = || match style {
        0 => r.below(16) as u8,
        1 => r.pick(&[1, 2, 4, 8]),
        2 if r.one_in(6) => r.below(16) as u8,
        2 => 1,
        _ => r.pick(&[1, 1, 2, 15, 0]),
    };
    (0..n).map(|_| one()).collect()
}

fn qualities(r: &mut Rng, n: u64) -> Vec<u8> {
    let style = r.below(4);
    let mut one = || match style {
        0 => r.next() as u8,
        1 => r.range(2, 41) as u8,
        2 => r.pick(&TURNING),
        _ => r.range(44, 49) as u8,
    };
    (0..n).map(|_| one()).collect()
}

fn counts(r: &mut Rng) -> Vec<u8> {
    let mut one = || match r.below(40) {
        0 => MOST,
        1 if r.one_in(3) => MOST + 1 + r.below(2) * (u64::MAX - MOST - 1),
        2..=9 => r.next() % MOST,
        10..=19 => r.below(1000),
        _ => 0,
    };
    pack(std::array::from_fn(|_| one()))
}

/// Two reads placed so that they mostly meet.
pub fn reads(r: &mut Rng) -> (Read, Read) {
    let (mut a, mut b) = (read(r), read(r));
    let (long_a, long_b) = (a.reference_length() as i64, b.reference_length() as i64);
    let start = match r.below(16) {
        0 => 0,
        1 => LAST - long_a - r.below(4) as i64,
        2 => r.range(0, LAST - 1_000_000),
        _ => r.below(400) as i64,
    };
    let near = start + r.range(-long_b - 1, long_a + 1);
    a.pos = start as i32;
    b.pos = near.clamp(0, LAST - long_b) as i32;
    let id = r.pick(&[0, 0, 0, -1, 7, i32::MAX, i32::MIN]);
    (a.ref_id, b.ref_id) = (id, id);
    if r.one_in(40) {
        b.ref_id = r.range(-2, 2) as i32;
    }
    if r.one_in(40) {
        let negative = r.pick(&[-1, -2, i32::MIN]);
        if r.one_in(2) { a.pos = negative } else { b.pos = negative }
    }
    (a, b)
}

/// A well-formed pair (a few with a count past the limit).
pub fn good(r: &mut Rng) -> Case {
    let (a, b) = reads(r);
    let (agreement, disagreement) = (r.below(3) as u32, r.below(3) as u32);
    Case { counts: counts(r), ..Case::new(a.encode(), b.encode(), agreement, disagreement) }
}

/// A well-formed pair with one to three places damaged.
pub fn damaged(r: &mut Rng) -> Case {
    let mut case = good(r);
    case.counts = vec![0; 32];
    for _ in 0..r.range(1, 3) {
        match r.below(24) {
            0 => case.agreement = r.pick(&[3, 4, 255, 256, 65_536, u32::MAX]),
            1 => case.disagreement = r.pick(&[3, 4, 255, 256, 65_536, u32::MAX]),
            2 => case.counts = vec![0; r.pick(&[0, 8, 31, 33, 64])],
            _ => {
                let record = if r.one_in(2) { &mut case.first } else { &mut case.second };
                damage(r, record);
            }
        }
    }
    case
}

/// Damages one place of a record: its end, a length, a number in the fixed part, an operation, a bit.
pub fn damage(r: &mut Rng, record: &mut Vec<u8>) {
    let long = record.len() as u64;
    let near = |record: &[u8], at: usize, by: i64| (i64::from(record[at]) + by) as u8;
    match r.below(12) {
        0 => record.truncate(r.below(long + 1) as usize),
        1 => record.truncate(long.saturating_sub(1 + r.below(3)) as usize),
        2 => record.extend(vec![7; 1 + r.below(3) as usize]),
        3 if long >= 32 => record.resize(r.pick(&[31, 32, 33, 65_535, 65_536, 65_537]), 0),
        4 if long >= 32 => record[8] = r.pick(&[0, 1, 255, near(record, 8, 1), near(record, 8, -1)]),
        5 if long >= 32 => record[12] = r.pick(&[0, 255, near(record, 12, 1), near(record, 12, -1)]),
        6 if long >= 32 => record[16] = r.pick(&[near(record, 16, 1), near(record, 16, -1), 0]),
        7 if long >= 32 => record[17 + r.below(3) as usize] = r.pick(&[1, 127, 128, 255]),
        8 if long >= 32 => {
            let pos = r.pick(&[-1, i32::MIN, i32::MAX, i32::MAX - 1, i32::MAX - 2, i32::MAX - 30]);
            record[4..8].copy_from_slice(&pos.to_le_bytes());
        }
        9 | 10 if long >= 32 => {
            // an operation, if there is one there
            let at = 32 + usize::from(record[8]) + 4 * r.below(4) as usize;
            if at + 4 <= record.len() {
                let op = u32::from_le_bytes(record[at..at + 4].try_into().unwrap());
                let (code, length) = (op % 16, op / 16);
                let code = if r.one_in(2) { r.below(16) as u32 } else { code };
                let length = r.pick(&[0, 1, length, length + 1, length.saturating_sub(1), LONGEST]) & LONGEST;
                record[at..at + 4].copy_from_slice(&(length << 4 | code).to_le_bytes());
            }
        }
        _ if long > 0 => record[r.below(long) as usize] ^= 1 << r.below(8),
        _ => {}
    }
}

/// A well-formed pair in which one to three operations got codes above 8. Half of the reads have more
/// operations than they need, so that the first at fault can have any index.
pub fn miscoded(r: &mut Rng) -> Case {
    let (mut a, mut b) = reads(r);
    for read in [&mut a, &mut b] {
        if r.one_in(2) {
            lengthen(r, read);
        }
    }
    for _ in 0..r.range(1, 3) {
        let read = if r.one_in(2) { &mut a } else { &mut b };
        if !read.ops.is_empty() {
            let at = r.below(read.ops.len() as u64) as usize;
            read.ops[at].0 = r.range(9, 15) as u32;
        }
    }
    Case::new(a.encode(), b.encode(), r.below(3) as u32, r.below(3) as u32)
}

/// Puts operations that place and count nothing somewhere into a read: tens, at times hundreds, and now and
/// then as many as the record can hold.
fn lengthen(r: &mut Rng, read: &mut Read) {
    let room = (65_536 - read.encode().len().min(65_536)) as u64 / 4;
    let more = match r.below(400) {
        0 => room,
        1..=20 => r.below(1000),
        _ => r.below(60),
    };
    let idle = (0..more.min(room)).map(|_| if r.one_in(2) { (r.below(9) as u32, 0) } else { (r.pick(&[H, P]), 1) });
    let idle: Vec<_> = idle.collect();
    let at = r.below(read.ops.len() as u64 + 1) as usize;
    read.ops.splice(at..at, idle);
}

/// Positions, lengths and totals at the ends of their ranges.
pub fn extreme(r: &mut Rng) -> Case {
    let (mut a, mut b) = (extreme_read(r), extreme_read(r));
    let long = |x: &Read| x.reference_length().min(LAST as u64) as i64;
    let end = |r: &mut Rng, x: &Read| (LAST - long(x) + r.range(-2, 1)).clamp(0, i64::from(i32::MAX)) as i32;
    a.pos = match r.below(8) {
        0 => 0,
        1 => i32::MAX - r.below(3) as i32,
        2 => -1,
        3 => i32::MIN,
        _ => end(r, &a),
    };
    b.pos = match r.below(8) {
        0 => end(r, &b),
        1 => r.pick(&[-1, -2, i32::MIN]),
        2 => i32::MAX - r.below(3) as i32,
        3 => (i64::from(a.pos) + long(&a) - r.below(20) as i64).clamp(0, LAST) as i32,
        _ => a.pos.saturating_add(r.range(-3, 3) as i32),
    };
    if r.one_in(8) {
        b = a.clone();
    }
    Case {
        first: a.encode(),
        second: b.encode(),
        agreement: r.below(3) as u32,
        disagreement: r.below(3) as u32,
        cap: CAP,
        counts: counts(r),
    }
}

fn extreme_read(r: &mut Rng) -> Read {
    let mut read = Read { name: b"x\0".to_vec(), flags: r.pick(&[65, 129]), ..Read::default() };
    let huge = |r: &mut Rng| r.pick(&[0, 1, 2, 7, 8, 1 << 27, LONGEST - 7, LONGEST - 1, LONGEST]);
    let small = |r: &mut Rng| r.range(0, 9) as u32;
    match r.below(5) {
        // a few bases between huge gaps, clips and pads
        0 => {
            for _ in 0..r.range(1, 9) {
                let code = r.below(9) as u32;
                let length = if uses(code).0 { small(r) } else { huge(r) };
                read.ops.push((code, length));
            }
            let n = read.read_length();
            read.codes = codes(r, n);
            read.quals = qualities(r, n);
        }
        // no bases; anything on the reference huge
        1 => {
            for _ in 0..r.range(1, 9) {
                let code = r.below(9) as u32;
                let length = if matches!(code, I | S) { small(r) } else { huge(r) };
                read.ops.push((code, length));
            }
        }
        // no bases; insertions and clips that bring the read position near a multiple of 2^31
        2 => {
            for _ in 0..r.below(3) {
                read.ops.push((r.pick(&[M, D, N, P, I]), small(r)));
            }
            for _ in 0..r.range(1, 3) {
                let target = (r.range(1, 2) << 31) + r.range(-4, 12) - read.read_length() as i64;
                fill(r, &mut read, &[I, S], target.max(1) as u64);
                for _ in 0..r.range(1, 3) {
                    read.ops.push((r.pick(&[M, M, EQ, X, D, I, P]), r.range(1, 3) as u32));
                }
            }
        }
        // short operations, many of length 0 and some of these in a row, where each step shows; some
        // with a gap as long as the reference
        3 => {
            for _ in 0..r.range(2, 7) {
                read.ops.push((r.pick(&[M, M, M, EQ, X, D, N, I, S, P]), r.below(3) as u32));
                let zeros = if r.one_in(3) { r.below(6) } else { 0 };
                read.ops.extend((0..zeros).map(|_| (M, 0)));
            }
            if r.one_in(2) {
                let used = read.reference_length();
                let last = read.ops.split_off(r.below(read.ops.len() as u64 + 1) as usize);
                let gap = LAST as u64 - used - r.below(4);
                fill(r, &mut read, &[D, N], gap);
                read.ops.extend(last);
            }
            let n = read.read_length();
            read.codes = codes(r, n);
            read.quals = qualities(r, n);
        }
        // few operations, none, or an ordinary read
        _ => {
            let n = r.below(5);
            read.ops = (0..n.min(1)).map(|_| (M, n as u32)).collect();
            read.codes = codes(r, n);
            read.quals = qualities(r, n);
        }
    }
    read
}

/// Operations of these codes, of this total.
fn fill(r: &mut Rng, read: &mut Read, codes: &[u32], mut total: u64) {
    while total > 0 {
        let length = total.min(u64::from(LONGEST));
        read.ops.push((r.pick(codes), length as u32));
        total -= length;
    }
}
