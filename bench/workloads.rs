//! The workloads, from a seed: the same bytes on every machine.
use crate::record::{D, EQ, I, M, N, S, X};
pub use crate::record::{Read, frame};
use crate::rng::Rng;

/// The numbers of a record that the step never reads: mapping quality, bin, mate and template length.
fn unread(mate_pos: i32, template: i32) -> [u8; 15] {
    let bin = 4680u16.to_le_bytes();
    [&[60][..], &bin, &[0; 4], &mate_pos.to_le_bytes(), &template.to_le_bytes()].concat().try_into().unwrap()
}

pub fn illumina_name(rng: &mut Rng) -> Vec<u8> {
    // e.g. A00821:324:HW5YNDSX2:3:2217:21703:35571 : 38 to 40 bytes and a zero byte, prefix shared by a run
    format!(
        "A00821:324:HW5YNDSX2:{}:{}:{}:{}\0",
        rng.range(1, 4),
        rng.range(1101, 2678),
        rng.range(1000, 32999),
        rng.range(1000, 37059)
    )
    .into_bytes()
}

pub fn tags(rng: &mut Rng, long: bool) -> Vec<u8> {
    let mut v = Vec::new();
    if long {
        v.extend(b"RGZA00821.HW5YNDSX2.3\0");
        v.extend(b"MCZ150M\0");
        v.extend(b"MDZ61A20C67\0");
        v.extend(b"NMC\x02ASC\x8cXSC\x13");
        v.extend(b"PGZMarkDuplicates\0");
        v.extend(b"RXZ");
        for _ in 0..8 {
            v.push(b"ACGT"[rng.below(4) as usize]);
        }
        v.push(b'-');
        for _ in 0..8 {
            v.push(b"ACGT"[rng.below(4) as usize]);
        }
        v.push(0);
        v.extend(format!("MIZ{}/A\0", rng.range(100000, 999999)).bytes());
    } else {
        v.extend(format!("MIZ{}\0", rng.range(10000, 99999)).bytes());
        v.extend(b"NMC\x01");
    }
    v
}

/// Reference of base codes 1, 2, 4, 8.
pub fn reference(rng: &mut Rng, n: usize) -> Vec<u8> {
    (0..n).map(|_| 1u8 << rng.below(4)).collect()
}

fn quality(rng: &mut Rng) -> u8 {
    // NovaSeq/NextSeq-like mix: mostly high, some middling, some low
    match rng.below(100) {
        0..=64 => 37,
        65..=76 => 40,
        77..=86 => 25,
        87..=91 => rng.range(13, 36) as u8,
        92..=96 => 11,
        _ => 2,
    }
}

/// Bases and qualities of a read whose alignment starts at `pos`.
/// `err` is per million and read: half of the wanted disagreement.
pub fn sequence(
    rng: &mut Rng,
    reference: &[u8],
    pos: i64,
    cigar: &[(u32, u32)],
    err: u64,
    n_rate: u64,
) -> (Vec<u8>, Vec<u8>) {
    let mut codes = Vec::new();
    let mut p = pos as usize;
    for &(c, l) in cigar {
        for _ in 0..l {
            match c {
                M | EQ | X => {
                    codes.push(reference[p % reference.len()]);
                    p += 1;
                }
                I | S => codes.push(1u8 << rng.below(4)),
                D | N => p += 1,
                _ => {}
            }
        }
    }
    for b in codes.iter_mut() {
        if rng.below(1_000_000) < err {
            let mut o = 1u8 << rng.below(4);
            while o == *b {
                o = 1u8 << rng.below(4);
            }
            *b = o;
        }
        if rng.below(1_000_000) < n_rate {
            *b = 15;
        }
    }
    let q = (0..codes.len()).map(|_| quality(rng)).collect();
    (codes, q)
}

/// 90% plain, the rest with a soft clip, an insertion, a deletion or a mix.
fn short_cigar(rng: &mut Rng, len: u32) -> Vec<(u32, u32)> {
    if rng.below(1_000_000) < 900_000 {
        return vec![(M, len)];
    }
    let a = rng.range(10, len as i64 - 40) as u32;
    match rng.below(5) {
        0 => {
            let s = rng.range(1, 30) as u32;
            vec![(S, s), (M, len - s)]
        }
        1 => {
            let s = rng.range(1, 30) as u32;
            vec![(M, len - s), (S, s)]
        }
        2 => {
            let k = rng.range(1, 6) as u32;
            vec![(M, a), (I, k), (M, len - a - k)]
        }
        3 => vec![(M, a), (D, rng.range(1, 12) as u32), (M, len - a)],
        _ => {
            let s = rng.range(1, 8) as u32;
            let k = rng.range(1, 3) as u32;
            vec![(S, s), (M, a), (I, k), (M, len - a - k - s)]
        }
    }
}

/// Exactly `ops` operations (odd), alternating M with I, D, or splitting into = and X.
fn heavy_cigar(rng: &mut Rng, len: u32, ops: usize) -> Vec<(u32, u32)> {
    let runs = ops.div_ceil(2);
    let mut between = Vec::new();
    let mut ins = 0;
    for _ in 0..ops / 2 {
        let k = rng.range(1, 3) as u32;
        match rng.below(10) {
            0..=3 => {
                between.push((I, k));
                ins += k;
            }
            4..=7 => between.push((D, k)),
            _ => {
                between.push((X, k));
                ins += k;
            }
        }
    }
    let left = len - ins - runs as u32;
    let mut cut: Vec<u32> = (0..runs - 1).map(|_| rng.below(left as u64 + 1) as u32).collect();
    cut.sort_unstable();
    cut.push(left);
    let mut v = Vec::new();
    let mut last = 0;
    for (i, &c) in cut.iter().enumerate() {
        v.push((if rng.below(1_000_000) < 300_000 { EQ } else { M }, c - last + 1));
        last = c;
        if i < between.len() {
            v.push(between[i]);
        }
    }
    v
}

fn long_cigar(rng: &mut Rng, len: u32, gap: u32) -> Vec<(u32, u32)> {
    let mut v = Vec::new();
    let mut left = len;
    while left > 2 * gap {
        let m = rng.range(gap as i64 / 2, gap as i64 * 3 / 2) as u32;
        let k = rng.range(1, 3) as u32;
        v.push((M, m));
        left -= m;
        if rng.below(1_000_000) < 500_000 {
            v.push((I, k));
            left -= k;
        } else {
            v.push((D, k));
        }
    }
    v.push((M, left));
    v
}

pub struct Shape {
    pub err: u64,
    pub n_rate: u64,
    pub long_tags: bool,
}
pub const USUAL: Shape = Shape { err: 5_000, n_rate: 2_000, long_tags: true };

pub fn pair(
    rng: &mut Rng,
    reference: &[u8],
    sh: &Shape,
    pos1: i64,
    c1: Vec<(u32, u32)>,
    pos2: i64,
    c2: Vec<(u32, u32)>,
) -> (Read, Read) {
    let name = illumina_name(rng);
    let (s1, q1) = sequence(rng, reference, pos1, &c1, sh.err, sh.n_rate);
    let (s2, q2) = sequence(rng, reference, pos2, &c2, sh.err, sh.n_rate);
    let tags = tags(rng, sh.long_tags);
    let (at, mate_at) = (pos1 as i32, pos2 as i32);
    let a = Read { pos: at, name, flags: 99, ops: c1, codes: s1, quals: q1, tags, ..Read::default() };
    let b = Read { pos: mate_at, flags: 147, ops: c2, codes: s2, quals: q2, ..a.clone() };
    let template = mate_at + b.reference_length() as i32 - at;
    (Read { unread: unread(mate_at, template), ..a }, Read { unread: unread(at, -template), ..b })
}

const REF: usize = 1 << 20;

/// Read 2 ends where the fragment ends.
fn fragment(rng: &mut Rng, rf: &[u8], sh: &Shape, len: u32, insert: i64, plain: bool) -> (Read, Read) {
    let s = rng.range(1000, REF as i64 - 100_000);
    let (c1, c2) = if plain {
        (vec![(M, len)], vec![(M, len)])
    } else {
        (short_cigar(rng, len), short_cigar(rng, len))
    };
    let lead = |c: &[(u32, u32)]| if c[0].0 == S { c[0].1 as i64 } else { 0 };
    let p1 = s + lead(&c1);
    let p2 = s + insert - len as i64 + lead(&c2);
    pair(rng, rf, sh, p1, c1, p2, c2)
}

pub type Pairs = Vec<(Read, Read)>;

pub fn w1(n: usize, seed: u64) -> Pairs {
    let mut r = Rng::new(seed);
    let rf = reference(&mut r, REF);
    (0..n)
        .map(|_| {
            let shared = r.range(0, 150);
            fragment(&mut r, &rf, &USUAL, 150, 300 - shared, false)
        })
        .collect()
}
pub fn w2(n: usize, seed: u64) -> Pairs {
    let mut r = Rng::new(seed ^ 2);
    let rf = reference(&mut r, REF);
    (0..n)
        .map(|_| {
            let insert = 100 + r.below(6).min(r.below(12)) as i64;
            fragment(&mut r, &rf, &USUAL, 100, insert, false)
        })
        .collect()
}
/// 300 bases, `lo..=hi` operations (made odd).
pub fn w3(n: usize, seed: u64, lo: i64, hi: i64) -> Pairs {
    let mut r = Rng::new(seed ^ 3);
    let rf = reference(&mut r, REF);
    (0..n)
        .map(|_| {
            let s = r.range(1000, REF as i64 - 100_000);
            let a = (r.range(lo, hi) | 1) as usize;
            let b = (r.range(lo, hi) | 1) as usize;
            let c1 = heavy_cigar(&mut r, 300, a);
            let c2 = heavy_cigar(&mut r, 300, b);
            let p2 = s + r.range(0, 30);
            pair(&mut r, &rf, &USUAL, s, c1, p2, c2)
        })
        .collect()
}
pub fn w4(n: usize, seed: u64, len: u32, gap: u32) -> Pairs {
    let mut r = Rng::new(seed ^ 4);
    let rf = reference(&mut r, REF);
    (0..n)
        .map(|_| {
            let s = r.range(1000, REF as i64 - 100_000);
            let c1 = long_cigar(&mut r, len, gap);
            let c2 = long_cigar(&mut r, len, gap);
            let p2 = s + r.range(0, 3);
            pair(&mut r, &rf, &USUAL, s, c1, p2, c2)
        })
        .collect()
}
pub fn w5(n: usize, seed: u64) -> Pairs {
    let mut r = Rng::new(seed ^ 5);
    let rf = reference(&mut r, REF);
    (0..n)
        .map(|_| {
            let insert = r.range(345, 600);
            fragment(&mut r, &rf, &USUAL, 150, insert, false)
        })
        .collect()
}
/// Fully overlapping plain pairs of a given length: growth with l_seq.
pub fn plain(n: usize, seed: u64, len: u32) -> Pairs {
    let mut r = Rng::new(seed ^ 7);
    let rf = reference(&mut r, REF);
    (0..n).map(|_| fragment(&mut r, &rf, &USUAL, len, len as i64, true)).collect()
}

/// Plain pairs of 100 bases with so many operations of length 0 in front of each read: growth with these.
pub fn zeros(n: usize, seed: u64, count: u32) -> Pairs {
    let put = |mut x: Read| {
        let zeros = (0..count).map(|k| ([M, D, I, S, EQ][k as usize % 5], 0));
        x.ops = zeros.chain(x.ops).collect();
        x.tags.clear();
        x
    };
    plain(n, seed, 100).into_iter().map(|(a, b)| (put(a), put(b))).collect()
}

/// A group: `n` records (mates shuffled, about 1 in 32 secondary or supplementary for n >= 64).
/// 2x100 with short tags so that 256 records stay below 65,536 bytes with their frames.
pub fn group(n: usize, r: &mut Rng, rf: &[u8]) -> Vec<Vec<u8>> {
    let sh = Shape { err: 5_000, n_rate: 2_000, long_tags: false };
    let s = r.range(1000, REF as i64 - 100_000);
    let extra = if n >= 64 { n / 32 } else { 0 };
    let pairs = (n - extra) / 2;
    let mut out: Vec<Vec<u8>> = Vec::new();
    for _ in 0..pairs {
        let insert = 100 + r.range(0, 60);
        let c1 = short_cigar(r, 100);
        let c2 = short_cigar(r, 100);
        let (a, b) = pair(r, rf, &sh, s, c1, s + insert - 100, c2);
        out.push(a.encode());
        out.push(b.encode());
    }
    while out.len() < n {
        // a secondary or supplementary copy under a name that is there
        let i = r.below(out.len() as u64) as usize;
        let mut c = out[i].clone();
        c[15] |= if r.below(1_000_000) < 500_000 { 1 } else { 8 };
        out.push(c);
    }
    for i in (1..out.len()).rev() {
        let j = r.below(i as u64 + 1) as usize;
        out.swap(i, j);
    }
    out
}
pub fn w6(groups: usize, n: usize, seed: u64) -> Vec<Vec<Vec<u8>>> {
    let mut r = Rng::new(seed ^ 6 ^ ((n as u64) << 20));
    let rf = reference(&mut r, REF);
    (0..groups).map(|_| group(n, &mut r, &rf)).collect()
}

/// The same records by their names, as in a file sorted by name: first, last, then secondary and supplementary ones.
pub fn collated(mut group: Vec<Vec<u8>>) -> Vec<Vec<u8>> {
    let flags = |r: &[u8]| u16::from_le_bytes([r[14], r[15]]);
    let name = |r: &[u8]| r[32..32 + usize::from(r[8])].to_vec();
    group.sort_by_key(|r| (name(r), flags(r) & 0x900, flags(r) & 0x80));
    group
}
