//! Every limit of the table of refusals and of the reasons, at it and one off, in the first and in the
//! second record; and every two of these at once, which shows the order of judgement. The limits of the cap
//! beside each of these.
use crate::compare::{Tally, check};
use crate::record::*;

type Change = Box<dyn Fn(&mut Case)>;

/// A plain pair that overlaps: 2S3M1D2M at 10 and 2M1I3M at 12, counted from 1.
pub fn plain() -> (Read, Read) {
    let first = Read {
        pos: 9,
        name: b"ab\0".to_vec(),
        flags: 65,
        ops: vec![(S, 2), (M, 3), (D, 1), (M, 2)],
        ..Read::default()
    };
    let second = Read { pos: 11, flags: 129, ops: vec![(M, 2), (I, 1), (M, 3)], ..first.clone() };
    let bases = |mut x: Read, codes: &[u8], least: u8| {
        x.codes = codes.to_vec();
        x.quals = (0..codes.len() as u8).map(|i| least + 5 * i).collect();
        x
    };
    (bases(first, &[1, 2, 4, 8, 1, 2, 4], 10), bases(second, &[1, 2, 4, 8, 4, 8], 20))
}

/// Changes to one record's parts.
fn reads() -> Vec<fn(&mut Read)> {
    fn total(x: &mut Read, code: u32, mut n: u64) {
        while n > 0 {
            let length = n.min(u64::from(LONGEST));
            x.ops.push((code, length as u32));
            n -= length;
        }
    }
    fn ends_at(x: &mut Read, end: i64) {
        x.pos = (end - x.reference_length() as i64) as i32;
    }
    fn bare(x: &mut Read) {
        (x.codes, x.quals) = (vec![], vec![]);
    }
    vec![
        // 5: the last good code and the first bad one, of a length of 1 and of 0, front to back
        |x| x.ops[0].0 = X,
        |x| x.ops[0].0 = 9,
        |x| x.ops[0].0 = 15,
        |x| x.ops.last_mut().unwrap().0 = 9,
        |x| x.ops[0].1 = 0,
        |x| x.ops.last_mut().unwrap().1 = 0,
        |x| x.ops[0] = (9, 0),
        |x| x.ops.push((H, 0)),
        |x| x.ops.push((P, 1)),
        // 7: one more, one fewer, and a total that is right in 32 bits
        |x| x.ops[0].1 += 1,
        |x| x.ops.last_mut().unwrap().1 -= 1,
        |x| x.ops.push((S, 1)),
        |x| total(x, S, 1 << 32),
        |x| total(x, I, 1 << 31),
        |x| x.ops.clear(),
        bare,
        |x| {
            x.ops.clear();
            bare(x);
        },
        // 8: the last end and one past it; totals that are small in 32 bits
        |x| ends_at(x, LAST),
        |x| ends_at(x, LAST + 1),
        |x| total(x, N, 1 << 32),
        |x| total(x, D, 1 << 31),
        |x| total(x, N, LAST as u64 - 20),
        |x| {
            let room = LAST as u64 - x.pos as u64 - x.reference_length();
            total(x, N, room);
        },
        |x| {
            let room = LAST as u64 - x.pos as u64 - x.reference_length();
            total(x, N, room + 1);
        },
        |x| {
            x.ops.clear();
            x.pos = LAST as i32;
        },
        |x| {
            x.ops.clear();
            x.pos = i32::MAX;
        },
        |x| total(x, H, 1 << 34),
        |x| total(x, P, 1 << 34),
        // lengths of 0 alone; as many operations as a record can hold, and one more
        |x| {
            x.ops = vec![(M, 0)];
            bare(x);
        },
        |x| x.ops = vec![(M, 0)],
        |x| {
            bare(x);
            x.name.clear();
            x.ops = vec![(M, 0); 16_376];
        },
        |x| {
            bare(x);
            x.name.clear();
            x.ops = vec![(M, 0); 16_377];
        },
        |x| {
            bare(x);
            x.name.clear();
            x.ops = vec![(H, LONGEST); 16_375];
            x.ops.push((M, 1));
        },
        |x| {
            bare(x);
            x.name.clear();
            x.ops = vec![(S, LONGEST); 16_376];
        },
        // steps 4 to 6
        |x| x.flags |= 4,
        |x| x.ref_id = -1,
        |x| x.ref_id = 1 << 24,
        |x| x.pos = -1,
        |x| x.pos = i32::MIN,
        |x| x.pos = 0,
        |x| x.pos = i32::MAX,
    ]
}

/// Changes to one record's parts of which the stored list has none.
fn reasons() -> Vec<fn(&mut Read)> {
    lengths().into_iter().chain(beside_no_length()).chain(codes()).collect()
}

/// Other operations, on the bases that there are: all of these are clipped first.
fn clipped(x: &mut Read, behind: &[(u32, u32)]) {
    x.ops = [&[(S, x.codes.len() as u32)], behind].concat();
}

/// Other operations, and no bases.
fn baseless(x: &mut Read, ops: &[(u32, u32)]) {
    (x.codes, x.quals) = (vec![], vec![]);
    x.ops = ops.to_vec();
}

/// No reference length; and a length of 1, with a base there and without.
fn lengths() -> Vec<fn(&mut Read)> {
    vec![
        |x| clipped(x, &[]),
        |x| clipped(x, &[(M, 0), (H, 1), (P, 1)]),
        |x| x.ops = vec![(I, x.codes.len() as u32)],
        |x| baseless(x, &[(D, 0)]),
        |x| baseless(x, &[(P, 3)]),
        |x| baseless(x, &[(S, 4)]),
        |x| clipped(x, &[(D, 1)]),
        |x| clipped(x, &[(N, 1)]),
        |x| x.ops = vec![(S, x.codes.len() as u32 - 1), (M, 1)],
        |x| baseless(x, &[(M, 1)]),
        |x| baseless(x, &[(D, 1)]),
    ]
}

/// No reference length beside another fault of the same record.
fn beside_no_length() -> Vec<fn(&mut Read)> {
    vec![
        |x| {
            clipped(x, &[]);
            x.flags |= 4;
        },
        |x| {
            clipped(x, &[]);
            x.ref_id = 7;
        },
        |x| {
            clipped(x, &[]);
            x.pos = -1;
        },
        |x| {
            clipped(x, &[]);
            x.pos = LAST as i32;
        },
        |x| {
            clipped(x, &[]);
            x.pos = i32::MAX;
        },
        |x| clipped(x, &[(9, 0)]),
        |x| clipped(x, &[(S, 1)]),
    ]
}

/// 5 at the second index, twice, behind lengths of 0, beside a read total one off, and at the last index that a
/// record has room for.
fn codes() -> Vec<fn(&mut Read)> {
    fn full(x: &mut Read, at: usize) {
        x.name.clear();
        baseless(x, &vec![(M, 0); 16_376]);
        x.ops[at].0 = 9;
    }
    vec![
        |x| x.ops[1].0 = 9,
        |x| (x.ops[1].0, x.ops[2].0) = (15, 9),
        |x| x.ops = [&[(M, 0), (S, 0), (D, 0), (9, 0)], &x.ops[..]].concat(),
        |x| (x.ops[0].1, x.ops[2].0) = (3, 9),
        |x| full(x, 9),
        |x| full(x, 16_375),
    ]
}

/// Changes to one record's bytes.
fn bytes() -> Vec<fn(&mut Vec<u8>)> {
    fn set_l_seq(x: &mut [u8], to: fn(u32) -> u32) {
        if let Some(place) = x.get_mut(16..20) {
            let now = u32::from_le_bytes((*place).try_into().unwrap());
            place.copy_from_slice(&to(now).to_le_bytes());
        }
    }
    vec![
        // 1 and 2
        |x| x.truncate(0),
        |x| x.truncate(31),
        |x| *x = vec![0; 32],
        |x| x.resize(65_536, 1),
        |x| x.resize(65_537, 1),
        // 3: the name reaches the end, or one past it; more operations than bytes
        |x| {
            *x = vec![0; 33];
            x[8] = 1;
        },
        |x| {
            *x = vec![0; 32];
            x[8] = 1;
        },
        |x| {
            *x = vec![0; 32 + 255];
            x[8] = 255;
        },
        |x| {
            *x = vec![0; 32 + 254];
            x[8] = 255;
        },
        |x| {
            *x = vec![0; 35];
            x[12] = 1;
        },
        |x| x.get_mut(12..14).unwrap_or_default().fill(255),
        // 4: bases and qualities one past the end, and numbers of bases that wrap when added
        |x| x.truncate(x.len().saturating_sub(1)),
        |x| set_l_seq(x, |n| n + 1),
        |x| set_l_seq(x, |n| n.saturating_sub(1)),
        |x| set_l_seq(x, |_| u32::MAX),
        |x| set_l_seq(x, |_| u32::MAX - 1),
        |x| set_l_seq(x, |_| 1 << 31),
        |x| set_l_seq(x, |_| (1 << 31) - 1),
        |x| set_l_seq(x, |_| 2_863_311_530), // two thirds of 2^32: half of it and itself make 2^32
        |x| x.push(0),
    ]
}

/// Changes to the call's other arguments; the first is none.
fn others() -> Vec<Change> {
    let mut all: Vec<Change> = vec![Box::new(|_| {})];
    for n in [0, 2, 3, 255, 256, 1 << 16, u32::MAX] {
        all.push(Box::new(move |c| c.agreement = n));
        all.push(Box::new(move |c| c.disagreement = n));
    }
    for place in 0..4 {
        for n in [MOST, MOST + 1, u64::MAX] {
            all.push(Box::new(move |c| {
                if let Some(count) = c.counts.get_mut(8 * place..8 * place + 8) {
                    count.copy_from_slice(&n.to_le_bytes());
                }
            }));
        }
    }
    for n in [0, 31, 33, 64] {
        all.push(Box::new(move |c| c.counts = vec![255; n]));
    }
    all
}

/// A case with up to two changes, by their numbers in the lists above; 0 is no change. The first
/// two numbers are the records', the others those of the call's other arguments.
pub struct Changed {
    pub by: [usize; 4],
    pub case: Case,
}

/// The record with each of these changes to its parts.
fn changed(x: &Read, changes: Vec<fn(&mut Read)>) -> Vec<Vec<u8>> {
    let parts = changes.into_iter().map(|change| {
        let mut y = x.clone();
        change(&mut y);
        y.encode()
    });
    parts.collect()
}

/// The record as it is and with each change of which the stored list has cases.
fn variants(x: &Read) -> Vec<Vec<u8>> {
    // each operation with the length 0, in front, behind the second operation and at the end
    let zeros = (0..9).flat_map(|code| {
        [0, 2, x.ops.len()].map(|at| {
            let mut y = x.clone();
            y.ops.insert(at, (code, 0));
            y.encode()
        })
    });
    let raw = bytes().into_iter().map(|change| {
        let mut y = x.encode();
        change(&mut y);
        y
    });
    [x.encode()].into_iter().chain(changed(x, reads())).chain(zeros).chain(raw).collect()
}

/// One case for each change, and one for each two.
pub fn cases() -> Vec<Changed> {
    let (a, b) = plain();
    let (firsts, seconds, others) = (variants(&a), variants(&b), others());
    let changed = |by: [usize; 4]| {
        let mut case = Case::new(firsts[by[0]].clone(), seconds[by[1]].clone(), 0, 0);
        others[by[2]](&mut case);
        others[by[3]](&mut case);
        Changed { by, case }
    };
    let mut all = Vec::new();
    for i in 0..firsts.len() {
        all.extend((0..seconds.len()).map(|j| changed([i, j, 0, 0])));
        all.extend((1..others.len()).map(|k| changed([i, 0, k, 0])));
    }
    for k in 1..others.len() {
        all.extend((1..seconds.len()).map(|j| changed([0, j, k, 0])));
        all.extend((1..others.len()).map(|l| changed([0, 0, k, l])));
    }
    all
}

/// One case for each change in `reasons`, and one for it with each other change.
fn cases_of_reasons() -> Vec<Case> {
    let (a, b) = plain();
    let (firsts, seconds) = (changed(&a, reasons()), changed(&b, reasons()));
    let mut all = Vec::new();
    for first in &firsts {
        let mates = variants(&b).into_iter().chain(seconds.clone());
        all.extend(mates.map(|second| Case::new(first.clone(), second, 0, 0)));
    }
    for second in &seconds {
        all.extend(variants(&a).into_iter().map(|first| Case::new(first, second.clone(), 0, 0)));
    }
    for change in others() {
        let alone = firsts.iter().map(|first| (first.clone(), b.encode()));
        for (first, second) in alone.chain(seconds.iter().map(|second| (a.encode(), second.clone()))) {
            let mut case = Case::new(first, second, 0, 0);
            change(&mut case);
            all.push(case);
        }
    }
    all
}

/// Each limit of the cap and some that are far off, alone and with each other change. The stored list, which
/// has no place for a cap, has none of them.
fn cases_of_caps() -> Vec<Case> {
    const CAPS: [u32; 11] = [0, 1, LEAST_CAP, 40, CAP - 1, CAP + 1, 95, 256 + 40, 65_536 + 40, 1 << 31, u32::MAX];
    let (a, b) = plain();
    let firsts = variants(&a).into_iter().chain(changed(&a, reasons())).map(|first| (first, b.encode()));
    let seconds = variants(&b).into_iter().chain(changed(&b, reasons())).map(|second| (a.encode(), second));
    let mut all: Vec<Case> = firsts.chain(seconds).map(|(first, second)| Case::new(first, second, 0, 0)).collect();
    for change in others() {
        let mut case = Case::new(a.encode(), b.encode(), 0, 0);
        change(&mut case);
        all.push(case);
    }
    CAPS.iter().flat_map(|&cap| all.iter().map(move |case| Case { cap, ..case.clone() })).collect()
}

pub fn run() {
    let mut tally = Tally::default();
    let limits = cases().into_iter().map(|changed| changed.case);
    for case in limits.chain(cases_of_reasons()).chain(cases_of_caps()) {
        check(&case, &mut tally);
    }
    tally.print("every limit at it and one off, one and two at a time");
    tally.expect_reasons();
}
