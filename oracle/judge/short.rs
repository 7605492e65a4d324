//! Every pair of short operation lists at every distance at which the reads meet or just miss.
use crate::compare::{Tally, check};
use crate::record::*;
use crate::rng::Rng;

type Op = (u32, u32); // code and length

fn operations(codes: &[u32], lengths: std::ops::RangeInclusive<u32>) -> Vec<Op> {
    codes.iter().flat_map(|&code| lengths.clone().map(move |length| (code, length))).collect()
}

/// All lists of at most `count` of these operations.
fn lists(count: u32, ops: &[Op]) -> Vec<Vec<Op>> {
    let mut all = vec![vec![]];
    let mut last = all.clone();
    for _ in 0..count {
        last = last.iter().flat_map(|list| ops.iter().map(move |&op| [&list[..], &[op]].concat())).collect();
        all.extend(last.clone());
    }
    all
}

/// A read with these operations, its bases mostly A. From the sum of two qualities one can tell
/// which two bases met: 1 + i in the first read, 10 + 7j in the second.
fn read(ops: &[Op], second: bool, r: &mut Rng) -> Read {
    let mut read =
        Read { name: b"s\0".to_vec(), flags: if second { 129 } else { 65 }, ops: ops.to_vec(), ..Read::default() };
    let n = read.read_length() as usize;
    let change = r.next();
    read.codes =
        (0..n).map(|i| if change >> (4 * i) & 3 == 0 { (change >> (8 + 4 * i) & 15) as u8 } else { 1 }).collect();
    read.quals = (0..n).map(|i| if second { 10 + 7 * i } else { 1 + i } as u8).collect();
    read.spare = (change >> 60) as u8;
    read
}

/// The two reads at every distance: the first at this pos, or so that the later end is the last that
/// there is.
fn at_every_distance(mut a: Read, mut b: Read, pos: Option<i32>, tally: &mut Tally) {
    let (long_a, long_b) = (a.reference_length() as i32, b.reference_length() as i32);
    for by in -long_b..=long_a {
        a.pos = pos.unwrap_or(LAST as i32 - long_a.max(by + long_b));
        b.pos = a.pos + by;
        let way = tally.cases as u32 % 9;
        check(&Case::new(a.encode(), b.encode(), way / 3, way % 3), tally);
    }
}

/// All pairs of a first list of at most `first` of these operations and a second of at most `second`,
/// at each of these places.
fn pairs(first: u32, second: u32, ops: &[Op], places: &[Option<i32>], seed: u64) -> Tally {
    let mut tally = Tally::default();
    let mut r = Rng::new(seed);
    let seconds = lists(second, ops);
    for ops in lists(first, ops) {
        for mate in &seconds {
            let (a, b) = (read(&ops, false, &mut r), read(mate, true, &mut r));
            for &pos in places {
                at_every_distance(a.clone(), b.clone(), pos, &mut tally);
            }
        }
    }
    tally
}

/// All nine operations with each length from 1 on.
pub fn run(first: u32, second: u32, longest: u32, seed: u64) {
    let all = operations(&[M, I, D, N, S, H, P, EQ, X], 1..=longest);
    let tally = pairs(first, second, &all, &[Some(20)], seed);
    tally.print(&format!("all lists of up to {first} and {second} operations of lengths to {longest}, every distance"));
}

/// One operation of each kind with the lengths 0, 1 and 2, also at the end of the reference.
pub fn zeros(first: u32, second: u32, seed: u64) -> Tally {
    let tally = pairs(first, second, &operations(&[M, I, D], 0..=2), &[Some(20), None], seed);
    tally.print(&format!("all lists of up to {first} and {second} of M, I and D of lengths 0 to 2, every distance"));
    tally
}
