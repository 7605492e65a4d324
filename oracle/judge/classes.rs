//! The inputs that docs/DIFFERENCES.md shows: the smallest that we know of for each class of
//! accepted input on which the published Rust wraps, panics or places a base elsewhere, and for each
//! refusal one on which the Rust goes on. `judge classes` runs them all and stops where one does
//! something else.
use crate::compare::{Tally, check, spelled};
use crate::model;
use crate::published::{self, Ended, PairRun};
use crate::record::*;
use Does::*;

/// What a build of the published Rust does.
#[derive(Debug, PartialEq)]
enum Does {
    No,
    Yes,
    /// Says that they overlap, but writes other bytes than we do.
    OtherBytes,
    /// Says that they overlap and writes our bytes, but counts otherwise.
    OtherCounts,
    Panics(&'static str),
}

pub struct Known {
    title: &'static str,
    pub case: Case,
    /// What the paper and `overlap_call` answer.
    answer: u32,
    with_checks: Does,
    without: Does,
}

const OVERFLOW: Does = Panics("attempt to add with overflow");
const FAR_PAST_THE_BASES: Does = Panics("index out of bounds: the len is 4 but the index is 18446744071562067971");
const PAST_THE_BASES: Does = Panics("index out of bounds: the len is 0 but the index is 2147483647");

fn at(pos: i32, ops: &[(u32, u32)], bases: u8) -> Read {
    let codes = vec![1; usize::from(bases)];
    let quals = (1..=bases).map(|k| 10 * k).collect();
    Read { pos, ops: ops.to_vec(), flags: 65, codes, quals, ..Read::default() }
}

fn known(title: &'static str, first: Read, second: Read, answer: u32, with_checks: Does, without: Does) -> Known {
    Known { title, case: Case::new(first.encode(), second.encode(), 0, 0), answer, with_checks, without }
}

/// Accepted input.
pub fn accepted() -> Vec<Known> {
    wrapping().into_iter().chain(stepping()).collect()
}

/// Lengths of 0 that the Rust steps on to: classes 3 and 4.
fn stepping() -> Vec<Known> {
    const END: i32 = LAST as i32;
    let inserted = |pos| at(pos, &[(M, 1), (M, 0), (I, 1), (D, 1)], 2);
    let deleted = || at(0, &[(M, 1), (M, 0), (D, 1), (M, 1)], 2);
    let mut passed = known("3c. other counts alone", inserted(0), at(0, &[(M, 2)], 2), 1, OtherCounts, OtherCounts);
    (passed.case.agreement, passed.case.disagreement) = (2, 2);
    // a base, so many lengths of 0, a gap to the end of the reference, a length of 0, and clipped bases
    let around = |zeros: usize| {
        let gap = [vec![(D, LONGEST); 8], vec![(D, 5)]].concat();
        let ops = [vec![(M, 1)], vec![(M, 0); zeros], gap, vec![(M, 0), (S, zeros as u32)]].concat();
        at(0, &ops, zeros as u8 + 1)
    };
    vec![
        known("3a. an inserted base at a deleted place", inserted(0), at(0, &[(M, 2)], 2), 1, OtherBytes, OtherBytes),
        known(
            "3b. an inserted base for the aligned one",
            at(0, &[(M, 1), (M, 0), (I, 1), (M, 1)], 3),
            at(0, &[(M, 2)], 2),
            1,
            OtherBytes,
            OtherBytes,
        ),
        passed,
        known("3d. overlap where there is none", inserted(0), at(0, &[(D, 1), (M, 1)], 1), 0, Yes, Yes),
        known("3e. none where there is one", deleted(), at(0, &[(D, 2), (M, 1)], 1), 1, No, No),
        known("4a. past the largest i32", inserted(END - 2), at(END - 2, &[(M, 2)], 2), 1, OVERFLOW, OtherBytes),
        known("4b. and back to a base that was treated", around(1), around(1), 1, OVERFLOW, OtherBytes),
        known("4c. and to a base that is not there", around(3), around(3), 1, OVERFLOW, FAR_PAST_THE_BASES),
    ]
}

/// Sums that pass the largest i32: classes 1 and 2.
fn wrapping() -> Vec<Known> {
    // 2^31 - 8 read bases, of which none is there
    let eight = |code: u32| vec![(code, LONGEST); 8];
    let clipped = [eight(S), vec![(M, 7)]].concat();
    let stepping = |last: u32| [vec![(D, 1)], eight(I), vec![(I, 8), (M, 1), (M, last)]].concat();
    vec![
        known("1a. start past the largest i32", at(i32::MAX, &[], 0), at(-1, &[], 0), 0, OVERFLOW, No),
        known("1b. end past the largest i32", at(i32::MAX - 1, &[(D, 2)], 0), at(-1, &[], 0), 0, OVERFLOW, No),
        known("2a. read position past the largest i32", at(0, &clipped, 0), at(0, &[(M, 1)], 0), 0, OVERFLOW, No),
        known("2b. and wrapped below 0", at(0, &stepping(1), 0), at(0, &[(M, 1)], 1), 0, OVERFLOW, PAST_THE_BASES),
        known(
            "2c. in both records, with a million positions",
            at(0, &stepping(1_000_000), 0),
            at(0, &stepping(1_000_000), 0),
            0,
            OVERFLOW,
            PAST_THE_BASES,
        ),
    ]
}

/// Refused input.
fn refused() -> Vec<Known> {
    let mate = || at(0, &[(M, 4)], 4);
    let cut = |title, mut first: Vec<u8>, by: usize, answer, with_checks, without| {
        first.truncate(first.len() - by);
        Known { title, case: Case::new(first, mate().encode(), 0, 0), answer, with_checks, without }
    };
    let mut named = at(0, &[], 0).encode();
    named[8] = 1;
    vec![
        cut("1. 31 bytes", at(0, &[], 0).encode(), 1, 1101, Panics("assertion failed"), No),
        cut("1. 15 bytes", at(0, &[], 0).encode(), 17, 1101, Panics("assertion failed"), Panics("index out of bounds")),
        cut("3. a name past the end", named, 0, 1103, No, No),
        cut("4. a quality missing", at(0, &[(M, 1)], 1).encode(), 1, 1104, Panics("range end"), Panics("range end")),
        known("5. 1M, code 9, 1M", at(0, &[(M, 1), (9, 1), (M, 1)], 2), mate(), 1105, Yes, Yes),
        known("7. 3M on 2 bases", at(0, &[(M, 3)], 2), mate(), 1107, Yes, Yes),
        known("7. 1M on 2 bases", at(0, &[(M, 1)], 2), mate(), 1107, Yes, Yes),
        known(
            "8. end 2147483647",
            at(LAST as i32 - 1, &[(M, 2)], 2),
            at(LAST as i32 - 1, &[(M, 2)], 2),
            1108,
            OVERFLOW,
            Yes,
        ),
        known(
            "8. end 2147483648",
            at(LAST as i32 - 1, &[(M, 3)], 3),
            at(LAST as i32 - 1, &[(M, 2)], 2),
            1108,
            OVERFLOW,
            No,
        ),
    ]
}

/// Does the Rust, which ended so and left these two records, do what is expected of it?
fn does(case: &Case, ended: &Ended<(bool, [u64; 4])>, records: [&[u8]; 2], expected: &Does) -> bool {
    let (mut first, mut second, mut counts) = (case.first.clone(), case.second.clone(), case.counts.clone());
    model::pair(&mut first, &mut second, case.ways(), &mut counts);
    let bytes = records == [&first, &second];
    match (ended, expected) {
        (Ended::Done((overlap, _)), No) => !overlap,
        (Ended::Done((overlap, _)), Yes) => *overlap,
        (Ended::Done((overlap, _)), OtherBytes) => *overlap && !bytes,
        (Ended::Done((overlap, growth)), OtherCounts) => *overlap && bytes && *growth != unpack(&counts),
        (Ended::Panicked(message), Panics(text)) => message.starts_with(text),
        _ => false,
    }
}

pub fn run() {
    let mut tally = Tally::default();
    for known in accepted().into_iter().chain(refused()) {
        println!("{}\n  judge one {}", known.title, spelled(&known.case));
        let answer = check(&known.case, &mut tally);
        println!("  the paper and the calls: {}, reason {}", answer.code(), answer.reason());
        assert_eq!(answer.code(), known.answer);
        for (build, run, expected) in [
            ("with checks", published::checked::pair as PairRun, known.with_checks),
            ("without checks", published::plain::pair, known.without),
        ] {
            let (mut first, mut second) = (known.case.first.clone(), known.case.second.clone());
            let ended = run(&mut first, &mut second, known.case.agreement, known.case.disagreement);
            println!("  the Rust {build}: {ended:?}");
            assert!(does(&known.case, &ended, [&first, &second], &expected), "expected {expected:?}");
            if matches!(expected, Yes | OtherBytes) {
                println!("    first  {}\n    second {}", hex(&first), hex(&second));
            }
        }
    }
    let (checked, plain) = (published::checked::merge(u64::MAX, 1), published::plain::merge(u64::MAX, 1));
    println!("13. merging 2^64-1 and 1\n  the Rust with checks: {checked:?}\n  the Rust without checks: {plain:?}");
    assert!(matches!(checked, Ended::Panicked(_)) && plain == Ended::Done(0));
}
