//! The stored list of answers: cases chosen because each shows something that none before it
//! showed. Replayed where there is no Rust at hand; oracle/README.md has the layout of both files.
use crate::compare::{Tally, check};
use crate::group_cases;
use crate::groups::judged_by_rust;
use crate::limits::{self, Changed};
use crate::model::{self, Answer};
use crate::random;
use crate::record::Case;
use crate::rng::Rng;
use crate::shows;
use std::collections::HashSet;

/// Bytes that each list may take.
const PAIRS_ROOM: usize = 740_000;
const GROUPS_ROOM: usize = 250_000;

/// What has been shown, and the room that is left.
struct Choice {
    seen: HashSet<String>,
    room: usize,
}

impl Choice {
    /// Takes a case of this size if it shows at least so many new things.
    fn takes(&mut self, mut shows: Vec<String>, least: u64, size: usize) -> bool {
        shows.sort();
        shows.dedup();
        shows.retain(|s| !self.seen.contains(s));
        let takes = shows.len() as u64 >= least && size <= self.room;
        if takes {
            self.room -= size;
            self.seen.extend(shows);
        }
        takes
    }
}

/// The inputs of the known classes first, then limits, one and two at a time, then random pairs.
fn pairs(seed: u64) -> Vec<(Case, Answer)> {
    let mut tally = Tally::default();
    let mut choice = Choice { seen: HashSet::new(), room: PAIRS_ROOM };
    let mut kept = Vec::new();
    let mut offer = |case: &Case, changes: &[usize], least: u64| {
        let answer = check(case, &mut tally);
        let mut shows = shows::pair(case, answer);
        shows.extend(changes.iter().enumerate().map(|(k, change)| format!("{} by {k} {change}", answer.code())));
        let input = case.first.len() + case.second.len() + case.counts.len();
        let size = 24 + if answer == Answer::Overlap { 2 * input } else { input };
        if choice.takes(shows, least, size) {
            kept.push((case.clone(), answer));
        }
    };
    for known in crate::classes::accepted() {
        offer(&known.case, &[], 0);
    }
    let length = |c: &Changed| c.case.first.len().max(c.case.second.len());
    let (short, long): (Vec<_>, Vec<_>) = limits::cases().into_iter().partition(|c| length(c) < 300);
    let single = |c: &&Changed| c.by.iter().filter(|&&change| change > 0).count() < 2;
    for changed in short.iter().filter(single).chain(short.iter().filter(|c| !single(c))) {
        offer(&changed.case, &changed.by, 1);
    }
    // one byte too long: a first record and a second are enough
    let too_long = |place: usize| {
        let fits = |c: &&Changed| c.by[1 - place] == 0 && [&c.case.first, &c.case.second][place].len() == 65_537;
        &long.iter().find(fits).unwrap().case
    };
    offer(too_long(0), &[], 0);
    offer(too_long(1), &[], 0);
    // first the cases that show much, in the end those that show one thing more
    for (least, tries) in [(8, 200_000), (4, 400_000), (2, 600_000), (1, 800_000)] {
        let mut r = Rng::new(seed + least);
        for k in 0..tries {
            let case = if k % 8 == 0 { random::damaged(&mut r) } else { random::good(&mut r) };
            if case.first.len() + case.second.len() <= 120 {
                offer(&case, &[], least);
            }
        }
    }
    kept
}

/// Inputs of the program with what it writes.
fn groups(seed: u64) -> Vec<(Vec<u8>, Vec<u8>)> {
    let mut choice = Choice { seen: HashSet::new(), room: GROUPS_ROOM };
    let mut kept = Vec::new();
    let mut offer = |input: Vec<u8>, least: u64| {
        let output = model::program(&input);
        if choice.takes(shows::group(&input, &output), least, 8 + input.len() + output.len()) {
            kept.push((input, output));
        }
    };
    for input in group_cases::limits() {
        let too_long = input.starts_with(b"99") && input.len() == 65_537;
        let too_many = input.len() == 2 + 257 * 36;
        if input.len() < 1000 || too_long || too_many {
            offer(input, 1);
        }
    }
    for (least, tries) in [(6, 20_000), (3, 40_000), (1, 100_000)] {
        let mut r = Rng::new(seed + least);
        for _ in 0..tries {
            let input = group_cases::input(&mut r);
            if input.len() <= 360 {
                offer(input, least);
            }
        }
    }
    kept
}

/// Writes pairs.bin and groups.bin into the folder. What is accepted was judged by the Rust.
pub fn write(folder: &str, seed: u64) {
    let mut out = Vec::new();
    let number = |n: usize| (n as u32).to_le_bytes();
    let list = pairs(seed);
    for (case, answer) in &list {
        let (mut first, mut second, mut counts) = (case.first.clone(), case.second.clone(), case.counts.clone());
        model::pair(&mut first, &mut second, case.ways(), &mut counts);
        out.extend(case.agreement.to_le_bytes());
        out.extend(case.disagreement.to_le_bytes());
        out.extend([first.len(), second.len(), counts.len(), answer.code() as usize].map(number).concat());
        out.extend([&case.first[..], &case.second, &case.counts].concat());
        if *answer == Answer::Overlap {
            out.extend([first, second, counts].concat());
        }
    }
    save(folder, "pairs.bin", b"OVLP", list.len(), out);

    let mut out = Vec::new();
    let list = groups(seed);
    for (input, output) in &list {
        if output.starts_with(b"ok") {
            judged_by_rust(input, output).unwrap_or_else(|finding| panic!("{finding}"));
        }
        out.extend([input.len(), output.len()].map(number).concat());
        out.extend([&input[..], output].concat());
    }
    save(folder, "groups.bin", b"OVLG", list.len(), out);
}

fn save(folder: &str, name: &str, magic: &[u8; 4], cases: usize, list: Vec<u8>) {
    let path = std::path::Path::new(folder).join(name);
    let bytes = [&magic[..], &(cases as u32).to_le_bytes(), &list].concat();
    std::fs::write(&path, &bytes).unwrap_or_else(|e| panic!("{}: {e}", path.display()));
    println!("{name}: {cases} cases, {} bytes", bytes.len());
}
