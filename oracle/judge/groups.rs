//! Groups through the program's standard input and output, against the model, and on accepted
//! input against `apply_overlapping_consensus` of the published Rust in both builds.
use crate::compare::{Class, class};
use crate::group_cases::{input, limits};
use crate::model;
use crate::published::{self, Ended};
use crate::record::{frame, hex};
use crate::rng::Rng;
use std::collections::BTreeMap;
use std::io::{Read as _, Write as _};
use std::process::{Command, Stdio, exit};

/// What the program writes for this input, which comes in so many pieces.
fn run_program(program: &str, input: &[u8], pieces: usize) -> Vec<u8> {
    let spawned = Command::new(program).stdin(Stdio::piped()).stdout(Stdio::piped()).spawn();
    let mut child = spawned.unwrap_or_else(|e| {
        eprintln!("{program}: {e}");
        exit(2)
    });
    // The program reads all it wants before it writes, so writing first and reading then can't
    // get stuck; on input that is too long it may stop reading, and the rest finds no reader.
    let mut stdin = child.stdin.take().unwrap();
    for (k, piece) in input.chunks(input.len() / pieces + 1).enumerate() {
        if k > 0 {
            std::thread::sleep(std::time::Duration::from_millis(1));
        }
        let _ = stdin.write_all(piece);
    }
    drop(stdin);
    let mut out = Vec::new();
    child.stdout.take().unwrap().read_to_end(&mut out).expect("the program's output");
    let status = child.wait().expect("the program's end");
    if !status.success() {
        eprintln!("FOUND: the program ended with {status} on {}", hex(input));
        exit(1);
    }
    out
}

/// What the published Rust says of an accepted group.
pub enum Judged {
    Equal {
        records: usize,
        pairs: usize,
        overlapping: usize,
    },
    /// A pair belongs to a known class; there the paper decides. All other records are equal.
    Known,
    /// The same, but the Rust panicked on such a pair.
    Panicked,
}

/// Holds the output for an accepted input to the published Rust. An Err is a finding.
pub fn judged_by_rust(input: &[u8], output: &[u8]) -> Result<Judged, String> {
    let records = model::records(&input[2..]).expect("accepted");
    let pairs = model::pairs(&records);
    let known: Vec<_> = pairs.iter().filter(|&&(i, j)| class(&records[i], &records[j]).is_some()).copied().collect();
    if !known.is_empty() {
        return judged_beside(input, output, &records, &known);
    }
    let (agreement, disagreement) = (u32::from(input[0] - b'0'), u32::from(input[1] - b'0'));
    // the Rust's group answers no numbers of pairs: its pair call says which of them overlap
    let overlaps = |&&(i, j): &&(usize, usize)| {
        let (mut a, mut b) = (records[i].clone(), records[j].clone());
        matches!(published::plain::pair(&mut a, &mut b, agreement, disagreement), Ended::Done((true, _)))
    };
    let overlapping = pairs.iter().filter(overlaps).count();
    for run in [published::checked::group, published::plain::group] {
        let mut after = records.clone();
        let growth = match run(&mut after, agreement, disagreement) {
            Ended::Done(growth) => growth.map(|n| n.to_string()).join(" "),
            other => return Err(format!("the published Rust ended so: {other:?}")),
        };
        let line = format!("ok {} {} {overlapping} {growth}\n", records.len(), pairs.len());
        if output != [line.into_bytes(), frame(&after)].concat() {
            return Err("the program and the published Rust differ".into());
        }
    }
    Ok(Judged::Equal { records: records.len(), pairs: pairs.len(), overlapping })
}

/// The same where these pairs belong to known classes: the Rust has to leave or make all other records as we do.
fn judged_beside(input: &[u8], output: &[u8], records: &[Vec<u8>], known: &[(usize, usize)]) -> Result<Judged, String> {
    let line = output.iter().position(|&b| b == b'\n').expect("a line");
    let ours = model::records(&output[line + 1..]).expect("the group again");
    let may_panic = known.iter().any(|&(i, j)| class(&records[i], &records[j]) != Some(Class::StepsOnZero));
    for run in [published::checked::group, published::plain::group] {
        let mut after = records.to_vec();
        match run(&mut after, u32::from(input[0] - b'0'), u32::from(input[1] - b'0')) {
            Ended::Done(_) => {}
            Ended::Panicked(_) if may_panic => return Ok(Judged::Panicked),
            other => return Err(format!("the published Rust ended so: {other:?}")),
        }
        let beside = |k: &usize| known.iter().all(|&(i, j)| *k != i && *k != j);
        if (0..records.len()).filter(beside).any(|k| after[k] != ours[k]) {
            return Err("a record beside the pairs of a known class differs from the published Rust's".into());
        }
    }
    Ok(Judged::Known)
}

#[derive(Default)]
struct Tally {
    groups: u64,
    refused: BTreeMap<u32, u64>,
    records: usize,
    pairs: usize,
    overlapping: usize,
    equal: u64,
    known: u64,
    panicked: u64,
}

impl Tally {
    fn print(&self, what: &str) {
        println!("{what}: {} cases, none that differs outside the known classes", self.groups);
        let refused: Vec<String> = self.refused.iter().map(|(number, n)| format!("{number}: {n}")).collect();
        println!("  refused  {}", refused.join("  "));
        println!("  accepted and equal with both builds of the published Rust: {}", self.equal);
        println!("  in these {} records, {} pairs, {} of them overlapping", self.records, self.pairs, self.overlapping);
        println!("  accepted with a pair of a known class, and all other records equal: {}", self.known);
        println!("  accepted, and the Rust panicked on a pair of a known class: {}", self.panicked);
    }
}

/// One group on all sides. An Err is a finding.
fn compare(program: &str, input: &[u8], tally: &mut Tally) -> Result<(), String> {
    tally.groups += 1;
    let expected = model::program(input);
    let pieces = if tally.groups % 50 == 0 { 4 } else { 1 };
    let got = run_program(program, input, pieces);
    let line = |out: &[u8]| String::from_utf8_lossy(out.split(|&b| b == b'\n').next().unwrap()).into_owned();
    if got != expected {
        return Err(format!("the program and the model differ: {:?} and {:?}", line(&got), line(&expected)));
    }
    if got.starts_with(b"no") {
        let number = line(&got).split(' ').nth(1).unwrap().parse().unwrap();
        *tally.refused.entry(number).or_default() += 1;
        return Ok(());
    }
    match judged_by_rust(input, &got)? {
        Judged::Known => tally.known += 1,
        Judged::Panicked => tally.panicked += 1,
        Judged::Equal { records, pairs, overlapping } => {
            tally.equal += 1;
            tally.records += records;
            tally.pairs += pairs;
            tally.overlapping += overlapping;
        }
    }
    Ok(())
}

fn check(program: &str, input: &[u8], tally: &mut Tally) {
    if let Err(finding) = compare(program, input, tally) {
        eprintln!("FOUND: {finding}\nstandard input: {}", hex(input));
        exit(1);
    }
}

pub fn run(program: &str, seed: u64, count: u64) {
    let mut r = Rng::new(seed);
    let mut tally = Tally::default();
    for _ in 0..count {
        check(program, &input(&mut r), &mut tally);
    }
    tally.print(&format!("random groups, seed {seed}"));
}

pub fn run_limits(program: &str) {
    let mut tally = Tally::default();
    for input in limits() {
        check(program, &input, &mut tally);
    }
    tally.print("every limit of a group at it and one off");
}
