//! The archive, the published Rust and hand-written C on the same bytes, in one process.
//!
//!   bench verify [PAIRS]           all sides equal on every workload, under all nine strategy pairs, and on so
//!                                  many random pairs, damaged ones, and ones at the ends of their ranges
//!   bench time [ROUNDS]            time a pair, the sides taking turns
//!   bench one SIDE WORKLOAD [HOW]  one pass of one side, for callgrind; HOW is both strategies, 00 if not given
//!   bench frames WORKLOAD [HOW]    its pairs, for drive.c
//!   bench groups FOLDER            the W6 groups as files that the program reads, in both orders
//!   bench equal FOLDER PATH..      the programs' output on these files against the published Rust
//!   bench program FOLDER PATH..    the programs' time for 256 records
//!   bench threads                  the archive called from one thread and from two
#[path = "../oracle/judge/model.rs"]
#[allow(dead_code)]
mod model;
#[path = "../oracle/judge/random.rs"]
#[allow(dead_code)]
mod random;
#[path = "../oracle/judge/record.rs"]
#[allow(dead_code)]
mod record;
#[path = "../oracle/judge/rng.rs"]
#[allow(dead_code)]
mod rng;
mod workloads;
use fgumi_raw_bam::RawRecord;
use published::overlapping::{
    AgreementStrategy as A, DisagreementStrategy as D, OverlappingBasesConsensusCaller as Caller,
    apply_overlapping_consensus,
};
use record::{CAP, Case, Ways};
use rng::Rng;
use std::hint::black_box;
use std::io::Write;
use std::time::{Duration, Instant};
use workloads as w;

type Call = unsafe extern "C" fn(*mut u8, usize, *mut u8, usize, u32, u32, *mut u8, usize) -> u32;
unsafe extern "C" {
    #[link_name = "overlap_call_2"]
    fn overlap_call(a: *mut u8, b: usize, c: *mut u8, d: usize, e: u32, f: u32, cap: u32, g: *mut u8, h: usize) -> u32;
    fn limit_run(a: *mut u8, b: usize, c: *mut u8, d: usize, e: u32, f: u32, g: *mut u8, h: usize) -> u32;
    fn limit_block(a: *mut u8, b: usize, c: *mut u8, d: usize, e: u32, f: u32, g: *mut u8, h: usize) -> u32;
    #[cfg(target_arch = "x86_64")]
    fn limit_sse2(a: *mut u8, b: usize, c: *mut u8, d: usize, e: u32, f: u32, g: *mut u8, h: usize) -> u32;
    fn clock_gettime(clock: i32, time: *mut [i64; 2]) -> i32;
    fn getrusage(who: i32, usage: *mut [i64; 18]) -> i32;
}

/// Ours takes a cap too, and gets the one that the others have.
#[derive(Clone, Copy)]
enum Side {
    Rust,
    Ours,
    C(Call),
}
const SIDES: &[(&str, Side)] = &[
    ("rust", Side::Rust),
    ("ours", Side::Ours),
    ("c-run", Side::C(limit_run)),
    ("c-block", Side::C(limit_block)),
    #[cfg(target_arch = "x86_64")]
    ("sse2", Side::C(limit_sse2)),
];

fn caller(agreement: u32, disagreement: u32) -> Caller {
    Caller::new(
        [A::Consensus, A::MaxQual, A::PassThrough][agreement as usize],
        [D::Consensus, D::MaskBoth, D::MaskLowerQual][disagreement as usize],
    )
}
fn numbers(c: &Caller) -> [u64; 4] {
    let s = c.stats();
    [s.overlapping_bases, s.bases_agreeing, s.bases_disagreeing, s.bases_corrected].map(|n| n as u64)
}

/// All pairs of a workload end to end in one buffer, and the copy that it is restored from.
struct Pairs {
    pristine: Vec<u8>,
    work: Vec<u8>,
    at: Vec<[usize; 4]>,
}
impl Pairs {
    fn new(pairs: &w::Pairs) -> Pairs {
        let (mut pristine, mut at) = (Vec::new(), Vec::new());
        for (a, b) in pairs {
            let (a, b) = (a.encode(), b.encode());
            at.push([pristine.len(), a.len(), pristine.len() + a.len(), b.len()]);
            pristine.extend([a, b].concat());
        }
        Pairs { work: pristine.clone(), pristine, at }
    }
    fn restore(&mut self) {
        self.work.copy_from_slice(&self.pristine);
    }
}

/// The timed part: one call on every pair. Answers how many overlap.
#[inline(never)]
#[unsafe(no_mangle)]
fn timed_pairs(side: Side, p: &mut Pairs, rust: &mut Caller, how: (u32, u32), counts: &mut [u8; 32]) -> u64 {
    let base = p.work.as_mut_ptr();
    let mut overlap = 0;
    for &[a, a_len, b, b_len] in &p.at {
        // SAFETY: disjoint parts of one buffer.
        overlap += unsafe {
            let (a, b) = (base.add(a), base.add(b));
            match side {
                Side::Rust => {
                    let first = std::slice::from_raw_parts_mut(a, a_len);
                    u64::from(rust.call(first, std::slice::from_raw_parts_mut(b, b_len)).unwrap())
                }
                Side::Ours => u64::from(overlap_call(a, a_len, b, b_len, how.0, how.1, CAP, counts.as_mut_ptr(), 32)),
                Side::C(call) => u64::from(call(a, a_len, b, b_len, how.0, how.1, counts.as_mut_ptr(), 32)),
            }
        };
    }
    overlap
}

/// The timed part for groups. The Rust gets them split into owned records.
#[inline(never)]
#[unsafe(no_mangle)]
fn timed_groups(groups: &mut [Vec<RawRecord>], rust: &mut Caller) {
    for g in groups {
        apply_overlapping_consensus(g, rust).unwrap();
    }
}

const SEED: u64 = 20261115;
const WORKLOADS: [&str; 5] = ["W1", "W2", "W3", "W4", "W5"];

/// W1 to W5; L150 is plain pairs of 150 bases that overlap wholly, OPS21 pairs of 300 bases and 21
/// operations a read.
fn pairs_of(name: &str) -> Pairs {
    Pairs::new(&match name {
        "W1" => w::w1(1000, SEED),
        "W2" => w::w2(1000, SEED),
        "W3" => w::w3(500, SEED, 20, 60),
        "W4" => w::w4(8, SEED, 40_000, 5_000),
        "W5" => w::w5(1000, SEED),
        _ if name.starts_with("ZEROS") => w::zeros(4, SEED, name[5..].parse().unwrap()),
        _ => match (name.strip_prefix("OPS"), name.strip_prefix('L')) {
            (Some(n), _) => w::w3(100, SEED, n.parse().unwrap(), n.parse().unwrap()),
            (_, Some(n)) => {
                let len: u32 = n.parse().unwrap();
                w::plain((100_000 / len as usize).clamp(2, 300), SEED, len)
            }
            _ => panic!("no workload {name}"),
        },
    })
}

const GROUP_SIZES: [usize; 8] = [2, 4, 8, 16, 32, 64, 128, 256];
fn groups_of(n: usize) -> Vec<Vec<Vec<u8>>> {
    w::w6((32 / n).clamp(2, 8), n, SEED)
}
/// As in W6, and with mates side by side.
const ORDERS: [&str; 2] = ["w6", "beside"];
fn ordered(order: &str, n: usize) -> Vec<Vec<Vec<u8>>> {
    let groups = groups_of(n);
    if order == "beside" { groups.into_iter().map(w::collated).collect() } else { groups }
}
fn owned(groups: &[Vec<Vec<u8>>]) -> Vec<Vec<RawRecord>> {
    groups.iter().map(|g| g.iter().cloned().map(RawRecord).collect()).collect()
}

/// Ends the run at the first difference.
fn differs(what: &str, side: &str, from: &str) -> ! {
    println!("{what}: {side} differs from {from}");
    std::process::exit(1)
}

fn verify(pairs: u64) {
    let mut calls = 0;
    for name in WORKLOADS {
        let mut p = pairs_of(name);
        for how in (0..9).map(|s| (s / 3, s % 3)) {
            let mut want = None;
            for &(side, run) in SIDES {
                let (mut rust, mut counts) = (caller(how.0, how.1), [0; 32]);
                p.restore();
                let overlap = timed_pairs(run, &mut p, &mut rust, how, &mut counts);
                if let Side::Rust = run {
                    counts = numbers(&rust).map(u64::to_le_bytes).concat().try_into().unwrap();
                }
                let got = (overlap, counts, p.work.clone());
                let want = want.get_or_insert_with(|| got.clone());
                if got != *want {
                    differs(&format!("{name}, strategies {} {}", how.0, how.1), side, "the Rust");
                }
                calls += p.at.len();
            }
        }
    }
    println!("# no difference in bytes, answers and counts: {calls} calls");
    verify_made("random", random::good, pairs);
    verify_made("damaged", random::damaged, pairs);
    verify_made("extreme", random::extreme, pairs);
    println!("# nor from the model on random pairs, damaged ones and extreme ones: {pairs} of each");
}

/// Every side that refuses, against the model of the rules: the Rust does none of our checks.
fn verify_made(kind: &str, make: fn(&mut Rng) -> Case, pairs: u64) {
    let guarded = |bytes: &[u8]| [&[0xA5; 16], bytes, &[0xA5; 16]].concat();
    let mut r = Rng::new(SEED);
    for i in 0..pairs {
        let case = make(&mut r);
        let mut want = [case.first.clone(), case.second.clone(), case.counts.clone()];
        let [a, b, c] = &mut want;
        let answer = model::pair(a, b, case.ways(), c).code();
        for &(side, run) in SIDES {
            let mut lent = [&case.first, &case.second, &case.counts].map(|bytes| guarded(bytes));
            let [a, b, c] = lent.each_mut().map(|bytes| bytes[16..].as_mut_ptr());
            let (a_len, b_len, c_len) = (case.first.len(), case.second.len(), case.counts.len());
            let Ways { agreement, disagreement, cap } = case.ways();
            // SAFETY: three buffers of their own, each with its length.
            let got = unsafe {
                match run {
                    Side::Rust => continue,
                    Side::Ours => overlap_call(a, a_len, b, b_len, agreement, disagreement, cap, c, c_len),
                    Side::C(call) => call(a, a_len, b, b_len, agreement, disagreement, c, c_len),
                }
            };
            if got != answer || lent != want.each_ref().map(|bytes| guarded(bytes)) {
                differs(&format!("{kind} pair {i}"), side, "the model");
            }
        }
    }
}

/// Processor time of this thread in nanoseconds.
fn now() -> f64 {
    let mut t = [0; 2];
    unsafe { clock_gettime(3, &mut t) };
    t[0] as f64 * 1e9 + t[1] as f64
}
fn median(mut v: Vec<f64>) -> f64 {
    v.sort_by(f64::total_cmp);
    v[v.len() / 2]
}

/// workload, side, nanoseconds a pair, the Rust's time over this side's, counted positions a pair
fn time(rounds: usize) {
    for name in WORKLOADS {
        let mut p = pairs_of(name);
        let pairs = p.at.len() as f64;
        let mut took = vec![Vec::new(); SIDES.len()];
        let mut positions = 0.0;
        for round in 0..rounds + 2 {
            for k in 0..SIDES.len() {
                let i = (k + round) % SIDES.len(); // the order turns with the round
                let (mut rust, mut counts) = (caller(0, 0), [0; 32]);
                p.restore(); // not timed: every side finds the same warm bytes
                let start = now();
                black_box(timed_pairs(SIDES[i].1, &mut p, &mut rust, (0, 0), &mut counts));
                let ns = (now() - start) / pairs;
                if round >= 2 {
                    took[i].push(ns);
                }
                if i == 0 {
                    positions = numbers(&rust)[0] as f64 / pairs;
                }
            }
        }
        for (i, (side, _)) in SIDES.iter().enumerate() {
            let ratio = took[0].iter().zip(&took[i]).map(|(r, t)| r / t).collect();
            println!("{name}\t{side}\t{:.1}\t{:.2}\t{positions:.1}", median(took[i].clone()), median(ratio));
        }
    }
}

/// Agreement and disagreement, a digit each.
fn strategies(how: &str) -> (u32, u32) {
    let digit = |i| how[i..=i].parse().unwrap();
    (digit(0), digit(1))
}
fn one(side: &str, name: &str, how: &str) {
    if let Some(n) = name.strip_prefix("W6-") {
        let mut groups = owned(&groups_of(n.parse().unwrap()));
        timed_groups(&mut groups, &mut caller(0, 0));
        println!("{}", groups.iter().map(Vec::len).sum::<usize>());
    } else {
        let (mut p, how) = (pairs_of(name), strategies(how));
        let run = SIDES.iter().find(|s| s.0 == side).expect("a side").1;
        timed_pairs(run, &mut p, &mut caller(how.0, how.1), how, &mut [0; 32]);
        println!("{}", p.at.len());
    }
}

/// In the form that the program reads: two digits (agreement, disagreement), and frames.
fn input(how: &str, records: &[Vec<u8>]) -> Vec<u8> {
    [how.as_bytes(), &w::frame(records)].concat()
}
fn frames(name: &str, how: &str) {
    let p = pairs_of(name);
    let cut = |from: usize, len: usize| p.pristine[from..from + len].to_vec();
    let records: Vec<_> = p.at.iter().flat_map(|&[a, a_len, b, b_len]| [cut(a, a_len), cut(b, b_len)]).collect();
    std::io::stdout().write_all(&input(how, &records)).unwrap();
}

fn file_of(folder: &str, order: &str, n: usize, i: usize) -> String {
    format!("{folder}/{order}-{n}-{i}.in")
}
fn write_groups(folder: &str) {
    std::fs::write(format!("{folder}/empty.in"), input("00", &[])).unwrap();
    for (order, n) in each_order_and_size() {
        for (i, g) in ordered(order, n).iter().enumerate() {
            std::fs::write(file_of(folder, order, n, i), input("00", g)).unwrap();
        }
    }
}
fn each_order_and_size() -> impl Iterator<Item = (&'static str, usize)> {
    ORDERS.into_iter().flat_map(|order| GROUP_SIZES.map(|n| (order, n)))
}

fn start(path: &str, input: &str) -> std::process::Command {
    let mut c = std::process::Command::new(path);
    c.stdin(std::fs::File::open(input).unwrap());
    c
}
/// Processor time in nanoseconds of a run whose output nobody reads.
fn run_time(path: &str, input: &str) -> f64 {
    let children = || {
        let mut u = [0; 18];
        unsafe { getrusage(-1, &mut u) };
        (u[0] + u[2]) as f64 * 1e9 + (u[1] + u[3]) as f64 * 1e3
    };
    let before = children();
    start(path, input).stdout(std::process::Stdio::null()).status().unwrap();
    children() - before
}

fn equal(folder: &str, paths: &[String]) {
    for (order, n) in each_order_and_size() {
        let groups = ordered(order, n);
        for (i, g) in groups.iter().enumerate() {
            let (mut rust, mut after) = (caller(0, 0), owned(&groups[i..=i]));
            timed_groups(&mut after, &mut rust);
            let after: Vec<Vec<u8>> = after.remove(0).into_iter().map(|r| r.0).collect();
            let tail = format!(" {}", numbers(&rust).map(|n| n.to_string()).join(" "));
            for path in paths {
                let out = start(path, &file_of(folder, order, n, i)).output().unwrap().stdout;
                let end = out.iter().position(|&b| b == b'\n').unwrap_or(0);
                let head = String::from_utf8_lossy(&out[..end]);
                let same = head.starts_with(&format!("ok {} ", g.len())) && head.ends_with(&tail);
                if !same || out[(end + 1).min(out.len())..] != w::frame(&after) {
                    differs(&format!("{n} records, {order}"), path, "the Rust");
                }
            }
        }
    }
    println!("# no difference in groups of 2 to 256 records, in both orders: {} programs", paths.len());
}

/// The whole program less a run on no records, beside the Rust in this process.
fn program(folder: &str, paths: &[String]) {
    let (groups, input) = (groups_of(256), file_of(folder, "w6", 256, 0));
    let mut took = vec![Vec::new(); paths.len() + 1];
    for _ in 0..200 {
        let (mut after, mut rust) = (owned(&groups[..1]), caller(0, 0));
        let start = now();
        timed_groups(&mut after, &mut rust);
        took[0].push(now() - start);
        for (i, path) in paths.iter().enumerate() {
            took[i + 1].push(run_time(path, &input) - run_time(path, &format!("{folder}/empty.in")));
        }
    }
    let rust = median(took.remove(0));
    for (path, took) in paths.iter().zip(took) {
        println!("{path}\t{:.2}", rust / median(took));
    }
}

/// Each thread calls on a buffer and counts of its own. Answers the pairs a second of all together
/// by the clock, and the nanoseconds of processor time a pair.
fn together(threads: usize) -> [f64; 2] {
    let one = || {
        let mut p = pairs_of("W1");
        let (mut done, mut clock, mut spent) = (0.0, Duration::ZERO, 0.0);
        while clock < Duration::from_millis(200) {
            p.restore();
            let (begin, start) = (Instant::now(), now());
            black_box(timed_pairs(SIDES[1].1, &mut p, &mut caller(0, 0), (0, 0), &mut [0; 32]));
            spent += now() - start;
            clock += begin.elapsed();
            done += p.at.len() as f64;
        }
        [done / clock.as_secs_f64(), spent / done / threads as f64]
    };
    std::thread::scope(|s| {
        let all: Vec<_> = (0..threads).map(|_| s.spawn(one)).collect();
        all.into_iter().map(|t| t.join().unwrap()).fold([0.0; 2], |x, y| [x[0] + y[0], x[1] + y[1]])
    })
}
fn threads() {
    let mut took: [[Vec<f64>; 2]; 2] = Default::default();
    for _ in 0..10 {
        for (i, took) in took.iter_mut().enumerate() {
            let [rate, ns] = together(i + 1);
            took[0].push(rate / 1e6);
            took[1].push(ns);
        }
    }
    println!("| W1 | million pairs a second by the clock, best turn | ns of processor time a pair, median |");
    println!("|---|--:|--:|");
    for (name, took) in ["1 thread", "2 threads"].into_iter().zip(took) {
        let [rate, ns] = took;
        println!("| {name} | {:.2} | {:.0} |", rate.into_iter().fold(0.0, f64::max), median(ns));
    }
}

fn main() {
    let a: Vec<String> = std::env::args().skip(1).collect();
    match a.iter().map(String::as_str).collect::<Vec<_>>()[..] {
        ["verify"] => verify(100_000),
        ["verify", pairs] => verify(pairs.parse().unwrap()),
        ["time"] => time(40),
        ["time", rounds] => time(rounds.parse().unwrap()),
        ["one", side, workload] => one(side, workload, "00"),
        ["one", side, workload, how] => one(side, workload, how),
        ["frames", workload] => frames(workload, "00"),
        ["frames", workload, how] => frames(workload, how),
        ["groups", folder] => write_groups(folder),
        ["equal", folder, ..] => equal(folder, &a[2..]),
        ["program", folder, ..] => program(folder, &a[2..]),
        ["threads"] => threads(),
        _ => panic!("bench verify | time | one | frames | groups | equal | program | threads"),
    }
}
