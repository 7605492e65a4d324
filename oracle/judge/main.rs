//! The judge: runs the exported calls, a model of the paper and the published Rust on the same
//! input and compares every answer, reason, byte and count. oracle/README.md says how to use it.
mod call;
mod caps;
mod classes;
mod compare;
mod group_cases;
mod groups;
mod limits;
mod model;
mod published;
mod random;
mod record;
mod rng;
mod short;
mod shows;
mod stored;

use compare::{Tally, check};
use published::PairRun;
use record::{CAP, Case, hex, unhex};
use rng::Rng;

const USAGE: &str = "\
judge random SEED COUNT                 well-formed pairs
judge damaged SEED COUNT                the same with damage
judge extremes SEED COUNT               positions, lengths and totals at the ends of their ranges
judge codes SEED COUNT                  operations of codes above 8, at any index
judge caps SEED COUNT                   all of these with every cap
judge limits                            each limit of the table of refusals, of the reasons and of the cap, at it and one off
judge short FIRST SECOND LONGEST SEED   all operation lists of up to so many operations
judge zeros FIRST SECOND SEED           all lists of M, I and D of up to so many, of lengths 0 to 2
                                        with `smallest` behind these, except short: the smallest input of each class
judge groups PROGRAM SEED COUNT         groups through the program's standard input and output
judge group-limits PROGRAM              each limit of a group, at it and one off
judge classes                           the smallest inputs on which the Rust does something else
judge store FOLDER SEED                 writes the stored list of answers
judge one AGREEMENT DISAGREEMENT COUNTS FIRST SECOND [CAP]
                                        one pair in hexadecimal, every side shown; the cap is 93 unless given";

fn main() {
    let words: Vec<String> = std::env::args().skip(1).collect();
    let word = |i: usize| words.get(i).map(String::as_str).unwrap_or_else(|| usage());
    let number = |i: usize| word(i).parse::<u64>().unwrap_or_else(|_| usage());
    published::listen();
    let show = |tally: Tally| {
        if words.last().is_some_and(|w| w == "smallest") {
            tally.print_smallest();
        }
    };
    match word(0) {
        "random" => show(with_reasons(seeded("random pairs", random::good, number(1), number(2)))),
        "damaged" => show(with_reasons(seeded("damaged pairs", random::damaged, number(1), number(2)))),
        "extremes" => show(seeded("extreme pairs", random::extreme, number(1), number(2))),
        "codes" => show(with_operations(seeded("pairs with codes above 8", random::miscoded, number(1), number(2)))),
        "caps" => show(caps::run(number(1), number(2))),
        "limits" => limits::run(),
        "short" => short::run(number(1) as u32, number(2) as u32, number(3) as u32, number(4)),
        "zeros" => show(short::zeros(number(1) as u32, number(2) as u32, number(3))),
        "groups" => groups::run(word(1), number(2), number(3)),
        "group-limits" => groups::run_limits(word(1)),
        "classes" => classes::run(),
        "store" => stored::write(word(1), number(2)),
        "one" => one(&Case {
            agreement: number(1) as u32,
            disagreement: number(2) as u32,
            cap: if words.len() > 6 { number(6) as u32 } else { CAP },
            counts: unhex(word(3)),
            first: unhex(word(4)),
            second: unhex(word(5)),
        }),
        _ => usage(),
    }
}

fn usage() -> ! {
    eprintln!("{USAGE}");
    std::process::exit(2)
}

fn seeded(what: &str, make: fn(&mut Rng) -> Case, seed: u64, count: u64) -> Tally {
    let mut r = Rng::new(seed);
    let mut tally = Tally::default();
    for _ in 0..count {
        check(&make(&mut r), &mut tally);
    }
    tally.print(&format!("{what}, seed {seed}"));
    tally
}

/// Ten thousand pairs and more have to have had every reason.
fn with_reasons(tally: Tally) -> Tally {
    if tally.cases >= 10_000 {
        tally.expect_reasons();
    }
    tally
}

/// And refusal 5 for fifty operations of each record.
fn with_operations(tally: Tally) -> Tally {
    if tally.cases >= 10_000 {
        tally.expect_operations(50);
    }
    tally
}

/// Shows what every side does with one pair.
fn one(case: &Case) {
    let show = |side: &str, answer: String, first: &[u8], second: &[u8]| {
        println!("{side:<20} {answer}\n  first  {}\n  second {}", hex(first), hex(second));
    };
    let (mut a, mut b, mut c) = (case.first.clone(), case.second.clone(), case.counts.clone());
    let answer = model::pair(&mut a, &mut b, case.ways(), &mut c).code();
    let reason = model::of_records(&case.first, &case.second).reason();
    let said = |answer, reason, counts| format!("{answer} reason {reason} counts {}", hex(counts));
    show("the paper", said(answer, reason, &c), &a, &b);
    match call::call(case, 0) {
        Ok((got, reason)) => show("the calls", said(got.answer, reason, &got.counts), &got.first, &got.second),
        Err(finding) => println!("the calls            {finding}"),
    }
    let builds =
        [("Rust with checks", published::checked::pair as PairRun), ("Rust without checks", published::plain::pair)];
    let knows = case.agreement < 3 && case.disagreement < 3 && case.cap == CAP;
    for (side, run) in builds.into_iter().filter(|_| knows) {
        let (mut a, mut b) = (case.first.clone(), case.second.clone());
        let ended = run(&mut a, &mut b, case.agreement, case.disagreement);
        show(side, format!("{ended:?}"), &a, &b);
    }
    match compare::compare(case, &mut Tally::default()) {
        Ok(_) => println!("compared: nothing outside the known classes"),
        Err(finding) => println!("compared: {finding}"),
    }
}
