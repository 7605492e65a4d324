//! One case, all sides: the exported calls against the model, and on accepted input with the cap 93 the
//! published Rust, in both builds, as the judge. What differs must belong to a known class.
use crate::call::{After, call, wrapped, wrapped_reason};
use crate::model::{self, Answer};
use crate::published::{self, Ended, PairRun};
use crate::record::{CAP, Case, hex, pack, unpack, uses};
use std::collections::BTreeMap;

/// Accepted input on which the published Rust wraps, panics or places a base elsewhere
/// (docs/DIFFERENCES.md).
#[derive(Clone, Copy, Debug, PartialEq, Eq, PartialOrd, Ord)]
pub enum Class {
    /// The second position is negative, so nothing else matters; but the first record's start or
    /// end, worked out before that is looked at, passes the largest i32.
    FirstEndPastI32,
    /// l_seq is 0, so that no base sits anywhere; but the operations' read lengths move the
    /// Rust's read position past the largest i32.
    ReadPositionPastI32,
    /// A record has an aligned operation of length 0 that the Rust steps on to as if a base stood
    /// there, so that it may place bases elsewhere from there on.
    StepsOnZero,
    /// The same, in a record that ends so late that the steps can lead past the largest i32.
    StepsPastI32,
}

/// Can the Rust step on to an operation of length 0? There is a base; the operation, an M, = or X,
/// stands behind another M, = or X; and of the operations behind it the first that has a length and
/// uses only one of read and reference begins a rest that uses both.
fn steps_on_zero(r: &[u8]) -> bool {
    let ops = model::operations(r);
    let aligned = |o: &(u64, u64)| uses(o.0 as u32) == (true, true);
    let one_sided = |o: &(u64, u64)| o.1 > 0 && uses(o.0 as u32).0 != uses(o.0 as u32).1;
    let rest_uses_both = |rest: &[(u64, u64)]| {
        let from = rest.iter().position(one_sided).unwrap_or(rest.len());
        let some = |side: fn((bool, bool)) -> bool| rest[from..].iter().any(|o| o.1 > 0 && side(uses(o.0 as u32)));
        some(|u| u.0) && some(|u| u.1)
    };
    let empty = |k: usize| aligned(&ops[k]) && ops[k].1 == 0;
    let stepped = |k: usize| empty(k) && ops[..k].iter().any(aligned) && rest_uses_both(&ops[k + 1..]);
    model::l_seq(r) > 0 && (0..ops.len()).any(stepped)
}

/// Does a record end so late that as many more positions as it has aligned operations of length 0
/// pass the largest i32?
fn ends_late(r: &[u8]) -> bool {
    let zeros = model::operations(r).iter().filter(|o| o.1 == 0 && uses(o.0 as u32) == (true, true)).count();
    model::pos(r) + (model::reference_total(r) + zeros as u64) as i64 >= i64::from(i32::MAX)
}

/// The class of an accepted pair.
pub fn class(first: &[u8], second: &[u8]) -> Option<Class> {
    const END: u64 = i32::MAX as u64;
    let mapped = |r: &[u8]| model::flags(r) & 4 == 0;
    if !mapped(first) || !mapped(second) || model::ref_id(first) != model::ref_id(second) || model::pos(first) < 0 {
        return None;
    }
    if model::pos(second) < 0 {
        // its operations aren't judged: codes above 8, which use nothing, may be among them
        let (at, reference) = (model::pos(first) as u64, model::reference_total(first));
        let past = at == END || (reference <= END && at + reference > END);
        return past.then_some(Class::FirstEndPastI32);
    }
    let wraps = |r: &[u8]| model::l_seq(r) == 0 && model::read_total(r) >= END;
    if wraps(first) || wraps(second) {
        return Some(Class::ReadPositionPastI32);
    }
    let stepping: Vec<_> = [first, second].into_iter().filter(|r| steps_on_zero(r)).collect();
    match stepping.iter().any(|r| ends_late(r)) {
        true => Some(Class::StepsPastI32),
        false => (!stepping.is_empty()).then_some(Class::StepsOnZero),
    }
}

/// How many cases went which way.
#[derive(Default)]
pub struct Tally {
    pub cases: u64,
    pub answers: BTreeMap<u32, u64>,
    /// Accepted cases on which both builds of the Rust gave every byte, answer and count.
    pub equal: u64,
    /// Other accepted cases, by class and by what the two builds did; with the smallest of them.
    pub known: BTreeMap<(Class, String), (u64, Case)>,
    /// What the Rust without checks does where we refuse, by our number: no, yes, panic.
    pub on_refused: BTreeMap<u32, [u64; 3]>,
    /// Records that overlap (0), and that do not, by the reason. Strategies, cap and counts don't matter here.
    pub reasons: [u64; 6],
    /// Records that are refused as 5, by place and by the operation's index.
    pub operations: BTreeMap<(u32, u32), u64>,
}

impl Tally {
    pub fn print(&self, what: &str) {
        println!("{what}: {} cases, none that differs outside the known classes", self.cases);
        let answers: Vec<String> = self.answers.iter().map(|(a, n)| format!("{a}: {n}")).collect();
        println!("  answers  {}", answers.join("  "));
        let reasons: Vec<String> = self.reasons.iter().enumerate().map(|(k, n)| format!("{k}: {n}")).collect();
        println!("  reasons  {}", reasons.join("  "));
        for place in [1, 2] {
            let found: Vec<u32> = self.operations.keys().filter(|at| at.0 == place).map(|at| at.1).collect();
            if let Some(last) = found.last() {
                println!("  refused as 5 at place {place}: {} indexes of operations, the last {last}", found.len());
            }
        }
        println!("  accepted and equal with both builds of the published Rust: {}", self.equal);
        for ((class, what), (n, _)) in &self.known {
            println!("  known class {class:?}, {what}: {n}");
        }
        for (number, [no, yes, panic]) in &self.on_refused {
            println!("  refused as {number}; there the Rust says no {no}, yes {yes}, panics {panic}");
        }
    }

    /// The smallest case of each class and each thing that the Rust does.
    pub fn print_smallest(&self) {
        for ((class, what), (_, case)) in &self.known {
            println!("  {class:?}, {what}: judge one {}", spelled(case));
        }
    }

    /// Ends the run unless the pairs had all five reasons, and overlaps among them.
    pub fn expect_reasons(&self) {
        if let Some(reason) = self.reasons.iter().position(|&n| n == 0) {
            eprintln!("FOUND: no pair had the reason {reason}");
            std::process::exit(1);
        }
    }

    /// Ends the run unless refusal 5 was given for so many operations of each record.
    pub fn expect_operations(&self, least: usize) {
        for place in [1, 2] {
            let found = self.operations.keys().filter(|at| at.0 == place).count();
            if found < least {
                eprintln!("FOUND: refused as 5 at place {place} with {found} indexes of operations and not {least}");
                std::process::exit(1);
            }
        }
    }

    fn count_reason(&mut self, of_records: Answer) {
        match of_records {
            Answer::Refused { number: 5, place, operation } => {
                *self.operations.entry((place, operation)).or_default() += 1;
            }
            Answer::Refused { .. } => {}
            _ => self.reasons[of_records.reason() as usize] += 1,
        }
    }

    fn count_known(&mut self, class: Class, what: String, case: &Case) {
        let size = |c: &Case| c.first.len() + c.second.len();
        let (n, smallest) = self.known.entry((class, what)).or_insert_with(|| (0, case.clone()));
        *n += 1;
        if size(case) < size(smallest) {
            *smallest = case.clone();
        }
    }
}

/// Compares one case on all sides. An Err is a finding.
pub fn compare(case: &Case, tally: &mut Tally) -> Result<Answer, String> {
    let turn = tally.cases;
    tally.cases += 1;
    let (answer, expected) = modelled(case);
    *tally.answers.entry(expected.answer).or_default() += 1;
    if answer != Answer::Overlap && expected != After::nothing(case, expected.answer) {
        return Err("the model wrote although the answer isn't 1".into());
    }
    let (got, reason) = call(case, turn)?;
    if got != expected {
        return Err(format!("the call and the model differ in: {}", got.differs(&expected)));
    }
    compare_reason(case, answer, reason, tally)?;
    if turn % 16 == 0 && wrapped(case).is_some_and(|through| through != expected) {
        return Err("the safe wrapper and the call differ".into());
    }
    if turn % 16 == 0 && wrapped_reason(case) != reason {
        return Err("the safe wrapper and the call differ in the reason".into());
    }
    match answer {
        _ if case.cap != CAP => {} // the Rust has no other
        Answer::Refused { number, .. } => look_at_refused(case, number, tally),
        _ => rust_judges(case, &expected, reason, tally)?,
    }
    Ok(answer)
}

/// The reason that was given, beside the model's and beside the call's answer, which the model gave too.
fn compare_reason(case: &Case, answer: Answer, reason: u32, tally: &mut Tally) -> Result<(), String> {
    let by_call = matches!(answer.code(), 1009 | 1010 | 1015 | 1022); // and not by the records
    let of_records = if by_call { model::of_records(&case.first, &case.second) } else { answer };
    tally.count_reason(of_records);
    if reason != of_records.reason() {
        return Err(format!("the reason is {reason}, and the model's is {}", of_records.reason()));
    }
    let beside = match reason {
        0 => 1,
        1..=5 => 0,
        refused => refused % 10_000,
    };
    if !by_call && answer.code() != beside {
        return Err(format!("the reason {reason} doesn't go with the answer {}", answer.code()));
    }
    Ok(())
}

/// What the paper asks for.
fn modelled(case: &Case) -> (Answer, After) {
    let (mut first, mut second, mut counts) = (case.first.clone(), case.second.clone(), case.counts.clone());
    let answer = model::pair(&mut first, &mut second, case.ways(), &mut counts);
    (answer, After { answer: answer.code(), first, second, counts })
}

/// Accepted input: both builds of the Rust give what was expected, and say that the records overlap
/// exactly where there is no reason why they don't; or the case is of a known class.
fn rust_judges(case: &Case, expected: &After, reason: u32, tally: &mut Tally) -> Result<(), String> {
    let (checked, plain) = (ran(case, published::checked::pair), ran(case, published::plain::pair));
    let words = (word(&checked, expected), word(&plain, expected));
    if words == ("equal", "equal") {
        let overlap = |ended: &Ended<After>| matches!(ended, Ended::Done(after) if after.answer == 1);
        if overlap(&checked) != (reason == 0) || overlap(&plain) != (reason == 0) {
            return Err(format!("the reason is {reason}, and the published Rust says overlap: {}", overlap(&plain)));
        }
        tally.equal += 1;
        return Ok(());
    }
    let class = class(&case.first, &case.second);
    let alike = checked == plain && matches!(plain, Ended::Done(_)); // in every byte and count
    match (class, words) {
        (Some(Class::FirstEndPastI32), ("overflow panic", "equal")) => {}
        (Some(Class::ReadPositionPastI32), ("overflow panic", "equal" | "index panic")) => {}
        (Some(Class::StepsOnZero | Class::StepsPastI32), _) if alike => {}
        (Some(Class::StepsPastI32), ("overflow panic", _)) => {}
        _ => return Err(format!("the published Rust differs; with checks {checked:?}, without {plain:?}")),
    }
    let words = format!("with checks: {}, without: {}", words.0, words.1);
    tally.count_known(class.unwrap(), words, case);
    Ok(())
}

/// How a build of the Rust ends, with answer, bytes and counts as the call has them.
fn ran(case: &Case, run: PairRun) -> Ended<After> {
    let (mut first, mut second) = (case.first.clone(), case.second.clone());
    match run(&mut first, &mut second, case.agreement, case.disagreement) {
        Ended::Done((overlap, growth)) => {
            let given = unpack(&case.counts);
            let counts = pack(std::array::from_fn(|k| given[k] + growth[k]));
            Ended::Done(After { answer: u32::from(overlap), first, second, counts })
        }
        Ended::Failed(e) => Ended::Failed(e),
        Ended::Panicked(m) => Ended::Panicked(m),
    }
}

/// In what the Rust differs from what was expected, if in anything.
fn beside(got: &After, expected: &After) -> &'static str {
    let bytes = got.first != expected.first || got.second != expected.second;
    match (got.answer, expected.answer) {
        _ if got == expected => "equal",
        (1, 0) => "overlap where there is none",
        (0, 1) => "no overlap where there is one",
        _ if bytes && got.counts != expected.counts => "other bytes and counts",
        _ if bytes => "other bytes",
        _ => "other counts",
    }
}

fn word(ended: &Ended<After>, expected: &After) -> &'static str {
    match ended {
        Ended::Done(got) => beside(got, expected),
        Ended::Failed(_) => "an error",
        Ended::Panicked(m) if m.contains("overflow") => "overflow panic",
        Ended::Panicked(m) if m.contains("index out of bounds") => "index panic",
        Ended::Panicked(_) => "another panic",
    }
}

/// Refused input: nothing is judged, but it is told what the Rust does there. Left out is what
/// could run long or fill the memory.
fn look_at_refused(case: &Case, number: u32, tally: &mut Tally) {
    let small = |r: &[u8]| match model::record_fault(r) {
        Some(1..=3) => true,
        _ => model::operations(r).iter().all(|o| o.1 < 1000) && model::pos(r) < 1 << 30,
    };
    if number > 8 || !small(&case.first) || !small(&case.second) {
        return;
    }
    let (mut a, mut b) = (case.first.clone(), case.second.clone());
    let column = match published::plain::pair(&mut a, &mut b, case.agreement, case.disagreement) {
        Ended::Done((overlap, _)) => usize::from(overlap),
        _ => 2,
    };
    tally.on_refused.entry(number).or_default()[column] += 1;
}

/// The case as the command `judge one` takes it.
pub fn spelled(case: &Case) -> String {
    let Case { agreement, disagreement, cap, .. } = *case;
    let (counts, first, second) = (hex(&case.counts), hex(&case.first), hex(&case.second));
    let cap = if cap == CAP { String::new() } else { format!(" {cap}") };
    format!("{agreement} {disagreement} {counts} {first} {second}{cap}")
}

/// Compares, and ends the run at the first finding.
pub fn check(case: &Case, tally: &mut Tally) -> Answer {
    compare(case, tally).unwrap_or_else(|finding| {
        eprintln!("FOUND: {finding}\nsee it by: judge one {}", spelled(case));
        std::process::exit(1)
    })
}
