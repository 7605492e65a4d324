//! Says answers in words, as tests/c/answers.c does, with the wrapper of hosts/rust. Where its types can hold an
//! answer, they have to print the same text.
use overlap::{Agreement, Answer, CAP_MAX, CAP_MIN, Call, Counts, Disagreement, Fault, FiledAnswer, Reason, Refusal, Why};
use overlap::{call, reason, text, words};
use std::io::{self, BufRead};

fn main() {
    for line in io::stdin().lock().lines().map(Result::unwrap) {
        let (what, number) = line.split_once(' ').unwrap();
        let n: u32 = number.parse().unwrap();
        println!("{}", said(what, n));
    }
    for answer in answers() {
        assert_eq!(answer.to_string(), text(Call::Pair, answer.code()));
    }
    reasons();
    caps();
}

fn said(what: &str, n: u32) -> String {
    match what {
        "pair" => text(Call::Pair, n),
        "reason" => printed(Call::Reason, n, why(n).map_or(String::new(), |why| why.to_string())),
        "filed" => printed(Call::Filed, n, filed(n).to_string()),
        "trailer" if n == 0 => text(Call::Trailer, n),
        "trailer" => printed(Call::Trailer, n, filed(n).to_string()),
        _ => words(n).unwrap_or("none").into(),
    }
}

/// The text, which the type prints too unless the call never gives the answer.
fn printed(call: Call, n: u32, by_type: String) -> String {
    let text = text(call, n);
    assert!(text == by_type || text.contains(" is none of "), "{text} and {by_type}");
    text
}

fn filed(n: u32) -> FiledAnswer {
    match n {
        0 => FiledAnswer::Corrected,
        1 => FiledAnswer::AlreadyDone,
        _ => FiledAnswer::Refused(Refusal { number: n % 100, place: n.saturating_sub(1000) / 100 }),
    }
}

/// What the type holds for an answer with a reason, or for a refusal with the operation's index.
fn why(n: u32) -> Option<Why> {
    use Reason::*;
    let reasons = [Unmapped, ReferencesDiffer, NegativePosition, NoReferenceLength, NoSharedPosition];
    if n <= 5 {
        return Some(if n == 0 { Why::Overlap } else { Why::NoOverlap(reasons[n as usize - 1]) });
    }
    let fault = FAULTS.into_iter().find(|&fault| fault as u32 == n % 100)?;
    let operation = (fault == Fault::OperationCode).then_some(n / 10_000);
    match n % 10_000 / 100 {
        11 => Some(Why::First { fault, operation }),
        12 => Some(Why::Second { fault, operation }),
        _ => None,
    }
}

/// Each reason, an overlap and refusals as the archive gives them, in the type.
fn reasons() {
    use Fault::*;
    let (plain, matched, unknown) = (record(0, &[]), record(1, &[16]), record(0, &[16, 16, 16, 25]));
    let why = |first: &[u8], second: &[u8], expected| assert_eq!(reason(first, second), expected);
    let at = |place, byte, expected| {
        let mut other = matched.clone();
        other[place] = byte;
        why(&matched, &other, Why::NoOverlap(expected));
    };
    at(14, 4, Reason::Unmapped);
    at(0, 1, Reason::ReferencesDiffer);
    at(7, 128, Reason::NegativePosition);
    at(4, 1, Reason::NoSharedPosition);
    why(&matched, &plain, Why::NoOverlap(Reason::NoReferenceLength));
    why(&matched, &matched, Why::Overlap);
    why(&plain, &plain[1..], Why::Second { fault: Short, operation: None });
    why(&record(2, &[16]), &plain, Why::First { fault: ReadTotal, operation: None });
    why(&unknown, &plain, Why::First { fault: OperationCode, operation: Some(3) });
    why(&plain, &record(0, &[25]), Why::Second { fault: OperationCode, operation: Some(0) });
}

/// Caps as the archive takes them, in the type: two qualities of 60 become the cap, and nothing is written where it is none.
fn caps() {
    let mut one = record(1, &[16]);
    *one.last_mut().unwrap() = 60;
    for cap in [0, CAP_MIN - 1, CAP_MIN, 40, CAP_MAX, CAP_MAX + 1, u32::MAX] {
        let (mut first, mut second, mut counts) = (one.clone(), one.clone(), Counts::default());
        let answer = call(&mut first, &mut second, Agreement::Consensus, Disagreement::Consensus, cap, &mut counts);
        let (expected, quality) = if (2..=93).contains(&cap) { (Answer::Overlap, cap as u8) } else { (Answer::CapOutside, 60) };
        assert_eq!((answer, first.last(), &second), (expected, Some(&quality), &first), "cap {cap}");
        assert_eq!(counts.corrected, u64::from(quality != 60), "cap {cap}");
    }
}

/// A record of so many bases and these operations; 16 is 1M, and 25 has the code 9.
fn record(bases: u8, operations: &[u32]) -> Vec<u8> {
    let mut r = vec![0; 32];
    (r[12], r[16]) = (operations.len() as u8, bases);
    r.extend(operations.iter().flat_map(|operation| operation.to_le_bytes()));
    r.extend(vec![0; usize::from(bases.div_ceil(2) + bases)]);
    r
}

const FAULTS: [Fault; 7] = {
    use Fault::*;
    [Short, Long, NameAndOperations, BasesAndQualities, OperationCode, ReadTotal, ReferenceEnd]
};

/// Every answer for a pair.
fn answers() -> Vec<Answer> {
    let plain = [Answer::NoOverlap, Answer::Overlap, Answer::CountTooLarge, Answer::CapOutside];
    plain.into_iter().chain(FAULTS.map(Answer::First)).chain(FAULTS.map(Answer::Second)).collect()
}
