//! The exported calls on a pair, on copies of a case that stand between guard bytes at any alignment.
use crate::record::{Case, Ways};
use overlap::raw::{overlap_call, overlap_reason_call};
use overlap::{Agreement, Answer, Counts, Disagreement, Fault, Reason, Why};

const GUARD: u8 = 0xA5;

/// A copy with `before` guard bytes in front of it and 16 behind.
struct Lent {
    bytes: Vec<u8>,
    before: usize,
    len: usize,
}

impl Lent {
    fn new(of: &[u8], before: usize) -> Lent {
        let bytes = [&vec![GUARD; before][..], of, &[GUARD; 16]].concat();
        Lent { bytes, before, len: of.len() }
    }
    fn inner(&self) -> std::ops::Range<usize> {
        self.before..self.before + self.len
    }
    fn pointer(&mut self) -> *mut u8 {
        self.bytes[self.before..].as_mut_ptr()
    }
    /// The copy as it is now; None if a byte around it changed.
    fn back(self) -> Option<Vec<u8>> {
        let around = self.bytes[..self.before].iter().chain(&self.bytes[self.before + self.len..]);
        if around.copied().all(|b| b == GUARD) { Some(self.bytes[self.inner()].to_vec()) } else { None }
    }
}

/// Answer, both records and counts after a call.
#[derive(Debug, PartialEq)]
pub struct After {
    pub answer: u32,
    pub first: Vec<u8>,
    pub second: Vec<u8>,
    pub counts: Vec<u8>,
}

impl After {
    /// This answer, and nothing written.
    pub fn nothing(case: &Case, answer: u32) -> After {
        After { answer, first: case.first.clone(), second: case.second.clone(), counts: case.counts.clone() }
    }
    /// The parts in which the two differ.
    pub fn differs(&self, other: &After) -> String {
        let parts = [
            (format!("answer ({} and {})", self.answer, other.answer), self.answer == other.answer),
            ("first record".into(), self.first == other.first),
            ("second record".into(), self.second == other.second),
            ("counts".into(), self.counts == other.counts),
        ];
        parts.into_iter().filter(|p| !p.1).map(|p| p.0).collect::<Vec<_>>().join(", ")
    }
}

/// Calls on copies of the case, and asks for the reason in the same buffers: before the call in one turn,
/// after it in the next. `turn` also moves the copies through the alignments.
pub fn call(case: &Case, turn: u64) -> Result<(After, u32), &'static str> {
    let shift = |by: u64| 16 + (by % 8) as usize;
    let mut first = Lent::new(&case.first, shift(turn));
    let mut second = Lent::new(&case.second, shift(turn / 8));
    let mut counts = Lent::new(&case.counts, shift(turn / 64));
    // SAFETY: three buffers of their own, each with its length.
    let (answer, reason) = unsafe {
        let (a, b, c) = (first.pointer(), second.pointer(), counts.pointer());
        let Ways { agreement, disagreement, cap } = case.ways();
        let step = || overlap_call(a, first.len, b, second.len, agreement, disagreement, cap, c, counts.len);
        let ask = || overlap_reason_call(a, first.len, b, second.len);
        if turn % 2 == 0 {
            let reason = ask();
            (step(), reason)
        } else {
            (step(), ask())
        }
    };
    match (first.back(), second.back(), counts.back()) {
        (Some(first), Some(second), Some(counts)) => Ok((After { answer, first, second, counts }, reason)),
        _ => Err("a call wrote beside a buffer"),
    }
}

/// The same through the safe wrapper, where its types admit the case.
pub fn wrapped(case: &Case) -> Option<After> {
    use Agreement as A;
    use Disagreement as D;
    let agreement = *[A::Consensus, A::MaxQual, A::PassThrough].get(case.agreement as usize)?;
    let disagreement = *[D::Consensus, D::MaskBoth, D::MaskLowerQual].get(case.disagreement as usize)?;
    let mut counts = Counts::from_bytes(case.counts[..].try_into().ok()?);
    let (mut first, mut second) = (case.first.clone(), case.second.clone());
    let answer = match overlap::call(&mut first, &mut second, agreement, disagreement, case.cap, &mut counts) {
        Answer::NoOverlap => 0,
        Answer::Overlap => 1,
        Answer::CountTooLarge => 1009,
        Answer::CapOutside => 1022,
        Answer::First(fault) => 1100 + number(fault),
        Answer::Second(fault) => 1200 + number(fault),
    };
    Some(After { answer, first, second, counts: counts.to_bytes().to_vec() })
}

/// The reason through the safe wrapper, as `overlap_reason_call` gives it.
pub fn wrapped_reason(case: &Case) -> u32 {
    // an operation's index comes with its fault, and with no other
    let refused = |fault, operation| match (fault, operation) {
        (Fault::OperationCode, Some(index)) => 10_000 * index + 5,
        (Fault::OperationCode, None) | (_, Some(_)) => 99,
        (fault, None) => number(fault),
    };
    match overlap::reason(&case.first, &case.second) {
        Why::Overlap => 0,
        Why::NoOverlap(Reason::Unmapped) => 1,
        Why::NoOverlap(Reason::ReferencesDiffer) => 2,
        Why::NoOverlap(Reason::NegativePosition) => 3,
        Why::NoOverlap(Reason::NoReferenceLength) => 4,
        Why::NoOverlap(Reason::NoSharedPosition) => 5,
        Why::First { fault, operation } => 1100 + refused(fault, operation),
        Why::Second { fault, operation } => 1200 + refused(fault, operation),
    }
}

fn number(fault: Fault) -> u32 {
    match fault {
        Fault::Short => 1,
        Fault::Long => 2,
        Fault::NameAndOperations => 3,
        Fault::BasesAndQualities => 4,
        Fault::OperationCode => 5,
        Fault::ReadTotal => 7,
        Fault::ReferenceEnd => 8,
    }
}
