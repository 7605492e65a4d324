//! The exported calls for Rust programs, version 2. include/overlap.h says what they do to the bytes.
//!
//! Nothing is checked here that the calls check themselves. What the types rule out before a call:
//! what is written is borrowed mutably, so it can't overlap another slice in memory; strategies are
//! enums and counts are always 32 bytes, so refusals 10 and 15 can't come. A cap outside of `CAP_MIN`
//! to `CAP_MAX` is refused by the call. `reason` only reads, and may be passed one record twice.
//!
//! So the fault that a host in C has to assert against can't be written here. One buffer in two places,
//! as in `correct_filed(&group, &mut group, ..)` or `call(&mut record, &mut record, ..)`, doesn't compile:
//! rustc refuses it with E0502 and E0499.
//!
//! Answers and refusals print as the words of docs/REFUSALS.md.
use std::fmt;

mod text;
pub use text::{Call, text, words};

/// The calls as the archive has them.
pub mod raw {
    unsafe extern "C" {
        /// Its name in the archive has the version in it since which the parameters are these: the linker refuses others.
        #[link_name = "overlap_call_2"]
        pub fn overlap_call(
            first: *mut u8,
            first_len: usize,
            second: *mut u8,
            second_len: usize,
            agreement: u32,
            disagreement: u32,
            cap: u32,
            counts: *mut u8,
            counts_len: usize,
        ) -> u32;

        pub fn overlap_reason_call(
            first: *const u8,
            first_len: usize,
            second: *const u8,
            second_len: usize,
        ) -> u32;

        pub fn overlap_filed_call(
            filed: *const u8,
            filed_len: usize,
            out: *mut u8,
            out_len: usize,
            counts: *mut u8,
            counts_len: usize,
        ) -> u32;

        pub fn overlap_trailer_call(
            frames: *const u8,
            frames_len: usize,
            agreement: u32,
            disagreement: u32,
            trailer: *mut u8,
            trailer_len: usize,
        ) -> u32;
    }
}

/// What equal bases at a shared position get.
#[derive(Clone, Copy, Debug, PartialEq, Eq)]
pub enum Agreement {
    Consensus = 0,
    MaxQual = 1,
    PassThrough = 2,
}

/// What different bases at a shared position get.
#[derive(Clone, Copy, Debug, PartialEq, Eq)]
pub enum Disagreement {
    Consensus = 0,
    MaskBoth = 1,
    MaskLowerQual = 2,
}

/// The least cap and the largest: the most that two qualities add up to where bases agree under `Agreement::Consensus`.
/// It is where the sequencer's scale of qualities stops, as at 40; else pass `CAP_MAX`.
pub const CAP_MIN: u32 = 2;
pub const CAP_MAX: u32 = 93;

/// The four counts, added to by each call.
#[derive(Clone, Copy, Debug, Default, PartialEq, Eq)]
pub struct Counts {
    pub overlapping: u64,
    pub agreeing: u64,
    pub disagreeing: u64,
    pub corrected: u64,
}

/// What is wrong with a record: refusals 1 to 5, 7 and 8. 6 is withdrawn.
#[derive(Clone, Copy, Debug, PartialEq, Eq)]
pub enum Fault {
    Short = 1,
    Long,
    NameAndOperations,
    BasesAndQualities,
    OperationCode,
    ReadTotal = 7,
    ReferenceEnd,
}

/// What the step says of a pair.
#[derive(Clone, Copy, Debug, PartialEq, Eq)]
pub enum Answer {
    /// Nothing was written. `reason` says why.
    NoOverlap,
    /// Shared positions hold the result and the counts have grown.
    Overlap,
    /// Refused for the first record; nothing was written.
    First(Fault),
    /// Refused for the second record; nothing was written.
    Second(Fault),
    /// Refused (number 9) because a count leaves too little room; nothing was written.
    CountTooLarge,
    /// Refused (number 22) because the cap isn't from `CAP_MIN` to `CAP_MAX`; nothing was written.
    CapOutside,
}

/// Calls the step on one pair.
pub fn call(
    first: &mut [u8],
    second: &mut [u8],
    agreement: Agreement,
    disagreement: Disagreement,
    cap: u32,
    counts: &mut Counts,
) -> Answer {
    let mut bytes = counts.to_bytes();
    // SAFETY: each pointer comes with the length of its own live, exclusive borrow.
    let code = unsafe {
        raw::overlap_call(
            first.as_mut_ptr(),
            first.len(),
            second.as_mut_ptr(),
            second.len(),
            agreement as u32,
            disagreement as u32,
            cap,
            bytes.as_mut_ptr(),
            bytes.len(),
        )
    };
    *counts = Counts::from_bytes(&bytes);
    match code {
        0 => Answer::NoOverlap,
        1 => Answer::Overlap,
        1009 => Answer::CountTooLarge,
        1022 => Answer::CapOutside,
        1101..=1108 => Answer::First(Fault::of(code - 1100)),
        1201..=1208 => Answer::Second(Fault::of(code - 1200)),
        _ => unreachable!("overlap_call answers no {code} here"),
    }
}

/// Why two records don't overlap. Where several of these hold, the first is said.
#[derive(Clone, Copy, Debug, PartialEq, Eq)]
pub enum Reason {
    /// Either record is unmapped.
    Unmapped = 1,
    /// The records lie on different references.
    ReferencesDiffer,
    /// Either record has a negative position.
    NegativePosition,
    /// Either record has no operation that uses the reference, or only such of length 0.
    NoReferenceLength,
    /// At no reference position do both have a base.
    NoSharedPosition,
}

/// What `reason` says of a pair.
#[derive(Clone, Copy, Debug, PartialEq, Eq)]
pub enum Why {
    /// The pair overlaps.
    Overlap,
    /// It doesn't.
    NoOverlap(Reason),
    /// Refused for the first record. `Fault::OperationCode`, and no other, comes with the operation's index, from 0 on.
    First { fault: Fault, operation: Option<u32> },
    /// Refused for the second record, as above.
    Second { fault: Fault, operation: Option<u32> },
}

/// Says why a pair doesn't overlap, before `call` or after it; nothing is written.
pub fn reason(first: &[u8], second: &[u8]) -> Why {
    // SAFETY: each pointer comes with the length of its own live borrow, and nothing is written.
    let code = unsafe { raw::overlap_reason_call(first.as_ptr(), first.len(), second.as_ptr(), second.len()) };
    Why::of(code)
}

/// A refusal by its number, and the index of the record at fault or 0; nothing was written.
#[derive(Clone, Copy, Debug, PartialEq, Eq)]
pub struct Refusal {
    pub number: u32,
    pub place: u32,
}

/// What the step says of a filed group.
#[derive(Clone, Copy, Debug, PartialEq, Eq)]
pub enum FiledAnswer {
    /// The corrected filed group stands at the start of `out` and the counts have grown.
    Corrected,
    /// The group had been corrected before; nothing was written. Its trailer has the counts.
    AlreadyDone,
    /// Nothing was written.
    Refused(Refusal),
}

/// Corrects a raw filed group into `out`, which has to be as long. The cap is `CAP_MAX`: a filed group has no other. A group
/// can't be corrected in place, and the borrows see to it: `filed` itself can't be lent as `out`.
pub fn correct_filed(filed: &[u8], out: &mut [u8], counts: &mut Counts) -> FiledAnswer {
    let mut bytes = counts.to_bytes();
    // SAFETY: each pointer comes with the length of its own live borrow, exclusive where it is written.
    let code = unsafe {
        raw::overlap_filed_call(
            filed.as_ptr(),
            filed.len(),
            out.as_mut_ptr(),
            out.len(),
            bytes.as_mut_ptr(),
            bytes.len(),
        )
    };
    *counts = Counts::from_bytes(&bytes);
    match code {
        0 => FiledAnswer::Corrected,
        1 => FiledAnswer::AlreadyDone,
        _ => FiledAnswer::Refused(Refusal::of(code)),
    }
}

/// The raw trailer of framed records: put it behind them, and they are a filed group.
pub fn trailer(frames: &[u8], agreement: Agreement, disagreement: Disagreement) -> Result<[u8; 50], Refusal> {
    let mut trailer = [0; 50];
    // SAFETY: as above.
    let code = unsafe {
        raw::overlap_trailer_call(
            frames.as_ptr(),
            frames.len(),
            agreement as u32,
            disagreement as u32,
            trailer.as_mut_ptr(),
            trailer.len(),
        )
    };
    if code == 0 { Ok(trailer) } else { Err(Refusal::of(code)) }
}

impl Answer {
    /// The number that overlap_call gave.
    pub fn code(self) -> u32 {
        match self {
            Answer::NoOverlap => 0,
            Answer::Overlap => 1,
            Answer::CountTooLarge => 1009,
            Answer::CapOutside => 1022,
            Answer::First(fault) => 1100 + fault as u32,
            Answer::Second(fault) => 1200 + fault as u32,
        }
    }
}

impl Why {
    /// The number that overlap_reason_call gave.
    pub fn code(self) -> u32 {
        match self {
            Why::Overlap => 0,
            Why::NoOverlap(reason) => reason as u32,
            Why::First { fault, operation } => 1100 + fault as u32 + 10_000 * operation.unwrap_or(0),
            Why::Second { fault, operation } => 1200 + fault as u32 + 10_000 * operation.unwrap_or(0),
        }
    }

    fn of(code: u32) -> Why {
        let (operation, code) = match code % 10_000 {
            refused @ (1105 | 1205) => (Some(code / 10_000), refused),
            _ => (None, code),
        };
        match code {
            0 => Why::Overlap,
            1..=5 => Why::NoOverlap(Reason::of(code)),
            1101..=1108 => Why::First { fault: Fault::of(code - 1100), operation },
            1201..=1208 => Why::Second { fault: Fault::of(code - 1200), operation },
            _ => unreachable!("overlap_reason_call answers no {code}"),
        }
    }
}

impl fmt::Display for Why {
    fn fmt(&self, f: &mut fmt::Formatter) -> fmt::Result {
        f.pad(&text(Call::Reason, self.code()))
    }
}

impl fmt::Display for Answer {
    fn fmt(&self, f: &mut fmt::Formatter) -> fmt::Result {
        f.pad(&text(Call::Pair, self.code()))
    }
}

impl fmt::Display for FiledAnswer {
    fn fmt(&self, f: &mut fmt::Formatter) -> fmt::Result {
        match self {
            FiledAnswer::Corrected => f.pad(&text(Call::Filed, 0)),
            FiledAnswer::AlreadyDone => f.pad(&text(Call::Filed, 1)),
            FiledAnswer::Refused(refusal) => refusal.fmt(f),
        }
    }
}

impl fmt::Display for Refusal {
    fn fmt(&self, f: &mut fmt::Formatter) -> fmt::Result {
        let Refusal { number, place } = *self;
        let found = text::refusal(Call::Filed, number, place, 0).or_else(|| text::refusal(Call::Trailer, number, place, 0));
        f.pad(&found.unwrap_or_else(|| format!("number {number} at place {place} is no refusal of a group")))
    }
}

impl std::error::Error for Refusal {}

impl Refusal {
    fn of(code: u32) -> Refusal {
        Refusal { number: code % 100, place: (code - 1000) / 100 }
    }
}

impl Reason {
    fn of(number: u32) -> Reason {
        use Reason::*;
        [Unmapped, ReferencesDiffer, NegativePosition, NoReferenceLength, NoSharedPosition][number as usize - 1]
    }
}

impl Fault {
    fn of(number: u32) -> Fault {
        use Fault::*;
        let all = [Short, Long, NameAndOperations, BasesAndQualities, OperationCode, ReadTotal, ReferenceEnd];
        *all.iter().find(|&&fault| fault as u32 == number).expect("a number of the table")
    }
}

impl Counts {
    /// As the calls take them: each least byte first.
    pub fn to_bytes(self) -> [u8; 32] {
        let mut bytes = [0; 32];
        let all = [self.overlapping, self.agreeing, self.disagreeing, self.corrected];
        for (place, count) in bytes.chunks_exact_mut(8).zip(all) {
            place.copy_from_slice(&count.to_le_bytes());
        }
        bytes
    }

    /// From the bytes that a call left.
    pub fn from_bytes(bytes: &[u8; 32]) -> Counts {
        let at = |i: usize| u64::from_le_bytes(bytes[8 * i..8 * i + 8].try_into().unwrap());
        Counts { overlapping: at(0), agreeing: at(1), disagreeing: at(2), corrected: at(3) }
    }
}
