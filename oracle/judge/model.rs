//! Document 01 read literally, with the reasons of Wish 2 and the cap of Wish 6, the one text of it in
//! Rust: which answer an input gets, with which number and place, why two records don't overlap, and what
//! a shared position becomes. Written from the documents alone, plainly and slowly. It is the judge of
//! refusals and of reasons, of every cap but 93, and of the few inputs on which the published Rust wraps
//! or panics.
use crate::record::{CAP, LAST, LEAST_CAP, MOST, Ways, pack, unpack, uses};

/// Why two records don't overlap.
#[derive(Clone, Copy, Debug, PartialEq, Eq)]
pub enum Reason {
    Unmapped = 1,
    ReferencesDiffer,
    NegativePosition,
    NoReferenceLength,
    NoSharedPosition,
}

/// Of the refusals 5 alone has an operation at fault; that of all others is 0.
#[derive(Clone, Copy, Debug, PartialEq, Eq)]
pub enum Answer {
    NoOverlap(Reason),
    Overlap,
    Refused { number: u32, place: u32, operation: u32 },
}

impl Answer {
    /// As `overlap_call` gives it.
    pub fn code(self) -> u32 {
        match self {
            Answer::NoOverlap(_) => 0,
            Answer::Overlap => 1,
            Answer::Refused { number, place, .. } => 1000 + 100 * place + number,
        }
    }

    /// As `overlap_reason_call` gives it.
    pub fn reason(self) -> u32 {
        match self {
            Answer::NoOverlap(reason) => reason as u32,
            Answer::Overlap => 0,
            Answer::Refused { operation, .. } => 10_000 * operation + self.code(),
        }
    }
}

fn refused(number: u32, place: u32) -> Answer {
    Answer::Refused { number, place, operation: 0 }
}

// ---- The record ----

fn number(r: &[u8], at: usize, width: usize) -> u64 {
    r[at..at + width].iter().rev().fold(0, |n, &b| n * 256 + u64::from(b))
}
fn signed(r: &[u8], at: usize) -> i64 {
    let n = number(r, at, 4) as i64;
    if n < 1 << 31 { n } else { n - (1 << 32) }
}
pub fn ref_id(r: &[u8]) -> i64 {
    signed(r, 0)
}
pub fn pos(r: &[u8]) -> i64 {
    signed(r, 4)
}
fn name_length(r: &[u8]) -> usize {
    number(r, 8, 1) as usize
}
fn operation_count(r: &[u8]) -> usize {
    number(r, 12, 2) as usize
}
pub fn flags(r: &[u8]) -> u64 {
    number(r, 14, 2)
}
pub fn l_seq(r: &[u8]) -> u64 {
    number(r, 16, 4)
}
fn operations_at(r: &[u8]) -> usize {
    32 + name_length(r)
}
pub fn bases_at(r: &[u8]) -> usize {
    operations_at(r) + 4 * operation_count(r)
}
pub fn qualities_at(r: &[u8]) -> u64 {
    bases_at(r) as u64 + (l_seq(r) + 1) / 2
}
pub fn name(r: &[u8]) -> &[u8] {
    &r[32..32 + name_length(r).saturating_sub(1)]
}

/// 1 to 4 of the table.
pub fn record_fault(r: &[u8]) -> Option<u32> {
    if r.len() < 32 {
        Some(1)
    } else if r.len() > 65_536 {
        Some(2)
    } else if bases_at(r) > r.len() {
        Some(3)
    } else if qualities_at(r) + l_seq(r) > r.len() as u64 {
        Some(4)
    } else {
        None
    }
}

// ---- Operations ----

/// Code and length of each.
pub fn operations(r: &[u8]) -> Vec<(u64, u64)> {
    let op = |k| number(r, operations_at(r) + 4 * k, 4);
    (0..operation_count(r)).map(|k| (op(k) % 16, op(k) / 16)).collect()
}
fn uses_read(code: u64) -> bool {
    uses(code as u32).0
}
fn uses_reference(code: u64) -> bool {
    uses(code as u32).1
}
fn total(ops: &[(u64, u64)], uses: fn(u64) -> bool) -> u64 {
    ops.iter().filter(|o| uses(o.0)).map(|o| o.1).sum()
}
pub fn read_total(r: &[u8]) -> u64 {
    total(&operations(r), uses_read)
}
pub fn reference_total(r: &[u8]) -> u64 {
    total(&operations(r), uses_reference)
}

/// 5, 7 and 8 of the table, in the order of step 7, for the record at this place. A length of 0 is no
/// fault.
fn operations_fault(r: &[u8], place: u32) -> Option<Answer> {
    let ops = operations(r);
    for (k, op) in ops.iter().enumerate() {
        if op.0 > 8 {
            return Some(Answer::Refused { number: 5, place, operation: k as u32 });
        }
    }
    if l_seq(r) > 0 && !ops.is_empty() && read_total(r) != l_seq(r) {
        return Some(refused(7, place));
    }
    if pos(r) + reference_total(r) as i64 > LAST {
        return Some(refused(8, place));
    }
    None
}

// ---- Where a base sits ----

/// Position counted from 1 and base index counted from 0, of each base that sits anywhere.
fn sitting(r: &[u8]) -> Vec<(i64, usize)> {
    let mut all = Vec::new();
    if l_seq(r) == 0 {
        return all;
    }
    let (mut reads, mut references) = (0, 0);
    for (code, length) in operations(r) {
        if uses_read(code) && uses_reference(code) {
            all.extend((0..length).map(|k| (pos(r) + 1 + (references + k) as i64, (reads + k) as usize)));
        }
        reads += if uses_read(code) { length } else { 0 };
        references += if uses_reference(code) { length } else { 0 };
    }
    all
}

/// The base indexes of both records at each shared position.
pub fn shared(first: &[u8], second: &[u8]) -> Vec<(usize, usize)> {
    let mates = sitting(second);
    sitting(first)
        .into_iter()
        .filter_map(|(p, i)| mates.binary_search_by_key(&p, |m| m.0).ok().map(|k| (i, mates[k].1)))
        .collect()
}

// ---- What a shared position becomes ----

pub const UNCALLED: u8 = 15;
type Called = (u8, u64); // base code, quality

/// Both sides afterwards, and the growth of `corrected`. Only agreement under Consensus goes by the cap.
fn treated(x: Called, y: Called, ways: Ways) -> (Called, Called, u64) {
    let ((base, a), (mate, b)) = (x, y);
    let masked = (UNCALLED, 2);
    if base == mate {
        let capped = (a + b).min(u64::from(ways.cap));
        let (p, q) = match ways.agreement {
            0 => (capped, capped),
            1 => (a.max(b), a.max(b)),
            _ => (a, b),
        };
        return ((base, p), (mate, q), u64::from(p != a || q != b));
    }
    match ways.disagreement {
        0 if a == b => (masked, masked, 2),
        0 => {
            let winner = (if a > b { base } else { mate }, a.abs_diff(b).max(2));
            (winner, winner, 2)
        }
        1 => (masked, masked, 2),
        _ if a == b => (masked, masked, 2),
        _ if a < b => (masked, y, 1),
        _ => (x, masked, 1),
    }
}

pub fn called(r: &[u8], i: usize) -> Called {
    let byte = r[bases_at(r) + i / 2];
    (if i % 2 == 0 { byte / 16 } else { byte % 16 }, u64::from(r[qualities_at(r) as usize + i]))
}
fn put(r: &mut [u8], i: usize, (code, quality): Called) {
    let byte = bases_at(r) + i / 2;
    r[byte] = if i % 2 == 0 { code * 16 + r[byte] % 16 } else { r[byte] / 16 * 16 + code };
    let at = qualities_at(r) as usize + i;
    r[at] = quality as u8;
}

// ---- Order of judgement for a pair ----

/// Steps 3 to 9: the shared positions, or the answer that ends the matter. A missing reference length is
/// looked for between steps 7 and 8.
fn judged(first: &[u8], second: &[u8], places: (u32, u32)) -> Result<Vec<(usize, usize)>, Answer> {
    let pair = [(first, places.0), (second, places.1)];
    for (r, place) in pair {
        if let Some(n) = record_fault(r) {
            return Err(refused(n, place));
        }
    }
    let unmapped = |r| flags(r) & 4 != 0;
    if unmapped(first) || unmapped(second) {
        return Err(Answer::NoOverlap(Reason::Unmapped));
    }
    if ref_id(first) != ref_id(second) {
        return Err(Answer::NoOverlap(Reason::ReferencesDiffer));
    }
    if pos(first) < 0 || pos(second) < 0 {
        return Err(Answer::NoOverlap(Reason::NegativePosition));
    }
    for (r, place) in pair {
        if let Some(refusal) = operations_fault(r, place) {
            return Err(refusal);
        }
    }
    if reference_total(first) == 0 || reference_total(second) == 0 {
        return Err(Answer::NoOverlap(Reason::NoReferenceLength));
    }
    let positions = shared(first, second);
    if positions.is_empty() { Err(Answer::NoOverlap(Reason::NoSharedPosition)) } else { Ok(positions) }
}

/// What the records alone give, without strategies, cap and counts.
pub fn of_records(first: &[u8], second: &[u8]) -> Answer {
    match judged(first, second, (1, 2)) {
        Ok(_) => Answer::Overlap,
        Err(answer) => answer,
    }
}

/// Treats each shared position; answers the growth of the four counts.
fn apply(first: &mut [u8], second: &mut [u8], positions: &[(usize, usize)], ways: Ways) -> [u64; 4] {
    let mut growth = [0; 4];
    for &(i, j) in positions {
        let (x, y) = (called(first, i), called(second, j));
        if x.0 == UNCALLED || y.0 == UNCALLED {
            continue;
        }
        let (p, q, corrected) = treated(x, y, ways);
        put(first, i, p);
        put(second, j, q);
        growth[0] += 1;
        growth[if x.0 == y.0 { 1 } else { 2 }] += 1;
        growth[3] += corrected;
    }
    growth
}

/// The exported call.
pub fn pair(first: &mut [u8], second: &mut [u8], ways: Ways, counts: &mut [u8]) -> Answer {
    if counts.len() != 32 {
        return refused(15, 0);
    }
    if ways.agreement > 2 || ways.disagreement > 2 {
        return refused(10, 0);
    }
    if ways.cap < LEAST_CAP || ways.cap > CAP {
        return refused(22, 0);
    }
    let given = unpack(counts);
    if given.iter().any(|&c| c > MOST) {
        return refused(9, 0);
    }
    let positions = match judged(first, second, (1, 2)) {
        Ok(positions) => positions,
        Err(answer) => return answer,
    };
    let growth = apply(first, second, &positions, ways);
    counts.copy_from_slice(&pack(std::array::from_fn(|k| given[k] + growth[k])));
    Answer::Overlap
}

// ---- The group ----

/// The records of a framed group, or the refusal.
pub fn records(group: &[u8]) -> Result<Vec<Vec<u8>>, Answer> {
    let mut all = Vec::new();
    let mut rest = group;
    while !rest.is_empty() {
        let index = all.len() as u32;
        if index == 256 {
            return Err(refused(12, 256));
        }
        if rest.len() < 4 || number(rest, 0, 4) > rest.len() as u64 - 4 {
            return Err(refused(11, index));
        }
        let size = number(rest, 0, 4) as usize;
        let record = rest[4..4 + size].to_vec();
        if let Some(n) = record_fault(&record) {
            return Err(refused(n, index));
        }
        all.push(record);
        rest = &rest[4 + size..];
    }
    Ok(all)
}

/// Index of the first and of the last record of each pair, in order of the first's index.
pub fn pairs(records: &[Vec<u8>]) -> Vec<(usize, usize)> {
    let place = |r: &[u8]| match flags(r) {
        f if f & (256 | 2048) != 0 => 0,
        f if f & 64 != 0 => 64,
        f => f & 128,
    };
    // the latest record of the same name and place holds the registration
    let holder = |name_: &[u8], at: u64| records.iter().rposition(|r| place(r) == at && name(r) == name_);
    (0..records.len())
        .filter(|&i| place(&records[i]) == 64 && holder(name(&records[i]), 64) == Some(i))
        .filter_map(|i| holder(name(&records[i]), 128).map(|j| (i, j)))
        .collect()
}

/// What the program, which has one cap, writes for this input.
pub fn program(input: &[u8]) -> Vec<u8> {
    match group_answer(input) {
        Ok(out) => out,
        Err(Answer::Refused { number, place, .. }) => format!("no {number} {place}\n").into_bytes(),
        Err(_) => unreachable!("a group is refused or it is not"),
    }
}
fn group_answer(input: &[u8]) -> Result<Vec<u8>, Answer> {
    if input.len() > 65_536 {
        return Err(refused(14, 0));
    }
    let digit = |k: usize| input.get(k).filter(|b| (b'0'..=b'2').contains(b)).map(|b| u32::from(b - b'0'));
    let (Some(agreement), Some(disagreement)) = (digit(0), digit(1)) else {
        return Err(refused(10, 0));
    };
    let ways = Ways { agreement, disagreement, cap: CAP };
    let mut all = records(&input[2..])?;
    let mut work = Vec::new();
    let found = pairs(&all);
    for &(i, j) in &found {
        match judged(&all[i], &all[j], (i as u32, j as u32)) {
            Ok(positions) => work.push((i, j, positions)),
            Err(Answer::NoOverlap(_)) => {}
            Err(refusal) => return Err(refusal),
        }
    }
    let mut growth = [0; 4];
    for (i, j, positions) in &work {
        let (mut a, mut b) = (all[*i].clone(), all[*j].clone());
        let g = apply(&mut a, &mut b, positions, ways);
        growth = std::array::from_fn(|k| growth[k] + g[k]);
        (all[*i], all[*j]) = (a, b);
    }
    let [o, a, d, c] = growth;
    let line = format!("ok {} {} {} {o} {a} {d} {c}\n", all.len(), found.len(), work.len());
    Ok([line.into_bytes(), crate::record::frame(&all)].concat())
}
