//! What a case shows, in short words: the stored list keeps a case for each of them.
use crate::model::{self, Answer};
use crate::random::TURNING;
use crate::record::{Case, MOST, unpack, uses};

/// What a pair shows.
pub fn pair(case: &Case, answer: Answer) -> Vec<String> {
    let mut all = vec![format!("answer {}", answer.code())];
    if matches!(answer.code(), 0 | 1 | 1009) {
        let kind = |n: u64| (n > 0, n.cmp(&MOST));
        let counts = unpack(&case.counts).into_iter().enumerate();
        all.extend(counts.map(|(k, n)| format!("{} with count {k} {:?}", answer.code(), kind(n))));
    }
    for (which, r) in [("first", &case.first), ("second", &case.second)] {
        all.extend(zeros(r).into_iter().map(|zero| format!("{} with {zero} in the {which}", answer.code())));
    }
    match answer {
        Answer::NoOverlap(_) => all.extend(apart(&case.first, &case.second)),
        Answer::Overlap => {
            let both = model::shared(&case.first, &case.second);
            all.push(format!("ways {} {}, {} positions", case.agreement, case.disagreement, both.len().min(6)));
            all.extend(both.iter().flat_map(|&(i, j)| position(case, i, j)));
        }
        Answer::Refused { .. } => {}
    }
    all
}

/// The operations of length 0 of a record whose layout is sound, by code and place.
fn zeros(r: &[u8]) -> Vec<String> {
    if model::record_fault(r).is_some() {
        return vec![];
    }
    let ops = model::operations(r);
    let place = |k: usize| if k == 0 { "front" } else if k + 1 == ops.len() { "end" } else { "middle" };
    (0..ops.len()).filter(|&k| ops[k].1 == 0).map(|k| format!("0 of {} at the {}", ops[k].0, place(k))).collect()
}

/// Why there may be no overlap.
fn apart(a: &[u8], b: &[u8]) -> Vec<String> {
    let unmapped = |r: &[u8]| model::flags(r) & 4 != 0;
    let sign = |r: &[u8]| model::pos(r).signum();
    let sizes = |r: &[u8]| (model::l_seq(r).min(2), model::operations(r).len().min(4));
    vec![
        format!("unmapped {} {}", unmapped(a), unmapped(b)),
        format!("places {} {} {}", sign(a), sign(b), model::ref_id(a) == model::ref_id(b)),
        format!("sizes {:?} {:?}", sizes(a), sizes(b)),
    ]
}

/// What base i of the first read and base j of the second show at their shared position.
fn position(case: &Case, i: usize, j: usize) -> Vec<String> {
    let (a, b) = (&case.first, &case.second);
    let ((base, p), (mate, q)) = (model::called(a, i), model::called(b, j));
    let halves = (i % 2, j % 2);
    let mut all = vec![format!("codes {base} {mate}"), format!("in {:?} {:?}", around(a, i), around(b, j))];
    if base == 15 || mate == 15 {
        all.push(format!("uncalled {} {} {halves:?}", case.agreement, case.disagreement));
        return all;
    }
    let way = if base == mate { ("agreeing", case.agreement) } else { ("disagreeing", case.disagreement) };
    let turn = (p.cmp(&q), (p + q).cmp(&93), p.abs_diff(q).min(3));
    all.push(format!("{way:?} {turn:?} {halves:?}"));
    all.extend([format!("{way:?} first {p}"), format!("{way:?} second {q}")]);
    if TURNING.contains(&(p as u8)) && TURNING.contains(&(q as u8)) {
        all.push(format!("{way:?} qualities {p} {q}"));
    }
    // the last base of an odd number, beside an empty or a filled spare half
    for (r, k) in [(a, i), (b, j)] {
        if k % 2 == 0 && k as u64 + 1 == model::l_seq(r) {
            all.push(format!("{way:?} spare half {}", r[model::bases_at(r) + k / 2] % 16 > 0));
        }
    }
    all
}

/// The operation that holds base i, the one before it, and whether i is its first base.
fn around(r: &[u8], i: usize) -> (u64, Option<u64>, bool) {
    let (mut reads, mut before) = (0, None);
    for (code, length) in model::operations(r) {
        let long = if uses(code as u32).0 { length } else { 0 };
        if (i as u64) < reads + long {
            return (code, before, i as u64 == reads);
        }
        reads += long;
        before = Some(code);
    }
    unreachable!("base {i} sits in an operation")
}

/// What a group shows, from what the program writes for it.
pub fn group(input: &[u8], output: &[u8]) -> Vec<String> {
    let line = String::from_utf8_lossy(output.split(|&b| b == b'\n').next().unwrap()).into_owned();
    let word: Vec<u64> = line.split(' ').skip(1).map(|w| w.parse().unwrap()).collect();
    let digits = String::from_utf8_lossy(&input[..input.len().min(2)]).into_owned();
    if line.starts_with("no") {
        return vec![format!("no {} at {}", word[0], word[1].min(9)), format!("no {} {digits}", word[0])];
    }
    let mut all = vec![
        format!("ok {digits} {} {} {}", word[0].min(9), word[1].min(4), word[2].min(4)),
        format!("grown {:?}", word[3..].iter().map(|n| n.min(&5)).collect::<Vec<_>>()),
    ];
    let records = model::records(&input[2..]).expect("accepted");
    let kind = |r: &[u8]| (model::flags(r) & (4 | 64 | 128 | 256 | 2048), r[8].min(2));
    for (i, j) in model::pairs(&records) {
        all.push(format!("pair at {} and {}", i.min(5), j.min(5)));
        all.push(format!("pair of {:?} {:?}", kind(&records[i]), kind(&records[j])));
    }
    all.extend(records.iter().map(|r| format!("flags {:?}", kind(r))));
    all
}
