//! Random pairs of every shape with every cap, against the model. The published Rust has the cap 93 alone,
//! and judges the pairs that have it.
use crate::compare::{Tally, check};
use crate::model::{self, Answer};
use crate::random;
use crate::record::{CAP, Case, LEAST_CAP};
use crate::rng::Rng;
use std::collections::BTreeMap;

/// Caps that fit where they are cut to 8 bits, to 16 bits or to a sign; and the largest.
const LARGE: [u32; 8] =
    [256 + 40, 256 + 93, 65_536 + 2, 65_536 + 40, (1 << 24) + 93, 1 << 31, (1 << 31) + 40, u32::MAX];

/// A pair as any of the other runs makes it, with a cap. In some all bases are alike, so that long rows agree;
/// in some the qualities are around the cap.
fn capped(r: &mut Rng) -> Case {
    let makers: [fn(&mut Rng) -> Case; 5] =
        [random::good, random::good, random::damaged, random::extreme, random::miscoded];
    let mut case = r.pick(&makers)(r);
    case.cap = if r.one_in(24) { r.pick(&LARGE) } else { r.below(96) as u32 };
    if case.agreement < 3 && r.one_in(2) {
        case.agreement = 0;
    }
    let (alike, near) = (r.one_in(4), r.one_in(2));
    for record in [&mut case.first, &mut case.second] {
        if model::record_fault(record).is_some() {
            continue;
        }
        let (bases, qualities) = (model::bases_at(record), model::qualities_at(record) as usize);
        let count = model::l_seq(record) as usize;
        if alike {
            record[bases..bases + count / 2].fill(0x11);
        }
        if near {
            record[qualities..qualities + count].iter_mut().for_each(|q| *q = around(r, case.cap, *q));
        }
    }
    case
}

/// A quality around the cap or around its half, or the one that is there.
fn around(r: &mut Rng, cap: u32, quality: u8) -> u8 {
    let near = [cap / 2, cap - cap / 2, cap.wrapping_sub(1), cap, cap.wrapping_add(1), 0, 255];
    if r.one_in(2) { r.pick(&near) as u8 } else { quality }
}

/// Does a shared position get the cap and not the sum of the qualities?
fn decides(case: &Case) -> bool {
    let over = |&(i, j): &(usize, usize)| {
        let ((base, a), (mate, b)) = (model::called(&case.first, i), model::called(&case.second, j));
        base == mate && base != model::UNCALLED && a + b > u64::from(case.cap)
    };
    case.agreement == 0 && model::shared(&case.first, &case.second).iter().any(over)
}

/// How often each cap decided, and how often it was refused.
#[derive(Default)]
struct Caps {
    decided: BTreeMap<u32, u64>,
    refused: BTreeMap<u32, u64>,
}

impl Caps {
    fn count(&mut self, case: &Case, answer: Answer) {
        if answer == Answer::Overlap && decides(case) {
            *self.decided.entry(case.cap).or_default() += 1;
        }
        if answer.code() == 1022 {
            *self.refused.entry(case.cap).or_default() += 1;
        }
    }

    fn print(&self) {
        let (caps, pairs, refused) = (self.decided.len(), self.decided.values().sum::<u64>(), self.refused.len());
        println!("  {caps} caps decide, in {pairs} pairs; {refused} caps are refused");
    }

    /// Ends the run unless every cap that is accepted decided, and every other one that is tried was refused.
    fn expect_all(&self) {
        let tried = (0..96).chain(LARGE);
        let seen = |cap: &u32| match *cap {
            LEAST_CAP..=CAP => self.decided.contains_key(cap),
            _ => self.refused.contains_key(cap),
        };
        if let Some(cap) = tried.into_iter().find(|cap| !seen(cap)) {
            eprintln!("FOUND: no pair in which the cap {cap} decided, or was refused");
            std::process::exit(1);
        }
    }
}

pub fn run(seed: u64, count: u64) -> Tally {
    let mut r = Rng::new(seed);
    let (mut tally, mut caps) = (Tally::default(), Caps::default());
    for _ in 0..count {
        let case = capped(&mut r);
        let answer = check(&case, &mut tally);
        caps.count(&case, answer);
    }
    tally.print(&format!("random pairs with every cap, seed {seed}"));
    caps.print();
    if count >= 100_000 {
        tally.expect_reasons();
        caps.expect_all();
    }
    tally
}
