//! What the judge calls. It is part of the published crate's build and never inlined into the
//! judge, so that all of the published code runs with the checks of its own build.
use crate::overlapping::*;
use fgumi_raw_bam::RawRecord;

fn caller(agreement: u32, disagreement: u32) -> OverlappingBasesConsensusCaller {
    use AgreementStrategy as A;
    use DisagreementStrategy as D;
    OverlappingBasesConsensusCaller::new(
        [A::Consensus, A::MaxQual, A::PassThrough][agreement as usize],
        [D::Consensus, D::MaskBoth, D::MaskLowerQual][disagreement as usize],
    )
}

fn numbers(s: &CorrectionStats) -> [u64; 4] {
    [s.overlapping_bases, s.bases_agreeing, s.bases_disagreeing, s.bases_corrected].map(|n| n as u64)
}

/// `call` on one pair: overlap or not, and the growth of the counts.
#[inline(never)]
pub fn pair(
    first: &mut [u8],
    second: &mut [u8],
    agreement: u32,
    disagreement: u32,
) -> anyhow::Result<(bool, [u64; 4])> {
    let mut caller = caller(agreement, disagreement);
    let overlap = caller.call(first, second)?;
    Ok((overlap, numbers(caller.stats())))
}

/// `apply_overlapping_consensus` on a group: the growth of the counts.
#[inline(never)]
pub fn group(records: &mut [Vec<u8>], agreement: u32, disagreement: u32) -> anyhow::Result<[u64; 4]> {
    let mut owned: Vec<RawRecord> = records.iter().cloned().map(RawRecord).collect();
    let mut caller = caller(agreement, disagreement);
    apply_overlapping_consensus(&mut owned, &mut caller)?;
    for (to, from) in records.iter_mut().zip(owned) {
        *to = from.0;
    }
    Ok(numbers(caller.stats()))
}

/// `merge` on statistics whose first counts are these two.
#[inline(never)]
pub fn merge(one: u64, other: u64) -> anyhow::Result<u64> {
    let stats = |n: u64| CorrectionStats { overlapping_bases: n as usize, ..CorrectionStats::new() };
    let mut sum = stats(one);
    sum.merge(&stats(other));
    Ok(sum.overlapping_bases as u64)
}
