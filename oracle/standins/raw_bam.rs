//! Stand-ins for the parts of the crate `fgumi_raw_bam` that aren't published: `sequence.rs`
//! and `raw_bam_record.rs`. Base letters are those of the SAM specification.
use crate::fields::{RawRecordView, l_seq, qual_offset, seq_offset};

const LETTERS: &[u8; 16] = b"=ACMGRSVTWYHKDBN";

impl<'a> RawRecordView<'a> {
    /// The read's bases as letters.
    pub fn sequence_vec(&self) -> Vec<u8> {
        let bam = self.as_bytes();
        let packed = &bam[seq_offset(bam)..];
        (0..l_seq(bam) as usize)
            .map(|i| LETTERS[usize::from(if i % 2 == 0 { packed[i / 2] >> 4 } else { packed[i / 2] & 15 })])
            .collect()
    }

    /// The read's qualities, in the record.
    pub fn quality_scores(&self) -> &'a [u8] {
        let bam = self.as_bytes();
        &bam[qual_offset(bam)..][..l_seq(bam) as usize]
    }
}

/// Writes one base. ASSUMED: each of the sixteen letters gets its own code back, and the other
/// half of the byte stays. The real function may do otherwise.
pub fn set_base(bam: &mut [u8], seq_off: usize, position: usize, base: u8) {
    let code = LETTERS.iter().position(|&l| l == base).expect("a letter of the alphabet") as u8;
    let byte = &mut bam[seq_off + position / 2];
    *byte = if position % 2 == 0 { (*byte & 0x0F) | (code << 4) } else { (*byte & 0xF0) | code };
}

/// An owned record: bytes that lend themselves as a slice.
#[derive(Clone)]
pub struct RawRecord(pub Vec<u8>);

impl std::ops::Deref for RawRecord {
    type Target = [u8];
    fn deref(&self) -> &[u8] {
        &self.0
    }
}

impl std::ops::DerefMut for RawRecord {
    fn deref_mut(&mut self) -> &mut [u8] {
        &mut self.0
    }
}
