//! Stand-ins for the parts of the crate `fgumi_raw_bam` that aren't published, as in
//! oracle/standins/raw_bam.rs but by tables, as a library made for speed would have them: a slow
//! stand-in would flatter us. With the oracle's the Rust takes 26% more instructions on W1.
use crate::fields::{RawRecordView, l_seq, qual_offset, seq_offset};

const LETTERS: &[u8; 16] = b"=ACMGRSVTWYHKDBN";
/// A packed byte's two letters.
static PAIR: [[u8; 2]; 256] = {
    let mut t = [[0; 2]; 256];
    let mut i = 0;
    while i < 256 {
        t[i] = [LETTERS[i >> 4], LETTERS[i & 15]];
        i += 1;
    }
    t
};
/// A letter's code.
static CODE: [u8; 256] = {
    let mut t = [15; 256];
    let mut i = 0;
    while i < 16 {
        t[LETTERS[i] as usize] = i as u8;
        i += 1;
    }
    t
};

impl<'a> RawRecordView<'a> {
    pub fn sequence_vec(&self) -> Vec<u8> {
        let bam = self.as_bytes();
        let n = l_seq(bam) as usize;
        let mut out = Vec::with_capacity(n + 1);
        for &b in &bam[seq_offset(bam)..][..n.div_ceil(2)] {
            out.extend_from_slice(&PAIR[b as usize]);
        }
        out.truncate(n);
        out
    }
    #[inline]
    pub fn quality_scores(&self) -> &'a [u8] {
        let bam = self.as_bytes();
        &bam[qual_offset(bam)..][..l_seq(bam) as usize]
    }
}

#[inline]
pub fn set_base(bam: &mut [u8], seq_off: usize, position: usize, base: u8) {
    let code = CODE[base as usize];
    let byte = &mut bam[seq_off + position / 2];
    *byte = if position % 2 == 0 { (*byte & 0x0F) | (code << 4) } else { (*byte & 0xF0) | code };
}

/// An owned record: bytes that lend themselves as a slice.
pub struct RawRecord(pub Vec<u8>);

impl std::ops::Deref for RawRecord {
    type Target = [u8];
    #[inline]
    fn deref(&self) -> &[u8] {
        &self.0
    }
}

impl std::ops::DerefMut for RawRecord {
    #[inline]
    fn deref_mut(&mut self) -> &mut [u8] {
        &mut self.0
    }
}
