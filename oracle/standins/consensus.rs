//! Stand-ins for the parts of the crate `fgumi_consensus` that aren't published.

/// ASSUMED from the paper: masked is N with quality 2.
pub mod phred {
    pub const MIN_PHRED: u8 = 2;
    pub const NO_CALL_BASE: u8 = b'N';
    pub const NO_CALL_BASE_LOWER: u8 = b'n';
}

pub mod hashing {
    pub fn deterministic_state() -> ahash::RandomState {
        ahash::RandomState::default()
    }
}
