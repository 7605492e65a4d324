//! Stand-in for the crate `memchr`: fields.rs names it for tags, which this step never reads.
pub fn memchr(needle: u8, bytes: &[u8]) -> Option<usize> {
    bytes.iter().position(|&b| b == needle)
}
