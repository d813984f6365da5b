//! Big-endian words, and views in bytes: an entry of a tag and a report, eight bytes each, for each node.

/// The greatest tag and request number.
pub const LIMIT: u64 = i64::MAX as u64;

/// The bytes of a view of sixteen nodes.
pub const VIEW: usize = 256;

/// A report, in its bytes of the wire, and those of none.
pub type Report = [u8; 8];
pub const NO_REPORT: Report = [0; 8];

pub fn word(b: &[u8], at: usize) -> u64 {
    u64::from_be_bytes(b[at..at + 8].try_into().unwrap())
}

pub fn put_word(b: &mut [u8], at: usize, x: u64) {
    b[at..at + 8].copy_from_slice(&x.to_be_bytes());
}

/// Whether no entry has a tag above `top`, or a report beside tag 0.
pub fn view_ok(view: &[u8], top: u64) -> bool {
    view.chunks_exact(16).fold(true, |ok, entry| {
        let tag = word(entry, 0);
        ok & (tag <= top) & ((tag != 0) | (word(entry, 8) == 0))
    })
}
