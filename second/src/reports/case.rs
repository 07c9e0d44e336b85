//! The form of a case with a report (tests/REPORTS.md).

use crate::little_endian::get;

/// A case is exactly so long.
pub const CASE_BYTES: usize = 1088;
/// As many bytes at most are lent: a header and 66 descriptors.
pub const MOST_LENT: usize = 1072;

const LENT_FROM: usize = 16;

/// Lent bytes that may be a report, and an index.
#[derive(Clone, Debug, PartialEq, Eq)]
pub struct Case {
    pub lent: Vec<u8>,
    pub index: u64,
}

/// The case in these bytes; nothing if it lends more than there can be. Its zeros are not looked at.
pub fn read_case(bytes: &[u8]) -> Option<Case> {
    let length = get(bytes, 0, 2).filter(|length| *length <= MOST_LENT as u64)? as usize;
    let lent = bytes.get(LENT_FROM..LENT_FROM + length)?.to_vec();
    Some(Case { lent, index: get(bytes, 2, 8)? })
}
