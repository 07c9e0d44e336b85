//! The start structure, as source document 001 lays it out (figures TMC-FIG2 and TMC-FIG3).
//!
//! | bytes | meaning |
//! |---|---|
//! | 0 | version |
//! | 2:1 | reserved |
//! | 3 | requested granularity |
//! | 7:4 | number of ranges (1's based: the value is the number itself) |
//! | 12k+19:12k+8 | range k: start address in its bytes 7:0, length in units in 11:8 |

use crate::little_endian::{get, put};
use crate::rules::Range;

const HEADER_BYTES: usize = 8;
const RANGE_BYTES: usize = 12;

/// What stands before the list of ranges.
#[derive(Clone, Copy, Debug, PartialEq, Eq)]
pub struct Header {
    pub version: u64,
    pub granularity: u64,
    pub count: u64,
}

/// The structure of a `start` line: version 0, "Reserved bytes are ... zero when written".
pub fn structure_bytes(granularity: u64, ranges: &[Range]) -> Vec<u8> {
    let mut bytes = Vec::new();
    put(&mut bytes, 0, 1);
    put(&mut bytes, 0, 2);
    put(&mut bytes, u128::from(granularity), 1);
    put(&mut bytes, ranges.len() as u128, 4);
    for range in ranges {
        put(&mut bytes, u128::from(range.start), 8);
        put(&mut bytes, u128::from(range.length), 4);
    }
    bytes
}

/// The header; nothing if the buffer is too short for it. "Reserved bytes are ignored when read".
pub fn read_header(buffer: &[u8]) -> Option<Header> {
    if buffer.len() < HEADER_BYTES {
        return None;
    }
    Some(Header { version: get(buffer, 0, 1)?, granularity: get(buffer, 3, 1)?, count: get(buffer, 4, 4)? })
}

/// The `count` listed ranges; nothing if the buffer does not hold them all. "Bytes after the last listed range are
/// ignored."
pub fn read_ranges(buffer: &[u8], count: u64) -> Option<Vec<Range>> {
    let needed = HEADER_BYTES as u128 + u128::from(count) * RANGE_BYTES as u128;
    if (buffer.len() as u128) < needed {
        return None;
    }
    let mut ranges = Vec::new();
    let mut place = HEADER_BYTES;
    for _ in 0..count {
        ranges.push(Range { start: get(buffer, place, 8)?, length: get(buffer, place + 8, 4)? });
        place += RANGE_BYTES;
    }
    Some(ranges)
}

#[cfg(test)]
mod tests {
    use super::*;

    #[test]
    fn bytes_by_hand() {
        let ranges = [Range { start: 65536, length: 4 }, Range { start: 18446744073709547520, length: 1 }];
        let bytes = structure_bytes(8, &ranges);
        let expected: [u8; 32] = [
            0, 0, 0, 8, 2, 0, 0, 0, // version, reserved, granularity, count
            0, 0, 1, 0, 0, 0, 0, 0, 4, 0, 0, 0, // 65536, 4
            0, 240, 255, 255, 255, 255, 255, 255, 1, 0, 0, 0, // 2^64 - 4096, 1
        ];
        assert_eq!(bytes, expected);
        assert_eq!(read_header(&bytes), Some(Header { version: 0, granularity: 8, count: 2 }));
        assert_eq!(read_ranges(&bytes, 2), Some(ranges.to_vec()));
    }

    #[test]
    fn too_short() {
        assert_eq!(read_header(&[0; 7]), None);
        assert_eq!(read_header(&[0; 8]), Some(Header { version: 0, granularity: 0, count: 0 }));
        assert_eq!(read_ranges(&[0; 8], 0), Some(Vec::new()));
        assert_eq!(read_ranges(&[0; 19], 1), None);
        assert_eq!(read_ranges(&[0; 20], 1), Some(vec![Range { start: 0, length: 0 }]));
        assert_eq!(read_ranges(&[0; 31], 2), None);
        assert_eq!(read_ranges(&[0; 32], 4294967295), None);
        assert_eq!(read_ranges(&[0; 32], u64::MAX), None);
    }

    #[test]
    fn reserved_bytes_are_ignored() {
        let buffer = [7, 255, 255, 3, 0, 1, 0, 0, 99];
        assert_eq!(read_header(&buffer), Some(Header { version: 7, granularity: 3, count: 256 }));
    }
}
