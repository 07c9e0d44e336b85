//! The report's bytes (document 01, "The report"; source document 000).
//!
//! "Bytes: 0 version, 0; 1 attributes, bit 1 suspended, bit 0 More To Report; 3:2 identifier; 7:4 number of
//! descriptors; 9:8 granularity; 15:10 zero. Then 16 bytes for each descriptor: address in 7:0, length in units in
//! 11:8, zeros (source document 000)."

use crate::little_endian::{get, put};

pub const HEADER_BYTES: usize = 16;
pub const DESCRIPTOR_BYTES: usize = 16;

/// "so a buffer below 32 bytes is refused with 8 (house)".
pub const LEAST_BUFFER: usize = 32;

/// One descriptor: an address and a length in units.
#[derive(Clone, Copy, Debug, PartialEq, Eq)]
pub struct Descriptor {
    pub address: u128,
    pub length: u128,
}

/// What a report says.
#[derive(Clone, Debug, PartialEq, Eq)]
pub struct Report {
    pub suspended: bool,
    pub more: bool,
    pub identifier: u64,
    pub granularity: u64,
    pub descriptors: Vec<Descriptor>,
}

/// "A buffer of b bytes holds (b − 16) / 16 runs, rounded down."
pub fn room(buffer_bytes: usize) -> usize {
    buffer_bytes.saturating_sub(HEADER_BYTES) / DESCRIPTOR_BYTES
}

/// The report's bytes, to its last descriptor.
pub fn report_bytes(report: &Report) -> Vec<u8> {
    let mut attributes: u128 = 0;
    if report.suspended {
        attributes += 2;
    }
    if report.more {
        attributes += 1;
    }
    let mut bytes = Vec::new();
    put(&mut bytes, 0, 1);
    put(&mut bytes, attributes, 1);
    put(&mut bytes, u128::from(report.identifier), 2);
    put(&mut bytes, report.descriptors.len() as u128, 4);
    put(&mut bytes, u128::from(report.granularity), 2);
    put(&mut bytes, 0, 6);
    for descriptor in &report.descriptors {
        put(&mut bytes, descriptor.address, 8);
        put(&mut bytes, descriptor.length, 4);
        put(&mut bytes, 0, 4);
    }
    bytes
}

/// Reads a report back from a buffer that may be longer; nothing if the bytes are none that the core may write. (The
/// host's reader, which ignores reserved bits, is in `reports`.)
pub fn read_report(buffer: &[u8]) -> Option<Report> {
    if get(buffer, 0, 1)? != 0 || get(buffer, 10, 6)? != 0 {
        return None;
    }
    let (suspended, more) = match get(buffer, 1, 1)? {
        0 => (false, false),
        1 => (false, true),
        2 => (true, false),
        3 => (true, true),
        _ => return None,
    };
    let mut report = Report {
        suspended,
        more,
        identifier: get(buffer, 2, 2)?,
        granularity: get(buffer, 8, 2)?,
        descriptors: Vec::new(),
    };
    let mut place = HEADER_BYTES;
    for _ in 0..get(buffer, 4, 4)? {
        if get(buffer, place.checked_add(12)?, 4)? != 0 {
            return None;
        }
        report.descriptors.push(Descriptor {
            address: u128::from(get(buffer, place, 8)?),
            length: u128::from(get(buffer, place.checked_add(8)?, 4)?),
        });
        place = place.checked_add(DESCRIPTOR_BYTES)?;
    }
    Some(report)
}

#[cfg(test)]
mod tests {
    use super::*;

    #[test]
    fn room_in_buffers() {
        for (bytes, runs) in
            [(0, 0), (15, 0), (16, 0), (31, 0), (32, 1), (47, 1), (48, 2), (63, 2), (64, 3), (4095, 254), (4096, 255)]
                .iter()
        {
            assert_eq!(room(*bytes), *runs, "{}", bytes);
        }
    }

    #[test]
    fn bytes_by_hand() {
        let report = Report {
            suspended: true,
            more: false,
            identifier: 0x0105,
            granularity: 8,
            descriptors: vec![
                Descriptor { address: 1048576, length: 3 },
                Descriptor { address: 18446744073708503040, length: 1 },
            ],
        };
        let expected: [u8; 48] = [
            0, 2, 5, 1, 2, 0, 0, 0, 8, 0, 0, 0, 0, 0, 0, 0, // header
            0, 0, 16, 0, 0, 0, 0, 0, 3, 0, 0, 0, 0, 0, 0, 0, // 2^20, 3
            0, 0, 240, 255, 255, 255, 255, 255, 1, 0, 0, 0, 0, 0, 0, 0, // 2^64 - 2^20, 1
        ];
        assert_eq!(report_bytes(&report), expected);
        let mut longer = expected.to_vec();
        longer.push(77);
        assert_eq!(read_report(&longer), Some(report));
    }

    #[test]
    fn attributes_by_hand() {
        for (suspended, more, byte) in [(false, false, 0), (false, true, 1), (true, false, 2), (true, true, 3)].iter() {
            let report = Report {
                suspended: *suspended,
                more: *more,
                identifier: 65535,
                granularity: 20,
                descriptors: Vec::new(),
            };
            let expected: [u8; 16] = [0, *byte, 255, 255, 0, 0, 0, 0, 20, 0, 0, 0, 0, 0, 0, 0];
            assert_eq!(report_bytes(&report), expected);
            assert_eq!(read_report(&expected), Some(report));
        }
    }

    #[test]
    fn bytes_that_are_no_report() {
        assert_eq!(read_report(&[]), None);
        assert_eq!(read_report(&[0; 15]), None);
        let mut bytes = [0; 16];
        bytes[0] = 1;
        assert_eq!(read_report(&bytes), None);
        let mut bytes = [0; 16];
        bytes[1] = 4;
        assert_eq!(read_report(&bytes), None);
        let mut bytes = [0; 16];
        bytes[4] = 1;
        assert_eq!(read_report(&bytes), None);
        let mut bytes = [0; 16];
        bytes[15] = 1;
        assert_eq!(read_report(&bytes), None);
        let mut bytes = [0; 32];
        bytes[4] = 1;
        bytes[28] = 1;
        assert_eq!(read_report(&bytes), None);
        assert_eq!(read_report(&[255; 4096]), None);
    }
}
