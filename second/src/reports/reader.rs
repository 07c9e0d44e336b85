//! The host's reader of a report (change request W1). It decides nothing on the way: a report is taken apart as far as
//! its bytes go, every rule is asked of it, and of the broken ones the first in W1's order answers.

use crate::little_endian::get;
use crate::report::{Descriptor, Report, DESCRIPTOR_BYTES, HEADER_BYTES};
use crate::rules::{unit_bytes, Refusal, BUFFER_TOO_SHORT, END_OF_MEMORY, GRANULARITY, GREATEST_GRANULARITY, VERSION};

/// "9 More set with no descriptors".
pub const MORE_OF_NONE: Refusal = 9;
/// "17 with the first bad index for a length of 0, an address off its unit or an end past 2^64".
pub const BAD_DESCRIPTOR: Refusal = 17;
/// "33 an index past the last descriptor".
pub const PAST_THE_LAST: Refusal = 33;

/// Why a report is refused. The index is 0 save with 17.
#[derive(Clone, Copy, Debug, PartialEq, Eq)]
pub struct Refused {
    pub number: Refusal,
    pub bad_index: u64,
}

/// "Reserved bits are ignored", and so are bytes after the last descriptor. "Refusals, in this order: 8 fewer than 16
/// bytes, 6, 7 granularity above 20, 9 More set with no descriptors, 8 descriptors not wholly there, 17".
pub fn read(bytes: &[u8]) -> Result<Report, Refused> {
    let report = taken_apart(bytes);
    let count = field(bytes, 4, 4);
    let first_bad = bad_indexes(&report).into_iter().min();
    let rules = [
        (bytes.len() < HEADER_BYTES, BUFFER_TOO_SHORT),
        (field(bytes, 0, 1) != 0, VERSION),
        (report.granularity > GREATEST_GRANULARITY, GRANULARITY),
        (report.more && count == 0, MORE_OF_NONE),
        ((report.descriptors.len() as u64) < count, BUFFER_TOO_SHORT),
        (first_bad.is_some(), BAD_DESCRIPTOR),
    ];
    match rules.iter().find(|(broken, _)| *broken) {
        None => Ok(report),
        Some((_, BAD_DESCRIPTOR)) => Err(Refused { number: BAD_DESCRIPTOR, bad_index: first_bad.unwrap_or(0) }),
        Some((_, number)) => Err(Refused { number: *number, bad_index: 0 }),
    }
}

/// The descriptor at this index. The descriptors are counted off, so that no index, however great, is made an address.
pub fn descriptor_at(report: &Report, index: u64) -> Result<Descriptor, Refusal> {
    let found = report.descriptors.iter().zip(0..).find(|(_, place)| *place == index);
    found.map(|(descriptor, _)| *descriptor).ok_or(PAST_THE_LAST)
}

/// The descriptor at this index by itself, whatever else is broken; nothing if it isn't listed or isn't wholly there.
pub fn descriptor_alone(bytes: &[u8], index: u64) -> Option<Descriptor> {
    descriptor_at(&taken_apart(bytes), index).ok()
}

/// What the bytes say as far as they go, broken or not: no more descriptors than the header lists, and of these the
/// ones that are wholly there.
fn taken_apart(bytes: &[u8]) -> Report {
    let attributes = field(bytes, 1, 1);
    let list = bytes.get(HEADER_BYTES..).unwrap_or(&[]);
    let whole = list.chunks_exact(DESCRIPTOR_BYTES);
    Report {
        suspended: attributes / 2 % 2 == 1,
        more: attributes % 2 == 1,
        identifier: field(bytes, 2, 2),
        granularity: field(bytes, 8, 2),
        descriptors: whole.zip(0..field(bytes, 4, 4)).map(|(bytes, _)| descriptor(bytes)).collect(),
    }
}

fn descriptor(bytes: &[u8]) -> Descriptor {
    Descriptor { address: u128::from(field(bytes, 0, 8)), length: u128::from(field(bytes, 8, 4)) }
}

/// A field of the report. One that isn't wholly there is 0; then there are fewer than 16 bytes, which answers first.
fn field(bytes: &[u8], from: usize, width: usize) -> u64 {
    get(bytes, from, width).unwrap_or(0)
}

fn bad_indexes(report: &Report) -> Vec<u64> {
    let unit = unit_bytes(report.granularity);
    let places = report.descriptors.iter().zip(0..);
    places.filter(|(descriptor, _)| !is_good(unit, descriptor)).map(|(_, place)| place).collect()
}

/// Reckoned in units, as memory has 2^64 / `unit` of them: a good descriptor has at least one, begins where one begins,
/// and has none past memory's last.
fn is_good(unit: u128, descriptor: &Descriptor) -> bool {
    let units_below = descriptor.address / unit;
    let begins_a_unit = units_below * unit == descriptor.address;
    descriptor.length >= 1 && begins_a_unit && units_below + descriptor.length <= END_OF_MEMORY / unit
}
