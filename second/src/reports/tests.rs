//! Cases worked out by hand from change request W1 and from document 01, "The report".

use super::case::MOST_LENT;
use super::reader::Refused;
use super::*;
use crate::device::Device;
use crate::report::{report_bytes, Report};
use crate::rules::{Note, Range, Settings};
use crate::structure::structure_bytes;

/// A report by its fields, with all reserved bits and bytes set: they are ignored.
fn bytes(attributes: u8, count: u128, granularity: u128, descriptors: &[(u128, u128)]) -> Vec<u8> {
    let mut bytes = vec![0, attributes | 0b1111_1100, 5, 1];
    put(&mut bytes, count, 4);
    put(&mut bytes, granularity, 2);
    bytes.extend_from_slice(&[255; 6]);
    for (address, length) in descriptors {
        put(&mut bytes, *address, 8);
        put(&mut bytes, *length, 4);
        bytes.extend_from_slice(&[255; 4]);
    }
    bytes
}

/// A report of these descriptors, running and with nothing more.
fn listing(granularity: u128, descriptors: &[(u128, u128)]) -> Vec<u8> {
    bytes(0, descriptors.len() as u128, granularity, descriptors)
}

fn refused(number: Refusal) -> Result<Report, Refused> {
    Err(Refused { number, bad_index: 0 })
}

fn bad(bad_index: u64) -> Result<Report, Refused> {
    Err(Refused { number: 17, bad_index })
}

fn assert_accepted(bytes: &[u8]) {
    assert!(read(bytes).is_ok(), "{:?}", bytes);
}

// ---------------------------------------------------------------------------------------------------------------
// Reading
// ---------------------------------------------------------------------------------------------------------------

#[test]
fn report_by_hand() {
    // 0x0105, suspended and more, granularity 8: 3 units from 2^20 on, and the last one of memory.
    let mut report = vec![
        0, 3, 5, 1, 2, 0, 0, 0, 8, 0, 0, 0, 0, 0, 0, 0, // header
        0, 0, 16, 0, 0, 0, 0, 0, 3, 0, 0, 0, 0, 0, 0, 0, // 2^20, 3
        0, 0, 240, 255, 255, 255, 255, 255, 1, 0, 0, 0, 0, 0, 0, 0, // 2^64 - 2^20, 1
    ];
    let first = Descriptor { address: 1048576, length: 3 };
    let last = Descriptor { address: 18446744073708503040, length: 1 };
    let expected =
        Report { suspended: true, more: true, identifier: 261, granularity: 8, descriptors: vec![first, last] };
    assert_eq!(read(&report), Ok(expected.clone()));
    assert_eq!(descriptor_at(&expected, 0), Ok(first));
    assert_eq!(descriptor_at(&expected, 1), Ok(last));
    for index in &[2, 256, 65536, 4294967296, 4294967297, 1152921504606846976, u64::MAX] {
        assert_eq!(descriptor_at(&expected, *index), Err(33), "{}", index);
    }
    // What stands after the last descriptor is ignored, also where it would be a bad one.
    report.extend_from_slice(&[255; 40]);
    assert_eq!(read(&report), Ok(expected));
}

#[test]
fn reserved_bits_are_ignored() {
    for (attributes, suspended, more) in &[(0, false, false), (1, false, true), (2, true, false), (3, true, true)] {
        let expected = Report {
            suspended: *suspended,
            more: *more,
            identifier: 261,
            granularity: 20,
            descriptors: vec![Descriptor { address: 4294967296, length: 7 }],
        };
        assert_eq!(read(&bytes(*attributes, 1, 20, &[(4294967296, 7)])), Ok(expected));
    }
}

#[test]
fn each_rule_before_the_later_ones() {
    // Each row breaks its own rule and as many of the later ones as go with it.
    let mut report = bytes(1, 2, 21, &[(1, 0)]);
    report[0] = 1;
    for length in 0..16 {
        assert_eq!(read(&report[..length]), refused(8), "{}", length);
    }
    assert_eq!(read(&report), refused(6));
    report[0] = 0;
    assert_eq!(read(&report), refused(7));
    assert_eq!(read(&bytes(1, 0, 21, &[])), refused(7));
    assert_eq!(read(&bytes(1, 0, 20, &[])), refused(9));
    assert_eq!(read(&bytes(1, 0, 20, &[(1, 0)])), refused(9));
    assert_eq!(read(&bytes(1, 2, 20, &[(1, 0)])), refused(8));
    assert_eq!(read(&bytes(1, 1, 20, &[(1, 0)])), bad(0));
    assert_accepted(&bytes(0, 0, 20, &[(1, 0)]));
}

#[test]
fn granularity_of_16_bits() {
    for granularity in 0..21 {
        assert_accepted(&listing(granularity, &[(4294967296, 1)]));
    }
    for granularity in &[21, 22, 255, 256, 257, 276, 32768, 65535] {
        assert_eq!(read(&listing(*granularity, &[(0, 1)])), refused(7), "{}", granularity);
    }
}

#[test]
fn descriptors_not_wholly_there() {
    let report = listing(0, &[(4096, 1), (8192, 1)]);
    for length in 16..48 {
        assert_eq!(read(&report[..length]), refused(8), "{}", length);
    }
    assert_accepted(&report);
    // Sixteen times these counts has few low bits, so a length cut to 32 bits would do.
    for count in &[3, 256, 65536, 268435456, 268435457, 268435458, 4294967295] {
        assert_eq!(read(&bytes(0, *count, 0, &[(4096, 1), (8192, 1)])), refused(8), "{}", count);
    }
}

#[test]
fn bad_descriptors() {
    // Granularity and descriptor; the first one of each row is good, the others are bad.
    let rows: [(u128, &[(u128, u128)]); 6] = [
        (0, &[(65536, 1), (65536, 0), (65537, 1), (67584, 1), (69631, 1)]),
        (8, &[(1048576, 1), (1052672, 1), (1572864, 1)]),
        (20, &[(4294967296, 1), (4096, 1), (2147483648, 1)]),
        // 2^64 - 4096: the last page, or one past it, or as many as a length can say.
        (0, &[(18446744073709547520, 1), (18446744073709547520, 2), (18446744073709547520, 4294967295)]),
        // At granularity 20 memory has 2^32 units.
        (20, &[(4294967296, 4294967295), (8589934592, 4294967295), (18446744069414584320, 2)]),
        (20, &[(0, 4294967295), (18446744069414584320, 0)]),
    ];
    for (granularity, descriptors) in &rows {
        let good = descriptors[0];
        assert_accepted(&listing(*granularity, &[good]));
        for one in &descriptors[1..] {
            assert_eq!(read(&listing(*granularity, &[*one])), bad(0), "{:?}", one);
            assert_eq!(read(&listing(*granularity, &[good, good, *one])), bad(2), "{:?}", one);
            assert_eq!(read(&listing(*granularity, &[good, *one, good, *one])), bad(1), "{:?}", one);
        }
    }
}

// ---------------------------------------------------------------------------------------------------------------
// Reading what the core writes
// ---------------------------------------------------------------------------------------------------------------

/// So many runs: the greatest address there is, then ever smaller ones, with a unit between one and the next.
fn runs(granularity: u64, number: u128) -> Vec<Descriptor> {
    let unit = 4096 << granularity;
    let mut end: u128 = 18446744073709551616;
    let mut runs = Vec::new();
    for length in 1..number + 1 {
        runs.push(Descriptor { address: end - length * unit, length });
        end -= (length + 1) * unit;
    }
    runs
}

#[test]
fn what_the_writer_writes_is_read_back() {
    for granularity in 0..21 {
        for number in &[0, 1, 2, 66, 255, 2048] {
            for flags in 0..4 {
                let report = Report {
                    suspended: flags / 2 == 1,
                    more: flags % 2 == 1 && *number > 0,
                    identifier: 65535 - granularity,
                    granularity,
                    descriptors: runs(granularity, *number),
                };
                let mut written = report_bytes(&report);
                assert_eq!(read(&written).as_ref(), Ok(&report));
                written.push(170);
                assert_eq!(read(&written), Ok(report));
            }
        }
    }
}

#[test]
fn what_a_device_reports_is_read_back() {
    let settings = Settings {
        manager: 1,
        least: 0,
        greatest: 8,
        rule: 0,
        limit: 16,
        second: None,
        shelf: 128,
        number: 2,
        identifiers: [5, 6, 0, 0, 0, 0, 0, 0],
    };
    let mut device = Device::fresh(&settings).unwrap();
    let last = 18446744073708503040; // 2^64 - 2^20
    let ranges = [Range { start: 1048576, length: 3 }, Range { start: last, length: 1 }];
    device.start(1, 5, &structure_bytes(8, &ranges)).unwrap();
    // Units 0 and 2 of the first range, and the last one of memory: two runs in 63 bytes, then one, then none.
    for address in &[1048576, 3145728, u64::MAX] {
        assert_eq!(device.write(&Note { id: 5, address: *address, bytes: 1 }), Ok(1));
    }
    device.suspend(1, 5, 1).unwrap();
    let reported: [(bool, &[(u128, u128)]); 3] =
        [(true, &[(1048576, 1), (3145728, 1)]), (false, &[(u128::from(last), 1)]), (false, &[])];
    for (more, listed) in &reported {
        let mut buffer = [170; 63];
        device.receive(1, 5, &mut buffer).unwrap();
        let descriptors = listed.iter().map(|(address, length)| Descriptor { address: *address, length: *length });
        let expected =
            Report { suspended: true, more: *more, identifier: 5, granularity: 8, descriptors: descriptors.collect() };
        assert_eq!(read(&buffer), Ok(expected));
    }
}

// ---------------------------------------------------------------------------------------------------------------
// The form
// ---------------------------------------------------------------------------------------------------------------

/// The case's bytes: how many are lent, the index, zeros, the lent bytes, zeros.
fn case_bytes(lent: &[u8], index: [u8; 8]) -> Vec<u8> {
    let mut bytes = vec![(lent.len() % 256) as u8, (lent.len() / 256) as u8];
    bytes.extend_from_slice(&index);
    bytes.extend_from_slice(&[0; 6]);
    bytes.extend_from_slice(lent);
    bytes.resize(1088, 0);
    bytes
}

#[test]
fn fields_of_a_case() {
    let case = read_case(&case_bytes(&[7; 300], [1, 2, 0, 0, 0, 0, 0, 128])).unwrap();
    assert_eq!(case, Case { lent: vec![7; 300], index: 9223372036854776321 });
    let case = read_case(&case_bytes(&[], [255; 8])).unwrap();
    assert_eq!(case, Case { lent: Vec::new(), index: u64::MAX });
    let case = read_case(&case_bytes(&[9; 1072], [0; 8])).unwrap();
    assert_eq!(case, Case { lent: vec![9; MOST_LENT], index: 0 });
}

#[test]
fn bytes_that_are_no_case() {
    let mut more_lent_than_there_is = case_bytes(&[9; 1072], [0; 8]);
    more_lent_than_there_is[0] += 1;
    assert_eq!(read_case(&more_lent_than_there_is), None);
    assert_eq!(read_case(&[]), None);
    assert_eq!(read_case(&case_bytes(&[9; 1072], [0; 8])[..1087]), None);
}

#[test]
fn fields_of_an_answer() {
    let answer = Answer {
        refusal: 200,
        bad_index: 144115188075855873, // 2^57 + 1
        suspended: true,
        more: true,
        identifier: 772,
        granularity: 1286,
        count: 134217735,
        refusal_at: 201,
        address: 648518346341351433,
        length: 167772171,
        run_address: 864691128455135244,
        run_length: 218103822,
    };
    let expected = [
        200, 1, 0, 0, 0, 0, 0, 0, 2, // refusal, first bad index
        1, 1, 4, 3, 6, 5, 7, 0, 0, 8, // suspended, more, identifier, granularity, number
        201, 9, 0, 0, 0, 0, 0, 0, 9, 11, 0, 0, 10, // refusal at the index, address, length
        12, 0, 0, 0, 0, 0, 0, 12, 14, 0, 0, 13, // the run by itself
    ];
    assert_eq!(answer_bytes(&answer), expected);
}

#[test]
fn answers_by_hand() {
    let page = bytes(3, 1, 0, &[(65536, 4)]);
    let header = Answer { suspended: true, more: true, identifier: 261, count: 1, ..Answer::default() };
    let lent = |lent: &[u8], index| answer(&Case { lent: lent.to_vec(), index });
    let first = Answer { address: 65536, length: 4, run_address: 65536, run_length: 4, ..header };
    assert_eq!(lent(&page, 0), first);
    assert_eq!(lent(&page, 1), Answer { refusal_at: 33, ..header });
    // Of a refused report all else is 0, whatever the index, save a run by itself that is listed and wholly there.
    let good_and_bad = bytes(3, 2, 0, &[(65536, 4), (69632, 0), (73728, 5)]);
    for (index, run_address, run_length) in &[(0, 65536, 4), (1, 69632, 0), (2, 0, 0)] {
        let (run_address, run_length) = (*run_address, *run_length);
        let refused =
            Answer { refusal: 17, bad_index: 1, refusal_at: 17, run_address, run_length, ..Answer::default() };
        assert_eq!(lent(&good_and_bad, *index), refused);
    }
    for index in &[0, 1, 2] {
        let refused = Answer { refusal: 8, refusal_at: 8, ..Answer::default() };
        assert_eq!(lent(&page[..31], *index), refused);
    }
}

#[test]
fn runs_by_themselves() {
    let (first, second) = (Descriptor { address: 65536, length: 4 }, Descriptor { address: 1, length: 0 });
    // Whatever is broken elsewhere: the version, the granularity, a descriptor, the rest of the list.
    let mut report = bytes(1, 3, 65535, &[(65536, 4), (1, 0)]);
    report[0] = 9;
    assert_eq!(descriptor_alone(&report, 0), Some(first));
    assert_eq!(descriptor_alone(&report, 1), Some(second));
    assert_eq!(descriptor_alone(&report, 2), None);
    // Each needs its own 16 bytes, the reserved ones too.
    for length in 0..49 {
        assert_eq!(descriptor_alone(&report[..length], 0), Some(first).filter(|_| length >= 32), "{}", length);
        assert_eq!(descriptor_alone(&report[..length], 1), Some(second).filter(|_| length >= 48), "{}", length);
    }
    // It must be listed, by all four bytes of the count, and no index is cut.
    assert_eq!(descriptor_alone(&bytes(0, 1, 0, &[(65536, 4), (1, 0)]), 1), None);
    assert_eq!(descriptor_alone(&bytes(0, 0, 0, &[(65536, 4), (1, 0)]), 0), None);
    assert_eq!(descriptor_alone(&bytes(0, 16777216, 0, &[(65536, 4), (1, 0)]), 1), Some(second));
    for index in &[65536, 4294967296, 1152921504606846976, u64::MAX] {
        assert_eq!(descriptor_alone(&bytes(0, 4294967295, 0, &[(65536, 4)]), *index), None, "{}", index);
    }
}

#[test]
fn an_answer_for_each_case() {
    // No bytes lent: refused with 8, and so is any index. Then a header of zeros, which lists none.
    let input = [case_bytes(&[], [0; 8]), case_bytes(&[0; 16], [0; 8])].concat();
    let mut output = Vec::new();
    play(&mut &input[..], &mut output).unwrap();
    let mut expected = vec![0; 88];
    expected[0] = 8;
    expected[19] = 8;
    expected[44 + 19] = 33;
    assert_eq!(output, expected);
    assert!(play(&mut &input[..1089], &mut Vec::new()).is_err());
}
