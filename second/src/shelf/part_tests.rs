//! Shelf listings with parts of a controller's state. The expected answers are worked out by hand from document 02 (W6) and
//! READINGS (0.7 and W6). In each listing controllers 5 and 6 are suspended at first, and nothing is open.

use super::hex::hex_of;
use super::*;
use crate::tests::{check, Random, DEV};

/// After the three lines that suspend both.
fn parts(lines: &[(&str, &str)]) {
    let before = [(DEV, "0"), ("susp 5 1", "0"), ("susp 6 1", "0")];
    check(&Shelf::answer, &[&before, lines].concat());
}

/// Zeros with some bytes set: a header of version 0 and sizes 0 where nothing else is said.
fn zeros(length: usize, set: &[(usize, u8)]) -> Vec<u8> {
    let mut bytes = vec![0; length];
    for (at, byte) in set {
        bytes[*at] = *byte;
    }
    bytes
}

/// The 60 bytes with sizes 1 and 2, and behind the header 12 bytes that tell their places apart.
fn sixty() -> Vec<u8> {
    let mut bytes = zeros(60, &[(16, 1), (32, 2)]);
    for (at, byte) in bytes.iter_mut().enumerate().skip(48) {
        *byte = at as u8;
    }
    bytes
}

/// A `part` line that counts as many dwords as its data have.
fn part(id: u64, indicator: u64, low: u64, data: &[u8]) -> String {
    let hex = if data.is_empty() { "-".to_string() } else { hex_of(data) };
    format!("part {} {} {} 0 {} {}", id, indicator, low, data.len() / 4, hex)
}

/// The answer that yields these bytes.
fn whole(bytes: &[u8]) -> String {
    format!("0 whole {}/{}", bytes.len(), hex_of(bytes))
}

// ---------------------------------------------------------------------------------------------------------------
// The worked numbers of READINGS W6
// ---------------------------------------------------------------------------------------------------------------

#[test]
fn worked_lengths() {
    let four = zeros(64, &[(16, 4)]);
    parts(&[
        (&part(5, 3, 0, &[0; 48]), &whole(&[0; 48])),
        (&part(5, 3, 0, &[0; 44]), "27"),
        (&part(5, 3, 0, &[0; 52]), "27"),
        // Four dwords behind the header, not four bytes.
        (&part(5, 3, 0, &four), &whole(&four)),
        (&part(5, 3, 0, &four[..52]), "27"),
        (&part(5, 3, 0, &four[..48]), "27"),
    ]);
}

#[test]
fn worked_headers() {
    let mut attributes = zeros(48, &[]);
    attributes[2..16].copy_from_slice(&[255; 14]);
    parts(&[
        (&part(5, 3, 0, &zeros(48, &[(18, 1)])), "27"),
        (&part(5, 3, 0, &zeros(48, &[(31, 1)])), "27"),
        (&part(5, 3, 0, &zeros(48, &[(1, 1)])), "27"),
        (&part(5, 3, 0, &zeros(48, &[(0, 1)])), "27"),
        (&part(5, 3, 0, &attributes), &whole(&attributes)),
    ]);
    // NVMECSS 2^64 - 1 and VSS 1.
    let mut great = zeros(48, &[(32, 1)]);
    great[16..24].copy_from_slice(&[255; 8]);
    parts(&[(&part(5, 3, 0, &great), "27")]);
}

#[test]
fn worked_sequence() {
    let state = sixty();
    parts(&[
        (&part(5, 1, 0, &state[..16]), "0 whole 0"),
        (&part(5, 0, 16, &state[16..44]), "0 whole 0"),
        (&part(5, 2, 44, &state[44..56]), "27"),
        (&part(5, 2, 44, &state[44..]), &whole(&state)),
    ]);
}

#[test]
fn worked_offsets_and_indicators() {
    parts(&[
        ("part 5 1 0 1 1 00000000", "24"),
        ("part 5 1 4098 0 1 00000000", "24"),
        ("part 5 4 2 0 1 00000000", "24"),
        ("part 5 4 0 0 1 00000000", "25"),
        ("part 5 1 4 0 1 00000000", "26"),
        ("part 5 0 0 0 1 00000000", "26"),
        ("part 5 2 0 0 0 -", "26"),
    ]);
}

#[test]
fn worked_counts() {
    parts(&[
        ("part 5 0 0 0 0 -", "25"),
        ("part 5 1 0 0 0 -", "25"),
        ("part 5 3 0 0 0 -", "25"),
        ("part 5 2 0 0 0 00000000", "25"),
        ("part 5 1 0 0 1 000000", "25"),
        (&format!("part 5 3 0 0 1073741836 {}", hex_of(&[0; 48])), "25"),
    ]);
}

#[test]
fn worked_ends_at_4096() {
    // Sizes that sum to 1,012 are 03F4h.
    let mut state = zeros(4096, &[(16, 0xF4), (17, 3)]);
    state[4095] = 9;
    let mut other = state.clone();
    other[16] = 0xF3;
    parts(&[
        (&part(5, 1, 0, &[0; 4100]), "27"),
        (&part(5, 1, 0, &state), "0 whole 0"),
        ("part 5 0 4096 0 1 00000000", "27"),
        ("part 5 0 4100 0 1 00000000", "24"),
        ("part 5 2 4096 0 0 -", &whole(&state)),
        // A dword too many.
        (&part(5, 1, 0, &other), "0 whole 0"),
        ("part 5 2 4096 0 0 -", "27"),
        (&part(5, 3, 0, &state), &whole(&state)),
    ]);
}

#[test]
fn worked_two_controllers() {
    check(
        &Shelf::answer,
        &[
            ("dev 1 0 8 0 16 5 6 7", "0"),
            ("susp 5 1", "0"),
            ("susp 6 1", "0"),
            (&part(5, 1, 0, &[0; 16]), "0 whole 0"),
            ("part 6 1 2 0 1 00000000", "23"),
            (&part(6, 1, 0, &[0; 4]), "23"),
            (&part(7, 1, 0, &[0; 4]), "13"),
            (&part(1, 1, 0, &[0; 4]), "2"),
            (&part(5, 3, 0, &[0; 44]), "27"),
            (&part(5, 0, 16, &[0; 4]), "0 whole 0"),
            ("resume 6", "0"),
            (&part(5, 0, 20, &[0; 4]), "0 whole 0"),
            ("resume 5", "0"),
            ("susp 5 1", "0"),
            (&part(5, 0, 24, &[0; 4]), "26"),
        ],
    );
}

#[test]
fn worked_parts_that_begin_anew() {
    let mut bad = vec![0xEE; 48];
    bad[0] = 0;
    bad[1] = 1;
    parts(&[
        (&part(5, 1, 0, &[0; 20]), "0 whole 0"),
        (&part(5, 3, 0, &bad), "27"),
        (&part(5, 2, 20, &[0; 28]), &whole(&[0; 48])),
        (&part(5, 1, 0, &[0xEE; 48]), "0 whole 0"),
        (&part(5, 3, 0, &[0; 48]), &whole(&[0; 48])),
        ("part 5 2 48 0 0 -", "26"),
    ]);
}

// ---------------------------------------------------------------------------------------------------------------
// Between other lines
// ---------------------------------------------------------------------------------------------------------------

#[test]
fn before_a_device() {
    check(
        &Shelf::answer,
        &[
            (&part(5, 3, 0, &[0; 48]), "1"),
            ("part 0 255 4294967295 4294967295 4294967295 -", "1"),
            ("dev 1 0 8 0 129 5", "16"),
            (&part(5, 3, 0, &[0; 48]), "1"),
            (DEV, "0"),
            (&part(5, 3, 0, &[0; 48]), "13"),
            ("susp 5 0", "0"),
            (&part(5, 3, 0, &[0; 48]), "13"),
            ("susp 5 1", "0"),
            (&part(5, 3, 0, &[0; 48]), &whole(&[0; 48])),
        ],
    );
}

#[test]
fn a_new_device_has_no_sequence() {
    let state = sixty();
    parts(&[
        (&part(5, 1, 0, &state[..16]), "0 whole 0"),
        // A refused dev keeps the device, and with it the sequence.
        ("dev 1 0 8 0 129 5", "16"),
        (&part(5, 0, 16, &state[16..20]), "0 whole 0"),
        (DEV, "0"),
        ("susp 5 1", "0"),
        ("susp 6 1", "0"),
        (&part(5, 0, 20, &state[20..24]), "26"),
        (&part(6, 3, 0, &state), &whole(&state)),
    ]);
}

#[test]
fn the_area_is_handed_on() {
    let mut shelf = Shelf::default();
    assert_eq!(shelf.area, vec![0; 4096]);
    let state = sixty();
    let before = [DEV.to_string(), "susp 5 1".to_string()];
    for line in before.iter().chain(&[part(5, 3, 0, &state), part(5, 1, 0, &[7; 8])]).chain(&before) {
        shelf.answer(&Cut::Line(line.clone().into_bytes()));
    }
    let mut expected = state;
    expected.resize(4096, 0);
    expected[..8].copy_from_slice(&[7; 8]);
    assert_eq!(shelf.area, expected);
}

#[test]
fn other_calls_between_parts() {
    let state = sixty();
    parts(&[
        ("resume 6", "0"),
        (&part(5, 1, 0, &state[..4]), "0 whole 0"),
        ("start 6 0 65536 4", "0"),
        ("start 5 0 65536 4", "4"),
        (&part(5, 0, 4, &state[4..8]), "0 whole 0"),
        ("write 6 65536 1", "0 1"),
        ("write 5 65536 1", "4"),
        (&part(5, 0, 8, &state[8..12]), "0 whole 0"),
        ("batch 6 69632 1 5 0 1", "0 done 1 new 1 refusal 4"),
        ("burst 3 6 73728 1", "0 done 3 new 1 refusal 0"),
        (&part(5, 0, 12, &state[12..16]), "0 whole 0"),
        ("recv 6 64", "0 susp 0 more 0 gran 0 runs 1 groups 1/65536 3"),
        ("stop 6", "0"),
        ("stop 5", "4"),
        (&part(5, 0, 16, &state[16..20]), "0 whole 0"),
        ("susp 5 0", "0"),
        ("susp 5 1", "0"),
        ("susp 5 2", "15"),
        ("susp 6 1", "0"),
        ("part 5 0 20 0 1 0000000", "bad"),
        ("resume 6", "0"),
        ("resume 6", "13"),
        ("resume 9", "2"),
        (&part(5, 2, 20, &state[20..]), &whole(&state)),
    ]);
}

/// "It then yields the assembled bytes, the same however divided": a state of any size, cut anywhere, with refused parts,
/// `bad` lines and other calls between; and as an only part.
#[test]
fn however_divided() {
    let mut random = Random(6);
    let mut shelf = Shelf::default();
    let answer = |shelf: &mut Shelf, line: &str| shelf.answer(&Cut::Line(line.as_bytes().to_vec()));
    for line in [DEV, "susp 5 1", "susp 6 1"].iter() {
        assert_eq!(answer(&mut shelf, line), "0\n");
    }
    for _ in 0..300 {
        let dwords = [0, 1, 2, 3, 20, 200, 1012][random.below(7)];
        let nvmecss = random.below(dwords + 1);
        let mut state = vec![0; 48 + 4 * dwords];
        for byte in state.iter_mut() {
            *byte = random.below(256) as u8;
        }
        for at in (0..2).chain(16..48) {
            state[at] = 0;
        }
        state[16] = (nvmecss % 256) as u8;
        state[17] = (nvmecss / 256) as u8;
        state[32] = ((dwords - nvmecss) % 256) as u8;
        state[33] = ((dwords - nvmecss) / 256) as u8;
        let yielded = whole(&state).replace("/", "\n") + "\n";
        let mut at = 0;
        while at < state.len() {
            let end = state.len().min(at + 4 * (1 + random.below(20)));
            let indicator = if at == 0 { 1 } else { 0 };
            assert_eq!(answer(&mut shelf, &part(5, indicator, at as u64, &state[at..end])), "0 whole 0\n");
            at = end;
            match random.below(6) {
                0 => assert_eq!(answer(&mut shelf, &part(6, 3, 0, &[0; 48])), "23\n"),
                1 => assert_eq!(answer(&mut shelf, &part(5, 3, 0, &[1; 48])), "27\n"),
                2 => assert_eq!(answer(&mut shelf, &part(5, 0, at as u64 + 2, &[1; 4])), "24\n"),
                3 => assert_eq!(answer(&mut shelf, "part 5 3 0 0 12 "), "bad\n"),
                4 => assert_eq!(answer(&mut shelf, "resume 6") + &answer(&mut shelf, "susp 6 1"), "0\n0\n"),
                _ => {}
            }
        }
        assert_eq!(answer(&mut shelf, &part(5, 2, at as u64, &[])), yielded);
        assert_eq!(answer(&mut shelf, &part(5, 3, 0, &state)), yielded);
    }
}

/// Random lines, parts among them: one answer each, and never again 1 once there is a device ("From a fresh device no
/// sequence of calls leads to an unsound record").
#[test]
fn random_parts() {
    let offsets = [0, 0, 0, 4, 8, 48, 48, 2, 4092, 4096, 4100];
    let data = [vec![], vec![0; 4], vec![1; 4], vec![0; 8], vec![0; 48]];
    let others =
        ["susp 5 1", "susp 6 1", "susp 5 0", "resume 5", "resume 6", "start 6 0 65536 4", "stop 6", "recv 6 32", DEV];
    let mut random = Random(7);
    let mut shelf = Shelf::default();
    shelf.answer(&Cut::Line(DEV.as_bytes().to_vec()));
    let mut met = [0; 28];
    for _ in 0..20_000 {
        let line = if random.below(8) == 0 {
            others[random.below(others.len())].to_string()
        } else {
            let id = [5, 5, 5, 6, 6, 7][random.below(6)];
            let offset = offsets[random.below(offsets.len())];
            part(id, random.below(5) as u64, offset, &data[random.below(data.len())])
        };
        let answer = shelf.answer(&Cut::Line(line.clone().into_bytes()));
        assert!(answer.ends_with('\n') && answer != "1\n", "{}", line);
        if line.starts_with("part") {
            met[answer.trim_end().split(' ').next().unwrap().parse::<usize>().unwrap()] += 1;
        }
    }
    for refusal in [0, 2, 13, 23, 24, 25, 26, 27].iter() {
        assert!(met[*refusal] > 100, "{}", refusal);
    }
}

// ---------------------------------------------------------------------------------------------------------------
// Lines
// ---------------------------------------------------------------------------------------------------------------

#[test]
fn data_of_each_length() {
    for bytes in 1..4110 {
        let line = format!("part 5 1 0 0 {} {}", bytes / 4, hex_of(&vec![0; bytes]));
        let answer = match bytes {
            4101..=4109 => "bad",
            4100 => "27",
            _ if bytes % 4 == 0 => "0 whole 0",
            _ => "25",
        };
        parts(&[(&line, answer)]);
    }
}

#[test]
fn lines_too_long() {
    // A part line of 16,384 bytes is too long, and one byte less is bad all the same: its data are.
    for bytes in [8168, 8169].iter() {
        let mut input = format!("{}\nsusp 5 1\npart 5 3 0 0 12 ", DEV).into_bytes();
        input.extend(vec![b'0'; 2 * *bytes]);
        input.extend_from_slice(b"\nresume 5\n");
        let mut output = Vec::new();
        play(&mut &input[..], &mut output).unwrap();
        assert_eq!(output, b"0\n0\nbad\n0\n");
    }
}
