//! Whole sessions. The expected answers are worked out by hand from documents 01 and 02.
//!
//! Pages: 65536 is page 16, 69632 page 17, 73728 page 18, 77824 page 19, 81920 page 20.
//! Ends: 2^64 = 18446744073709551616, 2^64 - 4096 = 18446744073709547520, 2^64 - 2^20 = 18446744073708503040,
//! 2^64 - 2^32 = 18446744069414584320.

use std::cell::RefCell;
use std::fmt::Debug;
use std::io::{self, Read, Write};
use std::rc::Rc;

use crate::lines::Cut;
use crate::session::{play, Session};
use crate::shelf::Shelf;

/// The document's own settings: manager 1, granularities 0 to 8, rule off, limit 16, controllers 5 and 6.
pub const DEV: &str = "dev 1 0 8 0 16 5 6";

/// Plays bytes as a whole input.
fn output(input: &[u8]) -> String {
    let mut output = Vec::new();
    play(&mut &input[..], &mut output).unwrap();
    String::from_utf8(output).unwrap()
}

/// Plays lines one by one from the default on. Each must give its answer (lines separated by "/"), and a line that is
/// refused or bad must leave all as it was.
pub fn check<S: Clone + Debug + Default + PartialEq>(
    answer_of: &dyn Fn(&mut S, &Cut) -> String,
    lines: &[(&str, &str)],
) {
    let mut state = S::default();
    for (number, (line, answer)) in lines.iter().enumerate() {
        let before = state.clone();
        let given = answer_of(&mut state, &Cut::Line(line.as_bytes().to_vec()));
        let expected = format!("{}\n", answer.replace("/", "\n"));
        assert_eq!(given, expected, "line {}: {}", number, line);
        if *answer != "0" && !answer.starts_with("0 ") {
            assert_eq!(state, before, "line {}: {}", number, line);
        }
    }
}

/// Lines of document 01. A shelf listing has "every line of document 01 with the answers of the session program", and at the
/// end of a report's first line its groups (W10), which are left out here.
fn session(lines: &[(&str, &str)]) {
    check(&Session::answer, lines);
    check(&|shelf: &mut Shelf, cut| without_groups(&shelf.answer(cut)), lines);
}

/// An answer of a shelf listing as a session listing has it.
fn without_groups(answer: &str) -> String {
    let (first_line, others) = answer.split_once('\n').unwrap();
    match first_line.rsplit_once(" groups ") {
        Some((before, groups)) if before.starts_with("0 susp ") => {
            assert!((1..257).contains(&groups.parse::<usize>().unwrap()), "{}", answer);
            format!("{}\n{}", before, others)
        }
        _ => {
            assert!(!answer.starts_with("0 susp "), "{}", answer);
            answer.to_string()
        }
    }
}

/// A `start` line with `count` ranges of one page each, every second page from `first` on.
fn start_of(id: u64, first: u64, count: u64) -> String {
    let mut line = format!("start {} 0", id);
    for row in 0..count {
        line.push_str(&format!(" {} 1", first + row * 8192));
    }
    line
}

// ---------------------------------------------------------------------------------------------------------------
// The document's example and worked numbers
// ---------------------------------------------------------------------------------------------------------------

#[test]
fn whole_example() {
    let input = "dev 1 0 8 0 16 5 6\nstart 5 0 65536 4\nwrite 5 69632 1\nwrite 5 73727 2\nrecv 5 64\nrecv 6 64\n";
    let answers = "0\n0\n0 1\n0 1\n0 susp 0 more 0 gran 0 runs 1\n69632 2\n5\n";
    assert_eq!(output(input.as_bytes()), answers);
    // The last line without its line feed.
    assert_eq!(output(input.trim_end().as_bytes()), answers);
}

#[test]
fn worked_write_in_one_unit() {
    session(&[
        (DEV, "0"),
        ("start 5 0 65536 4", "0"),
        ("write 5 69632 1", "0 1"),
        ("recv 5 64", "0 susp 0 more 0 gran 0 runs 1/69632 1"),
    ]);
}

#[test]
fn worked_write_over_two_units() {
    session(&[
        (DEV, "0"),
        ("start 5 0 65536 4", "0"),
        ("write 5 73727 2", "0 2"),
        ("recv 5 64", "0 susp 0 more 0 gran 0 runs 1/69632 2"),
    ]);
}

#[test]
fn worked_write_that_touches_none() {
    session(&[
        (DEV, "0"),
        ("start 5 0 65536 4", "0"),
        ("write 5 65535 1", "0 0"),
        ("write 5 0 0", "0 0"),
        ("write 5 65536 0", "0 0"),
        ("write 5 69633 0", "0 0"),
        ("write 5 70000 0", "0 0"),
        ("write 5 81920 0", "0 0"),
        ("write 5 18446744073709551615 0", "0 0"),
        ("recv 5 64", "0 susp 0 more 0 gran 0 runs 0"),
    ]);
}

#[test]
fn worked_write_at_the_end_of_memory() {
    session(&[
        (DEV, "0"),
        ("start 5 0 65536 4", "0"),
        ("write 5 18446744073709551615 1", "0 0"),
        ("write 5 18446744073709551615 2", "14"),
    ]);
}

#[test]
fn worked_granularity_8() {
    session(&[(DEV, "0"), ("start 5 8 1052672 4", "20 0"), ("start 5 8 1048576 4", "0")]);
}

#[test]
fn worked_last_page() {
    session(&[(DEV, "0"), ("start 5 0 18446744073709547520 2", "21 0"), ("start 5 0 18446744073709547520 1", "0")]);
}

#[test]
fn worked_two_reports_of_47_bytes() {
    session(&[
        (DEV, "0"),
        ("start 5 0 65536 4", "0"),
        ("write 5 65536 1", "0 1"),
        ("write 5 73728 1", "0 1"),
        ("recv 5 47", "0 susp 0 more 1 gran 0 runs 1/65536 1"),
        ("recv 5 47", "0 susp 0 more 0 gran 0 runs 1/73728 1"),
        ("recv 5 47", "0 susp 0 more 0 gran 0 runs 0"),
    ]);
}

#[test]
fn worked_neighbouring_ranges_are_not_joined() {
    session(&[
        (DEV, "0"),
        ("start 5 0 65536 1 69632 1", "0"),
        ("write 5 65536 8192", "0 2"),
        ("recv 5 64", "0 susp 0 more 0 gran 0 runs 2/65536 1/69632 1"),
    ]);
}

#[test]
fn worked_power_of_two_rule() {
    session(&[
        ("dev 1 0 8 1 16 5 6", "0"),
        ("start 5 0 65536 3", "10"),
        ("start 5 0 65536 4", "0"),
        // Off:
        (DEV, "0"),
        ("start 5 0 65536 3", "0"),
    ]);
}

#[test]
fn worked_limit() {
    session(&[(DEV, "0"), (&start_of(6, 0, 10), "0"), (&start_of(5, 0, 7), "12"), (&start_of(5, 0, 6), "0")]);
}

#[test]
fn worked_buffers_31_and_32() {
    session(&[
        (DEV, "0"),
        ("start 5 0 65536 4", "0"),
        ("write 5 65536 16384", "0 4"),
        ("recv 5 31", "8"),
        ("recv 5 32", "0 susp 0 more 0 gran 0 runs 1/65536 4"),
    ]);
}

#[test]
fn worked_total_of_16384_units() {
    // Document 01's 4,096 and 4,097 are W7's 16,384 and 16,385. 67108864 is page 16,384.
    session(&[
        (DEV, "0"),
        ("start 5 0 0 16385", "11"),
        ("start 5 0 0 4097", "0"),
        ("stop 5", "0"),
        ("start 5 0 0 16384", "0"),
        ("stop 5", "0"),
        ("start 6 0 0 16383 67108864 2", "11"),
        ("start 6 0 0 16383 67108864 1", "0"),
    ]);
}

// ---------------------------------------------------------------------------------------------------------------
// Where the old core slipped
// ---------------------------------------------------------------------------------------------------------------

#[test]
fn each_report_has_its_own_granularity() {
    session(&[
        (DEV, "0"),
        ("start 5 0 65536 4", "0"),
        ("start 6 8 1048576 4", "0"),
        ("write 5 65536 1", "0 1"),
        ("write 6 2097151 2", "0 2"),
        ("recv 5 64", "0 susp 0 more 0 gran 0 runs 1/65536 1"),
        ("recv 6 64", "0 susp 0 more 0 gran 8 runs 1/1048576 2"),
    ]);
}

#[test]
fn every_unit_of_a_write_is_touched() {
    session(&[
        (DEV, "0"),
        ("start 5 0 65536 4 0 2", "0"),
        // Pages 1 to 17, so page 1 of the second range and pages 16 and 17 of the first.
        ("write 5 4096 69632", "0 3"),
        ("write 5 0 18446744073709551615", "0 3"),
        ("write 5 0 18446744073709551615", "0 0"),
        ("recv 5 64", "0 susp 0 more 0 gran 0 runs 2/65536 4/0 2"),
    ]);
}

#[test]
fn part_of_a_report_leaves_the_rest() {
    session(&[
        (DEV, "0"),
        ("start 5 0 65536 8", "0"),
        ("write 5 65536 1", "0 1"),
        ("write 5 73728 8192", "0 2"),
        ("write 5 86016 1", "0 1"),
        ("write 5 94208 1", "0 1"),
        ("recv 5 48", "0 susp 0 more 1 gran 0 runs 2/65536 1/73728 2"),
        // A unit reported and written again is pending again, and stands before the later ones.
        ("write 5 73728 1", "0 1"),
        ("write 5 86016 1", "0 0"),
        ("recv 5 48", "0 susp 0 more 1 gran 0 runs 2/73728 1/86016 1"),
        ("recv 5 48", "0 susp 0 more 0 gran 0 runs 1/94208 1"),
        ("recv 5 48", "0 susp 0 more 0 gran 0 runs 0"),
    ]);
}

#[test]
fn the_last_page_does_not_wrap() {
    session(&[
        (DEV, "0"),
        ("start 5 0 18446744073709547520 1 0 1", "0"),
        ("write 5 18446744073709551615 1", "0 1"),
        ("recv 5 64", "0 susp 0 more 0 gran 0 runs 1/18446744073709547520 1"),
        ("write 5 18446744073709547520 4096", "0 1"),
        ("write 5 18446744073709547519 1", "0 0"),
        ("write 5 18446744073709547520 4097", "14"),
        ("write 5 4095 1", "0 1"),
        ("recv 5 64", "0 susp 0 more 0 gran 0 runs 2/18446744073709547520 1/0 1"),
    ]);
}

#[test]
fn stopped_controllers_do_not_count() {
    session(&[
        (DEV, "0"),
        (&start_of(6, 0, 16), "0"),
        (&start_of(5, 0, 1), "12"),
        ("stop 6", "0"),
        (&start_of(5, 0, 16), "0"),
        (&start_of(6, 0, 1), "12"),
        ("stop 5", "0"),
        (&start_of(6, 0, 1), "0"),
        (&start_of(5, 0, 16), "12"),
        (&start_of(5, 0, 15), "0"),
    ]);
}

// ---------------------------------------------------------------------------------------------------------------
// Each refusal of each call
// ---------------------------------------------------------------------------------------------------------------

#[test]
fn dev_16() {
    session(&[
        ("dev 1 0 8 0 16", "16"),
        ("dev 1 0 8 0 16 1", "16"),
        ("dev 1 0 8 0 16 5 1", "16"),
        ("dev 1 0 8 0 16 5 5", "16"),
        ("dev 1 0 8 0 16 2 3 4 5 6 7 8 2", "16"),
        ("dev 1 0 8 0 16 2 3 4 5 6 7 8 8", "16"),
        ("dev 1 0 8 0 16 2 3 4 5 6 7 8 1", "16"),
        ("dev 0 0 8 0 16 0", "16"),
        ("dev 1 9 8 0 16 5", "16"),
        ("dev 1 1 0 0 16 5", "16"),
        ("dev 1 0 21 0 16 5", "16"),
        ("dev 1 21 21 0 16 5", "16"),
        ("dev 1 0 255 0 16 5", "16"),
        ("dev 1 255 255 0 16 5", "16"),
        ("dev 1 0 8 0 129 5", "16"),
        ("dev 1 0 8 0 65535 5", "16"),
        ("stop 5", "1"),
    ]);
}

#[test]
fn dev_done() {
    session(&[
        ("dev 1 0 0 0 0 5", "0"),
        ("dev 1 20 20 1 128 5", "0"),
        ("dev 0 0 20 0 128 65535", "0"),
        ("dev 65535 0 20 0 128 0", "0"),
        ("dev 1 0 8 0 16 0 2 3 4 5 6 7 8", "0"),
    ]);
}

#[test]
fn before_a_done_dev_calls_answer_1() {
    session(&[
        ("start 5 0 65536 4", "1"),
        ("start 0 0", "1"),
        ("stop 5", "1"),
        ("write 5 69632 1", "1"),
        ("write 5 18446744073709551615 2", "1"),
        ("recv 5 64", "1"),
        ("recv 0 0", "1"),
        ("susp 5 1", "1"),
        ("susp 5 2", "1"),
        ("resume 5", "1"),
        ("resume 0", "1"),
        ("dev 1 0 8 0 16", "16"),
        ("start 5 0 65536 4", "1"),
        ("stop 5", "1"),
        ("write 5 69632 1", "1"),
        ("recv 5 64", "1"),
        ("susp 5 0", "1"),
        ("resume 5", "1"),
        // A damaged line is bad, device or no device.
        ("stop", "bad"),
        ("recv 5 4097", "bad"),
        (DEV, "0"),
        ("stop 5", "5"),
    ]);
}

#[test]
fn refused_dev_keeps_the_device() {
    session(&[
        (DEV, "0"),
        ("start 5 0 65536 4", "0"),
        ("write 5 65536 1", "0 1"),
        ("susp 6 1", "0"),
        ("dev 1 0 8 0 16", "16"),
        ("dev 5 0 8 0 16 5 6", "16"),
        ("dev 1 0 8 0 16 5 x", "bad"),
        ("stop 6", "4"),
        ("recv 5 64", "0 susp 0 more 0 gran 0 runs 1/65536 1"),
    ]);
}

#[test]
fn done_dev_is_a_fresh_device() {
    session(&[
        (DEV, "0"),
        ("start 5 0 65536 4", "0"),
        ("write 5 65536 1", "0 1"),
        ("susp 5 1", "0"),
        (DEV, "0"),
        ("resume 5", "13"),
        ("recv 5 64", "5"),
        ("start 5 0 65536 4", "0"),
        ("recv 5 64", "0 susp 0 more 0 gran 0 runs 0"),
        ("dev 5 0 8 0 16 1 6", "0"),
        ("stop 5", "2"),
        ("stop 1", "5"),
    ]);
}

#[test]
fn start_2() {
    session(&[
        (DEV, "0"),
        ("start 1 0 65536 4", "2"),
        ("start 7 0 65536 4", "2"),
        ("start 0 0 65536 4", "2"),
        ("start 65535 0 65536 4", "2"),
    ]);
}

#[test]
fn start_4_and_3() {
    session(&[
        (DEV, "0"),
        ("susp 5 1", "0"),
        ("start 5 0 65536 4", "4"),
        ("resume 5", "0"),
        ("start 5 0 65536 4", "0"),
        ("start 5 0 65536 4", "3"),
        ("start 5 0 0 1", "3"),
        ("start 6 0 65536 4", "0"),
    ]);
}

#[test]
fn start_7() {
    session(&[
        ("dev 1 2 8 0 16 5 6", "0"),
        ("start 5 1 0 1", "7"),
        ("start 5 0 0 1", "7"),
        ("start 5 9 0 1", "7"),
        ("start 5 255 0 1", "7"),
        ("start 5 2 0 1", "0"),
        ("start 6 8 0 1", "0"),
    ]);
}

#[test]
fn start_18_to_21() {
    session(&[
        (DEV, "0"),
        // The count.
        ("start 5 0", "18 0"),
        // Lengths.
        ("start 5 0 65536 0", "19 0"),
        ("start 5 0 65536 1 0 0", "19 1"),
        ("start 5 0 65536 4 69632 0", "19 1"),
        // Multiples of the unit.
        ("start 5 0 65537 4", "20 0"),
        ("start 5 0 61441 1", "20 0"),
        ("start 5 0 18446744073709551615 1", "20 0"),
        ("start 5 1 4096 1", "20 0"),
        ("start 5 8 1048575 1", "20 0"),
        ("start 5 0 0 1 1 1", "20 1"),
        // The end of memory.
        ("start 5 0 18446744073709547520 4294967295", "21 0"),
        ("start 5 8 18446744073708503040 2", "21 0"),
        ("start 5 0 0 1 18446744073709547520 2", "21 1"),
        // Also of a range whose units all belong to an earlier one, or would.
        ("start 5 0 65536 4 65536 0", "19 1"),
        ("start 5 0 65536 4 65537 1", "20 1"),
        ("start 5 0 18446744073709547520 1 18446744073709547520 2", "21 1"),
        // Touching.
        ("start 5 0 65536 4 81920 1 61440 1", "0"),
    ]);
}

#[test]
fn start_10() {
    session(&[
        ("dev 1 0 8 1 16 5 6", "0"),
        ("start 5 0 0 3", "10"),
        ("start 5 0 0 4095", "10"),
        ("start 5 0 0 4 65536 6", "10"),
        ("start 5 0 0 6 65536 4", "10"),
        ("start 5 8 0 3", "10"),
        ("start 5 0 0 1 65536 2 131072 1024", "0"),
        ("start 6 0 0 2048 16777216 2048", "0"),
    ]);
}

#[test]
fn start_11() {
    session(&[
        ("dev 1 0 20 0 16 5 6", "0"),
        ("start 5 0 0 16385", "11"),
        ("start 5 0 0 4294967295", "11"),
        ("start 5 20 0 4294967295", "11"),
        // Ends at 2^64 exactly.
        ("start 5 20 4294967296 4294967295", "11"),
        ("start 5 20 8589934592 4294967295", "21 0"),
        ("start 5 0 0 8192 67108864 8192 134217728 1", "11"),
        ("start 5 0 0 8192 67108864 8190 134217728 1", "0"),
        // One is left, at whatever address and granularity; two are too many.
        ("start 6 0 0 2", "11"),
        ("start 6 20 0 2", "11"),
        ("start 6 20 0 1", "0"),
    ]);
}

#[test]
fn start_12() {
    session(&[
        ("dev 1 0 8 0 2 5 6 7", "0"),
        (&start_of(5, 0, 3), "12"),
        (&start_of(5, 0, 2), "0"),
        (&start_of(6, 0, 1), "12"),
        ("stop 5", "0"),
        (&start_of(6, 0, 1), "0"),
        (&start_of(5, 0, 2), "12"),
        (&start_of(5, 0, 1), "0"),
        (&start_of(7, 0, 1), "12"),
        // Suspended ones count on.
        ("susp 5 1", "0"),
        (&start_of(7, 0, 1), "12"),
    ]);
}

#[test]
fn stop_refusals() {
    session(&[
        ("stop 5", "1"),
        (DEV, "0"),
        ("stop 1", "2"),
        ("stop 7", "2"),
        ("stop 5", "5"),
        ("start 5 0 65536 4", "0"),
        ("susp 5 1", "0"),
        ("stop 5", "4"),
        ("resume 5", "0"),
        ("stop 5", "0"),
        ("stop 5", "5"),
    ]);
}

#[test]
fn write_refusals() {
    session(&[
        ("write 5 65536 1", "1"),
        (DEV, "0"),
        ("write 1 65536 1", "2"),
        ("write 7 65536 1", "2"),
        // Not tracked: done with count 0, or refused.
        ("write 5 65536 1", "0 0"),
        ("write 5 18446744073709551615 2", "14"),
        ("start 5 0 65536 4", "0"),
        ("write 5 18446744073709551615 18446744073709551615", "14"),
        ("write 5 2 18446744073709551615", "14"),
        ("write 5 18446744073709547520 4097", "14"),
        ("write 5 18446744073709547520 4096", "0 0"),
        ("susp 5 1", "0"),
        ("write 5 65536 1", "4"),
        ("write 5 65536 0", "4"),
        ("susp 6 1", "0"),
        ("write 6 65536 1", "4"),
        ("resume 5", "0"),
        // The refused ones have marked nothing. This one ends at 2^64 exactly.
        ("write 5 1 18446744073709551615", "0 4"),
    ]);
}

#[test]
fn recv_refusals() {
    session(&[
        ("recv 5 64", "1"),
        (DEV, "0"),
        ("recv 1 64", "2"),
        ("recv 7 64", "2"),
        ("recv 5 64", "5"),
        ("start 5 0 65536 4", "0"),
        ("recv 5 0", "8"),
        ("recv 5 31", "8"),
        ("recv 5 32", "0 susp 0 more 0 gran 0 runs 0"),
        ("recv 6 64", "5"),
        ("stop 5", "0"),
        ("recv 5 64", "5"),
    ]);
}

#[test]
fn susp_refusals() {
    session(&[
        ("susp 5 1", "1"),
        (DEV, "0"),
        ("susp 1 1", "2"),
        ("susp 7 1", "2"),
        ("susp 5 2", "15"),
        ("susp 5 255", "15"),
        ("resume 5", "13"),
        ("susp 5 0", "0"),
        ("resume 5", "13"),
        ("susp 5 1", "0"),
        ("susp 5 1", "0"),
        ("susp 5 3", "15"),
        ("susp 5 0", "0"),
        ("stop 5", "4"),
        ("resume 5", "0"),
        ("stop 5", "5"),
    ]);
}

#[test]
fn resume_refusals() {
    session(&[
        ("resume 5", "1"),
        (DEV, "0"),
        ("resume 1", "2"),
        ("resume 7", "2"),
        ("resume 5", "13"),
        ("susp 6 1", "0"),
        ("resume 5", "13"),
        ("resume 6", "0"),
        ("resume 6", "13"),
    ]);
}

// ---------------------------------------------------------------------------------------------------------------
// Two broken rules at once
// ---------------------------------------------------------------------------------------------------------------

#[test]
fn start_order() {
    session(&[
        // 1 before 2, 7, 19.
        ("start 1 9 1 0", "1"),
        // Granularities 2 to 8, rule on, limit 2.
        ("dev 1 2 8 1 2 5 6 7", "0"),
        // 2 before 7, 18, 10, 11, 12.
        ("start 1 9 65536 4", "2"),
        ("start 8 2", "2"),
        ("start 8 2 0 3", "2"),
        ("start 8 2 0 32768", "2"),
        ("start 8 2 0 1 16384 1 32768 1", "2"),
        // 4 before 7, 18, 10, 11, 12.
        ("susp 6 1", "0"),
        ("start 6 9 0 1", "4"),
        ("start 6 2", "4"),
        ("start 6 2 0 3", "4"),
        ("start 6 2 0 32768", "4"),
        ("start 6 2 0 1 16384 1 32768 1", "4"),
        // 7 before 18, 19, 10, 11, 12.
        ("start 5 1", "7"),
        ("start 5 9 1 0", "7"),
        ("start 5 9 0 3", "7"),
        ("start 5 9 0 32768", "7"),
        ("start 5 9 0 1 16777216 1 33554432 1", "7"),
        // 19, 20 and 21 before 10, 11, 12, in whatever row.
        ("start 5 2 1 3", "20 0"),
        ("start 5 2 1 32768", "20 0"),
        ("start 5 2 0 3 1 1", "20 1"),
        ("start 5 2 0 32768 1 1", "20 1"),
        ("start 5 2 0 3 0 0", "19 1"),
        ("start 5 2 0 32768 0 0", "19 1"),
        ("start 5 2 18446744073709535232 3", "21 0"),
        ("start 5 2 0 32768 18446744073709535232 2", "21 1"),
        ("start 5 2 0 1 16384 1 32768 0", "19 2"),
        ("start 5 2 0 1 16384 1 32769 1", "20 2"),
        ("start 5 2 0 1 16384 1 18446744073709535232 2", "21 2"),
        // 10 before 11, 12.
        ("start 5 2 0 16385", "10"),
        ("start 5 2 0 3 65536 1 131072 1", "10"),
        ("start 5 2 0 4 0 3", "10"),
        // 11 before 12.
        ("start 5 2 0 16384 268435456 1 536870912 1", "11"),
        ("start 5 2 0 16384 0 16384 268435456 1", "11"),
        // 12 last.
        ("start 5 2 0 1 16384 1 32768 1", "12"),
        ("start 5 2 0 1 16384 1 16384 1", "12"),
        ("start 5 2 0 16384 0 16384 0 16384", "12"),
        ("start 5 2 0 1 16384 1", "0"),
        // 3 before 7, 18, 10, 11, 12.
        ("start 5 9 0 1", "3"),
        ("start 5 2", "3"),
        ("start 5 2 0 3", "3"),
        ("start 5 2 0 32768", "3"),
        ("start 5 2 0 1", "3"),
        // 4 before 3.
        ("susp 5 1", "0"),
        ("start 5 2 0 1", "4"),
        ("start 5 9 0 1", "4"),
        // 12 behind each of the others where another controller holds the limit.
        ("start 7 9 0 1", "7"),
        ("start 7 2", "18 0"),
        ("start 7 2 0 0", "19 0"),
        ("start 7 2 1 1", "20 0"),
        ("start 7 2 18446744073709535232 2", "21 0"),
        ("start 7 2 0 3", "10"),
        ("start 7 2 0 32768", "11"),
        ("start 7 2 0 1", "12"),
    ]);
}

#[test]
fn other_orders() {
    session(&[
        // 1 before all.
        ("stop 1", "1"),
        ("write 1 18446744073709551615 2", "1"),
        ("recv 1 0", "1"),
        ("susp 1 2", "1"),
        ("resume 1", "1"),
        (DEV, "0"),
        // 2 before 14, 8, 15, 13, 5.
        ("write 1 18446744073709551615 2", "2"),
        ("recv 1 31", "2"),
        ("susp 1 2", "2"),
        ("resume 1", "2"),
        ("stop 1", "2"),
        // Receive: 5 before 8.
        ("recv 5 31", "5"),
        // Stop: 4 before 5. Write: 4 before 14.
        ("susp 5 1", "0"),
        ("stop 5", "4"),
        ("write 5 18446744073709551615 2", "4"),
        // A suspended controller that isn't tracked: 5, and 5 before 8.
        ("recv 5 64", "5"),
        ("recv 5 0", "5"),
    ]);
}

// ---------------------------------------------------------------------------------------------------------------
// Which rule and which row (document 02, W3)
// ---------------------------------------------------------------------------------------------------------------

#[test]
fn worked_rows() {
    session(&[
        (DEV, "0"),
        ("start 5 0", "18 0"),
        ("start 5 0 65536 4 4097 1 0 0", "20 1"),
        ("start 5 0 4097 0", "19 0"),
        ("start 5 0 18446744073709551615 1", "20 0"),
        ("start 5 0 65536 1 18446744073709547520 2", "21 1"),
        ("start 5 8 1052672 1", "20 0"),
        // 7 and 2 stand before them.
        ("start 5 9 0 0", "7"),
        ("start 7 0 1 0", "2"),
        // Row 1 before 10 in row 0; and 10 has no row.
        ("dev 1 0 8 1 16 5", "0"),
        ("start 5 0 65536 3 4096 0", "19 1"),
        ("start 5 0 65536 3", "10"),
        // A done start has no row either.
        ("start 5 0 65536 4", "0"),
    ]);
}

/// Rows that break one rule each.
const BAD_ROWS: [(&str, &str); 3] = [("65536 0", "19"), ("65537 4", "20"), ("18446744073709547520 2", "21")];

/// Rows that break two rules, and the earlier one of these: of no length and unaligned, or unaligned and past the end.
const WORSE_ROWS: [(&str, &str); 4] = [
    ("4097 0", "19"),
    ("18446744073709551615 0", "19"),
    ("18446744073709551615 1", "20"),
    ("18446744073709547521 2", "20"),
];

/// A start with `count` rows, good ones but for these.
fn start_of_rows(count: usize, bad: &[(usize, &str)]) -> String {
    let mut rows = vec!["65536 4"; count];
    for (row, pair) in bad {
        rows[*row] = *pair;
    }
    format!("start 5 0 {}", rows.join(" "))
}

#[test]
fn each_rule_in_each_row() {
    for count in 1..17 {
        for row in 0..count {
            for (pair, number) in BAD_ROWS.iter().chain(&WORSE_ROWS) {
                let answer = format!("{} {}", number, row);
                session(&[(DEV, "0"), (&start_of_rows(count, &[(row, *pair)]), &answer)]);
            }
        }
        session(&[(DEV, "0"), (&start_of_rows(count, &[]), "0")]);
    }
}

#[test]
fn the_last_row_of_sixteen() {
    session(&[
        (DEV, "0"),
        (&start_of_rows(16, &[(15, "65536 0")]), "19 15"),
        (&start_of_rows(16, &[(15, "65537 4")]), "20 15"),
        (&start_of_rows(16, &[(15, "18446744073709547520 2")]), "21 15"),
        (&start_of_rows(16, &[(9, "65537 4"), (10, "65536 0")]), "20 9"),
        (&start_of_rows(16, &[(10, "65536 0")]), "19 10"),
        (&start_of_rows(16, &[]), "0"),
    ]);
}

#[test]
fn the_earliest_row_answers() {
    // Two bad rows, of any two rules: the later one is never told, also where its rule stands before the other's.
    for later in 1..16 {
        for earlier in 0..later {
            for (pair, number) in &BAD_ROWS {
                for (other, _) in BAD_ROWS.iter().chain(&WORSE_ROWS) {
                    let answer = format!("{} {}", number, earlier);
                    session(&[(DEV, "0"), (&start_of_rows(16, &[(earlier, *pair), (later, *other)]), &answer)]);
                }
            }
        }
    }
    session(&[
        (DEV, "0"),
        ("start 5 0 18446744073709547520 2 65537 4 65536 0", "21 0"),
        ("start 5 0 65536 4 18446744073709547520 2 65537 4 65536 0", "21 1"),
        ("start 5 0 65537 4 65536 0 18446744073709547520 2", "20 0"),
        ("start 5 0 65536 0 18446744073709547520 2 65537 4", "19 0"),
        ("start 5 0 65536 4 0 1 65537 4 4097 0", "20 2"),
    ]);
}

#[test]
fn rows_at_other_granularities() {
    session(&[
        ("dev 1 0 20 0 16 5 6", "0"),
        // Page 1 begins no unit of 2^13 bytes, the last page none of 2^20, and the last 2^20 bytes none of 2^32.
        ("start 5 1 0 1 4096 1", "20 1"),
        ("start 5 8 0 1 1048576 1 18446744073709547520 1", "20 2"),
        ("start 5 8 0 1 18446744073708503040 2", "21 1"),
        ("start 5 20 0 1 4294967296 1 18446744073708503040 1", "20 2"),
        ("start 5 20 0 1 18446744069414584320 2", "21 1"),
        ("start 5 20 0 1 8589934592 4294967295", "21 1"),
        ("start 5 20 0 1 4294967296 4294967295", "11"),
        // Of no length and unaligned for this unit alone.
        ("start 5 20 0 1 4096 0", "19 1"),
        ("start 5 0 0 1 4096 1 18446744073709547520 1", "0"),
        ("start 6 8 0 1 18446744073708503040 1", "0"),
    ]);
}

#[test]
fn rows_before_10_11_12() {
    session(&[
        // Rule on, limit 2, of which controller 6 takes one.
        ("dev 1 0 8 1 2 5 6", "0"),
        ("start 6 0 0 1", "0"),
        // 10, 11 and 12; and the same with one row more, which breaks a rule of rows.
        ("start 5 0 0 3", "10"),
        ("start 5 0 0 3 0 0", "19 1"),
        ("start 5 0 0 3 1 1", "20 1"),
        ("start 5 0 0 3 18446744073709547520 2", "21 1"),
        ("start 5 0 0 16384", "11"),
        ("start 5 0 0 16384 0 0", "19 1"),
        ("start 5 0 0 16384 1 1", "20 1"),
        ("start 5 0 0 16384 18446744073709547520 2", "21 1"),
        ("start 5 0 0 1 4096 1", "12"),
        ("start 5 0 0 1 4096 1 0 0", "19 2"),
        ("start 5 0 0 1 4096 1 1 1", "20 2"),
        ("start 5 0 0 1 4096 1 18446744073709547520 2", "21 2"),
        // In one row with them.
        ("start 5 0 1 3", "20 0"),
        ("start 5 0 18446744073709547520 16384", "21 0"),
        // 10 has no row, whichever it is; 0 is no power of two either.
        ("start 5 0 0 1 4096 1 8192 3", "10"),
        ("start 5 0 0 0", "19 0"),
        ("start 5 0", "18 0"),
        ("start 5 0 0 1", "0"),
    ]);
}

#[test]
fn refusals_before_a_row_have_none() {
    session(&[
        ("start 5 0 4097 0", "1"),
        ("start 5 0", "1"),
        (DEV, "0"),
        ("start 1 0 4097 0", "2"),
        ("start 7 0", "2"),
        ("susp 5 1", "0"),
        ("start 5 0 4097 0", "4"),
        ("start 5 0", "4"),
        ("resume 5", "0"),
        ("start 5 9 4097 0", "7"),
        ("start 5 9", "7"),
        ("start 5 0 65536 4", "0"),
        ("start 5 0 4097 0", "3"),
        ("start 5 0", "3"),
    ]);
}

// ---------------------------------------------------------------------------------------------------------------
// Ranges that overlap (document 02, W2)
// ---------------------------------------------------------------------------------------------------------------

/// A start with these ranges; a write over all of memory but its last byte marks `units` in all; then come these runs.
fn overlapping(ranges: &str, units: u64, runs: &[&str]) {
    let start = format!("start 5 0 {}", ranges);
    let count = format!("0 {}", units);
    let whole = format!("0 susp 0 more 0 gran 0 runs {}/{}", runs.len(), runs.join("/"));
    let mut lines = vec![
        ("dev 1 0 8 0 16 5 6".to_string(), "0".to_string()),
        (start, "0".to_string()),
        ("write 5 0 18446744073709551615".to_string(), count.clone()),
        ("write 5 0 18446744073709551615".to_string(), "0 0".to_string()),
        ("recv 5 4096".to_string(), whole),
        ("write 5 0 18446744073709551615".to_string(), count),
    ];
    // Again, one run a report.
    for (number, run) in runs.iter().enumerate() {
        let more = if number + 1 < runs.len() { 1 } else { 0 };
        lines.push(("recv 5 32".to_string(), format!("0 susp 0 more {} gran 0 runs 1/{}", more, run)));
    }
    lines.push(("recv 5 32".to_string(), "0 susp 0 more 0 gran 0 runs 0".to_string()));
    let lines: Vec<(&str, &str)> = lines.iter().map(|(line, answer)| (line.as_str(), answer.as_str())).collect();
    session(&lines);
}

#[test]
fn two_ranges_that_overlap() {
    // Pages 16 to 19 and: the same; the first, the midst and the last of them; two that reach above, and below.
    overlapping("65536 4 65536 4", 4, &["65536 4"]);
    overlapping("65536 4 65536 1", 4, &["65536 4"]);
    overlapping("65536 4 69632 2", 4, &["65536 4"]);
    overlapping("65536 4 77824 1", 4, &["65536 4"]);
    overlapping("65536 4 77824 2", 5, &["65536 4", "81920 1"]);
    overlapping("65536 4 61440 2", 5, &["65536 4", "61440 1"]);
    // The other way round: the small one takes units out of the great one.
    overlapping("65536 1 65536 4", 4, &["65536 1", "69632 3"]);
    overlapping("69632 2 65536 4", 4, &["69632 2", "65536 1", "77824 1"]);
    overlapping("77824 1 65536 4", 4, &["77824 1", "65536 3"]);
    overlapping("77824 2 65536 4", 5, &["77824 2", "65536 3"]);
    overlapping("61440 2 65536 4", 5, &["61440 2", "69632 3"]);
    // One around the other.
    overlapping("65536 4 61440 6", 6, &["65536 4", "61440 1", "81920 1"]);
    // Touching, as ever.
    overlapping("65536 4 81920 1", 5, &["65536 4", "81920 1"]);
    overlapping("81920 1 65536 4", 5, &["81920 1", "65536 4"]);
}

#[test]
fn many_ranges_that_overlap() {
    // Page 17 is in all three: 17, then 16 to 19, then 15 to 22.
    overlapping("69632 1 65536 4 61440 8", 8, &["69632 1", "65536 1", "73728 2", "61440 1", "81920 3"]);
    overlapping("61440 8 65536 4 69632 1", 8, &["61440 8"]);
    // The third is covered by the first two together.
    overlapping("65536 2 73728 2 69632 2", 4, &["65536 2", "73728 2"]);
    // Every second page, then all of them.
    overlapping(
        "69632 1 77824 1 86016 1 65536 7",
        7,
        &["69632 1", "77824 1", "86016 1", "65536 1", "73728 1", "81920 1", "90112 1"],
    );
    // The last pages of memory.
    overlapping(
        "18446744073709547520 1 18446744073709539328 3",
        3,
        &["18446744073709547520 1", "18446744073709539328 2"],
    );
    overlapping("18446744073709539328 3 18446744073709547520 1", 3, &["18446744073709539328 3"]);
    // Sixteen equal ones.
    overlapping(&["65536 2"; 16].join(" "), 2, &["65536 2"]);
}

#[test]
fn a_write_into_an_overlap_counts_once() {
    session(&[
        (DEV, "0"),
        // Pages 16 to 19 and 18 to 21.
        ("start 5 0 65536 4 73728 4", "0"),
        ("write 5 73728 1", "0 1"),
        ("write 5 73728 1", "0 0"),
        ("write 5 69632 12288", "0 2"),
        ("write 5 77824 8192", "0 1"),
        // Pages 17 to 20 are pending, in two ranges.
        ("recv 5 47", "0 susp 0 more 1 gran 0 runs 1/69632 3"),
        ("write 5 77824 4096", "0 1"),
        ("recv 5 47", "0 susp 0 more 1 gran 0 runs 1/77824 1"),
        ("recv 5 47", "0 susp 0 more 0 gran 0 runs 1/81920 1"),
        ("recv 5 47", "0 susp 0 more 0 gran 0 runs 0"),
    ]);
}

#[test]
fn overlap_and_11() {
    session(&[
        ("dev 1 0 20 0 16 5 6", "0"),
        ("start 5 0 0 16384 0 16385", "11"),
        ("start 5 0 4096 16384 0 16384", "11"),
        ("start 5 0 0 16384 67108864 1", "11"),
        ("start 5 0 0 4294967295 0 4294967295", "11"),
        ("start 5 0 0 1 0 4294967295", "11"),
        ("start 5 0 0 4294967295 0 1", "11"),
        ("start 5 20 4294967296 4294967295 4294967296 4294967295", "11"),
        // READINGS W7: different units, also where they are all there are.
        ("start 5 0 0 16384 0 16384", "0"),
        ("write 5 0 67108864", "0 16384"),
        ("recv 5 32", "0 susp 0 more 0 gran 0 runs 1/0 16384"),
        ("stop 5", "0"),
        // 12,288 of them, listed three times; then 2,049 and 2,048 that share a page, in the 4,096 that are left.
        ("start 5 0 0 12288 0 12288 4096 12287", "0"),
        ("start 6 0 0 2049 8392704 2048", "11"),
        ("start 6 0 0 2049 8388608 2048", "0"),
        ("write 6 0 18446744073709551615", "0 4096"),
        ("recv 6 48", "0 susp 0 more 0 gran 0 runs 2/0 2049/8392704 2047"),
        ("write 5 0 18446744073709551615", "0 12288"),
    ]);
}

#[test]
fn overlap_and_12() {
    session(&[
        ("dev 1 0 8 0 3 5 6", "0"),
        ("start 5 0 65536 1 65536 1 65536 1 65536 1", "12"),
        ("start 5 0 65536 1 65536 1", "0"),
        ("start 6 0 65536 1 65536 1", "12"),
        ("start 6 0 65536 1", "0"),
        ("stop 6", "0"),
        ("stop 5", "0"),
        ("start 6 0 65536 1 65536 1 65536 1", "0"),
        ("start 5 0 65536 1", "12"),
    ]);
}

#[test]
fn overlap_at_granularity_20() {
    session(&[
        ("dev 1 0 20 1 16 5 6", "0"),
        // The last unit, then the last two; units 1 and 2, then 0 to 3.
        ("start 5 20 18446744069414584320 1 18446744065119617024 2 4294967296 2 0 4", "0"),
        ("write 5 0 18446744073709551615", "0 6"),
        (
            "recv 5 4096",
            "0 susp 0 more 0 gran 20 runs 5/18446744069414584320 1/18446744065119617024 1/4294967296 2/0 1/12884901888 1",
        ),
        ("write 5 18446744069414584319 2", "0 2"),
        ("write 5 18446744073709551615 1", "0 0"),
        ("recv 5 47", "0 susp 0 more 1 gran 20 runs 1/18446744069414584320 1"),
        ("recv 5 47", "0 susp 0 more 0 gran 20 runs 1/18446744065119617024 1"),
        // The rule asks the lengths as listed.
        ("start 6 20 0 4 0 3", "10"),
        ("start 6 20 0 4 4294967296 4", "0"),
        ("write 6 0 18446744073709551615", "0 5"),
    ]);
}

// ---------------------------------------------------------------------------------------------------------------
// Suspending
// ---------------------------------------------------------------------------------------------------------------

#[test]
fn pending_units_outlive_suspend_and_resume() {
    session(&[
        (DEV, "0"),
        ("start 5 0 65536 4", "0"),
        ("write 5 65536 1", "0 1"),
        ("write 5 73728 1", "0 1"),
        ("susp 5 0", "0"),
        ("susp 5 1", "0"),
        ("recv 5 32", "0 susp 1 more 1 gran 0 runs 1/65536 1"),
        ("resume 5", "0"),
        ("recv 5 32", "0 susp 0 more 0 gran 0 runs 1/73728 1"),
        ("susp 5 1", "0"),
        ("recv 5 32", "0 susp 1 more 0 gran 0 runs 0"),
        ("recv 5 31", "8"),
    ]);
}

#[test]
fn start_and_stop_clear() {
    session(&[
        (DEV, "0"),
        ("start 5 0 65536 4", "0"),
        ("start 6 0 65536 4", "0"),
        ("write 5 65536 16384", "0 4"),
        ("write 6 65536 4096", "0 1"),
        ("stop 5", "0"),
        ("write 5 65536 16384", "0 0"),
        ("start 5 0 65536 4", "0"),
        ("recv 5 64", "0 susp 0 more 0 gran 0 runs 0"),
        // A refused start clears nothing.
        ("write 5 65536 4096", "0 1"),
        ("start 5 0 65536 4", "3"),
        ("recv 5 64", "0 susp 0 more 0 gran 0 runs 1/65536 1"),
        // The other controller's units are its own.
        ("recv 6 64", "0 susp 0 more 0 gran 0 runs 1/65536 1"),
    ]);
}

// ---------------------------------------------------------------------------------------------------------------
// Edges
// ---------------------------------------------------------------------------------------------------------------

#[test]
fn runs_in_the_order_of_the_list() {
    session(&[
        (DEV, "0"),
        // Pages 20 to 21, then 0 to 1, then 18 to 19.
        ("start 5 0 81920 2 0 2 73728 2", "0"),
        ("write 5 77824 8192", "0 2"),
        ("write 5 4096 1", "0 1"),
        ("recv 5 64", "0 susp 0 more 0 gran 0 runs 3/81920 1/4096 1/77824 1"),
        ("write 5 0 131072", "0 6"),
        ("recv 5 48", "0 susp 0 more 1 gran 0 runs 2/81920 2/0 2"),
        ("recv 5 48", "0 susp 0 more 0 gran 0 runs 1/73728 2"),
    ]);
}

#[test]
fn lengths_of_writes() {
    session(&[
        (DEV, "0"),
        ("start 5 0 65536 4", "0"),
        ("write 5 65535 2", "0 1"),
        ("write 5 65536 4096", "0 0"),
        ("write 5 65536 4097", "0 1"),
        ("write 5 77823 1", "0 1"),
        ("write 5 81919 1", "0 1"),
        ("write 5 81919 2", "0 0"),
        ("write 5 81920 1", "0 0"),
        ("recv 5 64", "0 susp 0 more 0 gran 0 runs 1/65536 4"),
    ]);
}

#[test]
fn granularity_8_to_the_end() {
    session(&[
        (DEV, "0"),
        ("start 5 8 18446744073708503040 1 0 2", "0"),
        ("write 5 1048575 1", "0 1"),
        ("write 5 1048575 2", "0 1"),
        ("write 5 18446744073708503039 1", "0 0"),
        ("write 5 18446744073708503040 1", "0 1"),
        ("write 5 18446744073709551615 1", "0 0"),
        ("recv 5 64", "0 susp 0 more 0 gran 8 runs 2/18446744073708503040 1/0 2"),
    ]);
}

#[test]
fn granularity_20() {
    session(&[
        ("dev 1 0 20 0 16 5 6", "0"),
        ("start 5 20 4294963200 1", "20 0"),
        ("start 5 20 18446744069414584320 2", "21 0"),
        ("start 5 21 0 1", "7"),
        ("start 5 20 18446744069414584320 1 4294967296 2", "0"),
        ("write 5 4294967295 1", "0 0"),
        ("write 5 8589934591 2", "0 2"),
        ("write 5 12884901888 1", "0 0"),
        ("write 5 18446744073709551615 1", "0 1"),
        ("recv 5 4096", "0 susp 0 more 0 gran 20 runs 2/18446744069414584320 1/4294967296 2"),
        // 4,096 units of 2^32 bytes are 2^44 bytes.
        ("start 6 20 0 4096", "0"),
        ("write 6 0 17592186044416", "0 4096"),
        ("recv 6 32", "0 susp 0 more 0 gran 20 runs 1/0 4096"),
    ]);
}

#[test]
fn all_buffers_to_64() {
    for buffer in 0..=64 {
        let line = format!("recv 5 {}", buffer);
        let answer = match buffer {
            0..=31 => "8",
            32..=47 => "0 susp 0 more 1 gran 0 runs 1/65536 1",
            48..=63 => "0 susp 0 more 1 gran 0 runs 2/65536 1/73728 1",
            _ => "0 susp 0 more 0 gran 0 runs 3/65536 1/73728 1/81920 2",
        };
        session(&[
            (DEV, "0"),
            ("start 5 0 65536 8", "0"),
            ("write 5 65536 1", "0 1"),
            ("write 5 73728 1", "0 1"),
            ("write 5 81920 8192", "0 2"),
            (&line, answer),
        ]);
    }
}

#[test]
fn buffer_of_4096() {
    let mut input = format!("{}\nstart 5 0 0 512\n", DEV);
    let mut answers = "0\n0\n".to_string();
    for run in 0..256 {
        input.push_str(&format!("write 5 {} 1\n", run * 8192));
        answers.push_str("0 1\n");
    }
    input.push_str("recv 5 4096\nrecv 5 4096\n");
    answers.push_str("0 susp 0 more 1 gran 0 runs 255\n");
    for run in 0..255 {
        answers.push_str(&format!("{} 1\n", run * 8192));
    }
    // 255 times 8192.
    answers.push_str("0 susp 0 more 0 gran 0 runs 1\n2088960 1\n");
    assert_eq!(output(input.as_bytes()), answers);
}

#[test]
fn exactly_255_runs_leave_no_more() {
    let mut input = format!("{}\nstart 5 0 0 510\n", DEV);
    let mut answers = "0\n0\n".to_string();
    for run in 0..255 {
        input.push_str(&format!("write 5 {} 1\n", run * 8192));
        answers.push_str("0 1\n");
    }
    input.push_str("recv 5 4096\nrecv 5 4096\n");
    answers.push_str("0 susp 0 more 0 gran 0 runs 255\n");
    for run in 0..255 {
        answers.push_str(&format!("{} 1\n", run * 8192));
    }
    answers.push_str("0 susp 0 more 0 gran 0 runs 0\n");
    assert_eq!(output(input.as_bytes()), answers);
}

#[test]
fn limit_0() {
    session(&[
        ("dev 1 0 8 0 0 5", "0"),
        ("start 5 0 65536 4", "12"),
        ("start 5 0", "18 0"),
        ("write 5 65536 1", "0 0"),
        ("recv 5 64", "5"),
    ]);
}

/// 16 ranges of 128 pages each, from 0 on without a gap: the first 8 MiB. Eight times 2,048 pages fill the pool.
fn sixteen_ranges(id: u64, count: u64) -> String {
    let mut line = format!("start {} 0", id);
    for row in 0..count {
        line.push_str(&format!(" {} 128", row * 524288));
    }
    line
}

#[test]
fn eight_controllers_with_16_ranges() {
    let mut input = "dev 1 0 0 1 128 10 11 12 13 14 15 16 17\n".to_string();
    let mut answers = "0\n".to_string();
    for id in 10..18 {
        input.push_str(&sixteen_ranges(id, 16));
        input.push('\n');
        answers.push_str("0\n");
    }
    for id in 10..18 {
        // Controller 10 + k writes all but the first k pages.
        input.push_str(&format!("write {} {} {}\n", id, (id - 10) * 4096, 8388608 - (id - 10) * 4096));
        answers.push_str(&format!("0 {}\n", 2048 - (id - 10)));
    }
    for id in 10..18 {
        input.push_str(&format!("recv {} 48\nrecv {} 4096\n", id, id));
        answers.push_str("0 susp 0 more 1 gran 0 runs 2\n");
        answers.push_str(&format!("{} {}\n", (id - 10) * 4096, 128 - (id - 10)));
        answers.push_str("524288 128\n");
        answers.push_str("0 susp 0 more 0 gran 0 runs 14\n");
        for row in 2..16 {
            answers.push_str(&format!("{} 128\n", row * 524288));
        }
    }
    assert_eq!(output(input.as_bytes()), answers);
}

#[test]
fn limit_127_for_128_ranges() {
    let mut input = "dev 1 0 0 0 127 10 11 12 13 14 15 16 17\n".to_string();
    let mut answers = "0\n".to_string();
    for id in 10..17 {
        input.push_str(&sixteen_ranges(id, 16));
        input.push('\n');
        answers.push_str("0\n");
    }
    // 7 times 16 are 112, and 15 more are 127.
    input.push_str(&format!("{}\n{}\n", sixteen_ranges(17, 16), sixteen_ranges(17, 15)));
    answers.push_str("12\n0\n");
    assert_eq!(output(input.as_bytes()), answers);
}

#[test]
fn sixteen_pairs_and_one_more() {
    session(&[
        ("dev 1 0 8 0 128 5 6", "0"),
        (&start_of(5, 0, 17), "bad"),
        (&format!("{} 0", start_of(5, 0, 16)), "bad"),
        (&start_of(5, 0, 16), "0"),
    ]);
}

#[test]
fn identifiers_0_and_65535() {
    session(&[
        ("dev 7 0 8 0 16 0 65535", "0"),
        ("start 0 0 0 1", "0"),
        ("start 65535 0 0 2", "0"),
        ("write 0 0 8192", "0 1"),
        ("write 65535 0 8192", "0 2"),
        ("recv 0 64", "0 susp 0 more 0 gran 0 runs 1/0 1"),
        ("recv 65535 64", "0 susp 0 more 0 gran 0 runs 1/0 2"),
        ("stop 7", "2"),
        ("stop 1", "2"),
    ]);
}

// ---------------------------------------------------------------------------------------------------------------
// Damaged lines
// ---------------------------------------------------------------------------------------------------------------

/// Each of these lines is bad, before a device and with one, and changes nothing.
#[test]
fn damaged_lines() {
    let lines = [
        // Nothing, and spaces.
        "",
        " ",
        "  ",
        " stop 5",
        "stop 5 ",
        "stop  5",
        "stop 5  ",
        "stop ",
        "write 5  65536 1",
        "write 5 65536 1 ",
        // Other white space.
        "stop\t5",
        "\tstop 5",
        "stop 5\t",
        "stop 5\r",
        "\r",
        "stop\u{a0}5",
        "stop\u{b}5",
        // Words.
        "Stop 5",
        "STOP 5",
        "sto 5",
        "stopp 5",
        "stop5",
        "halt 5",
        "5",
        "5 stop",
        "dev1 0 8 0 16 5",
        "bad",
        "0",
        "# stop 5",
        "suspend 5 1",
        "receive 5 64",
        // Leading zeros, signs and other writings.
        "stop 05",
        "stop 00",
        "stop +5",
        "stop -5",
        "stop -0",
        "stop 5.0",
        "stop 5,",
        "stop 0x5",
        "stop five",
        "stop 5a",
        "stop a5",
        "stop 1e0",
        "stop \"5\"",
        "write 5 065536 1",
        "write 5 65536 01",
        "write 5 65_536 1",
        "recv 5 064",
        "susp 5 01",
        "dev 01 0 8 0 16 5",
        "dev 1 00 8 0 16 5",
        "dev 1 0 8 00 16 5",
        "dev 1 0 8 01 16 5",
        "start 5 0 65536 04",
        // Numbers too large for their fields.
        "stop 65536",
        "resume 65536",
        "write 65536 0 0",
        "write 5 18446744073709551616 0",
        "write 5 0 18446744073709551616",
        "write 5 99999999999999999999999999999999999999999 0",
        "recv 65536 64",
        "recv 5 4097",
        "recv 5 18446744073709551616",
        "susp 65536 1",
        "susp 5 256",
        "start 65536 0 0 1",
        "start 5 256 0 1",
        "start 5 0 18446744073709551616 1",
        "start 5 0 0 4294967296",
        "start 5 0 0 1 4096 4294967296",
        "dev 65536 0 8 0 16 5",
        "dev 1 256 8 0 16 5",
        "dev 1 0 256 0 16 5",
        "dev 1 0 8 2 16 5",
        "dev 1 0 8 255 16 5",
        "dev 1 0 8 0 65536 5",
        "dev 1 0 8 0 16 65536",
        "dev 1 0 8 0 16 2 3 4 5 6 7 8 65536",
        "stop 65541",
        "susp 5 257",
        "stop 18446744073709551621",
        "stop 340282366920938463463374607431768211461",
        // The wrong number of numbers.
        "dev",
        "dev 1",
        "dev 1 0 8 0",
        "dev 1 0 8 0 16 2 3 4 5 6 7 8 9 10",
        "start",
        "start 5",
        "start 5 0 65536",
        "start 5 0 65536 4 69632",
        "stop",
        "stop 5 6",
        "write",
        "write 5",
        "write 5 65536",
        "write 5 65536 1 1",
        "recv",
        "recv 5",
        "recv 5 64 64",
        "susp",
        "susp 5",
        "susp 5 1 1",
        "resume",
        "resume 5 1",
        // Two at once, with a refusal as well.
        "recv 9 4097",
        "susp 9 256",
        // NUL.
        "\0",
        "stop 5\0",
        "stop\0 5",
        "stop \u{0}5",
        "\0stop 5",
        // High bytes.
        "stop ５",
        "stöp 5",
        "\u{feff}stop 5",
    ];
    for line in lines.iter() {
        session(&[
            (line, "bad"),
            ("dev 1 0 8 0 16 5 6", "0"),
            ("start 6 0 65536 4", "0"),
            ("write 6 65536 1", "0 1"),
            (line, "bad"),
            ("recv 6 64", "0 susp 0 more 0 gran 0 runs 1/65536 1"),
            ("stop 5", "5"),
        ]);
    }
}

/// Document 01 has seven words; those of a shelf listing are not among them.
#[test]
fn lines_of_a_shelf_listing() {
    let batches = ["batch", "batch 5 65536 1", "batch 7 0 1", "burst 0 5 0 0", "burst 1 5 65536 1", "burst 1025 5 0 0"];
    let parts = ["part 5 1 0 0 1 00000000", "part 5 2 0 0 0 -", "part 9 4 2 0 1 -", "part 5 1 0 0 1"];
    let queues = ["queue 5 64", "queue 5 63", "post 5 64 -", "post 9 64 00", "take 5 64 1 32", "take 5 64 0 0"];
    let managers =
        ["dev2 1 0 8 0 16 2 4 18 5 6", "dev2 1 0 8 0 16 1 0 128 5 6", "by 1 stop 5", "by 2 recv 5 64", "by 1"];
    let logs = ["log 5", "log 9", "log 1"];
    for line in batches.iter().chain(&parts).chain(&queues).chain(&managers).chain(&logs) {
        check(
            &Session::answer,
            &[
                (line, "bad"),
                (DEV, "0"),
                ("start 5 0 65536 4", "0"),
                (line, "bad"),
                ("recv 5 64", "0 susp 0 more 0 gran 0 runs 0"),
            ],
        );
    }
}

#[test]
fn lines_of_any_bytes() {
    let mut input = Vec::new();
    let mut answers = String::new();
    for byte in 0..=255 {
        // Each byte alone on a line, and behind a call; the line feed ends lines, a digit makes another number.
        if byte == b'\n' {
            continue;
        }
        input.push(byte);
        input.push(b'\n');
        answers.push_str("bad\n");
        input.extend_from_slice(b"stop 5");
        input.push(byte);
        input.push(b'\n');
        if byte.is_ascii_digit() {
            answers.push_str("1\n");
        } else {
            answers.push_str("bad\n");
        }
    }
    assert_eq!(output(&input), answers);
}

#[test]
fn nine_identifiers_are_bad_and_eight_are_not() {
    session(&[
        ("dev 1 0 8 0 16 2 3 4 5 6 7 8 9 10", "bad"),
        ("stop 2", "1"),
        ("dev 1 0 8 0 16 2 3 4 5 6 7 8 9", "0"),
        ("stop 2", "5"),
        ("stop 9", "5"),
        ("stop 10", "2"),
    ]);
}

#[test]
fn ends_of_input() {
    assert_eq!(output(b""), "");
    assert_eq!(output(b"\n"), "bad\n");
    assert_eq!(output(b"\n\n"), "bad\nbad\n");
    assert_eq!(output(b"stop 5"), "1\n");
    assert_eq!(output(b"stop 5\n"), "1\n");
    assert_eq!(output(b"stop 5\n\n"), "1\nbad\n");
    assert_eq!(output(b"\nstop 5"), "bad\n1\n");
    assert_eq!(output(b"stop 5\r\n"), "bad\n");
    assert_eq!(output(b"stop 5\n\0"), "1\nbad\n");
    assert_eq!(output(b"stop 5\n "), "1\nbad\n");
}

#[test]
fn long_lines() {
    for (bytes, ended) in [
        (1022, true),
        (1023, true),
        (1024, true),
        (1025, true),
        (2046, true),
        (2048, true),
        (100_000, true),
        (1023, false),
        (1024, false),
        (100_000, false),
    ]
    .iter()
    {
        let mut input = b"stop 5\n".to_vec();
        input.extend(vec![b'1'; *bytes]);
        if *ended {
            input.extend_from_slice(b"\nstop 5\n");
            assert_eq!(output(&input), "1\nbad\n1\n", "{}", bytes);
        } else {
            assert_eq!(output(&input), "1\nbad\n", "{}", bytes);
        }
    }
    // What stands behind the 1,023rd byte is no line of its own; nor is what stands before it.
    let mut input = vec![b'x'; 1023];
    input.extend_from_slice(b"dev 1 0 8 0 16 5\nstop 5\n");
    assert_eq!(output(&input), "bad\n1\n");
    let mut input = b"dev 1 0 8 0 16 5 6".to_vec();
    input.extend(vec![b' '; 2000]);
    input.extend_from_slice(b"\nstop 5\n");
    assert_eq!(output(&input), "bad\n1\n");
    // A line feed as the 1,024th byte.
    let mut input = vec![b'x'; 1023];
    input.extend_from_slice(b"\ndev 1 0 8 0 16 5\nstop 5\n");
    assert_eq!(output(&input), "bad\n0\n5\n");
}

// ---------------------------------------------------------------------------------------------------------------
// One pool (W7)
// ---------------------------------------------------------------------------------------------------------------

/// Eight controllers, 5 to 12, and a limit that no start here meets.
const EIGHT: &str = "dev 1 0 8 0 128 5 6 7 8 9 10 11 12";

#[test]
fn worked_pool() {
    session(&[
        (EIGHT, "0"),
        ("start 5 0 0 16384", "0"),
        ("start 6 0 0 1", "11"),
        ("stop 5", "0"),
        ("start 6 0 0 1", "0"),
        (EIGHT, "0"),
        ("start 5 0 0 16385", "11"),
        ("start 5 0 0 4097", "0"),
        (EIGHT, "0"),
        ("start 5 0 0 16384 0 16384", "0"),
        (EIGHT, "0"),
        ("start 5 0 0 10000", "0"),
        ("start 6 0 0 6385", "11"),
        ("start 6 0 0 6384", "0"),
    ]);
}

#[test]
fn worked_gaps() {
    let mut lines = vec![(EIGHT.to_string(), "0")];
    for id in 5..13 {
        lines.push((format!("start {} 0 0 2048", id), "0"));
    }
    for (line, answer) in [
        // Pages 2047 and 2048, of which 6 has the first.
        ("write 6 8388607 2", "0 1"),
        ("stop 5", "0"),
        ("stop 7", "0"),
        ("stop 9", "0"),
        ("stop 11", "0"),
        ("start 5 0 0 8193", "11"),
        ("start 5 0 0 8192", "0"),
        ("recv 6 64", "0 susp 0 more 0 gran 0 runs 1/8384512 1"),
    ]
    .iter()
    {
        lines.push((line.to_string(), *answer));
    }
    let lines: Vec<(&str, &str)> = lines.iter().map(|(line, answer)| (line.as_str(), *answer)).collect();
    session(&lines);
}

#[test]
fn the_pool_before_the_limit() {
    session(&[
        ("dev 1 0 8 0 1 5 6", "0"),
        ("start 5 0 0 16384", "0"),
        ("start 6 0 0 1", "11"),
        ("start 6 0 0 3 0 1", "11"),
        ("start 6 0 0 0", "19 0"),
        ("stop 5", "0"),
        ("start 5 0 0 16383", "0"),
        ("start 6 0 0 1", "12"),
        ("start 6 0 0 2", "11"),
    ]);
}

#[test]
fn the_same_pages_of_two_controllers_count_twice() {
    session(&[
        (EIGHT, "0"),
        ("start 5 0 0 8193", "0"),
        ("start 6 0 0 8192", "11"),
        ("start 6 0 0 8191", "0"),
        ("start 7 0 0 1", "11"),
        ("write 5 0 33558528", "0 8193"),
        ("recv 6 32", "0 susp 0 more 0 gran 0 runs 0"),
    ]);
}

#[test]
fn pending_units_of_shares_that_move() {
    session(&[
        (EIGHT, "0"),
        // 6 and 8 have pages 0 to 99; pages 0, 63, 64 and 99 of 6 are pending, and pages 1 and 98 of 8.
        ("start 6 0 0 100", "0"),
        ("start 8 0 0 100", "0"),
        ("write 6 0 1", "0 1"),
        ("write 6 258048 4097", "0 2"),
        ("write 6 405504 1", "0 1"),
        ("write 8 4096 1", "0 1"),
        ("write 8 401408 1", "0 1"),
        // Both move up, by a bit; then 8 by 16,183 more, and 6 is suspended.
        ("start 5 0 0 1", "0"),
        ("susp 6 1", "0"),
        ("start 7 0 0 16183", "0"),
        ("recv 6 32", "0 susp 1 more 1 gran 0 runs 1/0 1"),
        ("start 9 0 0 1", "11"),
        ("stop 7", "0"),
        ("stop 5", "0"),
        // Down again.
        ("start 9 0 0 16184", "0"),
        ("recv 6 64", "0 susp 1 more 0 gran 0 runs 2/258048 2/405504 1"),
        ("recv 8 64", "0 susp 0 more 0 gran 0 runs 2/4096 1/401408 1"),
        ("recv 9 64", "0 susp 0 more 0 gran 0 runs 0"),
    ]);
}

#[test]
fn a_share_that_was_used_before_begins_clear() {
    session(&[
        (EIGHT, "0"),
        ("start 5 0 0 16384", "0"),
        ("write 5 0 67108864", "0 16384"),
        ("stop 5", "0"),
        ("start 6 0 0 8000", "0"),
        ("start 7 0 0 8384", "0"),
        ("recv 6 32", "0 susp 0 more 0 gran 0 runs 0"),
        ("recv 7 32", "0 susp 0 more 0 gran 0 runs 0"),
        ("write 7 0 67108864", "0 8384"),
        ("recv 6 32", "0 susp 0 more 0 gran 0 runs 0"),
        ("stop 7", "0"),
        ("start 7 0 0 8384", "0"),
        ("recv 7 32", "0 susp 0 more 0 gran 0 runs 0"),
    ]);
}

// ---------------------------------------------------------------------------------------------------------------
// Input in pieces, and output in time
// ---------------------------------------------------------------------------------------------------------------

/// Hands out the given pieces one by one. At each read it notes what has been flushed by then.
struct Pieces {
    pieces: Vec<Vec<u8>>,
    next: usize,
    flushed: Rc<RefCell<Vec<u8>>>,
    seen: Vec<String>,
}

impl Read for Pieces {
    fn read(&mut self, buffer: &mut [u8]) -> io::Result<usize> {
        self.seen.push(String::from_utf8(self.flushed.borrow().clone()).unwrap());
        let piece = match self.pieces.get(self.next) {
            None => return Ok(0),
            Some(piece) => piece,
        };
        self.next += 1;
        if piece.is_empty() {
            return Err(io::Error::new(io::ErrorKind::Interrupted, "again"));
        }
        assert!(piece.len() <= buffer.len());
        buffer[..piece.len()].copy_from_slice(piece);
        Ok(piece.len())
    }
}

/// Keeps what is written, and hands it on when flushed.
struct Late {
    waiting: Vec<u8>,
    flushed: Rc<RefCell<Vec<u8>>>,
}

impl Write for Late {
    fn write(&mut self, bytes: &[u8]) -> io::Result<usize> {
        self.waiting.extend_from_slice(bytes);
        Ok(bytes.len())
    }

    fn flush(&mut self) -> io::Result<()> {
        self.flushed.borrow_mut().append(&mut self.waiting);
        Ok(())
    }
}

/// What had been flushed at each read, and in the end.
fn seen(pieces: &[&[u8]]) -> Vec<String> {
    let flushed = Rc::new(RefCell::new(Vec::new()));
    let mut input = Pieces {
        pieces: pieces.iter().map(|piece| piece.to_vec()).collect(),
        next: 0,
        flushed: flushed.clone(),
        seen: Vec::new(),
    };
    let mut output = Late { waiting: Vec::new(), flushed: flushed.clone() };
    play(&mut input, &mut output).unwrap();
    let mut seen = input.seen;
    seen.push(String::from_utf8(flushed.borrow().clone()).unwrap());
    seen
}

#[test]
fn answers_are_flushed_before_waiting() {
    assert_eq!(
        seen(&[b"stop 5\nst", b"op", b"", b" 5", b"\n", b"dev 1 0 8 0 16 5 6\nstop 5\nstop", b" 6"]),
        ["", "1\n", "1\n", "1\n", "1\n", "1\n1\n", "1\n1\n0\n5\n", "1\n1\n0\n5\n", "1\n1\n0\n5\n5\n",]
    );
}

#[test]
fn example_in_pieces_of_every_size() {
    let input: &[u8] = b"dev 1 0 8 0 16 5 6\nstart 5 0 65536 4\nwrite 5 69632 1\nwrite 5 73727 2\nrecv 5 64\nrecv 6 64";
    for size in 1..=input.len() {
        let pieces: Vec<&[u8]> = input.chunks(size).collect();
        assert_eq!(seen(&pieces).last().unwrap(), "0\n0\n0 1\n0 1\n0 susp 0 more 0 gran 0 runs 1\n69632 2\n5\n");
    }
}

#[test]
fn failing_input_and_output() {
    struct Failing;
    impl Read for Failing {
        fn read(&mut self, _: &mut [u8]) -> io::Result<usize> {
            Err(io::Error::new(io::ErrorKind::Other, "gone"))
        }
    }
    impl Write for Failing {
        fn write(&mut self, _: &[u8]) -> io::Result<usize> {
            Err(io::Error::new(io::ErrorKind::BrokenPipe, "gone"))
        }
        fn flush(&mut self) -> io::Result<()> {
            Ok(())
        }
    }
    assert!(play(&mut Failing, &mut Vec::new()).is_err());
    assert!(play(&mut &b"stop 5\n"[..], &mut Failing).is_err());
}

// ---------------------------------------------------------------------------------------------------------------
// Any input at all
// ---------------------------------------------------------------------------------------------------------------

/// A plain generator of numbers, the same in each run.
pub struct Random(pub u64);

impl Random {
    pub fn below(&mut self, bound: usize) -> usize {
        self.0 = self.0.wrapping_mul(6364136223846793005).wrapping_add(1442695040888963407);
        ((self.0 >> 33) as usize) % bound
    }
}

/// Random calls with telling numbers: never a panic, one answer for each line, and never again 1 once there is a
/// device ("From a fresh device no sequence of calls leads to an unsound record").
#[test]
fn random_calls() {
    let words = ["start", "start", "start", "stop", "write", "write", "write", "recv", "recv", "susp", "resume", "dev"];
    let numbers = [
        "0",
        "0",
        "1",
        "1",
        "2",
        "3",
        "4",
        "5",
        "5",
        "6",
        "6",
        "8",
        "16",
        "20",
        "31",
        "32",
        "48",
        "64",
        "128",
        "4096",
        "4097",
        "8192",
        "12288",
        "16384",
        "65536",
        "1048576",
        "4294967295",
        "4294967296",
        "18446744069414584320",
        "18446744073708503040",
        "18446744073709547520",
        "18446744073709551615",
    ];
    let mut random = Random(1);
    let mut session = Session::default();
    let mut shelf = Shelf::default();
    let dev = Cut::Line(b"dev 1 0 20 0 128 5 6 8".to_vec());
    assert_eq!(session.answer(&dev), "0\n");
    assert_eq!(shelf.answer(&dev), "0\n");
    let mut done = 0;
    for _ in 0..30_000 {
        let word = words[random.below(words.len())];
        let count = match word {
            "start" => 2 + 2 * random.below(5),
            "stop" | "resume" => 1,
            "write" => 3,
            "recv" | "susp" => 2,
            _ => 5 + random.below(4),
        };
        let mut line = word.to_string();
        for _ in 0..count {
            line.push(' ');
            line.push_str(numbers[random.below(numbers.len())]);
        }
        let before = session.clone();
        let cut = Cut::Line(line.clone().into_bytes());
        let answer = session.answer(&cut);
        assert_eq!(without_groups(&shelf.answer(&cut)), answer, "{}", line);
        assert!(answer.ends_with('\n'), "{}", line);
        assert_ne!(answer, "1\n", "{}", line);
        if answer == "0\n" || answer.starts_with("0 ") {
            done += 1;
        } else {
            assert_eq!(answer.lines().count(), 1);
            assert_eq!(session, before, "{}", line);
            // A row behind 18 to 21, and behind no other number.
            let words: Vec<&str> = answer.split_whitespace().collect();
            let has_row = ["18", "19", "20", "21"].contains(&words[0]);
            assert_eq!(words.len(), if has_row { 2 } else { 1 }, "{}", line);
        }
    }
    assert!(done > 100, "{}", done);
}

#[test]
fn random_bytes() {
    let alphabet = b"devstartstopwriterecvsuspresume   0123456789\t\r\n\n\0\xff";
    let mut random = Random(2);
    let mut input = Vec::new();
    for _ in 0..200_000 {
        input.push(alphabet[random.below(alphabet.len())]);
    }
    input.push(b'\n');
    let lines = input.iter().filter(|byte| **byte == b'\n').count();
    // No device ever comes of this, so each line has one answer of one line.
    assert_eq!(output(&input).lines().count(), lines);
}
