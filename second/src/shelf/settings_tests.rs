//! Settings files (W11). The expected answers are worked out by hand from document 02 and READINGS (0.7 and W11).

use super::*;
use crate::tests::{check, DEV};

fn shelf(lines: &[(&str, &str)]) {
    check(&Shelf::answer, lines);
}

const TRK: &str = "54524b";
/// Behind the version, up to the last place: manager 1, granularities 0 to 8, rule off, limit 16, controllers 5 and 6.
const BODY: &str = "010000080010000205000600000000000000000000000000";
/// Version 2 with one manager and the shelf limit 128.
const ALONE: &str = "010000008000";

fn version_1(body: &str) -> String {
    format!("{}0100{}", TRK, body)
}

fn version_2(body: &str, added: &str) -> String {
    format!("{}0200{}{}", TRK, body, added)
}

/// The answers of both readers to a file.
fn both(file: &str, old: &str, new: &str) {
    shelf(&[(&format!("old {}", file), old), (&format!("new {}", file), new)]);
}

// ---------------------------------------------------------------------------------------------------------------
// The worked numbers of READINGS W11
// ---------------------------------------------------------------------------------------------------------------

#[test]
fn worked_files() {
    let (first, same, two) = (
        version_1(BODY),
        version_2(BODY, ALONE),
        version_2("010000080010000305000600070000000000000000000000", "020004001200"),
    );
    both(&first, "0 1 0 8 0 16 5 6", "0 1 0 8 0 16 1 0 128 5 6");
    both(&same, "32", "0 1 0 8 0 16 1 0 128 5 6");
    both(&two, "32", "0 1 0 8 0 16 2 4 18 5 6 7");
    shelf(&[
        ("save 1 1 0 8 0 16 1 0 128 5 6", &format!("0 {}", first)),
        ("save 2 1 0 8 0 16 1 0 128 5 6", &format!("0 {}", same)),
        ("save 2 1 0 8 0 16 2 4 18 5 6 7", &format!("0 {}", two)),
        ("save 1 1 0 8 0 16 2 4 18 5 6 7", "32"),
    ]);
}

#[test]
fn worked_refusals() {
    both("-", "35", "35");
    both("54524b78", "35", "35");
    both("58585858", "35", "35");
    both("5858585858", "31", "31");
    both("74726b0100", "31", "31");
    both("54524b0100", "35", "35");
    both("54524b0300", "32", "32");
    both(&version_1(&BODY[..46]), "35", "35");
    both(&version_1(&format!("{}00", BODY)), "35", "35");
    both(&version_2(BODY, ""), "32", "35");
    both(&version_2(BODY, "010003008000"), "32", "16");
    both(&version_2(BODY, "050003008000"), "32", "16");
    both(&version_2(BODY, "010000008100"), "32", "16");
    both(&version_2(BODY, "010000000000"), "32", "0 1 0 8 0 16 1 0 0 5 6");
    both(&version_1("010000080010000205000600070000000000000000000000"), "16", "16");
}

// ---------------------------------------------------------------------------------------------------------------
// More
// ---------------------------------------------------------------------------------------------------------------

#[test]
fn what_a_file_may_say() {
    for (body, number) in [
        ("010000080110000205000600000000000000000000000000", "0 1 0 8 1 16 5 6"), // rule on
        ("010000080210000205000600000000000000000000000000", "16"),               // rule 2
        ("010000080080000205000600000000000000000000000000", "0 1 0 8 0 128 5 6"), // limit 128
        ("010000080081000205000600000000000000000000000000", "16"),               // limit 129
        ("010000080010010205000600000000000000000000000000", "16"),               // limit 272
        ("010000080010000000000000000000000000000000000000", "16"),               // no controller
        ("010000080010000805000600070008000900020003000400", "0 1 0 8 0 16 5 6 7 8 9 2 3 4"),
        ("010000080010000905000600070008000900020003000400", "16"), // nine
        ("010009080010000205000600000000000000000000000000", "16"), // least above greatest
        ("010000150010000205000600000000000000000000000000", "16"), // greatest 21
        ("050000080010000205000600000000000000000000000000", "16"), // the manager is controller 5
        ("010000080010000205000500000000000000000000000000", "16"), // 5 twice
        ("000000080010000205000600000000000000000000000000", "0 0 0 8 0 16 5 6"), // the manager is 0, as spare places are
        ("010000080010000200000600000000000000000000000000", "0 1 0 8 0 16 0 6"), // and a controller
        ("ffff00080010000200010100000000000000000000000000", "0 65535 0 8 0 16 256 1"),
    ]
    .iter()
    {
        shelf(&[(&format!("old {}", version_1(body)), number)]);
    }
}

#[test]
fn one_manager_or_two() {
    for (added, number) in [
        ("020000008000", "0 1 0 8 0 16 2 0 128 5 6"), // a second one with limit 0
        ("020080000000", "0 1 0 8 0 16 2 128 0 5 6"),
        ("020081000000", "16"),
        ("060004001200", "16"),                      // controller 6
        ("000004001200", "0 1 0 8 0 16 0 4 18 5 6"), // 0 in a spare place is no controller
        ("010100001200", "0 1 0 8 0 16 257 0 18 5 6"),
        ("010000011200", "16"), // equal with limit 256
    ]
    .iter()
    {
        shelf(&[(&format!("new {}", version_2(BODY, added)), number)]);
    }
}

#[test]
fn the_writer_refuses_16_then_32() {
    shelf(&[
        ("save 1 1 0 8 0 16 1 1 128 5 6", "16"),
        ("save 3 1 0 8 0 16 1 0 129 5 6", "16"),
        ("save 3 1 0 8 0 16 1 0 128", "16"),
        ("save 3 1 0 8 0 16 1 0 128 5 6", "32"),
        ("save 0 1 0 8 0 16 1 0 128 5 6", "32"),
        ("save 513 1 0 8 0 16 1 0 128 5 6", "32"),
        ("save 1 1 0 8 0 16 1 0 127 5 6", "32"),
        ("save 1 1 0 8 0 16 2 0 128 5 6", "32"),
        ("save 2 1 0 8 0 16 5 0 128 5 6", "16"),
    ]);
}

#[test]
fn they_need_no_device_and_leave_it() {
    let file = version_1(BODY);
    let (old, new) = (format!("old {}", file), format!("new {}", file));
    let lines = [
        (old.as_str(), "0 1 0 8 0 16 5 6"),
        (&new, "0 1 0 8 0 16 1 0 128 5 6"),
        ("old -", "35"),
        ("save 1 1 0 8 0 16 1 0 127 5 6", "32"),
    ];
    shelf(
        &[&lines[..], &[("stop 5", "1"), (DEV, "0"), ("start 5 0 65536 4", "0"), ("write 5 65536 1", "0 1")]].concat(),
    );
    let mut played = Shelf::default();
    for line in [DEV, "start 5 0 65536 4", "write 5 65536 1", "susp 6 1"].iter() {
        played.answer(&Cut::Line(line.as_bytes().to_vec()));
    }
    let before = played.clone();
    for (line, _) in lines.iter() {
        played.answer(&Cut::Line(line.as_bytes().to_vec()));
        assert_eq!(played, before, "{}", line);
    }
}

#[test]
fn a_session_listing_has_none_of_them() {
    let file = version_1(BODY);
    check(
        &Session::answer,
        &[
            ("old -", "bad"),
            (&format!("old {}", file), "bad"),
            (&format!("new {}", file), "bad"),
            ("save 1 1 0 8 0 16 1 0 128 5 6", "bad"),
        ],
    );
}
