//! Groups examined (W10). The expected answers are worked out by hand from document 02 and READINGS (W10).
//!
//! A unit is a page: 8192 is page 2, 241664 page 59, 258048 page 63, 262144 page 64, 286720 page 70, 409600 page 100, 532480
//! page 130, 696320 page 170, 67104768 page 16383.

use super::*;
use crate::tests::{check, DEV};

fn shelf(lines: &[(&str, &str)]) {
    check(&Shelf::answer, lines);
}

// ---------------------------------------------------------------------------------------------------------------
// The worked numbers of READINGS W10
// ---------------------------------------------------------------------------------------------------------------

#[test]
fn worked_report_after_report() {
    shelf(&[
        (DEV, "0"),
        ("start 5 0 0 200", "0"),
        ("batch 5 0 1 5 286720 1 5 532480 1", "0 done 3 new 3 refusal 0"),
        ("recv 5 47", "0 susp 0 more 1 gran 0 runs 1 groups 2/0 1"),
        ("recv 5 47", "0 susp 0 more 1 gran 0 runs 1 groups 3/286720 1"),
        ("recv 5 47", "0 susp 0 more 0 gran 0 runs 1 groups 4/532480 1"),
        ("recv 5 47", "0 susp 0 more 0 gran 0 runs 0 groups 4"),
    ]);
}

#[test]
fn worked_groups_are_not_words_of_the_pool() {
    shelf(&[
        (DEV, "0"),
        ("start 5 0 0 5", "0"),
        ("start 6 0 0 100", "0"),
        ("batch 6 0 1 6 241664 1", "0 done 2 new 2 refusal 0"),
        ("recv 6 47", "0 susp 0 more 1 gran 0 runs 1 groups 1/0 1"),
    ]);
}

#[test]
fn worked_border_of_a_group() {
    shelf(&[
        (DEV, "0"),
        ("start 5 0 0 128", "0"),
        ("write 5 262143 2", "0 2"),
        ("recv 5 47", "0 susp 0 more 0 gran 0 runs 1 groups 2/258048 2"),
        ("batch 5 0 1 5 8192 1", "0 done 2 new 2 refusal 0"),
        ("recv 5 47", "0 susp 0 more 1 gran 0 runs 1 groups 1/0 1"),
        // As two ranges of 64.
        (DEV, "0"),
        ("start 5 0 0 64 262144 64", "0"),
        ("write 5 262143 2", "0 2"),
        ("recv 5 47", "0 susp 0 more 1 gran 0 runs 1 groups 2/258048 1"),
    ]);
}

#[test]
fn worked_ranges_that_overlap() {
    // 200 different units: pages 100 to 163, then 0 to 99, then 164 to 199.
    for (notes, answer) in [
        ("batch 5 0 1 5 8192 1", "0 susp 0 more 1 gran 0 runs 1 groups 2/0 1"),
        ("batch 5 0 1 5 696320 1", "0 susp 0 more 1 gran 0 runs 1 groups 3/0 1"),
        ("batch 5 409600 1 5 0 1", "0 susp 0 more 1 gran 0 runs 1 groups 2/409600 1"),
        ("batch", "0 susp 0 more 0 gran 0 runs 0 groups 4"),
    ]
    .iter()
    {
        let noted = if *notes == "batch" { "0 done 0 new 0 refusal 0" } else { "0 done 2 new 2 refusal 0" };
        shelf(&[(DEV, "0"), ("start 5 0 409600 64 0 200", "0"), (notes, noted), ("recv 5 47", answer)]);
    }
}

#[test]
fn worked_numbers_of_units() {
    for (units, groups) in [(1, 1), (64, 1), (65, 2), (128, 2), (129, 3), (16384, 256)].iter() {
        shelf(&[
            (DEV, "0"),
            (&format!("start 5 0 0 {}", units), "0"),
            ("recv 5 32", &format!("0 susp 0 more 0 gran 0 runs 0 groups {}", groups)),
            ("recv 5 31", "8"),
            ("recv 6 32", "5"),
            ("recv 7 32", "2"),
        ]);
    }
}

// ---------------------------------------------------------------------------------------------------------------
// More
// ---------------------------------------------------------------------------------------------------------------

#[test]
fn the_run_behind_the_room_begins_anywhere() {
    // Page 0 and another: with room for one run it is that page's group, with room for two all 256.
    for (page, groups) in
        [(2, 1), (63, 1), (64, 2), (127, 2), (128, 3), (16319, 255), (16320, 256), (16383, 256)].iter()
    {
        let address = page * 4096;
        for (buffer, answer) in [
            (47, format!("0 susp 0 more 1 gran 0 runs 1 groups {}/0 1", groups)),
            (48, format!("0 susp 0 more 0 gran 0 runs 2 groups 256/0 1/{} 1", address)),
        ]
        .iter()
        {
            shelf(&[
                (DEV, "0"),
                ("start 5 0 0 16384", "0"),
                (&format!("batch 5 0 1 5 {} 1", address), "0 done 2 new 2 refusal 0"),
                (&format!("recv 5 {}", buffer), answer),
            ]);
        }
    }
}

#[test]
fn a_session_listing_has_no_groups() {
    check(&Session::answer, &[(DEV, "0"), ("start 5 0 0 200", "0"), ("recv 5 32", "0 susp 0 more 0 gran 0 runs 0")]);
}
