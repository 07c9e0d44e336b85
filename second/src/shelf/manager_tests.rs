//! Shelf listings with two managers (W12). The expected answers are worked out by hand from document 02 and READINGS (0.7 and
//! W12).

use super::*;
use crate::tests::{check, Random, DEV};

/// READINGS W12: managers 1 (16) and 2 (4), shelf 18, controllers 5, 6 and 7.
const DEV2: &str = "dev2 1 0 8 0 16 2 4 18 5 6 7";

fn shelf(lines: &[(&str, &str)]) {
    check(&Shelf::answer, lines);
}

/// A `start` line with so many ranges of one page.
fn start(id: u64, count: u64) -> String {
    let mut line = format!("start {} 0", id);
    for row in 0..count {
        line.push_str(&format!(" {} 1", row * 8192));
    }
    line
}

/// The same by this manager.
fn start_by(by: u64, id: u64, count: u64) -> String {
    format!("by {} {}", by, start(id, count))
}

/// Each line that may be called by a manager, of controller 5.
const LINES: [&str; 6] =
    ["start 5 0 65536 4", "stop 5", "recv 5 64", "susp 5 1", "resume 5", "part 5 1 0 0 1 00000000"];

// ---------------------------------------------------------------------------------------------------------------
// The worked numbers of READINGS W12
// ---------------------------------------------------------------------------------------------------------------

#[test]
fn worked_managers() {
    shelf(&[
        (DEV2, "0"),
        (&start_by(1, 5, 10), "0"),
        (&start_by(2, 5, 1), "3"),
        ("by 2 stop 5", "5"),
        ("by 2 recv 5 16", "5"),
        (&start_by(3, 5, 1), "2"),
        (&start_by(3, 6, 1), "2"),
        ("by 3 stop 5", "2"),
        ("by 3 recv 5 64", "2"),
        ("by 3 susp 5 1", "2"),
        ("by 3 resume 5", "2"),
        ("by 3 part 5 1 0 0 1 00000000", "2"),
        (&start_by(1, 1, 1), "2"),
        (&start_by(1, 2, 1), "2"),
        (&start_by(2, 6, 5), "12"),
        (&start_by(2, 6, 4), "0"),
        (&start_by(1, 7, 7), "12"),
        (&start_by(1, 7, 5), "34"),
        (&start_by(1, 7, 4), "0"),
        ("by 2 susp 5 1", "0"),
        ("by 1 stop 5", "4"),
        ("by 2 stop 5", "4"),
        ("by 1 resume 5", "0"),
        ("by 1 stop 5", "0"),
        (&start_by(1, 5, 10), "0"),
    ]);
}

#[test]
fn worked_shelf_limit_of_one_manager() {
    shelf(&[("dev2 1 0 8 0 16 1 0 3 5 6", "0"), (&start(5, 4), "34"), (&start(5, 3), "0"), (&start(6, 1), "34")]);
}

// ---------------------------------------------------------------------------------------------------------------
// `dev2`
// ---------------------------------------------------------------------------------------------------------------

#[test]
fn refused_devices_keep_the_one_there_was() {
    let mut lines = vec![(DEV2, "0"), ("by 2 start 6 0 65536 4", "0"), ("write 6 65536 1", "0 1")];
    for refused in [
        "dev2 1 0 8 0 16 1 1 18 5 6",     // second equal to manager, with a limit
        "dev2 1 0 8 0 16 1 16 18 5 6",    // the same limit
        "dev2 1 0 8 0 16 1 129 18 5 6",   // one above 128
        "dev2 1 0 8 0 16 5 4 18 5 6",     // a controller
        "dev2 1 0 8 0 16 6 0 18 5 6",     // a controller, with limit 0
        "dev2 5 0 8 0 16 2 4 18 5 6",     // so the first
        "dev2 5 0 8 0 16 5 0 18 5 6",     // one manager, a controller
        "dev2 1 0 8 0 129 2 4 18 5 6",    // limits
        "dev2 1 0 8 0 16 2 129 18 5 6",   //
        "dev2 1 0 8 0 16 2 4 129 5 6",    //
        "dev2 1 0 8 0 16 1 0 129 5 6",    //
        "dev2 1 0 8 0 65535 2 4 18 5 6",  //
        "dev2 1 0 8 0 16 2 65535 18 5 6", //
        "dev2 1 0 8 0 16 2 4 65535 5 6",  //
        "dev2 1 9 8 0 16 2 4 18 5 6",     // least and greatest
        "dev2 1 0 21 0 16 2 4 18 5 6",    //
        "dev2 1 0 8 0 16 2 4 18 5 5",     // 5 twice
        "dev2 1 0 8 0 16 2 4 18",         // no controller
    ]
    .iter()
    {
        lines.push((refused, "16"));
    }
    lines.push(("by 2 recv 6 64", "0 susp 0 more 0 gran 0 runs 1 groups 1/65536 1"));
    shelf(&lines);
    // Where there was none, there is none.
    shelf(&[("dev2 1 0 8 0 16 1 1 18 5 6", "16"), ("stop 5", "1"), ("by 1 stop 5", "1"), (DEV2, "0"), ("stop 5", "5")]);
}

#[test]
fn devices_that_are_done() {
    for done in [
        "dev2 1 0 8 0 16 1 0 0 5 6",
        "dev2 1 0 8 0 16 2 0 128 5 6",
        "dev2 1 0 8 0 0 2 0 0 5 6",
        "dev2 1 0 8 0 128 2 128 128 5 6",
        "dev2 0 0 20 1 128 65535 128 128 5 6",
        "dev2 65535 20 20 0 1 0 1 1 5",
        "dev2 1 0 8 0 16 257 4 18 5 6 7 8 9 10 11 12",
    ]
    .iter()
    {
        shelf(&[(done, "0"), ("stop 5", "5"), ("resume 5", "13")]);
    }
}

#[test]
fn a_device_of_one_manager_is_that_of_dev() {
    let mut by_dev = Shelf::default();
    let mut by_dev2 = Shelf::default();
    by_dev.answer(&Cut::Line(DEV.as_bytes().to_vec()));
    by_dev2.answer(&Cut::Line(b"dev2 1 0 8 0 16 1 0 128 5 6".to_vec()));
    assert_eq!(by_dev, by_dev2);
    // A second one with limit 0 is another device: it may suspend and resume, and nothing more of its own.
    shelf(&[
        ("dev2 1 0 8 0 16 2 0 128 5 6", "0"),
        ("by 2 start 5 0 65536 4", "12"),
        ("by 1 start 5 0 65536 4", "0"),
        ("by 2 recv 5 64", "5"),
        ("by 2 susp 5 1", "0"),
        ("by 2 resume 5", "0"),
        (DEV, "0"),
        ("by 2 susp 5 1", "2"),
        ("by 1 susp 5 1", "0"),
    ]);
}

#[test]
fn a_new_device_forgets_who_tracked() {
    shelf(&[
        (DEV2, "0"),
        (&start_by(1, 5, 14), "0"),
        (&start_by(2, 6, 4), "0"),
        (DEV2, "0"),
        ("by 1 stop 5", "5"),
        ("by 2 stop 6", "5"),
        (&start_by(1, 6, 14), "0"),
        (&start_by(2, 5, 4), "0"),
        // The managers change their places and limits: 1 is the second one.
        ("dev2 2 0 8 0 16 1 4 18 5 6 7", "0"),
        (&start_by(1, 5, 5), "12"),
        (&start_by(2, 5, 16), "0"),
        (&start_by(1, 6, 3), "34"),
        (&start_by(1, 6, 2), "0"),
        ("stop 6", "5"),
        ("stop 5", "0"),
    ]);
}

// ---------------------------------------------------------------------------------------------------------------
// `by`
// ---------------------------------------------------------------------------------------------------------------

#[test]
fn without_by_the_first_manager_calls() {
    shelf(&[
        (DEV2, "0"),
        ("start 5 0 65536 4", "0"),
        ("by 2 start 6 0 65536 4", "0"),
        ("batch 5 65536 1 6 65536 1", "0 done 2 new 2 refusal 0"),
        ("by 2 recv 5 64", "5"),
        ("recv 6 64", "5"),
        ("by 1 recv 5 64", "0 susp 0 more 0 gran 0 runs 1 groups 1/65536 1"),
        ("by 2 recv 6 64", "0 susp 0 more 0 gran 0 runs 1 groups 1/65536 1"),
        ("stop 6", "5"),
        ("by 1 stop 5", "0"),
        ("by 2 stop 6", "0"),
        // The first one is the one that is named first, whatever the identifiers are.
        ("dev2 2 0 8 0 16 1 4 18 5 6 7", "0"),
        ("start 5 0 65536 4", "0"),
        ("by 1 stop 5", "5"),
        ("by 2 stop 5", "0"),
    ]);
}

#[test]
fn before_a_device_all_is_1() {
    let mut lines = Vec::new();
    for line in LINES.iter() {
        lines.push((line.to_string(), "1"));
        for by in [0, 1, 2, 65535].iter() {
            lines.push((format!("by {} {}", by, line), "1"));
        }
        // And what is bad is bad.
        lines.push((format!("by 65536 {}", line), "bad"));
        lines.push((format!("by {}", line), "bad"));
    }
    let lines: Vec<(&str, &str)> = lines.iter().map(|(line, answer)| (line.as_str(), *answer)).collect();
    shelf(&lines);
}

#[test]
fn bad_lines_change_nothing() {
    shelf(&[
        (DEV2, "0"),
        ("by 2 dev 1 0 8 0 16 5 6", "bad"),
        ("by 2 dev2 1 0 8 0 16 2 4 18 5 6 7", "bad"),
        ("by 2 write 5 65536 1", "bad"),
        ("by 2 batch", "bad"),
        ("by 2 burst 1 5 65536 1", "bad"),
        ("by 2 queue 5 64", "bad"),
        ("by 2 post 5 64 00", "bad"),
        ("by 2 take 5 64 1 32", "bad"),
        ("by 2 old -", "bad"),
        ("by 2 new -", "bad"),
        ("by 2 save 1 1 0 8 0 16 1 0 128 5 6", "bad"),
        ("by 2 by 2 stop 5", "bad"),
        ("by 2 stop", "bad"),
        ("by 2", "bad"),
        ("by", "bad"),
        ("by 2 start 5 0 65536", "bad"),
        ("by 02 stop 5", "bad"),
        ("dev2 1 0 8 0 16 2 4", "bad"),
        ("by 2 stop 5", "5"),
    ]);
}

#[test]
fn a_session_listing_has_neither() {
    let mut lines = vec![(DEV.to_string(), "0"), (DEV2.to_string(), "bad")];
    for line in LINES.iter() {
        lines.push((format!("by 1 {}", line), "bad"));
    }
    lines.push(("stop 5".to_string(), "5"));
    let lines: Vec<(&str, &str)> = lines.iter().map(|(line, answer)| (line.as_str(), *answer)).collect();
    check(&Session::answer, &lines);
}

#[test]
fn long_lines() {
    // 16 pairs of the greatest numbers, whose rows are refused; a manager's name doesn't make a line too long.
    let long = format!("by 2 start 5 0{}", " 18446744073709551615 4294967295".repeat(16));
    shelf(&[(DEV2, "0"), (&long, "20 0")]);
    // The bound is of the whole line.
    let mut input = format!("{}\n", DEV2).into_bytes();
    for (bytes, filler) in [(16383, " "), (16384, " "), (16384, "0")].iter() {
        let mut line = "by 2 stop 5".to_string();
        line.push_str(&filler.repeat(bytes - line.len()));
        input.extend_from_slice(line.as_bytes());
        input.push(b'\n');
    }
    input.extend_from_slice(b"by 2 stop 5\n");
    let mut output = Vec::new();
    play(&mut &input[..], &mut output).unwrap();
    assert_eq!(String::from_utf8(output).unwrap(), "0\nbad\nbad\nbad\n5\n");
}

// ---------------------------------------------------------------------------------------------------------------
// More
// ---------------------------------------------------------------------------------------------------------------

#[test]
fn orders_of_the_refusals() {
    shelf(&[
        ("dev2 1 0 8 0 16 2 4 6 5 6 7", "0"),
        ("by 2 start 5 0 0 1 8192 1", "0"),
        ("susp 6 1", "0"),
        // An unknown manager, an unknown controller, 4, 3, 7, 18, 19 to 21, 11, 12, 34.
        ("by 3 start 6 9", "2"),
        ("by 3 start 9 9", "2"),
        ("by 2 start 9 9", "2"),
        ("by 2 start 6 9", "4"),
        ("by 1 start 5 9", "3"),
        ("by 2 start 5 9", "3"),
        ("by 2 start 7 9 0 16384 0 0 0 0", "7"),
        ("by 2 start 7 0", "18 0"),
        ("by 2 start 7 0 0 16384 0 0", "19 1"),
        ("by 2 start 7 0 0 16384 1 1", "20 1"),
        ("by 2 start 7 0 0 16383 0 1 0 1", "11"),
        ("by 2 start 7 0 0 16382 0 1 0 1", "12"),
        ("by 1 start 7 0 0 16383 0 1 0 1 0 1 0 1", "11"),
        ("by 1 start 7 0 0 16382 0 1 0 1 0 1 0 1", "34"),
        ("by 1 start 7 0 0 16382 0 1 0 1 0 1", "0"),
        // Stop: 2, 2, 4, 5. Receive: 2, 2, 5, 8. Suspend: 2, 2, 15. Resume: 2, 2, 13. A part: 2, 2, 13, then 24.
        ("by 3 stop 6", "2"),
        ("by 1 stop 9", "2"),
        ("by 1 stop 6", "4"),
        ("by 1 stop 5", "5"),
        ("by 3 recv 5 31", "2"),
        ("by 1 recv 9 31", "2"),
        ("by 1 recv 5 31", "5"),
        ("by 2 recv 5 31", "8"),
        ("by 3 susp 5 2", "2"),
        ("by 2 susp 9 2", "2"),
        ("by 1 susp 5 2", "15"),
        ("by 3 resume 5", "2"),
        ("by 2 resume 2", "2"),
        ("by 1 resume 5", "13"),
        ("by 3 part 5 4 2 0 0 -", "2"),
        ("by 2 part 9 4 2 0 0 -", "2"),
        ("by 1 part 5 4 2 0 0 -", "13"),
        ("by 1 part 6 4 2 0 0 -", "24"),
        ("by 2 part 6 4 0 0 0 -", "25"),
    ]);
}

#[test]
fn suspension_belongs_to_the_controller() {
    shelf(&[
        (DEV2, "0"),
        ("by 1 start 5 0 65536 4", "0"),
        ("write 5 65536 1", "0 1"),
        ("by 2 susp 5 1", "0"),
        ("by 1 susp 5 1", "0"),
        ("write 5 69632 1", "4"),
        ("by 1 recv 5 64", "0 susp 1 more 0 gran 0 runs 1 groups 1/65536 1"),
        ("by 2 start 5 0 65536 4", "4"),
        ("by 2 susp 5 0", "0"),
        ("by 2 resume 5", "0"),
        ("by 1 resume 5", "13"),
        ("write 5 69632 1", "0 1"),
        ("by 2 stop 5", "5"),
        ("by 1 stop 5", "0"),
        // The other one may track it next, with nothing pending.
        ("by 2 start 5 0 65536 4", "0"),
        ("by 2 recv 5 64", "0 susp 0 more 0 gran 0 runs 0 groups 1"),
    ]);
}

#[test]
fn parts_by_both() {
    let zeros = "00".repeat(16);
    let whole = format!("0 whole 48/{}", "00".repeat(48));
    shelf(&[
        (DEV2, "0"),
        ("by 2 susp 5 1", "0"),
        ("susp 6 1", "0"),
        (&format!("by 1 part 5 1 0 0 4 {}", zeros), "0 whole 0"),
        (&format!("by 2 part 5 0 16 0 4 {}", zeros), "0 whole 0"),
        (&format!("by 2 part 6 1 0 0 4 {}", zeros), "23"),
        (&format!("by 3 part 5 2 32 0 4 {}", zeros), "2"),
        (&format!("part 5 2 32 0 4 {}", zeros), &whole),
        // A resume by the other one drops what one has begun.
        (&format!("by 1 part 5 1 0 0 4 {}", zeros), "0 whole 0"),
        ("by 2 resume 5", "0"),
        (&format!("by 2 part 6 1 0 0 4 {}", zeros), "0 whole 0"),
        (&format!("by 1 part 6 0 16 0 4 {}", zeros), "0 whole 0"),
    ]);
}

#[test]
fn writes_and_queues_have_no_manager() {
    shelf(&[
        (DEV2, "0"),
        ("by 2 start 5 0 65536 4", "0"),
        ("write 5 65536 1", "0 1"),
        ("batch 5 69632 1 6 0 1", "0 done 2 new 1 refusal 0"),
        ("write 2 65536 1", "2"),
        ("write 1 65536 1", "2"),
        ("batch 2 65536 1", "0 done 0 new 0 refusal 2"),
        ("queue 5 64", "0"),
        ("queue 2 64", "2"),
        ("queue 1 64", "2"),
        (&format!("post 5 64 {}", "07".repeat(32)), "0 stopped 0"),
        ("take 2 64 1 32", "2"),
        ("take 5 64 1 32", &format!("0 taken 1 closing 0/{}", "07".repeat(32))),
        ("by 2 recv 5 64", "0 susp 0 more 0 gran 0 runs 1 groups 1/65536 2"),
    ]);
}

#[test]
fn one_pool() {
    shelf(&[
        (DEV2, "0"),
        ("by 1 start 6 0 0 10000", "0"),
        ("by 2 start 5 0 0 6385", "11"),
        ("by 2 start 5 0 0 6384", "0"),
        ("by 1 start 7 0 0 1", "11"),
        ("write 6 40955904 1", "0 1"),
        ("by 2 stop 5", "0"),
        // The share of 6 moves; page 9,999 is pending as ever.
        ("by 2 start 7 0 0 1", "0"),
        ("recv 6 64", "0 susp 0 more 0 gran 0 runs 1 groups 157/40955904 1"),
    ]);
}

#[test]
fn files_and_devices() {
    // What `save` takes `dev2` does, and the other way round; `save` refuses a version besides.
    for rest in [
        "1 0 8 0 16 2 4 18 5 6 7",
        "1 0 8 0 16 1 0 128 5 6",
        "1 0 8 0 16 1 1 128 5 6",
        "1 0 8 0 16 5 1 128 5 6",
        "1 0 8 0 16 2 129 128 5 6",
        "1 0 8 0 16 2 4 129 5 6",
        "1 0 8 0 16 2 4 18",
        "0 0 20 1 0 65535 0 0 1",
        "0 0 20 1 0 0 0 0 0",
    ]
    .iter()
    {
        let mut played = Shelf::default();
        let answer = |shelf: &mut Shelf, line: String| shelf.answer(&Cut::Line(line.into_bytes()));
        let saved = answer(&mut played, format!("save 2 {}", rest));
        let made = answer(&mut played, format!("dev2 {}", rest));
        if made == "0\n" {
            // The file read again names the device's settings.
            let read = answer(&mut played, format!("new {}", saved.trim_end().trim_start_matches("0 ")));
            assert_eq!(read, format!("0 {}\n", rest));
        } else {
            assert_eq!((saved, made), ("16\n".to_string(), "16\n".to_string()));
        }
    }
}

/// A line of document 01 or a part, of the document's own settings, often a good one.
fn random_line(random: &mut Random) -> String {
    let id = [1, 5, 5, 5, 6, 6, 6, 9][random.below(8)];
    let page = 4096 * random.below(20);
    match random.below(12) {
        0 => [DEV, "dev 1 0 8 1 3 5 6", "dev 1 0 8 0 129 5 6"][random.below(3)].to_string(),
        1 | 2 => {
            let mut line = format!("start {} {}", id, [0, 0, 0, 9][random.below(4)]);
            for _ in 0..random.below(4) {
                line.push_str(&format!(" {} {}", 4096 * random.below(20), random.below(6)));
            }
            line
        }
        3 => format!("stop {}", id),
        4 => format!("susp {} {}", id, random.below(3)),
        5 => format!("resume {}", id),
        6 | 7 => format!("recv {} {}", id, [31, 32, 48, 4096, 4097][random.below(5)]),
        8 => format!("part {} {} {} 0 1 00000000", id, random.below(4), 4 * random.below(3)),
        _ => format!("write {} {} {}", id, page, random.below(9000)),
    }
}

/// A listing of one manager is answered as it is where each line that may name its manager does, and each device is made with
/// the shelf limit 128.
#[test]
fn one_manager_by_name() {
    let mut random = Random(14);
    for _ in 0..100 {
        let (mut plain, mut named) = (Shelf::default(), Shelf::default());
        for _ in 0..80 {
            let line = random_line(&mut random);
            let by_name = match line.split(' ').next().unwrap() {
                "dev" => {
                    let fields: Vec<&str> = line.split(' ').skip(1).collect();
                    format!("dev2 {} 1 0 128 {}", fields[..5].join(" "), fields[5..].join(" "))
                }
                "write" => line.clone(),
                _ => format!("by 1 {}", line),
            };
            let expected = plain.answer(&Cut::Line(line.clone().into_bytes()));
            assert_eq!(named.answer(&Cut::Line(by_name.into_bytes())), expected, "{}", line);
            assert_eq!(plain, named);
        }
    }
}
