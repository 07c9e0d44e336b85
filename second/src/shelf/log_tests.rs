//! The numbers for the log (W13). The expected answers are worked out by hand from document 02 and READINGS (0.7 and W13).
//!
//! A unit is a page where no granularity is named: 65536 is page 16, 69632 page 17, 73728 page 18, 77824 page 19.

use super::*;
use crate::log::{Booked, Log, Totals};
use crate::tests::{check, Random, DEV};

/// Controller 5 tracks pages 16 to 19. After `DEV` controller 6 runs and is not tracked.
const START: &str = "start 5 0 65536 4";
/// How a controller's log reads if nothing has been booked, and if a total has passed 2^64 - 1.
const NOTHING: &str = "0 marked 0 reported 0 dropped 0";
const NO_NUMBERS: &str = "0 marked unknown reported unknown dropped unknown";
const MOST: u128 = 18446744073709551615;

fn shelf(lines: &[(&str, &str)]) {
    check(&Shelf::answer, lines);
}

/// A shelf with the document's own settings, 5 started, and these totals of 5.
fn shelf_with(marked: u128, reported: u128, dropped: u128) -> Shelf {
    let mut shelf = Shelf::default();
    assert_eq!(answer(&mut shelf, DEV), "0\n");
    assert_eq!(answer(&mut shelf, START), "0\n");
    shelf.session.log.controllers[0].1 = Totals { marked, reported, dropped };
    shelf
}

fn answer(shelf: &mut Shelf, line: &str) -> String {
    shelf.answer(&Cut::Line(line.as_bytes().to_vec()))
}

/// Plays lines on such a shelf.
fn goes_on(mut shelf: Shelf, lines: &[(&str, &str)]) {
    for (line, expected) in lines {
        assert_eq!(answer(&mut shelf, line), format!("{}\n", expected.replace("/", "\n")), "{}", line);
    }
}

// ---------------------------------------------------------------------------------------------------------------
// The worked numbers of READINGS W13
// ---------------------------------------------------------------------------------------------------------------

#[test]
fn worked_example() {
    shelf(&[
        (DEV, "0"),
        (START, "0"),
        ("write 5 69632 1", "0 1"),
        ("write 5 73727 2", "0 1"),
        ("log 5", "0 marked 2 reported 0 dropped 0"),
        ("recv 5 64", "0 susp 0 more 0 gran 0 runs 1 groups 1/69632 2"),
        ("recv 6 64", "5"),
        ("log 5", "0 marked 2 reported 2 dropped 0"),
        ("log 6", NOTHING),
    ]);
}

#[test]
fn worked_units_and_not_runs() {
    shelf(&[
        (DEV, "0"),
        (START, "0"),
        ("write 5 65536 16384", "0 4"),
        ("recv 5 32", "0 susp 0 more 0 gran 0 runs 1 groups 1/65536 4"),
        ("log 5", "0 marked 4 reported 4 dropped 0"),
        ("write 5 65536 12288", "0 3"),
        ("log 5", "0 marked 7 reported 4 dropped 0"),
        ("stop 5", "0"),
        ("log 5", "0 marked 7 reported 4 dropped 3"),
    ]);
}

#[test]
fn worked_the_same_unit_again() {
    shelf(&[
        (DEV, "0"),
        (START, "0"),
        ("write 5 65536 1", "0 1"),
        ("recv 5 32", "0 susp 0 more 0 gran 0 runs 1 groups 1/65536 1"),
        ("write 5 65536 1", "0 1"),
        ("write 5 65537 1", "0 0"),
        ("log 5", "0 marked 2 reported 1 dropped 0"),
        ("susp 5 1", "0"),
        ("stop 5", "4"),
        ("log 5", "0 marked 2 reported 1 dropped 0"),
        (DEV, "0"),
        ("log 5", NOTHING),
        ("log 6", NOTHING),
    ]);
}

#[test]
fn worked_at_2_64() {
    let full = "0 marked 18446744073709551615 reported 0 dropped 0";
    goes_on(
        shelf_with(MOST, 0, 0),
        &[
            ("log 5", full),
            ("write 5 0 1", "0 0"),
            ("log 5", full),
            ("write 5 65536 1", "0 1"),
            ("log 5", NO_NUMBERS),
            ("log 6", NOTHING),
        ],
    );
}

// ---------------------------------------------------------------------------------------------------------------
// About 2^64
// ---------------------------------------------------------------------------------------------------------------

#[test]
fn tracking_goes_on() {
    goes_on(
        shelf_with(MOST - 3, 0, 0),
        &[
            ("write 5 65536 16384", "0 4"),
            ("log 5", NO_NUMBERS),
            ("recv 5 32", "0 susp 0 more 0 gran 0 runs 1 groups 1/65536 4"),
            ("log 5", NO_NUMBERS),
            ("write 5 69632 1", "0 1"),
            ("stop 5", "0"),
            ("log 5", NO_NUMBERS),
            (START, "0"),
            ("write 5 69632 1", "0 1"),
            ("dev 1 0 8 0 129 5 6", "16"),
            ("log 5", NO_NUMBERS),
            // Only a new device begins anew.
            (DEV, "0"),
            ("log 5", NOTHING),
        ],
    );
}

#[test]
fn reports_and_stops_may_pass_it_too() {
    // No session has such totals, as marked is the greatest there; each is asked all the same.
    let marked = ("write 5 65536 16384", "0 4");
    let report = ("recv 5 32", "0 susp 0 more 0 gran 0 runs 1 groups 1/65536 4");
    goes_on(
        shelf_with(0, MOST - 4, 0),
        &[marked, report, ("log 5", "0 marked 4 reported 18446744073709551615 dropped 0"), marked, report],
    );
    goes_on(shelf_with(0, MOST - 3, 0), &[marked, report, ("log 5", NO_NUMBERS)]);
    goes_on(
        shelf_with(0, 0, MOST - 4),
        &[marked, ("stop 5", "0"), ("log 5", "0 marked 4 reported 0 dropped 18446744073709551615")],
    );
    goes_on(shelf_with(0, 0, MOST - 3), &[marked, ("stop 5", "0"), ("log 5", NO_NUMBERS)]);
}

#[test]
fn batches_about_2_64() {
    let list = "batch 5 65536 1 5 69632 1 5 73728 1 5 77824 1";
    let done = "0 done 4 new 4 refusal 0";
    goes_on(
        shelf_with(MOST - 4, 0, 0),
        &[
            (list, done),
            ("log 5", "0 marked 18446744073709551615 reported 0 dropped 0"),
            (list, "0 done 4 new 0 refusal 0"),
        ],
    );
    goes_on(
        shelf_with(MOST - 3, 0, 0),
        &[(list, done), ("log 5", NO_NUMBERS), ("recv 5 32", "0 susp 0 more 0 gran 0 runs 1 groups 1/65536 4")],
    );
}

// ---------------------------------------------------------------------------------------------------------------
// What is booked
// ---------------------------------------------------------------------------------------------------------------

#[test]
fn refusals() {
    shelf(&[
        ("log 5", "1"),
        ("log 0", "1"),
        ("dev 1 0 8 0 129 5", "16"),
        ("log 5", "1"),
        (DEV, "0"),
        ("log 5", NOTHING),
        ("log 6", NOTHING),
        ("log 7", "2"),
        ("log 0", "2"),
        ("log 1", "2"),
        ("by 1 log 5", "bad"),
        ("log", "bad"),
        ("log 65536", "bad"),
        // Unused places hold a 0, which is nobody's name.
        ("dev2 1 0 8 0 16 2 4 18 0 6", "0"),
        ("log 0", NOTHING),
        ("log 5", "2"),
        ("log 2", "2"),
        ("log 1", "2"),
    ]);
}

#[test]
fn a_log_may_be_asked_whatever_the_controller_does() {
    shelf(&[
        (DEV, "0"),
        ("log 5", NOTHING),
        (START, "0"),
        ("log 5", NOTHING),
        ("write 5 65536 1", "0 1"),
        ("susp 5 1", "0"),
        ("log 5", "0 marked 1 reported 0 dropped 0"),
        ("part 5 1 0 0 1 00000000", "0 whole 0"),
        ("queue 5 64", "0"),
        ("log 5", "0 marked 1 reported 0 dropped 0"),
        ("recv 5 32", "0 susp 1 more 0 gran 0 runs 1 groups 1/65536 1"),
        ("log 5", "0 marked 1 reported 1 dropped 0"),
        ("resume 5", "0"),
        ("stop 5", "0"),
        ("log 5", "0 marked 1 reported 1 dropped 0"),
    ]);
}

#[test]
fn refused_calls_book_nothing() {
    let pending = "0 marked 3 reported 0 dropped 0";
    shelf(&[
        ("dev2 1 0 8 0 16 2 4 18 5 6", "0"),
        (START, "0"),
        ("write 5 65536 12288", "0 3"),
        ("log 5", pending),
        ("write 5 77824 18446744073709551615", "14"),
        ("write 7 77824 1", "2"),
        ("recv 5 31", "8"),
        ("by 2 recv 5 64", "5"),
        ("by 3 recv 5 64", "2"),
        ("recv 6 64", "5"),
        ("by 2 stop 5", "5"),
        ("by 3 stop 5", "2"),
        ("stop 6", "5"),
        (START, "3"),
        ("burst 1025 5 77824 1", "22"),
        ("batch 7 0 1 5 77824 1", "0 done 0 new 0 refusal 2"),
        ("susp 5 1", "0"),
        ("write 5 77824 1", "4"),
        ("stop 5", "4"),
        ("log 5", pending),
        ("log 6", NOTHING),
        ("resume 5", "0"),
        ("stop 5", "0"),
        ("stop 5", "5"),
        ("log 5", "0 marked 3 reported 0 dropped 3"),
    ]);
}

#[test]
fn what_is_done_with_0() {
    shelf(&[
        (DEV, "0"),
        ("write 5 65536 1", "0 0"),
        ("batch 5 65536 1 6 65536 1", "0 done 2 new 0 refusal 0"),
        ("batch", "0 done 0 new 0 refusal 0"),
        (START, "0"),
        ("write 5 65536 0", "0 0"),
        ("write 5 0 65536", "0 0"),
        ("recv 5 32", "0 susp 0 more 0 gran 0 runs 0 groups 1"),
        ("stop 5", "0"),
        ("log 5", NOTHING),
    ]);
}

#[test]
fn a_report_of_part() {
    // Pages 16, 18 and 19: two runs, and room for one.
    shelf(&[
        (DEV, "0"),
        (START, "0"),
        ("batch 5 65536 1 5 73728 8192", "0 done 2 new 3 refusal 0"),
        ("recv 5 47", "0 susp 0 more 1 gran 0 runs 1 groups 1/65536 1"),
        ("log 5", "0 marked 3 reported 1 dropped 0"),
        ("stop 5", "0"),
        ("log 5", "0 marked 3 reported 1 dropped 2"),
        // The totals go on, whatever is tracked next.
        ("start 5 8 0 2", "0"),
        ("log 5", "0 marked 3 reported 1 dropped 2"),
        // Units of 1 MiB.
        ("write 5 1048575 2", "0 2"),
        ("log 5", "0 marked 5 reported 1 dropped 2"),
        ("recv 5 47", "0 susp 0 more 0 gran 8 runs 1 groups 1/0 2"),
        ("log 5", "0 marked 5 reported 3 dropped 2"),
        ("stop 5", "0"),
        ("log 5", "0 marked 5 reported 3 dropped 2"),
    ]);
}

#[test]
fn batches_note_by_note() {
    shelf(&[
        (DEV, "0"),
        (START, "0"),
        ("start 6 0 65536 2", "0"),
        // 5: 1, 0, 2 and 0; 6: 2 and 0. The last two aren't tried.
        (
            "batch 5 65536 1 6 65536 16384 5 65536 1 5 65536 12288 6 69632 1 5 0 1 7 0 1 5 77824 1",
            "0 done 6 new 5 refusal 2",
        ),
        ("log 5", "0 marked 3 reported 0 dropped 0"),
        ("log 6", "0 marked 2 reported 0 dropped 0"),
        ("burst 1024 5 77824 1", "0 done 1024 new 1 refusal 0"),
        ("burst 0 5 77824 1", "0 done 0 new 0 refusal 0"),
        ("log 5", "0 marked 4 reported 0 dropped 0"),
        ("stop 6", "0"),
        ("log 5", "0 marked 4 reported 0 dropped 0"),
        ("log 6", "0 marked 2 reported 0 dropped 2"),
    ]);
}

#[test]
fn pages_listed_twice() {
    // Pages 16 to 19, and 18 to 21 of which two belong to the first range: 6 units.
    shelf(&[
        (DEV, "0"),
        ("start 5 0 65536 4 73728 4", "0"),
        ("write 5 65536 24576", "0 6"),
        ("log 5", "0 marked 6 reported 0 dropped 0"),
        ("recv 5 47", "0 susp 0 more 1 gran 0 runs 1 groups 1/65536 4"),
        ("log 5", "0 marked 6 reported 4 dropped 0"),
        ("stop 5", "0"),
        ("log 5", "0 marked 6 reported 4 dropped 2"),
    ]);
}

#[test]
fn the_whole_pool() {
    shelf(&[
        (DEV, "0"),
        ("start 5 0 0 16384", "0"),
        ("write 5 0 67108864", "0 16384"),
        ("recv 5 32", "0 susp 0 more 0 gran 0 runs 1 groups 256/0 16384"),
        ("write 5 0 67108864", "0 16384"),
        ("log 5", "0 marked 32768 reported 16384 dropped 0"),
        ("stop 5", "0"),
        ("start 6 0 0 16384", "0"),
        ("log 6", NOTHING),
        ("log 5", "0 marked 32768 reported 16384 dropped 16384"),
    ]);
}

#[test]
fn shares_that_move() {
    shelf(&[
        ("dev 1 0 8 0 16 5 6 7", "0"),
        ("start 6 0 65536 4", "0"),
        ("write 6 65536 8192", "0 2"),
        ("start 5 0 0 100", "0"),
        ("start 7 0 0 100", "0"),
        ("write 7 0 409600", "0 100"),
        ("stop 5", "0"),
        ("log 5", NOTHING),
        ("stop 6", "0"),
        ("log 6", "0 marked 2 reported 0 dropped 2"),
        ("log 7", "0 marked 100 reported 0 dropped 0"),
    ]);
}

#[test]
fn new_devices_and_refused_ones() {
    shelf(&[
        (DEV, "0"),
        (START, "0"),
        ("write 5 65536 16384", "0 4"),
        ("dev 1 0 8 0 16 5 5", "16"),
        ("dev2 1 0 8 0 16 1 1 128 5 6", "16"),
        ("log 5", "0 marked 4 reported 0 dropped 0"),
        // What is pending is gone with the device, and not dropped.
        ("dev 1 0 8 0 16 6 5", "0"),
        ("log 5", NOTHING),
        ("log 6", NOTHING),
        (START, "0"),
        ("write 5 65536 1", "0 1"),
        ("stop 5", "0"),
        ("log 5", "0 marked 1 reported 0 dropped 1"),
        ("log 6", NOTHING),
        ("dev2 1 0 8 0 16 2 4 18 5", "0"),
        ("log 5", NOTHING),
        ("log 6", "2"),
    ]);
}

#[test]
fn both_managers_have_one_log() {
    shelf(&[
        ("dev2 1 0 8 0 16 2 4 18 5 6", "0"),
        ("by 2 start 5 0 65536 4", "0"),
        ("write 5 65536 8192", "0 2"),
        ("by 2 recv 5 64", "0 susp 0 more 0 gran 0 runs 1 groups 1/65536 2"),
        ("write 5 65536 1", "0 1"),
        ("by 2 stop 5", "0"),
        ("log 5", "0 marked 3 reported 2 dropped 1"),
        ("by 1 start 5 0 65536 4", "0"),
        ("write 5 65536 16384", "0 4"),
        ("log 5", "0 marked 7 reported 2 dropped 1"),
        ("by 1 stop 5", "0"),
        ("log 5", "0 marked 7 reported 2 dropped 5"),
    ]);
}

// ---------------------------------------------------------------------------------------------------------------
// Any lines
// ---------------------------------------------------------------------------------------------------------------

/// A line of two managers' settings with three controllers, often a good one.
fn random_line(random: &mut Random) -> String {
    let id = [5, 5, 6, 6, 7, 9][random.below(6)];
    let by = ["", "", "by 1 ", "by 1 ", "by 2 "][random.below(5)];
    let mut note = || {
        format!(" {} {} {}", [5, 6, 7, 5, 6, 7, 5, 9][random.below(8)], 2048 * random.below(99), random.below(99999))
    };
    let notes = [note(), note(), note(), note()];
    match random.below(24) {
        0 if random.below(8) == 0 => {
            ["dev2 1 0 8 0 16 2 4 18 5 6 7", "dev 1 0 8 0 16 5 6 5"][random.below(2)].to_string()
        }
        0..=4 => {
            let mut line = format!("{}start {} {}", by, id, [0, 0, 0, 1][random.below(4)]);
            for _ in 0..[0, 1, 2, 2, 3, 4][random.below(6)] {
                line.push_str(&format!(" {} {}", 8192 * random.below(25), 1 + random.below(15)));
            }
            line
        }
        5 | 6 => format!("{}stop {}", by, id),
        7 => format!("{}susp {} {}", by, id, [0, 1, 2, 0, 1][random.below(5)]),
        8..=10 => format!("{}resume {}", by, id),
        11..=13 => format!("{}recv {} {}", by, id, [31, 32, 48, 64, 4096][random.below(5)]),
        14 | 15 => format!("batch{}", notes[..random.below(5)].join("")),
        16 => format!("burst {}{}", random.below(4), notes[0]),
        17 => format!("log {}", id),
        _ => format!("write{}", notes[0]),
    }
}

/// How many units a controller has pending, as reports to each manager would tell it.
fn pending(session: &Session, id: u64) -> u128 {
    let mut session = session.clone();
    let mut units = 0;
    for by in [1, 2].iter() {
        if let Ok(report) = session.recv(*by, id, 4096) {
            units += told(&report.others);
        }
    }
    units
}

/// The lengths of descriptors together, from their lines.
fn told(lines: &str) -> u128 {
    lines.lines().map(|line| line.split(' ').nth(1).unwrap().parse::<u128>().unwrap()).sum()
}

/// Every line's numbers are told from its answer, and those of a stop from the report that would have come before it; they
/// make the log. And "At every moment marked is reported plus dropped plus pending."
#[test]
fn numbers_from_the_answers() {
    let mut random = Random(15);
    let mut most = Totals::default();
    for _ in 0..60 {
        let mut shelf = Shelf::default();
        assert_eq!(answer(&mut shelf, "dev2 1 0 8 0 16 2 4 18 5 6 7"), "0\n");
        let mut expected = Log::new(&[5, 6, 7]);
        for _ in 0..200 {
            let line = random_line(&mut random);
            let before = shelf.session.clone();
            let answered = answer(&mut shelf, &line);
            let words: Vec<&str> = line.split(' ').skip_while(|word| *word == "by" || word.len() == 1).collect();
            let number = |place: usize| words[place].parse::<u64>().unwrap();
            let done = answered.starts_with("0");
            match words[0] {
                "dev2" if done => expected = Log::new(&[5, 6, 7]),
                "stop" if done => expected.book(number(1), Booked::Dropped(pending(&before, number(1)))),
                "recv" if done => {
                    expected.book(number(1), Booked::Reported(told(answered.split_once('\n').unwrap().1)))
                }
                "write" if done => {
                    expected.book(number(1), Booked::Marked(answered[2..].trim_end().parse().unwrap()));
                }
                // As many single writes on the shelf before it.
                "batch" | "burst" if done => {
                    let notes: Vec<String> = match words[0] {
                        "batch" => words[1..].chunks(3).map(|note| note.join(" ")).collect(),
                        _ => vec![words[2..].join(" "); number(1) as usize],
                    };
                    let mut singly = before.clone();
                    let notes_done: usize = answered.split(' ').nth(2).unwrap().parse().unwrap();
                    for note in notes.iter().take(notes_done) {
                        let single = singly.answer(&Cut::Line(format!("write {}", note).into_bytes()));
                        let id = note.split(' ').next().unwrap().parse().unwrap();
                        expected.book(id, Booked::Marked(single[2..].trim_end().parse().unwrap()));
                    }
                }
                _ => {}
            }
            for (id, totals) in &expected.controllers {
                let Totals { marked, reported, dropped } = *totals;
                let log = format!("0 marked {} reported {} dropped {}\n", marked, reported, dropped);
                assert_eq!(answer(&mut shelf, &format!("log {}", id)), log, "{}", line);
                assert_eq!(marked, reported + dropped + pending(&shelf.session, *id), "{}", line);
                most.marked = most.marked.max(marked);
                most.reported = most.reported.max(reported);
                most.dropped = most.dropped.max(dropped);
            }
        }
    }
    assert!(most.marked > 60 && most.reported > 30 && most.dropped > 15, "{:?}", most);
}

/// Unknown numbers, and numbers asked for, change nothing else: each line has the same answer, and leaves the same device.
#[test]
fn the_log_changes_nothing_else() {
    let mut random = Random(16);
    for _ in 0..30 {
        let (mut plain, mut other) = (Shelf::default(), Shelf::default());
        for line in ["dev2 1 0 8 0 16 2 4 18 5 6 7", "start 5 0 0 10", "by 2 start 6 0 0 10"].iter() {
            assert_eq!(answer(&mut plain, line), answer(&mut other, line));
        }
        for (_, totals) in other.session.log.controllers.iter_mut() {
            *totals = Totals { marked: MOST, reported: MOST, dropped: MOST };
        }
        for _ in 0..80 {
            let line = random_line(&mut random);
            if line.starts_with("log ") {
                continue;
            }
            let answered = answer(&mut plain, &line);
            assert_eq!(answered, answer(&mut other, &line), "{}", line);
            assert_eq!(plain.session.device, other.session.device, "{}", line);
            let before = other.clone();
            answer(&mut other, "log 5");
            assert_eq!(other, before);
        }
    }
}
