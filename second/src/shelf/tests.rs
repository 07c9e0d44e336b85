//! Whole shelf listings. The expected answers are worked out by hand from document 02 (W4) and READINGS (0.7 and W4).
//!
//! Pages: 65536 is page 16, 69632 page 17, 73728 page 18, 77824 page 19, 81920 page 20, 86016 page 21.
//! Ends: 2^64 = 18446744073709551616, 2^64 - 4096 = 18446744073709547520.

use super::*;
use crate::tests::{check, Random, DEV};

/// Controller 5 tracks pages 16 to 19. After `DEV` controller 6 runs and is not tracked.
const START: &str = "start 5 0 65536 4";

fn shelf(lines: &[(&str, &str)]) {
    check(&Shelf::answer, lines);
}

/// Plays bytes as a whole input.
fn output(input: &[u8]) -> String {
    let mut output = Vec::new();
    play(&mut &input[..], &mut output).unwrap();
    String::from_utf8(output).unwrap()
}

fn batch_of(notes: &[&str]) -> String {
    let mut line = "batch".to_string();
    for note in notes {
        line.push(' ');
        line.push_str(note);
    }
    line
}

// ---------------------------------------------------------------------------------------------------------------
// The worked numbers of READINGS W4
// ---------------------------------------------------------------------------------------------------------------

#[test]
fn worked_cut_in_the_middle() {
    shelf(&[
        (DEV, "0"),
        (START, "0"),
        ("batch 5 69632 1 5 73727 2 6 0 5 7 0 1 5 65536 1", "0 done 3 new 2 refusal 2"),
        // Unit 0 is clear: the note behind the refused one was not tried.
        ("recv 5 64", "0 susp 0 more 0 gran 0 runs 1 groups 1/69632 2"),
        ("write 5 65536 1", "0 1"),
    ]);
}

#[test]
fn worked_first_note_refused_and_empty_list() {
    shelf(&[
        (DEV, "0"),
        (START, "0"),
        ("batch 7 0 1", "0 done 0 new 0 refusal 2"),
        ("batch", "0 done 0 new 0 refusal 0"),
        ("recv 5 64", "0 susp 0 more 0 gran 0 runs 0 groups 1"),
    ]);
}

#[test]
fn worked_equal_notes() {
    shelf(&[
        (DEV, "0"),
        (START, "0"),
        ("batch 5 65536 1 5 65536 1", "0 done 2 new 1 refusal 0"),
        (DEV, "0"),
        (START, "0"),
        ("burst 1024 5 65536 1", "0 done 1024 new 1 refusal 0"),
        ("recv 5 64", "0 susp 0 more 0 gran 0 runs 1 groups 1/65536 1"),
    ]);
}

#[test]
fn worked_end_of_memory() {
    shelf(&[
        (DEV, "0"),
        (START, "0"),
        ("batch 5 18446744073709551615 1 5 18446744073709551615 2", "0 done 1 new 0 refusal 14"),
    ]);
}

#[test]
fn worked_suspended() {
    shelf(&[
        (DEV, "0"),
        (START, "0"),
        ("susp 5 1", "0"),
        ("batch 6 0 1 5 65536 1 6 0 1", "0 done 1 new 0 refusal 4"),
        ("recv 5 64", "0 susp 1 more 0 gran 0 runs 0 groups 1"),
    ]);
}

#[test]
fn worked_1024_and_1025() {
    shelf(&[(DEV, "0"), (START, "0"), ("burst 1024 7 0 0", "0 done 0 new 0 refusal 2"), ("burst 1025 7 0 0", "22")]);
}

// ---------------------------------------------------------------------------------------------------------------
// Where a batch is cut
// ---------------------------------------------------------------------------------------------------------------

/// Notes that are refused, where controller 6 is suspended and 1 is the manager. The order is 2, 4, 14.
const BAD_NOTES: [(&str, u64); 9] = [
    ("7 65536 1", 2),
    ("1 65536 1", 2),
    ("65535 0 0", 2),
    ("7 18446744073709551615 2", 2),
    ("6 65536 1", 4),
    ("6 65536 0", 4),
    ("6 18446744073709551615 2", 4),
    ("5 18446744073709551615 2", 14),
    ("5 65536 18446744073709551615", 14),
];

/// Page after page from page 16 on.
const GOOD_NOTES: [&str; 6] = ["5 65536 1", "5 69632 1", "5 73728 1", "5 77824 1", "5 81920 1", "5 86016 1"];

#[test]
fn each_refusal_at_each_place() {
    for place in 0..6 {
        for (bad, refusal) in &BAD_NOTES {
            let mut notes = GOOD_NOTES.to_vec();
            notes[place] = *bad;
            let answer = format!("0 done {} new {} refusal {}", place, place, refusal);
            let report = match place {
                0 => "0 susp 0 more 0 gran 0 runs 0 groups 1".to_string(),
                _ => format!("0 susp 0 more 0 gran 0 runs 1 groups 1/65536 {}", place),
            };
            shelf(&[
                (DEV, "0"),
                ("start 5 0 65536 6", "0"),
                ("susp 6 1", "0"),
                (&batch_of(&notes), &answer),
                (&batch_of(&notes[place..]), &format!("0 done 0 new 0 refusal {}", refusal)),
                // What was done before stays pending, and counts no second time.
                (&batch_of(&notes), &format!("0 done {} new 0 refusal {}", place, refusal)),
                ("recv 5 64", &report),
                (&batch_of(&GOOD_NOTES), "0 done 6 new 6 refusal 0"),
            ]);
        }
    }
}

#[test]
fn the_first_refused_note_answers() {
    for later in 1..6 {
        for earlier in 0..later {
            for (bad, refusal) in &BAD_NOTES {
                for (other, _) in &BAD_NOTES {
                    let mut notes = GOOD_NOTES.to_vec();
                    notes[earlier] = *bad;
                    notes[later] = *other;
                    let answer = format!("0 done {} new {} refusal {}", earlier, earlier, refusal);
                    shelf(&[(DEV, "0"), ("start 5 0 65536 6", "0"), ("susp 6 1", "0"), (&batch_of(&notes), &answer)]);
                }
            }
        }
    }
}

#[test]
fn reports_after_a_cut_batch() {
    shelf(&[
        (DEV, "0"),
        ("start 5 0 65536 8", "0"),
        // Page 16, then 18 and 19, then a note that touches nothing; page 21 is cut off.
        ("batch 5 65536 1 5 73728 8192 6 0 1 7 0 1 5 86016 1", "0 done 3 new 3 refusal 2"),
        ("recv 5 47", "0 susp 0 more 1 gran 0 runs 1 groups 1/65536 1"),
        ("recv 5 47", "0 susp 0 more 0 gran 0 runs 1 groups 1/73728 2"),
        ("recv 5 47", "0 susp 0 more 0 gran 0 runs 0 groups 1"),
        // The rest of the list, without the refused note.
        ("batch 5 86016 1", "0 done 1 new 1 refusal 0"),
        ("recv 5 47", "0 susp 0 more 0 gran 0 runs 1 groups 1/86016 1"),
    ]);
}

// ---------------------------------------------------------------------------------------------------------------
// What is counted
// ---------------------------------------------------------------------------------------------------------------

#[test]
fn a_unit_counts_once() {
    shelf(&[
        (DEV, "0"),
        (START, "0"),
        ("write 5 69632 1", "0 1"),
        // Pages 16 and 17, 17 and 18, 18 and 19, and all: page 17 was pending before.
        ("batch 5 65536 8192 5 69632 8192 5 73728 8192 5 65536 16384", "0 done 4 new 3 refusal 0"),
        ("batch 5 65536 16384 5 0 18446744073709551615", "0 done 2 new 0 refusal 0"),
        ("recv 5 64", "0 susp 0 more 0 gran 0 runs 1 groups 1/65536 4"),
        // Reported, so they are new again.
        ("batch 5 65536 16384 5 65536 16384", "0 done 2 new 4 refusal 0"),
    ]);
}

#[test]
fn a_unit_of_two_ranges_counts_once() {
    shelf(&[
        (DEV, "0"),
        // Pages 16 to 19 and 18 to 21. The notes: page 18; 17 to 19; 19 and 20.
        ("start 5 0 65536 4 73728 4", "0"),
        ("batch 5 73728 1 5 69632 12288 5 77824 8192", "0 done 3 new 4 refusal 0"),
        ("recv 5 47", "0 susp 0 more 1 gran 0 runs 1 groups 1/69632 3"),
        ("recv 5 47", "0 susp 0 more 0 gran 0 runs 1 groups 1/81920 1"),
    ]);
}

#[test]
fn notes_of_two_controllers() {
    shelf(&[
        (DEV, "0"),
        (START, "0"),
        ("start 6 8 1048576 4", "0"),
        // 1, then 2 units of 1 MiB, then 1; the last two touch one of these again, and none.
        ("batch 5 65536 1 6 2097151 2 5 69632 1 6 1048576 1 6 0 1", "0 done 5 new 4 refusal 0"),
        ("recv 5 64", "0 susp 0 more 0 gran 0 runs 1 groups 1/65536 2"),
        ("recv 6 64", "0 susp 0 more 0 gran 8 runs 1 groups 1/1048576 2"),
        // The same page of each of them is two units.
        (DEV, "0"),
        (START, "0"),
        ("start 6 0 65536 4", "0"),
        ("batch 5 65536 1 6 65536 1 5 65536 1", "0 done 3 new 2 refusal 0"),
        ("recv 6 64", "0 susp 0 more 0 gran 0 runs 1 groups 1/65536 1"),
        ("recv 5 64", "0 susp 0 more 0 gran 0 runs 1 groups 1/65536 1"),
    ]);
}

#[test]
fn all_units_of_eight_controllers() {
    let mut lines = vec![("dev 1 0 0 0 128 10 11 12 13 14 15 16 17".to_string(), "0".to_string())];
    let mut notes = Vec::new();
    for id in 10..18 {
        lines.push((format!("start {} 0 0 2048", id), "0".to_string()));
        notes.push(format!("{} 0 16777216", id));
    }
    let notes: Vec<&str> = notes.iter().map(|note| note.as_str()).collect();
    // 8 times 2,048.
    lines.push((batch_of(&notes), "0 done 8 new 16384 refusal 0".to_string()));
    lines.push((batch_of(&notes), "0 done 8 new 0 refusal 0".to_string()));
    for id in 10..18 {
        lines.push((format!("recv {} 32", id), "0 susp 0 more 0 gran 0 runs 1 groups 32/0 2048".to_string()));
    }
    let lines: Vec<(&str, &str)> = lines.iter().map(|(line, answer)| (line.as_str(), answer.as_str())).collect();
    shelf(&lines);
}

#[test]
fn controllers_that_are_not_tracked() {
    shelf(&[
        (DEV, "0"),
        ("batch 5 65536 1 6 0 18446744073709551615 5 0 0", "0 done 3 new 0 refusal 0"),
        ("batch 5 18446744073709551615 1 6 18446744073709551615 2", "0 done 1 new 0 refusal 14"),
        ("susp 6 1", "0"),
        ("batch 5 0 1 6 0 0 5 0 1", "0 done 1 new 0 refusal 4"),
        // Nothing of this was kept.
        (START, "0"),
        ("recv 5 64", "0 susp 0 more 0 gran 0 runs 0 groups 1"),
    ]);
}

#[test]
fn suspended_and_resumed() {
    shelf(&[
        (DEV, "0"),
        (START, "0"),
        ("batch 5 65536 1", "0 done 1 new 1 refusal 0"),
        // A notice changes nothing.
        ("susp 5 0", "0"),
        ("batch 5 69632 1", "0 done 1 new 1 refusal 0"),
        ("susp 5 1", "0"),
        ("batch 5 73728 1", "0 done 0 new 0 refusal 4"),
        ("batch 5 18446744073709551615 2", "0 done 0 new 0 refusal 4"),
        ("batch 5 73728 0", "0 done 0 new 0 refusal 4"),
        ("batch", "0 done 0 new 0 refusal 0"),
        ("recv 5 32", "0 susp 1 more 0 gran 0 runs 1 groups 1/65536 2"),
        ("resume 5", "0"),
        ("batch 5 73728 1 5 73728 1", "0 done 2 new 1 refusal 0"),
        ("recv 5 32", "0 susp 0 more 0 gran 0 runs 1 groups 1/73728 1"),
    ]);
}

#[test]
fn ends_of_notes() {
    shelf(&[
        (DEV, "0"),
        (START, "0"),
        // Length 0 touches none, and is never past the end.
        ("batch 5 65536 0 5 18446744073709551615 0 5 69633 0", "0 done 3 new 0 refusal 0"),
        // Just below and just above the range.
        ("batch 5 65535 1 5 81920 1 5 61440 4096", "0 done 3 new 0 refusal 0"),
        // The first two end at 2^64 exactly.
        (
            "batch 5 18446744073709547520 4096 5 1 18446744073709551615 5 2 18446744073709551615",
            "0 done 2 new 4 refusal 14",
        ),
        // The last page.
        (DEV, "0"),
        ("start 5 0 18446744073709547520 1 0 1", "0"),
        ("batch 5 18446744073709551615 1 5 18446744073709551615 2 5 0 1", "0 done 1 new 1 refusal 14"),
        ("recv 5 64", "0 susp 0 more 0 gran 0 runs 1 groups 1/18446744073709547520 1"),
        // Units of 2^32 bytes, the first two of memory and the last.
        ("dev 1 0 20 0 16 5", "0"),
        ("start 5 20 18446744069414584320 1 0 2", "0"),
        ("batch 5 4294967295 2 5 18446744069414584319 1 5 18446744073709551615 1", "0 done 3 new 3 refusal 0"),
        ("recv 5 64", "0 susp 0 more 0 gran 20 runs 2 groups 1/18446744069414584320 1/0 2"),
    ]);
}

// ---------------------------------------------------------------------------------------------------------------
// Batches among other lines
// ---------------------------------------------------------------------------------------------------------------

#[test]
fn whole_example_of_document_01() {
    let input = "dev 1 0 8 0 16 5 6\nstart 5 0 65536 4\nwrite 5 69632 1\nwrite 5 73727 2\nrecv 5 64\nrecv 6 64\n";
    let answers = "0\n0\n0 1\n0 1\n0 susp 0 more 0 gran 0 runs 1 groups 1\n69632 2\n5\n";
    assert_eq!(output(input.as_bytes()), answers);
    assert_eq!(output(input.trim_end().as_bytes()), answers);
    // Its two writes as a batch.
    let input = "dev 1 0 8 0 16 5 6\nstart 5 0 65536 4\nbatch 5 69632 1 5 73727 2\nrecv 5 64\nrecv 6 64";
    let answers = "0\n0\n0 done 2 new 2 refusal 0\n0 susp 0 more 0 gran 0 runs 1 groups 1\n69632 2\n5\n";
    assert_eq!(output(input.as_bytes()), answers);
}

#[test]
fn between_other_calls() {
    shelf(&[
        (DEV, "0"),
        (START, "0"),
        ("write 5 65536 1", "0 1"),
        ("batch 5 65536 1 5 69632 1", "0 done 2 new 1 refusal 0"),
        ("write 5 69632 1", "0 0"),
        ("recv 5 47", "0 susp 0 more 0 gran 0 runs 1 groups 1/65536 2"),
        ("batch 5 65536 1 5 73728 1 8 0 1 5 77824 1", "0 done 2 new 2 refusal 2"),
        ("recv 5 47", "0 susp 0 more 1 gran 0 runs 1 groups 1/65536 1"),
        // Page 16 was reported, page 18 is still pending.
        ("batch 5 65536 1 5 73728 1", "0 done 2 new 1 refusal 0"),
        ("recv 5 31", "8"),
        ("recv 5 64", "0 susp 0 more 0 gran 0 runs 2 groups 1/65536 1/73728 1"),
        // A refused start changes nothing; a stop forgets.
        ("batch 5 65536 16384", "0 done 1 new 4 refusal 0"),
        ("start 5 0 0 1", "3"),
        ("start 6 0 1 1", "20 0"),
        ("batch 5 65536 16384", "0 done 1 new 0 refusal 0"),
        ("stop 5", "0"),
        ("batch 5 65536 16384", "0 done 1 new 0 refusal 0"),
        (START, "0"),
        ("recv 5 64", "0 susp 0 more 0 gran 0 runs 0 groups 1"),
        ("batch 5 65536 16384", "0 done 1 new 4 refusal 0"),
        // A refused dev keeps all; a done one keeps nothing.
        ("dev 1 0 8 0 16", "16"),
        ("batch 5 65536 16384", "0 done 1 new 0 refusal 0"),
        (DEV, "0"),
        ("recv 5 64", "5"),
        ("batch 5 65536 16384", "0 done 1 new 0 refusal 0"),
        // Other identifiers: 5 is the manager's now.
        ("dev 5 0 8 0 16 6", "0"),
        ("batch 6 0 0 5 0 0", "0 done 1 new 0 refusal 2"),
    ]);
}

#[test]
fn before_a_done_dev() {
    let long = batch_of(&["5 0 0"; 1025]);
    let too_long = batch_of(&["5 0 0"; 1101]);
    let mut lines = Vec::new();
    for _ in 0..2 {
        lines.extend_from_slice(&[
            ("batch", "1"),
            ("batch 0 0 0", "1"),
            ("batch 5 65536 1", "1"),
            ("batch 5 18446744073709551615 2", "1"),
            ("burst 0 5 0 0", "1"),
            ("burst 1 5 65536 1", "1"),
            ("burst 1024 5 65536 1", "1"),
            // 1 before 22.
            ("burst 1025 5 65536 1", "1"),
            ("burst 2000 5 65536 1", "1"),
            (&long, "1"),
            // A damaged line is bad all the same.
            ("batch 5", "bad"),
            ("burst 2001 5 65536 1", "bad"),
            (&too_long, "bad"),
            ("dev 1 0 8 0 16", "16"),
        ]);
    }
    lines.extend_from_slice(&[(DEV, "0"), ("batch", "0 done 0 new 0 refusal 0"), (&long, "22")]);
    shelf(&lines);
}

// ---------------------------------------------------------------------------------------------------------------
// Numbers of notes
// ---------------------------------------------------------------------------------------------------------------

/// One note a page, from page 0 on.
fn pages(count: usize) -> Vec<String> {
    (0..count).map(|page| format!("5 {} 1", page * 4096)).collect()
}

#[test]
fn lists_of_1024_to_1101() {
    let all = pages(1101);
    let all: Vec<&str> = all.iter().map(|note| note.as_str()).collect();
    let mut last_refused = all[..1024].to_vec();
    last_refused[1023] = "7 0 0";
    let half = format!("{} 5 0", batch_of(&all[..1023]));
    let half_behind_1100 = format!("{} 5", batch_of(&all[..1100]));
    let mut first_refused = all[..1025].to_vec();
    first_refused[0] = "7 0 0";
    shelf(&[
        (DEV, "0"),
        ("start 5 0 0 4096", "0"),
        (&batch_of(&all[..1025]), "22"),
        (&batch_of(&first_refused), "22"),
        (&batch_of(&all[..1100]), "22"),
        (&half_behind_1100, "bad"),
        (&batch_of(&all), "bad"),
        (&half, "bad"),
        // Of all these no note was done.
        ("recv 5 32", "0 susp 0 more 0 gran 0 runs 0 groups 64"),
        (&batch_of(&last_refused), "0 done 1023 new 1023 refusal 2"),
        (&batch_of(&all[..1024]), "0 done 1024 new 1 refusal 0"),
        ("recv 5 32", "0 susp 0 more 0 gran 0 runs 1 groups 64/0 1024"),
        (&batch_of(&all[..1024]), "0 done 1024 new 1024 refusal 0"),
        (&batch_of(&all[1..1025]), "0 done 1024 new 1 refusal 0"),
        ("recv 5 32", "0 susp 0 more 0 gran 0 runs 1 groups 64/0 1025"),
    ]);
}

#[test]
fn bursts() {
    shelf(&[
        (DEV, "0"),
        (START, "0"),
        // None of them is tried.
        ("burst 0 5 65536 1", "0 done 0 new 0 refusal 0"),
        ("burst 0 7 0 1", "0 done 0 new 0 refusal 0"),
        ("burst 0 5 18446744073709551615 2", "0 done 0 new 0 refusal 0"),
        // 22, also where each note would be refused.
        ("burst 1025 5 65536 1", "22"),
        ("burst 1025 5 18446744073709551615 2", "22"),
        ("burst 2000 5 65536 1", "22"),
        ("burst 2000 1 0 0", "22"),
        ("burst 2001 5 65536 1", "bad"),
        ("recv 5 64", "0 susp 0 more 0 gran 0 runs 0 groups 1"),
        ("burst 1 5 65536 8192", "0 done 1 new 2 refusal 0"),
        ("burst 2 5 69632 8192", "0 done 2 new 1 refusal 0"),
        ("burst 1023 5 65536 16384", "0 done 1023 new 1 refusal 0"),
        ("burst 1024 5 65536 16384", "0 done 1024 new 0 refusal 0"),
        ("burst 1024 6 65536 16384", "0 done 1024 new 0 refusal 0"),
        ("burst 3 5 18446744073709551615 2", "0 done 0 new 0 refusal 14"),
        ("burst 1024 1 0 1", "0 done 0 new 0 refusal 2"),
        ("susp 5 1", "0"),
        ("burst 1024 5 65536 1", "0 done 0 new 0 refusal 4"),
        ("burst 1025 5 65536 1", "22"),
        ("recv 5 64", "0 susp 1 more 0 gran 0 runs 1 groups 1/65536 4"),
    ]);
}

/// "a batch of n equal records"
#[test]
fn a_burst_is_a_batch() {
    for note in ["5 65536 8192", "6 0 1", "7 0 1", "5 18446744073709551615 2"].iter() {
        for n in [0, 1, 2, 1023, 1024, 1025, 1100].iter() {
            let mut burst = Shelf::default();
            for line in [DEV, START].iter() {
                assert_eq!(burst.answer(&Cut::Line(line.as_bytes().to_vec())), "0\n");
            }
            let mut batch = burst.clone();
            assert_eq!(
                burst.answer(&Cut::Line(format!("burst {} {}", n, note).into_bytes())),
                batch.answer(&Cut::Line(batch_of(&vec![*note; *n]).into_bytes())),
            );
            assert_eq!(burst, batch);
        }
    }
}

// ---------------------------------------------------------------------------------------------------------------
// Lines
// ---------------------------------------------------------------------------------------------------------------

#[test]
fn damaged_lines() {
    let lines = [
        // Spaces, words and other bytes.
        "batch ",
        " batch",
        " batch 5 65536 1",
        "batch  5 65536 1",
        "batch 5  65536 1",
        "batch 5 65536 1 ",
        "batch\t5 65536 1",
        "batch 5 65536 1\r",
        "batch 5 65536 1\0",
        "Batch 5 65536 1",
        "BATCH",
        "batc 5 65536 1",
        "batches 5 65536 1",
        "batch5 65536 1",
        "batch, 5 65536 1",
        "batch 5 65536 1, 5 65536 1",
        "batch 5 65536 1/5 65536 1",
        "batch 5 65536 1 batch 5 65536 1",
        "batch -",
        " burst 1 5 65536 1",
        "burst  1 5 65536 1",
        "burst 1 5 65536 1 ",
        "burst 1 5 65536 1\r",
        "Burst 1 5 65536 1",
        "bursts 1 5 65536 1",
        "burst1 5 65536 1",
        // Triples that are not whole.
        "batch 5",
        "batch 5 65536",
        "batch 5 65536 1 5",
        "batch 5 65536 1 5 69632",
        "batch 5 65536 1 5 69632 1 5 73728",
        "burst",
        "burst 0",
        "burst 1",
        "burst 1 5",
        "burst 1 5 65536",
        "burst 0 5 65536",
        "burst 1 5 65536 1 5",
        "burst 2 5 65536 1 5 65536 1",
        // Numbers.
        "batch 05 65536 1",
        "batch 5 065536 1",
        "batch 5 65536 01",
        "batch 5 65536 +1",
        "batch 5 65536 -1",
        "batch 5 65536 0x1",
        "batch 5 65536 one",
        "batch 65536 0 1",
        "batch 65541 65536 1",
        "batch 5 18446744073709551616 1",
        "batch 5 65536 18446744073709551616",
        "batch 5 65536 1 65541 65536 1",
        "batch 5 65536 1 5 65536 18446744073709551617",
        "batch 7 0 1 5 65536 01",
        "burst 2001 5 65536 1",
        "burst 2001 7 0 1",
        "burst 65536 5 65536 1",
        "burst 4294967297 5 65536 1",
        "burst 18446744073709551617 5 65536 1",
        "burst 01 5 65536 1",
        "burst 00 5 65536 1",
        "burst +1 5 65536 1",
        "burst -1 5 65536 1",
        "burst 1 65541 65536 1",
        "burst 1 5 18446744073709551616 1",
        "burst 1 5 65536 18446744073709551616",
        "burst 0 65536 0 1",
        "burst 0 5 18446744073709551616 1",
        "burst 1025 65536 0 1",
    ];
    for line in lines.iter() {
        shelf(&[
            (line, "bad"),
            (DEV, "0"),
            (START, "0"),
            (line, "bad"),
            ("recv 5 64", "0 susp 0 more 0 gran 0 runs 0 groups 1"),
            ("batch 5 65536 1", "0 done 1 new 1 refusal 0"),
        ]);
    }
}

/// A batch line with 1,024 notes: 683 with 10 bytes each, 341 with 28, and the word's 5 are 16,383.
fn longest_line() -> String {
    let mut notes = vec!["5 65536 1"; 683];
    notes.extend_from_slice(&["5 18446744073709547520 4096"; 341]);
    batch_of(&notes)
}

#[test]
fn lines_of_16383_and_16384_bytes() {
    let line = longest_line();
    assert_eq!(line.len(), 16383);
    let longer = line.replacen("5 65536 1", "5 65536 10", 1);
    assert_eq!(longer.len(), 16384);
    let done = "0 done 1024 new 1 refusal 0\n";
    let before = format!("{}\n{}\n", DEV, START);
    for (last, answer) in [(&line, done), (&longer, "bad\n")].iter() {
        // Ended by a line feed, and by the end of the input.
        let marked = if *answer == "bad\n" { 1 } else { 0 };
        let input = format!("{}{}\nwrite 5 65536 1\n", before, last);
        assert_eq!(output(input.as_bytes()), format!("0\n0\n{}0 {}\n", answer, marked));
        let input = format!("{}{}", before, last);
        assert_eq!(output(input.as_bytes()), format!("0\n0\n{}", answer));
    }
    // Before a dev a line too long is bad too, and the other one is 1.
    assert_eq!(output(format!("{}\n{}\n", line, longer).as_bytes()), "1\nbad\n");
}

#[test]
fn the_bound_decides_for_triples_of_greatest_numbers() {
    // 5 + 341 times 48 are 16,373 bytes, and 10 more are the most. 65535 is a controller here; the notes end past 2^64.
    let dev = "dev 1 0 8 0 16 65535";
    let mut notes = vec!["65535 18446744073709551615 18446744073709551615"; 341];
    let line = batch_of(&notes);
    assert_eq!(line.len(), 16373);
    notes.push("65535 1 1");
    let longest = batch_of(&notes);
    assert_eq!(longest.len(), 16383);
    notes[341] = "65535 10 1";
    let too_long = batch_of(&notes);
    let input = format!("{}\n{}\n{}\n{}\n", dev, line, longest, too_long);
    let cut = "0 done 0 new 0 refusal 14\n";
    assert_eq!(output(input.as_bytes()), format!("0\n{}{}bad\n", cut, cut));
}

#[test]
fn long_lines() {
    // Of any length, and whatever they hold, one bad each.
    for bytes in [1023, 1024, 16382, 16383, 16384, 16385, 32766, 1_000_000].iter() {
        let mut input = b"stop 5\n".to_vec();
        input.extend(vec![b'1'; *bytes]);
        assert_eq!(output(&input), "1\nbad\n", "{}", bytes);
        input.extend_from_slice(b"\nstop 5\n");
        assert_eq!(output(&input), "1\nbad\n1\n", "{}", bytes);
    }
    // What stands behind the 16,383rd byte is no line of its own; nor is what stands before it.
    let mut input = vec![b'x'; 16383];
    input.extend_from_slice(b"dev 1 0 8 0 16 5\nstop 5\n");
    assert_eq!(output(&input), "bad\n1\n");
    let mut input = b"dev 1 0 8 0 16 5 6".to_vec();
    input.extend(vec![b' '; 20_000]);
    input.extend_from_slice(b"\nstop 5\n");
    assert_eq!(output(&input), "bad\n1\n");
    // A line feed as the 16,384th byte.
    let mut input = vec![b'x'; 16383];
    input.extend_from_slice(b"\ndev 1 0 8 0 16 5\nstop 5\n");
    assert_eq!(output(&input), "bad\n0\n5\n");
}

#[test]
fn ends_of_input() {
    assert_eq!(output(b""), "");
    assert_eq!(output(b"\n"), "bad\n");
    assert_eq!(output(b"batch"), "1\n");
    assert_eq!(output(b"batch\n"), "1\n");
    assert_eq!(output(b"batch\n\nbatch "), "1\nbad\nbad\n");
}

// ---------------------------------------------------------------------------------------------------------------
// A batch is its notes
// ---------------------------------------------------------------------------------------------------------------

/// W4: "It does exactly the single notes in list order up to the first refused one and answers the number done, the
/// total newly pending and the refusal, if any". So each list is also played as `write` lines, and must leave the same.
#[test]
fn a_batch_is_its_notes() {
    let ids = ["5", "5", "5", "6", "6", "6", "8", "9"];
    let addresses = ["0", "4096", "8191", "65535", "65536", "73727", "1048575", "18446744073709547520"];
    let lengths = ["0", "1", "2", "4096", "4097", "20000", "1048576"];
    let before = [
        "dev 1 0 8 0 16 5 6 8",
        "start 5 0 0 8 65536 8 4096 20 18446744073709547520 1",
        "start 6 8 0 4 1048576 4 18446744073708503040 1",
    ];
    let others = ["recv 5 47", "recv 5 4096", "recv 6 32", "susp 6 1", "resume 6", "susp 8 1", "resume 8"];
    let mut random = Random(3);
    let mut shelf = Shelf::default();
    for line in before.iter() {
        assert_eq!(shelf.answer(&Cut::Line(line.as_bytes().to_vec())), "0\n");
    }
    let mut met = [0; 15];
    for _ in 0..3000 {
        let other = others[random.below(others.len())];
        shelf.answer(&Cut::Line(other.as_bytes().to_vec()));
        let mut line = "batch".to_string();
        let mut singles = shelf.clone();
        let (mut done, mut count, mut refusal) = (0, 0, 0);
        for _ in 0..random.below(9) {
            let note = format!(
                " {} {} {}",
                ids[random.below(ids.len())],
                addresses[random.below(addresses.len())],
                lengths[random.below(lengths.len())]
            );
            line.push_str(&note);
            if refusal != 0 {
                continue;
            }
            let answer = singles.answer(&Cut::Line(format!("write{}", note).into_bytes()));
            match answer.trim_end().split_once(' ') {
                Some((_, new)) => {
                    done += 1;
                    count += new.parse::<u64>().unwrap();
                }
                None => refusal = answer.trim_end().parse().unwrap(),
            }
        }
        let expected = format!("0 done {} new {} refusal {}\n", done, count, refusal);
        assert_eq!(shelf.answer(&Cut::Line(line.clone().into_bytes())), expected, "{}", line);
        assert_eq!(shelf, singles, "{}", line);
        met[refusal] += 1;
    }
    for refusal in [0, 2, 4, 14].iter() {
        assert!(met[*refusal] > 100, "{}", refusal);
    }
}
