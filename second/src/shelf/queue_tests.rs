//! Shelf listings with user-data queues. The expected answers are worked out by hand from document 02 (W8) and READINGS (0.7
//! and W8).

use super::hex::hex_of;
use super::*;
use crate::tests::{check, Random, DEV};

fn shelf(lines: &[(&str, &str)]) {
    check(&Shelf::answer, lines);
}

/// After the document's own device: controllers 5 and 6.
fn queues(lines: &[(&str, &str)]) {
    shelf(&[&[(DEV, "0")], lines].concat());
}

/// 32 bytes of this one in hex.
fn of(byte: u8) -> String {
    hex_of(&[byte; 32])
}

/// A `post` line of an entry of this byte.
fn post(id: u64, size: u64, byte: u8) -> String {
    format!("post {} {} {}", id, size, of(byte))
}

/// The answer that yields these entries, of one byte each.
fn taken(entries: &[u8], closing: u8) -> String {
    let mut answer = format!("0 taken {} closing {}", entries.len(), closing);
    for byte in entries {
        answer.push_str(&format!("/{}", of(*byte)));
    }
    answer
}

// ---------------------------------------------------------------------------------------------------------------
// The worked numbers of READINGS W8
// ---------------------------------------------------------------------------------------------------------------

#[test]
fn worked_two_places() {
    queues(&[
        ("queue 5 64", "0"),
        (&post(5, 64, 1), "0 stopped 0"),
        (&post(5, 64, 2), "0 stopped 1"),
        (&post(5, 64, 3), "30"),
        (&format!("post 5 64 {}", hex_of(&[3; 31])), "8"),
        ("take 5 64 10 100", &taken(&[1, 255], 1)),
        ("take 5 64 10 100", "0 taken 0 closing 0"),
        (&post(5, 64, 3), "30"),
        ("queue 5 64", "0"),
        (&post(5, 64, 3), "0 stopped 0"),
        ("take 5 64 10 100", &taken(&[3], 0)),
    ]);
}

#[test]
fn worked_posted_entry_of_ffh() {
    queues(&[
        ("queue 5 96", "0"),
        (&post(5, 96, 255), "0 stopped 0"),
        ("take 5 96 1 32", &taken(&[255], 0)),
        (&post(5, 96, 255), "0 stopped 0"),
        (&post(5, 96, 255), "0 stopped 0"),
        (&post(5, 96, 255), "0 stopped 1"),
        ("take 5 96 2 4096", &taken(&[255, 255], 0)),
        ("take 5 96 2 4096", &taken(&[255], 1)),
    ]);
}

#[test]
fn worked_four_places() {
    queues(&[
        ("queue 5 128", "0"),
        (&post(5, 128, 1), "0 stopped 0"),
        (&post(5, 128, 2), "0 stopped 0"),
        (&post(5, 128, 3), "0 stopped 0"),
        (&post(5, 128, 4), "0 stopped 1"),
        ("take 5 128 3 4096", &taken(&[1, 2, 3], 0)),
        ("take 5 128 1 4096", &taken(&[255], 1)),
        ("take 5 128 1 4096", "0 taken 0 closing 0"),
    ]);
}

#[test]
fn worked_buffers() {
    queues(&[
        ("queue 5 128", "0"),
        (&post(5, 128, 1), "0 stopped 0"),
        (&post(5, 128, 2), "0 stopped 0"),
        ("take 5 128 9 31", "0 taken 0 closing 0"),
        ("take 5 128 9 0", "0 taken 0 closing 0"),
        ("take 5 128 0 4096", "0 taken 0 closing 0"),
        ("take 5 128 9 63", &taken(&[1], 0)),
        ("take 5 128 4294967295 32", &taken(&[2], 0)),
    ]);
}

#[test]
fn worked_areas() {
    queues(&[
        ("queue 5 0", "28"),
        ("queue 5 32", "28"),
        ("queue 5 63", "28"),
        ("queue 5 65", "28"),
        ("queue 5 32800", "28"),
        (&post(5, 64, 1), "29"),
        (&post(5, 63, 1), "28"),
        ("take 5 64 1 32", "29"),
        ("take 5 63 1 32", "28"),
        ("queue 5 64", "0"),
        ("queue 5 32768", "0"),
        ("queue 5 96", "0"),
        (&post(5, 64, 1), "28"),
        ("take 5 64 1 32", "28"),
        (&post(5, 32800, 1), "28"),
        (&post(5, 96, 1), "0 stopped 0"),
        ("queue 5 65", "28"),
        // A refused make leaves the queue.
        ("take 5 96 1 32", &taken(&[1], 0)),
    ]);
}

// ---------------------------------------------------------------------------------------------------------------
// Orders, and other lines between
// ---------------------------------------------------------------------------------------------------------------

#[test]
fn before_a_device() {
    shelf(&[
        ("queue 5 64", "1"),
        ("queue 0 63", "1"),
        (&post(5, 64, 1), "1"),
        ("post 0 0 -", "1"),
        ("take 5 64 1 32", "1"),
        ("take 0 0 0 0", "1"),
        ("dev 1 0 8 0 129 5", "16"),
        ("queue 5 64", "1"),
        // A damaged line is bad all the same.
        ("queue 5 32801", "bad"),
        ("post 5 64 0", "bad"),
        ("take 5 64 1 4097", "bad"),
        (DEV, "0"),
        ("queue 5 64", "0"),
    ]);
}

#[test]
fn orders() {
    queues(&[
        // 2 before 28: unknown, and the manager.
        ("queue 7 63", "2"),
        ("queue 1 64", "2"),
        ("post 7 63 -", "2"),
        ("post 1 64 -", "2"),
        ("take 7 63 0 0", "2"),
        ("take 1 64 1 32", "2"),
        // 28 before 29, and 29 before 8.
        ("post 5 63 -", "28"),
        ("post 5 64 -", "29"),
        (&post(5, 64, 1), "29"),
        ("take 5 63 0 0", "28"),
        ("take 5 64 0 0", "29"),
        // 28 before 8, and 8 before 30.
        ("queue 5 64", "0"),
        ("post 5 96 -", "28"),
        ("post 5 64 -", "8"),
        (&format!("post 5 64 {}", hex_of(&[1; 33])), "8"),
        (&format!("post 5 64 {}", hex_of(&[1; 64])), "8"),
        (&format!("post 5 64 {}", hex_of(&[1; 65])), "bad"),
        (&post(5, 64, 1), "0 stopped 0"),
        (&post(5, 64, 1), "0 stopped 1"),
        ("post 5 96 -", "28"),
        ("post 5 64 -", "8"),
        ("post 5 64 00", "8"),
        (&post(5, 64, 1), "30"),
        (&post(5, 96, 1), "28"),
        // Takes have neither 8 nor 30.
        ("take 5 64 1 0", "0 taken 0 closing 0"),
        ("take 5 64 2 4096", &taken(&[1, 255], 1)),
    ]);
}

#[test]
fn entries_of_any_bytes() {
    let entry: Vec<u8> = (100..132).collect();
    let other: Vec<u8> = (0..32).rev().collect();
    queues(&[
        ("queue 5 96", "0"),
        (&format!("post 5 96 {}", hex_of(&entry)), "0 stopped 0"),
        (&format!("post 5 96 {}", hex_of(&other)), "0 stopped 0"),
        ("take 5 96 2 64", &format!("0 taken 2 closing 0/{}/{}", hex_of(&entry), hex_of(&other))),
    ]);
}

#[test]
fn a_queue_of_its_own_for_each_controller() {
    queues(&[
        ("queue 5 64", "0"),
        ("queue 6 96", "0"),
        (&post(6, 96, 61), "0 stopped 0"),
        (&post(5, 64, 51), "0 stopped 0"),
        (&post(6, 96, 62), "0 stopped 0"),
        (&post(5, 64, 52), "0 stopped 1"),
        (&post(6, 64, 63), "28"),
        ("take 5 96 9 999", "28"),
        ("take 6 96 9 999", &taken(&[61, 62], 0)),
        (&post(6, 96, 63), "0 stopped 0"),
        ("take 5 64 9 999", &taken(&[51, 255], 1)),
        ("queue 5 96", "0"),
        ("take 6 96 9 999", &taken(&[63], 0)),
        ("take 5 96 9 999", "0 taken 0 closing 0"),
    ]);
}

#[test]
fn other_calls_between() {
    queues(&[
        ("queue 5 128", "0"),
        (&post(5, 128, 1), "0 stopped 0"),
        ("start 5 0 65536 4", "0"),
        (&post(5, 128, 2), "0 stopped 0"),
        ("write 5 65536 1", "0 1"),
        ("batch 5 69632 1 9 0 1", "0 done 1 new 1 refusal 2"),
        ("take 5 128 1 32", &taken(&[1], 0)),
        ("recv 5 64", "0 susp 0 more 0 gran 0 runs 1 groups 1/65536 2"),
        ("stop 5", "0"),
        ("susp 5 1", "0"),
        (&post(5, 128, 3), "0 stopped 0"),
        ("part 5 1 0 0 1 00000000", "0 whole 0"),
        (&post(5, 128, 4), "0 stopped 0"),
        ("part 5 0 4 0 1 00000000", "0 whole 0"),
        ("write 5 0 1", "4"),
        (&post(5, 128, 5), "0 stopped 1"),
        ("resume 5", "0"),
        (&post(5, 128, 6), "30"),
        ("start 5 0 65536 4", "0"),
        (&post(5, 128, 6), "30"),
        ("take 5 128 9 999", &taken(&[2, 3, 4, 255], 1)),
        ("stop 5", "0"),
        (&post(5, 128, 6), "30"),
    ]);
}

#[test]
fn a_new_device_has_no_queue() {
    queues(&[
        ("queue 5 64", "0"),
        (&post(5, 64, 1), "0 stopped 0"),
        ("dev 1 0 8 0 129 5", "16"),
        // A refused dev keeps all.
        (&post(5, 64, 2), "0 stopped 1"),
        ("dev 1 0 8 0 16 6 5", "0"),
        (&post(5, 64, 3), "29"),
        ("take 6 64 9 999", "29"),
        ("queue 6 64", "0"),
        ("take 6 64 9 999", "0 taken 0 closing 0"),
        (&post(6, 64, 4), "0 stopped 0"),
        ("take 6 64 9 999", &taken(&[4], 0)),
    ]);
}

#[test]
fn the_areas_are_handed_on() {
    let mut shelf = Shelf::default();
    assert_eq!(shelf.queue_areas, vec![vec![0; 32800]; 8]);
    let lines = [
        DEV.to_string(),
        "queue 5 96".to_string(),
        post(5, 96, 1),
        post(5, 96, 2),
        "take 5 96 1 32".to_string(),
        post(5, 96, 3),
        "queue 6 32768".to_string(),
        post(6, 32768, 4),
        // Refused, these store nothing: closed, another size, unknown, too short.
        post(5, 96, 5),
        post(5, 96, 5),
        post(5, 64, 5),
        post(9, 96, 5),
        "post 6 32768 0505".to_string(),
        // A new device and its queues leave the bytes; 7 stands in 5's place now.
        "dev 1 0 8 0 16 7 6 5".to_string(),
        "queue 7 64".to_string(),
        "queue 5 64".to_string(),
        post(5, 64, 6),
    ];
    for line in lines.iter() {
        let answer = shelf.answer(&Cut::Line(line.clone().into_bytes()));
        assert_ne!(answer, "bad\n", "{}", line);
    }
    let mut expected = vec![vec![0; 32800]; 8];
    // 1 was in place 0 and is taken; 2 and 3 are in 1 and 2, and the next post closed in 0.
    for (place, at, byte) in [(0, 0, 255), (0, 32, 2), (0, 64, 3), (1, 0, 4), (2, 0, 6)].iter() {
        for each in &mut expected[*place][*at..*at + 32] {
            *each = *byte;
        }
    }
    assert_eq!(shelf.queue_areas, expected);
}

#[test]
fn eight_controllers() {
    let mut lines = vec![("dev 1 0 8 0 128 5 6 7 8 9 10 11 12".to_string(), "0".to_string())];
    for id in 5..13 {
        lines.push((format!("queue {} {}", id, 32 * id), "0".to_string()));
    }
    // As many posts to each as its queue stores, in turn; then one that closes.
    for number in 0..11 {
        for id in 5..13 {
            let answer = match number {
                _ if number + 1 < id => "0 stopped 0",
                _ if number + 1 == id => "0 stopped 1",
                _ => "30",
            };
            lines.push((post(id, 32 * id, (10 * id + number) as u8), answer.to_string()));
        }
    }
    for id in 5..13 {
        let mut entries: Vec<u8> = (0..id - 1).map(|number| (10 * id + number) as u8).collect();
        entries.truncate(11);
        if id < 12 {
            entries.push(255);
        }
        let closing = if id < 12 { 1 } else { 0 };
        lines.push((format!("take {} {} 99 4096", id, 32 * id), taken(&entries, closing)));
    }
    let lines: Vec<(&str, &str)> = lines.iter().map(|(line, answer)| (line.as_str(), answer.as_str())).collect();
    shelf(&lines);
}

#[test]
fn a_queue_of_1024_places() {
    let mut shelf = Shelf::default();
    let answer = |shelf: &mut Shelf, line: &str| shelf.answer(&Cut::Line(line.as_bytes().to_vec()));
    assert_eq!(answer(&mut shelf, DEV), "0\n");
    assert_eq!(answer(&mut shelf, "queue 6 32768"), "0\n");
    for number in 0..1024 {
        let entry = hex_of(&[(number % 256) as u8, (number / 256) as u8].repeat(16));
        let closed = if number == 1023 { 1 } else { 0 };
        let posted = format!("0 stopped {}\n", closed);
        assert_eq!(answer(&mut shelf, &format!("post 6 32768 {}", entry)), posted);
    }
    assert_eq!(answer(&mut shelf, &post(6, 32768, 1)), "30\n");
    // 4,096 bytes hold 128 of them, so eight takes do.
    for take in 0..8 {
        let closing = if take == 7 { 1 } else { 0 };
        let mut expected = format!("0 taken 128 closing {}\n", closing);
        for number in 128 * take..128 * take + 128 {
            let entry = if number == 1023 { [255, 255] } else { [(number % 256) as u8, (number / 256) as u8] };
            expected.push_str(&format!("{}\n", hex_of(&entry.repeat(16))));
        }
        assert_eq!(answer(&mut shelf, "take 6 32768 4294967295 4096"), expected);
    }
    assert_eq!(answer(&mut shelf, "take 6 32768 4294967295 4096"), "0 taken 0 closing 0\n");
}

/// "The host takes entries in order, each once": random lines, with what should be queued kept as a list for each
/// controller, from the lines alone. Never 1 once there is a device.
#[test]
fn random_queues() {
    let others = ["susp 5 1", "resume 5", "start 6 0 65536 4", "stop 6", "write 6 65536 1", "recv 6 32"];
    let mut random = Random(10);
    let mut shelf = Shelf::default();
    shelf.answer(&Cut::Line(DEV.as_bytes().to_vec()));
    // For 5 and 6: the places made, the bytes of the entries queued, and whether it is stopped.
    let mut models: [Option<(usize, Vec<u8>, bool)>; 2] = [None, None];
    let mut met = [0; 31];
    for number in 0..30_000 {
        if random.below(20) == 0 {
            let line = if random.below(40) == 0 { DEV } else { others[random.below(others.len())] };
            assert_ne!(shelf.answer(&Cut::Line(line.as_bytes().to_vec())), "1\n");
            if line == DEV {
                models = [None, None];
            }
            continue;
        }
        let which = random.below(2);
        let id = 5 + which;
        let model = &mut models[which];
        let made = model.as_ref().map(|(places, _, _)| *places);
        let places = if random.below(10) == 0 { 1 + random.below(6) } else { made.unwrap_or(3) };
        let size = 32 * places + if random.below(30) == 0 { 1 + random.below(31) } else { 0 };
        let well_formed = size % 32 == 0 && places >= 2;
        // What posts and takes are refused with alike.
        let refusal = match made {
            _ if !well_formed => Some(28),
            Some(made) if made != places => Some(28),
            Some(_) => None,
            None => Some(29),
        };
        let (line, expected) = match random.below(20) {
            0 => {
                let line = format!("queue {} {}", id, size);
                if well_formed {
                    *model = Some((places, Vec::new(), false));
                    (line, "0".to_string())
                } else {
                    (line, "28".to_string())
                }
            }
            1..=7 => {
                let (asked, buffer) = (random.below(7), random.below(230));
                let line = format!("take {} {} {} {}", id, size, asked, buffer);
                match (refusal, model) {
                    (None, Some((_, queued, stopped))) => {
                        let least = asked.min(buffer / 32).min(queued.len());
                        let closing = least > 0 && least == queued.len() && *stopped;
                        let entries: Vec<u8> = queued.drain(..least).collect();
                        (line, taken(&entries, u8::from(closing)).replace("/", "\n"))
                    }
                    (refusal, _) => (line, refusal.unwrap_or(0).to_string()),
                }
            }
            _ => {
                let byte = if random.below(5) == 0 { 255 } else { (number % 256) as u8 };
                let long = if random.below(20) == 0 { [0, 31, 33, 64][random.below(4)] } else { 32 };
                let hex = if long == 0 { "-".to_string() } else { hex_of(&vec![byte; long]) };
                let line = format!("post {} {} {}", id, size, hex);
                match (refusal, model) {
                    (None, _) if long != 32 => (line, "8".to_string()),
                    (None, Some((_, _, true))) => (line, "30".to_string()),
                    (None, Some((places, queued, stopped))) => {
                        *stopped = queued.len() + 1 == *places;
                        queued.push(if *stopped { 255 } else { byte });
                        (line, format!("0 stopped {}", u8::from(*stopped)))
                    }
                    (refusal, _) => (line, refusal.unwrap_or(0).to_string()),
                }
            }
        };
        assert_eq!(shelf.answer(&Cut::Line(line.clone().into_bytes())), expected.clone() + "\n", "{}", line);
        met[expected.split(|byte| byte == ' ' || byte == '\n').next().unwrap().parse::<usize>().unwrap()] += 1;
    }
    for refusal in [0, 8, 28, 29, 30].iter() {
        assert!(met[*refusal] > 100, "{}: {}", refusal, met[*refusal]);
    }
}
