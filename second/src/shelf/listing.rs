//! The lines of a shelf listing (READINGS 0.7).

use crate::listing::{self, fitting, note, number, word_and_numbers, Line, BITS_16, BITS_32, BITS_8, GREATEST_BUFFER};
use crate::rules::{Note, Settings};
use crate::settings_file::second_manager;
use crate::state::Part;

use super::hex::bytes_of;

/// "Lines have at most 16,383 bytes before the line feed"
pub const MOST_BYTES: usize = 16383;
/// "0 to 1,100 times": more than a batch takes, so that 22 can be met.
const MOST_TRIPLES: usize = 1100;
/// "n at most 2,000"
const GREATEST_BURST: u64 = 2000;
/// "hex of at most 4,100 bytes": more than a state has, so that 27 can be met.
const MOST_PART_BYTES: usize = 4100;
/// "size at most 32,800": a place more than a queue's area may have, so that 28 can be met at that end too.
pub const GREATEST_SIZE: u64 = 32800;
/// "hex of at most 64 bytes": more than an entry has, so that 8 can be met.
const MOST_ENTRY_BYTES: usize = 64;
/// "hex of at most 64 bytes": more than a settings file has, so that 35 can be met at that end too.
const MOST_FILE_BYTES: usize = 64;

/// A well-formed line, and the manager that `by` says calls (W12); nothing where the line has no `by`.
#[derive(Clone, Debug, PartialEq, Eq)]
pub struct Called {
    pub by: Option<u64>,
    pub line: ShelfLine,
}

/// A well-formed line that has no `by`.
#[derive(Clone, Debug, PartialEq, Eq)]
pub enum ShelfLine {
    /// "every line of document 01"; and `dev2`, which makes a device as `dev` does
    Session(Line),
    Batch(Vec<Note>),
    Part(Part),
    /// The size of these three is how many bytes are lent of the controller's own area.
    Queue {
        id: u64,
        size: u64,
    },
    Post {
        id: u64,
        size: u64,
        entry: Vec<u8>,
    },
    Take {
        id: u64,
        size: u64,
        asked: u64,
        buffer: u64,
    },
    /// The bytes of a settings file, for the version 1 reader and for the new one.
    Old(Vec<u8>),
    New(Vec<u8>),
    Save {
        version: u64,
        settings: Settings,
    },
    Log {
        id: u64,
    },
}

/// The line in these bytes. Nothing for "any other line".
pub fn parse(line: &[u8]) -> Option<Called> {
    let mut pieces = line.splitn(3, |byte| *byte == b' ');
    match (pieces.next(), pieces.next(), pieces.next()) {
        // "`by` manager LINE"
        (Some(b"by"), Some(manager), Some(called)) => {
            let by = fitting(number(manager)?, BITS_16)?;
            let line = without_by(called).filter(names_a_manager)?;
            Some(Called { by: Some(by), line })
        }
        _ => Some(Called { by: None, line: without_by(line)? }),
    }
}

/// "LINE is a start, stop, recv, susp, resume or part"
fn names_a_manager(line: &ShelfLine) -> bool {
    match line {
        ShelfLine::Session(line) => match line {
            Line::Start { .. } | Line::Stop { .. } | Line::Recv { .. } | Line::Susp { .. } | Line::Resume { .. } => {
                true
            }
            Line::Dev(_) | Line::Write(_) => false,
        },
        ShelfLine::Part(_) => true,
        _ => false,
    }
}

/// The line in bytes that don't begin with `by`.
fn without_by(line: &[u8]) -> Option<ShelfLine> {
    match line.split(|byte| *byte == b' ').next() {
        Some(b"part") => return part(line),
        Some(b"post") => return post(line),
        Some(b"old") => return file(line).map(ShelfLine::Old),
        Some(b"new") => return file(line).map(ShelfLine::New),
        _ => {}
    }
    let (word, numbers) = word_and_numbers(line)?;
    match (word, numbers.as_slice()) {
        // "`batch` ... 0 to 1,100 times: id, address, bytes"
        (b"batch", fields) => {
            let mut notes = Vec::new();
            for triple in fields.chunks(3) {
                notes.push(note(triple)?);
            }
            if notes.len() > MOST_TRIPLES {
                return None;
            }
            Some(ShelfLine::Batch(notes))
        }
        // "`burst` n id address bytes": "a batch of n equal records"
        (b"burst", [n, fields @ ..]) => {
            let n = fitting(*n, GREATEST_BURST)?;
            Some(ShelfLine::Batch(vec![note(fields)?; n as usize]))
        }
        // "`queue` id size"
        (b"queue", [id, size]) => {
            Some(ShelfLine::Queue { id: fitting(*id, BITS_16)?, size: fitting(*size, GREATEST_SIZE)? })
        }
        // "`take` id size asked buffer": "asked 32 bits, buffer at most 4,096"
        (b"take", [id, size, asked, buffer]) => Some(ShelfLine::Take {
            id: fitting(*id, BITS_16)?,
            size: fitting(*size, GREATEST_SIZE)?,
            asked: fitting(*asked, BITS_32)?,
            buffer: fitting(*buffer, GREATEST_BUFFER)?,
        }),
        // "`save` version manager least greatest rule limit second limit2 shelf, 0 to 8 identifiers"
        (b"save", [version, fields @ ..]) => {
            Some(ShelfLine::Save { version: fitting(*version, BITS_16)?, settings: settings(fields)? })
        }
        // "`dev2` manager least greatest rule limit second limit2 shelf, 0 to 8 identifiers"
        (b"dev2", fields) => Some(ShelfLine::Session(Line::Dev(settings(fields)?))),
        // "`log` id"
        (b"log", [id]) => Some(ShelfLine::Log { id: fitting(*id, BITS_16)? }),
        _ => listing::parse(line).map(ShelfLine::Session),
    }
}

/// "manager least greatest rule limit second limit2 shelf, 0 to 8 identifiers": "as `dev`; second, limit2 and shelf 16 bits;
/// second equal to manager with limit2 0 means one manager".
fn settings(fields: &[u64]) -> Option<Settings> {
    match fields {
        [manager, least, greatest, rule, limit, second, limit2, shelf, identifiers @ ..] => {
            let as_dev = listing::settings([*manager, *least, *greatest, *rule, *limit], identifiers)?;
            let second = second_manager(*manager, fitting(*second, BITS_16)?, fitting(*limit2, BITS_16)?);
            Some(Settings { second, shelf: fitting(*shelf, BITS_16)?, ..as_dev })
        }
        _ => None,
    }
}

/// "`part` id indicator low high count data": "16, 8, 32, 32, 32 bits, hex".
fn part(line: &[u8]) -> Option<ShelfLine> {
    let (numbers, data) = numbers_and_bytes(line, MOST_PART_BYTES)?;
    match numbers.as_slice() {
        [id, indicator, low, high, count] => Some(ShelfLine::Part(Part {
            id: fitting(*id, BITS_16)?,
            indicator: fitting(*indicator, BITS_8)?,
            low: fitting(*low, BITS_32)?,
            high: fitting(*high, BITS_32)?,
            count: fitting(*count, BITS_32)?,
            data,
        })),
        _ => None,
    }
}

/// "`post` id size entry": "size as in `queue`; hex of at most 64 bytes".
fn post(line: &[u8]) -> Option<ShelfLine> {
    let (numbers, entry) = numbers_and_bytes(line, MOST_ENTRY_BYTES)?;
    match numbers.as_slice() {
        [id, size] => Some(ShelfLine::Post { id: fitting(*id, BITS_16)?, size: fitting(*size, GREATEST_SIZE)?, entry }),
        _ => None,
    }
}

/// "`old` file" and "`new` file": "hex of at most 64 bytes".
fn file(line: &[u8]) -> Option<Vec<u8>> {
    let (numbers, file) = numbers_and_bytes(line, MOST_FILE_BYTES)?;
    if numbers.is_empty() {
        Some(file)
    } else {
        None
    }
}

/// Behind the last space of such a line are at most so many bytes in hex, and before it are a word and numbers.
fn numbers_and_bytes(line: &[u8], most: usize) -> Option<(Vec<u64>, Vec<u8>)> {
    let bytes_at = line.iter().rposition(|byte| *byte == b' ')? + 1;
    let (_, numbers) = word_and_numbers(&line[..bytes_at - 1])?;
    Some((numbers, bytes_of(&line[bytes_at..], most)?))
}

#[cfg(test)]
mod tests {
    use super::*;
    use crate::rules::{Manager, Range};

    /// A line that has no `by`.
    fn parse(line: &[u8]) -> Option<ShelfLine> {
        let called = super::parse(line)?;
        assert_eq!(called.by, None);
        Some(called.line)
    }

    fn write(id: u64, address: u64, bytes: u64) -> Note {
        Note { id, address, bytes }
    }

    fn batch(notes: &[Note]) -> Option<ShelfLine> {
        Some(ShelfLine::Batch(notes.to_vec()))
    }

    #[test]
    fn each_word() {
        assert_eq!(parse(b"batch"), batch(&[]));
        assert_eq!(parse(b"batch 5 6 7"), batch(&[write(5, 6, 7)]));
        assert_eq!(parse(b"batch 5 6 7 8 9 10"), batch(&[write(5, 6, 7), write(8, 9, 10)]));
        assert_eq!(parse(b"burst 3 5 6 7"), batch(&[write(5, 6, 7), write(5, 6, 7), write(5, 6, 7)]));
        assert_eq!(parse(b"burst 0 5 6 7"), batch(&[]));
        assert_eq!(parse(b"stop 5"), Some(ShelfLine::Session(Line::Stop { id: 5 })));
        assert_eq!(parse(b"write 5 6 7"), Some(ShelfLine::Session(Line::Write(write(5, 6, 7)))));
    }

    #[test]
    fn greatest_numbers() {
        let most = write(65535, u64::MAX, u64::MAX);
        assert_eq!(parse(b"batch 65535 18446744073709551615 18446744073709551615"), batch(&[most]));
        assert_eq!(parse(b"burst 2000 65535 18446744073709551615 18446744073709551615"), batch(&[most; 2000]));
        assert_eq!(parse(b"burst 2001 65535 18446744073709551615 18446744073709551615"), None);
    }

    #[test]
    fn parts() {
        let part = |line: &str| match parse(line.as_bytes()) {
            Some(ShelfLine::Part(part)) => Some(part),
            Some(_) => panic!("{}", line),
            None => None,
        };
        let expected = Part { id: 5, indicator: 1, low: 2, high: 3, count: 4, data: vec![0, 255] };
        assert_eq!(part("part 5 1 2 3 4 00ff"), Some(expected.clone()));
        assert_eq!(part("part 5 1 2 3 4 -"), Some(Part { data: vec![], ..expected }));
        // The longest good line.
        let line = format!("part 65535 255 4294967295 4294967295 4294967295 {}", "5a".repeat(4100));
        assert_eq!(line.len(), 8248);
        let (id, indicator, word) = (65535, 255, 4294967295);
        assert_eq!(
            part(&line),
            Some(Part { id, indicator, low: word, high: word, count: word, data: vec![0x5A; 4100] })
        );
        assert_eq!(part(&format!("{}5a", line)), None);
        assert_eq!(part(&format!("{}5", line)), None);
        for line in [
            "part",
            "part ",
            "part -",
            "part 5 1 2 3 4",
            "part 5 1 2 3 4 ",
            "part 5 1 2 3 -",
            "part 5 1 2 3 4 5 -",
            "part 5 1 2 3 4 00 00",
            "part 5 1 2 3 - 4",
            "part 65536 1 2 3 4 -",
            "part 5 256 2 3 4 -",
            "part 5 1 4294967296 3 4 -",
            "part 5 1 2 4294967296 4 -",
            "part 5 1 2 3 4294967296 -",
            "part 5 01 2 3 4 -",
            "part 5 1 2 3 4  -",
            "part  5 1 2 3 4 -",
            " part 5 1 2 3 4 -",
            "part 5 1 2 3 4 0",
            "part 5 1 2 3 4 0F",
            "part 5 1 2 3 4 --",
            "part\t5 1 2 3 4 -",
            "part 5 1 2 3 4 -\r",
            "part 5 1 2 3 4 00\0",
        ]
        .iter()
        {
            assert_eq!(part(line), None, "{}", line);
        }
        for line in ["Part 5 1 2 3 4 -", "parts 5 1 2 3 4 -", "par 5 1 2 3 4 -", "part5 1 2 3 4 -"].iter() {
            assert_eq!(parse(line.as_bytes()), None, "{}", line);
        }
    }

    #[test]
    fn queues() {
        assert_eq!(parse(b"queue 5 64"), Some(ShelfLine::Queue { id: 5, size: 64 }));
        assert_eq!(parse(b"queue 0 0"), Some(ShelfLine::Queue { id: 0, size: 0 }));
        assert_eq!(parse(b"queue 65535 32800"), Some(ShelfLine::Queue { id: 65535, size: 32800 }));
        let (id, size) = (5, 64);
        assert_eq!(parse(b"post 5 64 00ff"), Some(ShelfLine::Post { id, size, entry: vec![0, 255] }));
        assert_eq!(parse(b"post 5 64 -"), Some(ShelfLine::Post { id, size, entry: vec![] }));
        assert_eq!(parse(b"take 5 64 1 2"), Some(ShelfLine::Take { id, size, asked: 1, buffer: 2 }));
        assert_eq!(
            parse(b"take 65535 32800 4294967295 4096"),
            Some(ShelfLine::Take { id: 65535, size: 32800, asked: 4294967295, buffer: 4096 })
        );
        // The longest good line of the three.
        let line = format!("post 65535 32800 {}", "5a".repeat(64));
        assert_eq!(line.len(), 145);
        assert_eq!(parse(line.as_bytes()), Some(ShelfLine::Post { id: 65535, size: 32800, entry: vec![0x5A; 64] }));
        assert_eq!(parse(format!("{}5a", line).as_bytes()), None);
        assert_eq!(parse(format!("{}5", line).as_bytes()), None);
    }

    #[test]
    fn damaged_queues() {
        for line in [
            "queue",
            "queue ",
            "queue 5",
            "queue 5 ",
            "queue 5 64 ",
            "queue 5 64 64",
            "queue 5 64 -",
            "queue 5 -",
            "queue 5 32801",
            "queue 5 65536",
            "queue 5 4294967360",
            "queue 65536 64",
            "queue 5 064",
            "queue 05 64",
            "queue  5 64",
            " queue 5 64",
            "queue\t5 64",
            "queue 5 64\r",
            "Queue 5 64",
            "queues 5 64",
            "queu 5 64",
            "queue5 64",
            "post",
            "post ",
            "post -",
            "post 5",
            "post 5 -",
            "post 5 64",
            "post 5 64 ",
            "post 5 64 - ",
            "post 5 64 64 -",
            "post 5 64 00 00",
            "post 5 - 64",
            "post 5 64 0",
            "post 5 64 000",
            "post 5 64 0F",
            "post 5 64 0g",
            "post 5 64 --",
            "post 5 64 00\r",
            "post 5 64 0x00",
            "post 5 32801 00",
            "post 65536 64 00",
            "post 5 064 00",
            "post 05 64 00",
            "post 5 64  00",
            "post  5 64 00",
            " post 5 64 00",
            "Post 5 64 00",
            "posts 5 64 00",
            "pos 5 64 00",
            "take",
            "take ",
            "take 5",
            "take 5 64",
            "take 5 64 1",
            "take 5 64 1 ",
            "take 5 64 1 32 ",
            "take 5 64 1 32 0",
            "take 5 64 1 -",
            "take 5 64 - 32",
            "take 5 64 1 4097",
            "take 5 64 4294967296 32",
            "take 5 32801 1 32",
            "take 65536 64 1 32",
            "take 5 64 01 32",
            "take 5 64 1 032",
            "take 5 64  1 32",
            " take 5 64 1 32",
            "Take 5 64 1 32",
            "takes 5 64 1 32",
            "tak 5 64 1 32",
        ]
        .iter()
        {
            assert_eq!(parse(line.as_bytes()), None, "{}", line);
        }
    }

    #[test]
    fn settings_files() {
        assert_eq!(parse(b"old -"), Some(ShelfLine::Old(vec![])));
        assert_eq!(parse(b"new 00ff"), Some(ShelfLine::New(vec![0, 255])));
        for word in ["old", "new"].iter() {
            let longest = format!("{} {}", word, "5a".repeat(64));
            assert!(parse(longest.as_bytes()).is_some());
            for line in
                ["", " ", " 0", " 0F", " 000", " --", "  -", " - ", " - -", " 1 -", " 00 00", "\t-", " -\r"].iter()
            {
                assert_eq!(parse(format!("{}{}", word, line).as_bytes()), None, "{}{}", word, line);
            }
            assert_eq!(parse(format!("{}5a", longest).as_bytes()), None);
            assert_eq!(parse(format!("{}5", longest).as_bytes()), None);
            assert_eq!(parse(format!(" {} -", word).as_bytes()), None);
        }
        for line in ["Old -", "olds -", "ol -", "old-", "New -", "news -", "ne -", "new-"].iter() {
            assert_eq!(parse(line.as_bytes()), None, "{}", line);
        }
    }

    #[test]
    fn settings_to_save() {
        let save = |line: &str| match parse(line.as_bytes()) {
            Some(ShelfLine::Save { version, settings }) => Some((version, settings)),
            Some(_) => panic!("{}", line),
            None => None,
        };
        let (version, settings) = save("save 2 1 3 8 1 16 7 4 18 5 6").unwrap();
        assert_eq!((version, settings.second, settings.shelf), (2, Some(Manager { id: 7, limit: 4 }), 18));
        assert_eq!(
            parse(b"dev2 1 3 8 1 16 7 4 18 5 6"),
            Some(ShelfLine::Session(Line::Dev(settings.clone()))),
            "the settings are read as in `dev2`"
        );
        assert_eq!(
            parse(b"dev 1 3 8 1 16 5 6"),
            Some(ShelfLine::Session(Line::Dev(Settings { second: None, shelf: 128, ..settings }))),
            "document 01's part is read as in `dev`"
        );
        assert_eq!(save("save 2 1 3 8 1 16 1 0 18 5 6").unwrap().1.second, None);
        assert!(save("save 2 1 3 8 1 16 1 4 18 5 6").unwrap().1.second.is_some());
        // The longest good line.
        let line = format!("save 65535 65535 255 255 1 65535 65535 65535 65535{}", " 65535".repeat(8));
        assert_eq!(line.len(), 98);
        assert!(save(&line).is_some());
        assert!(save("save 0 0 0 0 0 0 0 0 0").is_some());
        for line in [
            "save",
            "save ",
            "save 2",
            "save 2 1 0 8 0 16 1 0",
            "save 2 1 0 8 0 16 1 0 128 5 6 7 8 9 10 11 12 13",
            "save 65536 1 0 8 0 16 1 0 128 5",
            "save 2 65536 0 8 0 16 1 0 128 5",
            "save 2 1 256 8 0 16 1 0 128 5",
            "save 2 1 0 256 0 16 1 0 128 5",
            "save 2 1 0 8 2 16 1 0 128 5",
            "save 2 1 0 8 0 65536 1 0 128 5",
            "save 2 1 0 8 0 16 65536 0 128 5",
            "save 2 1 0 8 0 16 1 65536 128 5",
            "save 2 1 0 8 0 16 1 0 65536 5",
            "save 2 1 0 8 0 16 1 0 128 65536",
            "save 02 1 0 8 0 16 1 0 128 5",
            "save 2 1 0 8 0 16 1 0 128 5 ",
            "save 2 1 0 8 0 16 1 0 128 -",
            "save - 1 0 8 0 16 1 0 128 5",
            "save 2  1 0 8 0 16 1 0 128 5",
            " save 2 1 0 8 0 16 1 0 128 5",
            "Save 2 1 0 8 0 16 1 0 128 5",
            "saves 2 1 0 8 0 16 1 0 128 5",
        ]
        .iter()
        {
            assert_eq!(save(line), None, "{}", line);
        }
    }

    #[test]
    fn devices_of_two_managers() {
        let dev2 = |line: &str| match parse(line.as_bytes()) {
            Some(ShelfLine::Session(Line::Dev(settings))) => Some(settings),
            Some(_) => panic!("{}", line),
            None => None,
        };
        let settings = Settings {
            manager: 1,
            least: 2,
            greatest: 3,
            rule: 1,
            limit: 4,
            second: Some(Manager { id: 7, limit: 8 }),
            shelf: 9,
            number: 2,
            identifiers: [5, 6, 0, 0, 0, 0, 0, 0],
        };
        assert_eq!(dev2("dev2 1 2 3 1 4 7 8 9 5 6"), Some(settings.clone()));
        // Equal: one with limit 0, and else a second one, whose name will be 16.
        assert_eq!(dev2("dev2 1 2 3 1 4 1 0 9 5 6"), Some(Settings { second: None, ..settings.clone() }));
        let equal = Some(Manager { id: 1, limit: 1 });
        assert_eq!(dev2("dev2 1 2 3 1 4 1 1 9 5 6"), Some(Settings { second: equal, ..settings.clone() }));
        let with_limit_0 = Some(Manager { id: 2, limit: 0 });
        assert_eq!(dev2("dev2 1 2 3 1 4 2 0 9 5 6"), Some(Settings { second: with_limit_0, ..settings }));
        assert_eq!(dev2("dev2 0 0 0 0 0 0 0 0"), Some(Settings::default()));
        // The longest good line.
        let line = format!("dev2 65535 255 255 1 65535 65535 65535 65535{}", " 65535".repeat(8));
        assert_eq!(line.len(), 92);
        assert!(dev2(&line).is_some());
        for line in [
            "dev2",
            "dev2 ",
            "dev2 1",
            "dev2 1 0 8 0 16",
            "dev2 1 0 8 0 16 2 4",
            "dev2 1 0 8 0 16 2 4 ",
            "dev2 1 0 8 0 16 2 4 18 5 6 7 8 9 10 11 12 13",
            "dev2 65536 0 8 0 16 2 4 18 5",
            "dev2 1 256 8 0 16 2 4 18 5",
            "dev2 1 0 256 0 16 2 4 18 5",
            "dev2 1 0 8 2 16 2 4 18 5",
            "dev2 1 0 8 0 65536 2 4 18 5",
            "dev2 1 0 8 0 16 65536 4 18 5",
            "dev2 1 0 8 0 16 2 65536 18 5",
            "dev2 1 0 8 0 16 2 4 65536 5",
            "dev2 1 0 8 0 16 2 4 18 65536",
            "dev2 01 0 8 0 16 2 4 18 5",
            "dev2 1 0 8 0 16 2 04 18 5",
            "dev2 1 0 8 0 16 2 4 18 5 ",
            "dev2 1 0 8 0 16 - - 18 5",
            "dev2 1 0 8 0 16  2 4 18 5",
            " dev2 1 0 8 0 16 2 4 18 5",
            "dev2\t1 0 8 0 16 2 4 18 5",
            "dev2 1 0 8 0 16 2 4 18 5\r",
            "Dev2 1 0 8 0 16 2 4 18 5",
            "dev 2 1 0 8 0 16 2 4 18 5 6 7 8 9",
            "dev3 1 0 8 0 16 2 4 18 5",
            "dev22 1 0 8 0 16 2 4 18 5",
        ]
        .iter()
        {
            assert_eq!(dev2(line), None, "{}", line);
        }
    }

    #[test]
    fn lines_called_by_a_manager() {
        let by = |by: u64, line: ShelfLine| Some(Called { by: Some(by), line });
        let of = |line: &str| super::parse(line.as_bytes());
        let start = Line::Start { id: 5, granularity: 0, ranges: vec![Range { start: 65536, length: 4 }] };
        assert_eq!(of("by 2 start 5 0 65536 4"), by(2, ShelfLine::Session(start)));
        assert_eq!(of("by 2 stop 5"), by(2, ShelfLine::Session(Line::Stop { id: 5 })));
        assert_eq!(of("by 0 recv 5 64"), by(0, ShelfLine::Session(Line::Recv { id: 5, buffer: 64 })));
        assert_eq!(of("by 65535 susp 5 1"), by(65535, ShelfLine::Session(Line::Susp { id: 5, kind: 1 })));
        assert_eq!(of("by 10 resume 5"), by(10, ShelfLine::Session(Line::Resume { id: 5 })));
        let part = Part { id: 5, indicator: 1, low: 2, high: 3, count: 4, data: vec![0, 255] };
        assert_eq!(of("by 2 part 5 1 2 3 4 00ff"), by(2, ShelfLine::Part(part.clone())));
        assert_eq!(of("part 5 1 2 3 4 00ff"), Some(Called { by: None, line: ShelfLine::Part(part) }));
        // The longest good line.
        let longest = format!("by 65535 part 65535 255 4294967295 4294967295 4294967295 {}", "5a".repeat(4100));
        assert_eq!(longest.len(), 8257);
        assert!(of(&longest).is_some());
        assert_eq!(of(&format!("{}5a", longest)), None);
    }

    #[test]
    fn damaged_by() {
        let of = |line: &str| super::parse(line.as_bytes());
        // Good lines by themselves, and none of them names a manager.
        for line in [
            "dev 1 0 8 0 16 5 6",
            "dev2 1 0 8 0 16 2 4 18 5 6",
            "write 5 65536 1",
            "batch",
            "batch 5 65536 1",
            "burst 3 5 65536 1",
            "queue 5 64",
            "post 5 64 00",
            "take 5 64 1 32",
            "old -",
            "new -",
            "save 1 1 0 8 0 16 1 0 128 5 6",
            "log 5",
            "by 2 stop 5",
            "by 2 part 5 1 0 0 1 00000000",
        ]
        .iter()
        {
            assert!(of(line).is_some(), "{}", line);
            assert_eq!(of(&format!("by 2 {}", line)), None, "{}", line);
        }
        for line in [
            "by",
            "by ",
            "by  ",
            "by 2",
            "by 2 ",
            "by 2  ",
            "by 2 5",
            "by stop 5",
            "by 2  stop 5",
            "by  2 stop 5",
            "by  stop 5",
            " by 2 stop 5",
            "by 2 stop 5 ",
            "by 2 stop",
            "by 2 stop ",
            "by 2 stop 65536",
            "by 2 stop 05",
            "by 2 stop 5 6",
            "by 2 Stop 5",
            "by 2 stops 5",
            "by 2 start 5",
            "by 2 start 5 0 65536",
            "by 2 recv 5",
            "by 2 recv 5 4097",
            "by 2 susp 5",
            "by 2 susp 5 256",
            "by 2 resume",
            "by 2 part 5 1 0 0 1",
            "by 2 part 5 1 0 0 1 0",
            "by 2 part 5 1 0 0 1 0A",
            "by 65536 stop 5",
            "by 02 stop 5",
            "by +2 stop 5",
            "by -2 stop 5",
            "by - stop 5",
            "by 2,stop 5",
            "by 18446744073709551616 stop 5",
            "by 2 nothing 5",
            "by\t2 stop 5",
            "by 2\tstop 5",
            "by 2 stop 5\r",
            "By 2 stop 5",
            "bye 2 stop 5",
            "b 2 stop 5",
            "by2 stop 5",
            "stop 5 by 2",
            "stop by 2 5",
            "2 stop 5",
        ]
        .iter()
        {
            assert_eq!(of(line), None, "{}", line);
        }
    }

    #[test]
    fn logs() {
        assert_eq!(parse(b"log 5"), Some(ShelfLine::Log { id: 5 }));
        assert_eq!(parse(b"log 0"), Some(ShelfLine::Log { id: 0 }));
        assert_eq!(parse(b"log 65535"), Some(ShelfLine::Log { id: 65535 }));
        for line in [
            "log",
            "log ",
            "log  5",
            "log 5 ",
            "log 5 6",
            "log 5 0",
            "log 65536",
            "log 4294967301",
            "log 05",
            "log 00",
            "log +5",
            "log -",
            "log 5\r",
            "log 5\0",
            "log\t5",
            " log 5",
            "log5",
            "Log 5",
            "LOG 5",
            "logs 5",
            "lo 5",
            "log all",
        ]
        .iter()
        {
            assert_eq!(parse(line.as_bytes()), None, "{}", line);
        }
    }

    #[test]
    fn most_triples() {
        let mut line = b"batch".to_vec();
        for _ in 0..1100 {
            line.extend_from_slice(b" 5 6 7");
        }
        assert_eq!(parse(&line), batch(&[write(5, 6, 7); 1100]));
        for more in [" 5", " 5 6", " 5 6 7", " 5 6 7 5"].iter() {
            let mut longer = line.clone();
            longer.extend_from_slice(more.as_bytes());
            assert_eq!(parse(&longer), None, "{}", more);
        }
    }
}
