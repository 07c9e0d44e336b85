//! The lines of a listing (document 01, "Session listing").

use crate::rules::{Note, Range, Settings, GREATEST_LIMIT, MOST_CONTROLLERS, MOST_RANGES};

/// "lines of at most 1,023 bytes before the line feed"
pub const MOST_BYTES: usize = 1023;

/// "decimal numbers ... that fit their fields (identifiers and limit 16 bits, addresses and bytes 64, lengths 32,
/// granularities and type 8)"
pub const BITS_8: u64 = 255;
pub const BITS_16: u64 = 65535;
pub const BITS_32: u64 = 4294967295;
const BITS_64: u64 = 18446744073709551615;
/// "rule (0 or 1)"
const GREATEST_RULE: u64 = 1;
/// "buffer (at most 4096)"
pub const GREATEST_BUFFER: u64 = 4096;

/// A well-formed line.
#[derive(Clone, Debug, PartialEq, Eq)]
pub enum Line {
    Dev(Settings),
    Start { id: u64, granularity: u64, ranges: Vec<Range> },
    Stop { id: u64 },
    Write(Note),
    Recv { id: u64, buffer: u64 },
    Susp { id: u64, kind: u64 },
    Resume { id: u64 },
}

/// The line in these bytes. Nothing for "Any other line".
pub fn parse(line: &[u8]) -> Option<Line> {
    let (word, numbers) = word_and_numbers(line)?;
    match (word, numbers.as_slice()) {
        // "`dev` manager, least, greatest, rule (0 or 1), limit, 0 to 8 identifiers"
        (b"dev", [manager, least, greatest, rule, limit, identifiers @ ..]) => {
            Some(Line::Dev(settings([*manager, *least, *greatest, *rule, *limit], identifiers)?))
        }
        // "`start` id, granularity, 0 to 16 pairs"
        (b"start", [id, granularity, pairs @ ..]) => {
            let mut ranges = Vec::new();
            for pair in pairs.chunks(2) {
                match pair {
                    [start, length] => {
                        ranges.push(Range { start: fitting(*start, BITS_64)?, length: fitting(*length, BITS_32)? })
                    }
                    _ => return None,
                }
            }
            if ranges.len() > MOST_RANGES {
                return None;
            }
            Some(Line::Start { id: fitting(*id, BITS_16)?, granularity: fitting(*granularity, BITS_8)?, ranges })
        }
        // "`stop` id"
        (b"stop", [id]) => Some(Line::Stop { id: fitting(*id, BITS_16)? }),
        // "`write` id, address, bytes"
        (b"write", fields) => Some(Line::Write(note(fields)?)),
        // "`recv` id, buffer (at most 4096)"
        (b"recv", [id, buffer]) => {
            Some(Line::Recv { id: fitting(*id, BITS_16)?, buffer: fitting(*buffer, GREATEST_BUFFER)? })
        }
        // "`susp` id, type"
        (b"susp", [id, kind]) => Some(Line::Susp { id: fitting(*id, BITS_16)?, kind: fitting(*kind, BITS_8)? }),
        // "`resume` id"
        (b"resume", [id]) => Some(Line::Resume { id: fitting(*id, BITS_16)? }),
        _ => None,
    }
}

/// "manager, least, greatest, rule (0 or 1), limit", and "0 to 8 identifiers". W12: "The session keeps one manager and shelf
/// limit 128."
pub fn settings(fields: [u64; 5], identifiers: &[u64]) -> Option<Settings> {
    let [manager, least, greatest, rule, limit] = fields;
    if identifiers.len() > MOST_CONTROLLERS {
        return None;
    }
    let mut places = [0; MOST_CONTROLLERS];
    for (place, identifier) in places.iter_mut().zip(identifiers) {
        *place = fitting(*identifier, BITS_16)?;
    }
    Some(Settings {
        manager: fitting(manager, BITS_16)?,
        least: fitting(least, BITS_8)?,
        greatest: fitting(greatest, BITS_8)?,
        rule: fitting(rule, GREATEST_RULE)?,
        limit: fitting(limit, BITS_16)?,
        second: None,
        shelf: GREATEST_LIMIT,
        number: identifiers.len() as u64,
        identifiers: places,
    })
}

/// "a word, then decimal numbers ..., one space between."
pub fn word_and_numbers(line: &[u8]) -> Option<(&[u8], Vec<u64>)> {
    let mut pieces = line.split(|byte| *byte == b' ');
    let word = pieces.next()?;
    let mut numbers = Vec::new();
    for piece in pieces {
        numbers.push(number(piece)?);
    }
    Some((word, numbers))
}

/// "id, address, bytes", exactly these.
pub fn note(fields: &[u64]) -> Option<Note> {
    match fields {
        [id, address, bytes] => Some(Note {
            id: fitting(*id, BITS_16)?,
            address: fitting(*address, BITS_64)?,
            bytes: fitting(*bytes, BITS_64)?,
        }),
        _ => None,
    }
}

/// "decimal numbers without leading zeros": `0` is a number, and `00`, `+1`, `01` are not. Nothing also for a number of
/// more than 64 bits, as no field is wider.
pub fn number(piece: &[u8]) -> Option<u64> {
    if piece == b"0" {
        return Some(0);
    }
    // 2^64 has 20 digits, so a number of more fits no field.
    if piece.is_empty() || piece.len() > 20 || piece.starts_with(b"0") {
        return None;
    }
    let mut value: u128 = 0;
    for byte in piece {
        let digit = match *byte {
            b'0' => 0,
            b'1' => 1,
            b'2' => 2,
            b'3' => 3,
            b'4' => 4,
            b'5' => 5,
            b'6' => 6,
            b'7' => 7,
            b'8' => 8,
            b'9' => 9,
            _ => return None,
        };
        value = value * 10 + digit;
    }
    if value <= u128::from(BITS_64) {
        Some(value as u64)
    } else {
        None
    }
}

/// "that fit their fields"
pub fn fitting(value: u64, greatest: u64) -> Option<u64> {
    if value <= greatest {
        Some(value)
    } else {
        None
    }
}

#[cfg(test)]
mod tests {
    use super::*;

    #[test]
    fn numbers() {
        for (piece, value) in [
            ("0", 0),
            ("1", 1),
            ("9", 9),
            ("10", 10),
            ("4096", 4096),
            ("1234567890", 1234567890),
            ("18446744073709551615", u64::MAX),
        ]
        .iter()
        {
            assert_eq!(number(piece.as_bytes()), Some(*value), "{}", piece);
        }
        for piece in [
            "",
            "00",
            "01",
            "007",
            "+1",
            "-1",
            "-0",
            "1.0",
            "0x1",
            "1a",
            "a1",
            "1_000",
            "1,000",
            "18446744073709551616",
            "20000000000000000000",
            "99999999999999999999",
            "100000000000000000000",
            "340282366920938463463374607431768211456",
            "340282366920938463463374607431768211461",
        ]
        .iter()
        {
            assert_eq!(number(piece.as_bytes()), None, "{}", piece);
        }
        assert_eq!(number(&[b'1', 0]), None);
        assert_eq!(number(&[0xd9, 0xa1]), None, "a digit of another script");
        assert_eq!(number(&[b'9'; 1000]), None);
    }

    #[test]
    fn each_word() {
        assert_eq!(
            parse(b"dev 1 2 3 1 4 5 6"),
            Some(Line::Dev(Settings {
                manager: 1,
                least: 2,
                greatest: 3,
                rule: 1,
                limit: 4,
                second: None,
                shelf: 128,
                number: 2,
                identifiers: [5, 6, 0, 0, 0, 0, 0, 0],
            }))
        );
        assert_eq!(
            parse(b"start 5 8 65536 4 0 1"),
            Some(Line::Start {
                id: 5,
                granularity: 8,
                ranges: vec![Range { start: 65536, length: 4 }, Range { start: 0, length: 1 }],
            })
        );
        assert_eq!(parse(b"stop 5"), Some(Line::Stop { id: 5 }));
        assert_eq!(parse(b"write 5 6 7"), Some(Line::Write(Note { id: 5, address: 6, bytes: 7 })));
        assert_eq!(parse(b"recv 5 4096"), Some(Line::Recv { id: 5, buffer: 4096 }));
        assert_eq!(parse(b"susp 5 1"), Some(Line::Susp { id: 5, kind: 1 }));
        assert_eq!(parse(b"resume 5"), Some(Line::Resume { id: 5 }));
    }

    #[test]
    fn greatest_numbers() {
        assert_eq!(
            parse(b"dev 65535 255 255 1 65535 65535 65535 65535 65535 65535 65535 65535 65535"),
            Some(Line::Dev(Settings {
                manager: 65535,
                least: 255,
                greatest: 255,
                rule: 1,
                limit: 65535,
                second: None,
                shelf: 128,
                number: 8,
                identifiers: [65535; 8],
            }))
        );
        let mut line = b"start 65535 255".to_vec();
        for _ in 0..16 {
            line.extend_from_slice(b" 18446744073709551615 4294967295");
        }
        // The longest well-formed line there is.
        assert_eq!(line.len(), 527);
        assert_eq!(
            parse(&line),
            Some(Line::Start {
                id: 65535,
                granularity: 255,
                ranges: vec![Range { start: u64::MAX, length: 4294967295 }; 16],
            })
        );
        line.extend_from_slice(b" 0 0");
        assert_eq!(parse(&line), None, "17 pairs");
        assert_eq!(
            parse(b"write 65535 18446744073709551615 18446744073709551615"),
            Some(Line::Write(Note { id: 65535, address: u64::MAX, bytes: u64::MAX }))
        );
        assert_eq!(parse(b"susp 65535 255"), Some(Line::Susp { id: 65535, kind: 255 }));
    }

    #[test]
    fn fewest_numbers() {
        assert_eq!(parse(b"dev 0 0 0 0 0"), Some(Line::Dev(Settings { shelf: 128, ..Settings::default() })));
        assert_eq!(parse(b"start 0 0"), Some(Line::Start { id: 0, granularity: 0, ranges: Vec::new() }));
    }
}
