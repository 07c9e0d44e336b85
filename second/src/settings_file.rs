//! The settings file (W11), laid out as READINGS W11 has it.
//!
//! The layout is one table of fields and widths: a writer goes through it laying numbers down, and a reader goes through it
//! taking them off. A reader is lenient about spare bytes and then asks what the writer would write: "Settings have one
//! encoding at each version", so any other bytes are 16.

use std::collections::BTreeMap;

use crate::little_endian::{get, put};
use crate::rules::{
    settings_broken, Manager, Refusal, Settings, FILE_LENGTH, FILE_VERSION, GREATEST_LIMIT, MARK, MOST_CONTROLLERS,
    SETTINGS,
};

/// `TRK`, its first letter the lowest byte of a number of three.
const TRK: u64 = 0x4B5254;

#[derive(Clone, Copy, Debug, PartialEq, Eq, PartialOrd, Ord)]
enum Field {
    Mark,
    Version,
    Manager,
    Least,
    Greatest,
    Rule,
    Limit,
    Number,
    Identifier(usize),
    Second,
    SecondLimit,
    Shelf,
}

/// A field and how many bytes it has.
type Row = (Field, usize);
/// What was read, by field.
type Numbers = BTreeMap<Field, u64>;

/// What every file begins with: five bytes.
const HEAD: &[Row] = &[(Field::Mark, 3), (Field::Version, 2)];
/// "what document 01 lists"; the identifiers have a place for each of 8.
const FIRST: &[Row] = &[
    (Field::Manager, 2),
    (Field::Least, 1),
    (Field::Greatest, 1),
    (Field::Rule, 1),
    (Field::Limit, 2),
    (Field::Number, 1),
    (Field::Identifier(0), 2),
    (Field::Identifier(1), 2),
    (Field::Identifier(2), 2),
    (Field::Identifier(3), 2),
    (Field::Identifier(4), 2),
    (Field::Identifier(5), 2),
    (Field::Identifier(6), 2),
    (Field::Identifier(7), 2),
];
/// What version 2 adds: "16 bits each".
const ADDED: &[Row] = &[(Field::Second, 2), (Field::SecondLimit, 2), (Field::Shelf, 2)];

/// What stands behind the head in a file of this version; nothing for a version that there isn't.
fn body(version: u64) -> Option<Vec<Row>> {
    match version {
        1 => Some(FIRST.to_vec()),
        2 => Some([FIRST, ADDED].concat()),
        _ => None,
    }
}

/// "a second manager equal to the first, with limit 0, means one". Equal with another limit it is a second one all the
/// same, whose name breaks 16.
pub fn second_manager(manager: u64, second: u64, limit: u64) -> Option<Manager> {
    if second == manager && limit == 0 {
        None
    } else {
        Some(Manager { id: second, limit })
    }
}

/// The other way round: how a version 2 file names the second manager, or that there is one only.
pub fn second_in_file(settings: &Settings) -> Manager {
    settings.second.unwrap_or(Manager { id: settings.manager, limit: 0 })
}

/// The version 1 reader, which "is kept and refuses version 2 by number".
pub fn read_version_1(file: &[u8]) -> Result<Settings, Refusal> {
    read_known(file, &[1])
}

/// "The new reader takes both".
pub fn read(file: &[u8]) -> Result<Settings, Refusal> {
    read_known(file, &[1, 2])
}

/// "35 for a wrong length, first where fewer than five bytes are there, else after 31 wrong mark and 32 version; then 16."
fn read_known(file: &[u8], known: &[u64]) -> Result<Settings, Refusal> {
    let (head, rest) = taken_off(HEAD, file).ok_or(FILE_LENGTH)?;
    if head.get(&Field::Mark) != Some(&TRK) {
        return Err(MARK);
    }
    let version = number(&head, Field::Version);
    let rows = body(version).filter(|_| known.contains(&version)).ok_or(FILE_VERSION)?;
    // "Bytes after it are refused."
    let numbers = match taken_off(&rows, rest) {
        Some((numbers, [])) => numbers,
        _ => return Err(FILE_LENGTH),
    };
    let settings = settings_of(&numbers);
    // The writer's 16 is the reader's, and other bytes than its own have a spare one set.
    if write(version, &settings)? != file {
        return Err(SETTINGS);
    }
    Ok(settings)
}

/// The numbers of these fields from the file's beginning, and what is left; nothing if they are not all there.
fn taken_off<'a>(rows: &[Row], file: &'a [u8]) -> Option<(Numbers, &'a [u8])> {
    let mut numbers = Numbers::new();
    let mut rest = file;
    for (field, width) in rows {
        numbers.insert(*field, get(rest, 0, *width)?);
        rest = rest.get(*width..)?;
    }
    Some((numbers, rest))
}

fn number(numbers: &Numbers, field: Field) -> u64 {
    numbers.get(&field).copied().unwrap_or(0)
}

/// The settings that the numbers name, nonsense or not. "a version 1 file gives one manager and the shelf limit 128." Unused
/// places are left at 0 whatever the file has there.
fn settings_of(numbers: &Numbers) -> Settings {
    let of = |field| number(numbers, field);
    let (second, shelf) = match numbers.get(&Field::Shelf) {
        None => (None, GREATEST_LIMIT),
        Some(shelf) => (second_manager(of(Field::Manager), of(Field::Second), of(Field::SecondLimit)), *shelf),
    };
    let mut settings = Settings {
        manager: of(Field::Manager),
        least: of(Field::Least),
        greatest: of(Field::Greatest),
        rule: of(Field::Rule),
        limit: of(Field::Limit),
        second,
        shelf,
        number: of(Field::Number),
        identifiers: [0; MOST_CONTROLLERS],
    };
    for (place, _) in (0..MOST_CONTROLLERS).zip(0..settings.number) {
        settings.identifiers[place] = of(Field::Identifier(place));
    }
    settings
}

/// The writer: 16, then 32 for a version that there isn't or that can't hold these settings. It makes its own buffer, so 8
/// can't be met.
pub fn write(version: u64, settings: &Settings) -> Result<Vec<u8>, Refusal> {
    if settings_broken(settings) {
        return Err(SETTINGS);
    }
    let rows = body(version).ok_or(FILE_VERSION)?;
    let mut file = Vec::new();
    let mut laid_down = Numbers::new();
    for (field, width) in [HEAD, &rows].concat() {
        let value = value_of(field, version, settings);
        put(&mut file, u128::from(value), width);
        laid_down.insert(field, value);
    }
    // A version can't hold them where its numbers would be read as another shelf.
    let held = settings_of(&laid_down);
    if (held.second, held.shelf) != (settings.second, settings.shelf) {
        return Err(FILE_VERSION);
    }
    Ok(file)
}

/// What stands in a field of a file with these settings.
fn value_of(field: Field, version: u64, settings: &Settings) -> u64 {
    let second = second_in_file(settings);
    match field {
        Field::Mark => TRK,
        Field::Version => version,
        Field::Manager => settings.manager,
        Field::Least => settings.least,
        Field::Greatest => settings.greatest,
        Field::Rule => settings.rule,
        Field::Limit => settings.limit,
        Field::Number => settings.number,
        Field::Identifier(place) => settings.used_identifiers().get(place).copied().unwrap_or(0),
        Field::Second => second.id,
        Field::SecondLimit => second.limit,
        Field::Shelf => settings.shelf,
    }
}

#[cfg(test)]
mod tests {
    use super::*;

    /// `dev 1 0 8 0 16 5 6`, one manager, shelf limit 128.
    fn one() -> Settings {
        let (second, identifiers) = (None, [5, 6, 0, 0, 0, 0, 0, 0]);
        Settings { manager: 1, least: 0, greatest: 8, rule: 0, limit: 16, second, shelf: 128, number: 2, identifiers }
    }

    /// READINGS W11: managers 1 (16), 2 (4), shelf 18, controllers 5, 6 and 7.
    fn two() -> Settings {
        let mut settings = Settings { second: Some(Manager { id: 2, limit: 4 }), shelf: 18, number: 3, ..one() };
        settings.identifiers[2] = 7;
        settings
    }

    const ONE_1: [u8; 29] = [
        0x54, 0x52, 0x4B, 1, 0, // TRK, version
        1, 0, 0, 8, 0, 16, 0, // manager, least, greatest, rule, limit
        2, 5, 0, 6, 0, 0, 0, 0, 0, 0, 0, 0, 0, 0, 0, 0, 0, // number, 8 places
    ];
    const TWO: [u8; 35] = [
        0x54, 0x52, 0x4B, 2, 0, 1, 0, 0, 8, 0, 16, 0, 3, 5, 0, 6, 0, 7, 0, 0, 0, 0, 0, 0, 0, 0, 0, 0, 0, //
        2, 0, 4, 0, 18, 0, // second manager, its limit, shelf limit
    ];

    fn one_2() -> Vec<u8> {
        let mut file = ONE_1.to_vec();
        file[3] = 2;
        file.extend_from_slice(&[1, 0, 0, 0, 128, 0]);
        file
    }

    #[test]
    fn files_by_hand() {
        assert_eq!(write(1, &one()), Ok(ONE_1.to_vec()));
        assert_eq!(write(2, &one()), Ok(one_2()));
        assert_eq!(write(2, &two()), Ok(TWO.to_vec()));
        assert_eq!(read(&ONE_1), Ok(one()));
        assert_eq!(read(&one_2()), Ok(one()));
        assert_eq!(read(&TWO), Ok(two()));
        assert_eq!(read_version_1(&ONE_1), Ok(one()));
        assert_eq!(read_version_1(&one_2()), Err(32));
        assert_eq!(read_version_1(&TWO), Err(32));
    }

    #[test]
    fn what_a_version_cannot_hold() {
        assert_eq!(write(1, &two()), Err(32));
        assert_eq!(write(1, &Settings { shelf: 127, ..one() }), Err(32));
        assert_eq!(write(1, &Settings { shelf: 128, ..two() }), Err(32));
        for version in [0, 3, 257, 258, 513, 65535].iter() {
            assert_eq!(write(*version, &one()), Err(32), "{}", version);
            // 16 comes first.
            assert_eq!(write(*version, &Settings { shelf: 129, ..one() }), Err(16), "{}", version);
        }
        assert_eq!(write(1, &Settings { shelf: 129, ..two() }), Err(16));
    }

    #[test]
    fn equal_managers_in_memory_are_16() {
        for limit in [0, 4].iter() {
            let settings = Settings { second: Some(Manager { id: 1, limit: *limit }), ..one() };
            assert_eq!(write(2, &settings), Err(16));
        }
        assert_eq!(second_manager(1, 1, 0), None);
        assert_eq!(second_manager(1, 1, 4), Some(Manager { id: 1, limit: 4 }));
        assert_eq!(second_manager(1, 2, 0), Some(Manager { id: 2, limit: 0 }));
    }

    #[test]
    fn unused_places_are_written_as_0() {
        let mut settings = one();
        settings.identifiers[2] = 7;
        settings.identifiers[7] = 65535;
        assert_eq!(write(1, &settings), Ok(ONE_1.to_vec()));
        assert_eq!(write(2, &settings), Ok(one_2()));
    }

    /// The number of a reader, 0 done.
    fn both(file: &[u8]) -> (Refusal, Refusal) {
        let old = read_version_1(file).err().unwrap_or(0);
        (old, read(file).err().unwrap_or(0))
    }

    #[test]
    fn every_length() {
        for (file, length, known) in [(&ONE_1[..], 29, (0, 0)), (&TWO[..], 35, (32, 0))].iter() {
            let mut longer = file.to_vec();
            longer.resize(64, 0);
            for bytes in 0..=64 {
                let expected = if bytes < 5 {
                    (35, 35)
                } else if bytes == *length {
                    *known
                } else {
                    (if known.0 == 32 { 32 } else { 35 }, 35)
                };
                assert_eq!(both(&longer[..bytes]), expected, "{} of {}", bytes, length);
            }
        }
    }

    #[test]
    fn every_value_of_every_byte() {
        for file in [&ONE_1[..], &one_2(), &TWO[..]].iter() {
            for place in 0..file.len() {
                for value in 0..=255 {
                    let mut changed = file.to_vec();
                    changed[place] = value;
                    // What is accepted is what is written: one encoding. It is never the settings of another file.
                    if let Ok(settings) = read(&changed) {
                        assert_eq!(write(u64::from(changed[3]), &settings), Ok(changed.clone()));
                        assert_eq!(read(file) == Ok(settings), *file == &changed[..]);
                    }
                    let (old, new) = both(&changed);
                    let expected = match place {
                        0..=2 if value != file[place] => (31, 31),
                        3 | 4 if value != file[place] => (32, if value == 3 - file[3] && place == 3 { 35 } else { 32 }),
                        _ => (if file[3] == 1 { new } else { 32 }, new),
                    };
                    // Version 1 in a file of 35 bytes is a wrong length to both.
                    let expected = if place == 3 && value == 1 && file[3] == 2 { (35, 35) } else { expected };
                    assert_eq!((old, new), expected, "byte {} is {}", place, value);
                    assert!([0, 16, 31, 32, 35].contains(&new));
                }
            }
        }
    }

    #[test]
    fn spare_bytes() {
        for place in 17..29 {
            for value in 1..=255 {
                let mut file = ONE_1;
                file[place] = value;
                assert_eq!(both(&file), (16, 16), "byte {}", place);
            }
        }
    }
}
