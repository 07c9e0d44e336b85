//! The form of a case (tests/RECORDS.md), and the device record as bytes in that form.

use super::marks::Marks;
use crate::little_endian::{get, put};
use crate::rules::{Controller, Manager, Note, Queue, Range, Record, Sequence, Settings, Tracking};

/// A case is exactly so long; what stands after its last field is not looked at.
pub const CASE_BYTES: usize = 3056;
/// A case may lend more words or fewer than the 256 that W7 wants, so that both are refused; as many as before W7 too.
pub const MOST_WORDS: usize = 512;
/// So it may lend more bytes or fewer than the 16,384 that the plain engine wants (W9).
const MOST_UNITS: usize = 32768;
/// As many values has a byte that isn't 0.
const PENDING_VALUES: u64 = 255;
/// As many bytes at most are lent for a start structure, a report, a batch's rows, an entry or a take's buffer, and a case has
/// room for so many.
pub const MOST_DATA: usize = 1024;
/// A part may have more bytes than a state, so that 27 can be met; those that the case has no room for are zeros.
const MOST_PART_DATA: usize = 4100;
/// A case may lend a longer state area or a shorter one than the 4,096 bytes that W6 wants, so that both are refused. An
/// answer has room for so many bytes of an area.
pub const MOST_AREA: usize = 4200;
/// A case may lend a place more than a queue's area may have (W8), so that 28 can be met.
const MOST_QUEUE_AREA: usize = 32800;
/// The area's first bytes are told one by one.
const FRONT_BYTES: usize = 64;
/// Past these each byte of a queue's area says in which of its places it is.
const PLACE_BYTES: usize = 32;
/// A row of a batch: identifier (2), address (8), bytes (8).
const ROW_BYTES: usize = 18;
/// One more than W4 lets a batch have, so that 22 can be met.
const MOST_RECORDS: u64 = 1025;
/// The call that is a part, and those of a queue.
const PART: u64 = 8;
const MAKE_QUEUE: u64 = 9;
const POST: u64 = 10;
const TAKE: u64 = 11;

/// The seven calls of document 01, a batch (W4), a part (W6) and the three of a queue (W8), with what only one of them
/// takes.
#[derive(Clone, Debug, PartialEq, Eq)]
pub enum Call {
    Fresh,
    Start,
    Stop,
    Write { address: u64, bytes: u64 },
    Receive,
    Suspend { kind: u64 },
    Resume,
    Batch(Vec<Note>),
    Part { indicator: u64, low: u64, high: u64, count: u64 },
    MakeQueue,
    Post,
    Take { asked: u64 },
}

/// A device record that may be unsound, lent marks, bytes and area, and one call to play on them.
#[derive(Clone, Debug, PartialEq, Eq)]
pub struct Case {
    pub record: Record,
    /// None of them are lent where the call is made on the plain engine.
    pub words: Vec<u64>,
    pub plain: Option<Plain>,
    pub call: Call,
    /// The manager that makes the call, if that is one that names it (W12).
    pub by: u64,
    pub id: u64,
    pub data: Vec<u8>,
    /// A part's state area, or a queue's area; no other call takes one.
    pub area: Vec<u8>,
    /// From which byte on the answer has the area: a queue's is longer than what an answer has room for.
    pub shown: usize,
}

impl Case {
    /// What is lent to the engine on which the call is made.
    pub fn marks(&self) -> &dyn Marks {
        match &self.plain {
            Some(plain) => &plain.bytes,
            None => &self.words,
        }
    }
}

/// What is lent to the plain engine (W9): "one byte a unit (0 is clear, all else pending)".
#[derive(Clone, Debug, PartialEq, Eq)]
pub struct Plain {
    pub bytes: Vec<u8>,
    /// From which byte on the answer has them; nothing where it has a call's area in their place.
    pub shown: Option<usize>,
}

impl Plain {
    pub fn shown_bytes(&self) -> &[u8] {
        self.shown.and_then(|shown| self.bytes.get(shown..)).unwrap_or(&[])
    }

    /// "bit u is set exactly if byte u was lent and isn't 0"
    pub fn words(&self) -> Vec<u64> {
        let word = |bytes: &[u8]| bytes.iter().rev().fold(0, |bits, byte| 2 * bits + u64::from(*byte != 0));
        self.bytes.chunks(64).map(word).collect()
    }
}

/// The case in these bytes; nothing if they aren't in the form.
pub fn read_case(bytes: &[u8]) -> Option<Case> {
    let mut fields = Fields { bytes, at: 0 };
    let settings = read_settings(&mut fields)?;
    let mut record = Record { settings, ..Record::default() };
    for controller in record.controllers.iter_mut() {
        *controller = read_controller(&mut fields)?;
    }
    record.sequence = read_sequence(&mut fields)?;
    let words = fields.next(2)?;
    let mark = fields.next(8)?;
    let number = fields.next(1)?;
    let by = fields.next(2)?;
    let id = fields.next(2)?;
    let address = fields.next(8)?;
    let written = fields.next(8)?;
    let kind = fields.next(1)?;
    let most_lent = if number == PART { MOST_PART_DATA } else { MOST_DATA };
    let lent = fields.next_within(2, most_lent as u64)?;
    let mut data = fields.next_bytes(MOST_DATA)?;
    data.resize(lent as usize, 0);
    let records = fields.next_within(2, MOST_RECORDS)?;
    let part =
        Call::Part { indicator: fields.next(1)?, low: fields.next(4)?, high: fields.next(4)?, count: fields.next(4)? };
    let of_a_queue = [MAKE_QUEUE, POST, TAKE].contains(&number);
    let area = read_area(&mut fields, of_a_queue)?;
    let asked = fields.next(4)?;
    let shown = fields.next(2)? as usize;
    let lent_to_plain = read_lent_to_plain(&mut fields, mark)?;
    let call = match number {
        0 => Call::Fresh,
        1 => Call::Start,
        2 => Call::Stop,
        3 => Call::Write { address, bytes: written },
        4 => Call::Receive,
        5 => Call::Suspend { kind },
        6 => Call::Resume,
        7 => Call::Batch(read_notes(&data, records as usize)?),
        PART => part,
        MAKE_QUEUE => Call::MakeQueue,
        POST => Call::Post,
        TAKE => Call::Take { asked },
        _ => return None,
    };
    let has_area = of_a_queue || number == PART;
    let area = if has_area { area } else { Vec::new() };
    let words = if lent_to_plain.is_none() { lent_words(words, mark)? } else { Vec::new() };
    let plain = lent_to_plain.map(|bytes| Plain { bytes, shown: if has_area { None } else { Some(shown) } });
    let shown = if of_a_queue { shown } else { 0 };
    Some(Case { record, words, plain, call, by, id, data, area, shown })
}

fn read_settings(fields: &mut Fields) -> Option<Settings> {
    let mut settings = Settings {
        manager: fields.next(2)?,
        least: fields.next(1)?,
        greatest: fields.next(1)?,
        rule: fields.next_within(1, 1)?,
        limit: fields.next(2)?,
        second: read_second(fields)?,
        shelf: fields.next(2)?,
        number: fields.next(8)?,
        ..Settings::default()
    };
    for identifier in settings.identifiers.iter_mut() {
        *identifier = fields.next(2)?;
    }
    Some(settings)
}

/// 0 and zeros where there is one manager, 1 and the second one's identifier and limit where there are two. The outer nothing
/// is for bytes that aren't in the form.
fn read_second(fields: &mut Fields) -> Option<Option<Manager>> {
    match (fields.next(1)?, fields.next(2)?, fields.next(2)?) {
        (0, 0, 0) => Some(None),
        (1, id, limit) => Some(Some(Manager { id, limit })),
        _ => None,
    }
}

fn read_controller(fields: &mut Fields) -> Option<Controller> {
    let tracking = match (fields.next(1)?, fields.next(1)?, fields.next(1)?) {
        (0, 0, 0) => Tracking::Off,
        (1, granularity, count) => Tracking::On { granularity, count },
        _ => return None,
    };
    let suspended = fields.next_within(1, 1)? == 1;
    let base = fields.next(2)?;
    let manager = fields.next(2)?;
    let queue = read_queue(fields)?;
    let mut controller = Controller { tracking, suspended, base, manager, queue, ..Controller::default() };
    for range in controller.ranges.iter_mut() {
        *range = Range { start: fields.next(8)?, length: fields.next(4)? };
    }
    Some(controller)
}

/// 0 and zeros where there is no queue, 1 and what the record has of it where one is made. The outer nothing is for bytes
/// that aren't in the form.
fn read_queue(fields: &mut Fields) -> Option<Option<Queue>> {
    let made = fields.next_within(1, 1)? == 1;
    let queue = Queue {
        size: fields.next(2)?,
        posted: fields.next(4)?,
        taken: fields.next(4)?,
        place: fields.next(2)?,
        stopped: fields.next_within(1, 1)? == 1,
    };
    if made {
        Some(Some(queue))
    } else if queue == Queue::default() {
        Some(None)
    } else {
        None
    }
}

/// 0 and zeros where nothing is open, 1 and the owner and the end where a sequence is.
fn read_sequence(fields: &mut Fields) -> Option<Sequence> {
    match (fields.next(1)?, fields.next(2)?, fields.next(2)?) {
        (0, 0, 0) => Some(Sequence::Nothing),
        (1, owner, end) => Some(Sequence::Open { owner, end }),
        _ => None,
    }
}

/// "word w of these is mark rotated left by w modulo 64 bits". So words differ, and one that moved shows.
/// Nothing for more than a case may lend.
fn lent_words(words: u64, mark: u64) -> Option<Vec<u64>> {
    if words > MOST_WORDS as u64 {
        return None;
    }
    Some((0..words).map(|word| word_of(mark, word)).collect())
}

fn word_of(mark: u64, word: u64) -> u64 {
    mark.rotate_left((word % 64) as u32)
}

/// Zeros where the call is made on words, 1 and how many bytes there are and what they hold where it is on the plain engine.
/// The outer nothing is for bytes that aren't in the form.
fn read_lent_to_plain(fields: &mut Fields, mark: u64) -> Option<Option<Vec<u8>>> {
    match (fields.next(1)?, fields.next_within(2, MOST_UNITS as u64)?, fields.next(1)?) {
        (0, 0, 0) => Some(None),
        (1, units, value) => Some(Some((0..units).map(|unit| byte_of(mark, value, unit)).collect())),
        _ => None,
    }
}

/// "Byte u of it is 0 where bit u of the marks would be clear"; "where that is set it is (value + u) modulo 255, and 1".
fn byte_of(mark: u64, value: u64, unit: u64) -> u8 {
    if word_of(mark, unit / 64) >> (unit % 64) & 1 == 1 {
        ((value + unit) % PENDING_VALUES + 1) as u8
    } else {
        0
    }
}

/// The 64 of front and then fill in each, cut to the area's length. In a queue's area the fill grows by 1 from place to
/// place, "so that places differ": byte k is fill and k / 32.
fn read_area(fields: &mut Fields, of_a_queue: bool) -> Option<Vec<u8>> {
    let most = if of_a_queue { MOST_QUEUE_AREA } else { MOST_AREA };
    let length = fields.next_within(2, most as u64)?;
    let fill = fields.next(1)?;
    let mut area = fields.next_bytes(FRONT_BYTES)?;
    while area.len() < most {
        let place = if of_a_queue { area.len() / PLACE_BYTES } else { 0 };
        area.push(((fill + place as u64) % 256) as u8);
    }
    area.truncate(length as usize);
    Some(area)
}

/// "Record j of the batch is row j modulo the number of rows"; "with no row, all its records are zeros". Nothing for a
/// row that isn't whole.
fn read_notes(data: &[u8], records: usize) -> Option<Vec<Note>> {
    let mut rows = Vec::new();
    for row in data.chunks(ROW_BYTES) {
        rows.push(Note { id: get(row, 0, 2)?, address: get(row, 2, 8)?, bytes: get(row, 10, 8)? });
    }
    if rows.is_empty() {
        rows.push(Note::default());
    }
    Some(rows.into_iter().cycle().take(records).collect())
}

/// The record in the form of a case: the settings, then the controllers, unused places and all, and the sequence.
pub fn record_bytes(record: &Record) -> Vec<u8> {
    let mut bytes = Vec::new();
    put_settings(&mut bytes, &record.settings);
    for controller in &record.controllers {
        put_controller(&mut bytes, controller);
    }
    put_sequence(&mut bytes, record.sequence);
    bytes
}

fn put_settings(bytes: &mut Vec<u8>, settings: &Settings) {
    put(bytes, u128::from(settings.manager), 2);
    put(bytes, u128::from(settings.least), 1);
    put(bytes, u128::from(settings.greatest), 1);
    put(bytes, u128::from(settings.rule), 1);
    put(bytes, u128::from(settings.limit), 2);
    put_second(bytes, settings.second);
    put(bytes, u128::from(settings.shelf), 2);
    put(bytes, u128::from(settings.number), 8);
    for identifier in &settings.identifiers {
        put(bytes, u128::from(*identifier), 2);
    }
}

fn put_second(bytes: &mut Vec<u8>, second: Option<Manager>) {
    let there = second.is_some();
    let second = second.unwrap_or_default();
    put(bytes, u128::from(there), 1);
    put(bytes, u128::from(second.id), 2);
    put(bytes, u128::from(second.limit), 2);
}

fn put_controller(bytes: &mut Vec<u8>, controller: &Controller) {
    let (on, granularity, count) = match controller.tracking {
        Tracking::Off => (0, 0, 0),
        Tracking::On { granularity, count } => (1, granularity, count),
    };
    put(bytes, on, 1);
    put(bytes, u128::from(granularity), 1);
    put(bytes, u128::from(count), 1);
    put(bytes, u128::from(controller.suspended), 1);
    put(bytes, u128::from(controller.base), 2);
    put(bytes, u128::from(controller.manager), 2);
    put_queue(bytes, controller.queue);
    for range in &controller.ranges {
        put(bytes, u128::from(range.start), 8);
        put(bytes, u128::from(range.length), 4);
    }
}

fn put_queue(bytes: &mut Vec<u8>, queue: Option<Queue>) {
    let made = queue.is_some();
    let queue = queue.unwrap_or_default();
    put(bytes, u128::from(made), 1);
    put(bytes, u128::from(queue.size), 2);
    put(bytes, u128::from(queue.posted), 4);
    put(bytes, u128::from(queue.taken), 4);
    put(bytes, u128::from(queue.place), 2);
    put(bytes, u128::from(queue.stopped), 1);
}

fn put_sequence(bytes: &mut Vec<u8>, sequence: Sequence) {
    let (open, owner, end) = match sequence {
        Sequence::Nothing => (0, 0, 0),
        Sequence::Open { owner, end } => (1, owner, end),
    };
    put(bytes, open, 1);
    put(bytes, u128::from(owner), 2);
    put(bytes, u128::from(end), 2);
}

/// The fields of a case, read one after another.
struct Fields<'a> {
    bytes: &'a [u8],
    at: usize,
}

impl<'a> Fields<'a> {
    fn next(&mut self, width: usize) -> Option<u64> {
        let value = get(self.bytes, self.at, width)?;
        self.at += width;
        Some(value)
    }

    fn next_bytes(&mut self, number: usize) -> Option<Vec<u8>> {
        let bytes = self.bytes.get(self.at..self.at + number)?.to_vec();
        self.at += number;
        Some(bytes)
    }

    /// A field that the form doesn't let be greater than this.
    fn next_within(&mut self, width: usize, greatest: u64) -> Option<u64> {
        let value = self.next(width)?;
        if value <= greatest {
            Some(value)
        } else {
            None
        }
    }
}
