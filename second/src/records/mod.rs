//! Cases with device records of any kind, sound or not. No listing leads to an unsound record, to marks that are not 256
//! words or to a state area that is not 4,096 bytes, so refusal 1 is tested here, and so are the bits of every share and a
//! queue's totals near 2^32. A call may also be made on the plain engine (W9), on bytes in place of words. tests/RECORDS.md
//! has the form of a case and of its answer.

mod case;
mod marks;
#[cfg(test)]
mod tests;

use std::io::{self, Read, Write};

use crate::cases::play_cases;
use crate::device::Device;
use crate::little_endian::put;
use crate::report::read_report;
use crate::rules::{Note, Reason, Record, Refusal, UNSOUND};
use crate::state::Part;

use self::case::{read_case, record_bytes, Call, Case, Plain, CASE_BYTES, MOST_AREA, MOST_DATA, MOST_WORDS};
use self::marks::{clear_share, held_by_units, mark_pending, pending_units, Marks};

/// What a call answers, and what it leaves behind.
#[derive(Clone, Debug, PartialEq, Eq)]
struct Outcome {
    refusal: Refusal,
    /// A refused start's row, 0 where it has none (W3).
    row: usize,
    /// A write's or a batch's count.
    count: u64,
    /// A report's suspended, more, granularity and number of runs.
    report: [u64; 4],
    /// How many notes of a batch were done, and the refusal that cut it, 0 where none did (W4).
    notes_done: u64,
    cut: Refusal,
    /// How many bytes a part has assembled (W6).
    whole: u64,
    /// Whether a post has stopped the queue; how many entries a take took, and whether the last is the closing one (W8).
    stopped: bool,
    taken: u64,
    closing: bool,
    /// How many groups of units a report examined (W10).
    groups: u64,
    record: Record,
    words: Vec<u64>,
    plain: Option<Plain>,
    data: Vec<u8>,
    area: Vec<u8>,
    /// From which byte on the area is shown.
    shown: usize,
}

impl Outcome {
    /// What was lent to the engine on which the call is made.
    fn marks(&mut self) -> &mut dyn Marks {
        match &mut self.plain {
            Some(plain) => &mut plain.bytes,
            None => &mut self.words,
        }
    }
}

/// Answers each case of `input`, in their order.
pub fn play<R: Read, W: Write>(input: &mut R, output: &mut W) -> io::Result<()> {
    play_cases(input, output, CASE_BYTES, &|bytes| read_case(bytes).map(|case| answer(&outcome(&case))))
}

/// "Every refused call returns its number, with zeros for everything else ..., and changes neither device, marks nor any
/// buffer."; a refused fresh "returns a closed device, all zeros". W3: "Every caller passes the row on".
fn outcome(case: &Case) -> Outcome {
    match done(case) {
        Ok(outcome) => outcome,
        Err(Reason { number, row }) => {
            let closed = case.call == Call::Fresh;
            let record = if closed { Record::default() } else { case.record.clone() };
            Outcome { refusal: number, row: row.unwrap_or(0), record, ..untouched(case) }
        }
    }
}

fn untouched(case: &Case) -> Outcome {
    Outcome {
        refusal: 0,
        row: 0,
        count: 0,
        report: [0; 4],
        notes_done: 0,
        cut: 0,
        whole: 0,
        stopped: false,
        taken: 0,
        closing: false,
        groups: 0,
        record: case.record.clone(),
        words: case.words.clone(),
        plain: case.plain.clone(),
        data: case.data.clone(),
        area: case.area.clone(),
        shown: case.shown,
    }
}

fn done(case: &Case) -> Result<Outcome, Reason> {
    let mut after = untouched(case);
    if case.call == Call::Fresh {
        // "Fresh: 16, then 1 for the marks' length; done, all marks are 0".
        let device = Device::fresh(&case.record.settings)?;
        lent_whole(case)?;
        after.record = device.record;
        after.marks().clear_all();
        return Ok(after);
    }
    lent_whole(case)?;
    let held = held_by_units(&case.record, case.marks());
    let mut device = Device { record: case.record.clone(), pending: pending_units(&held) };
    match &case.call {
        Call::Fresh => {}
        Call::Start => {
            // "every bit behind them 0": the marks are made anew from what is pending, the new share's among them.
            device.start(case.by, case.id, &case.data)?;
            after.marks().clear_all();
        }
        Call::Stop => {
            device.stop(case.by, case.id)?;
            clear_share(&case.record, case.id, after.marks());
        }
        Call::Write { address, bytes } => {
            after.count = device.write(&Note { id: case.id, address: *address, bytes: *bytes })?;
        }
        Call::Receive => {
            after.groups = device.receive(case.by, case.id, &mut after.data)? as u64;
            after.report = report_numbers(&after.data);
        }
        Call::Suspend { kind } => device.suspend(case.by, case.id, *kind)?,
        Call::Resume => device.resume(case.by, case.id)?,
        Call::Batch(notes) => {
            let batch = device.batch(notes)?;
            after.count = batch.count as u64;
            after.notes_done = batch.done as u64;
            after.cut = batch.refusal.unwrap_or(0);
        }
        Call::Part { indicator, low, high, count } => {
            let (id, data) = (case.id, case.data.clone());
            let part = Part { id, indicator: *indicator, low: *low, high: *high, count: *count, data };
            after.whole = device.set_state(case.by, &mut after.area, &part)? as u64;
        }
        Call::MakeQueue => device.make_queue(case.id, &case.area)?,
        Call::Post => after.stopped = device.post(case.id, &mut after.area, &case.data)?,
        Call::Take { asked } => {
            let take = device.take(case.id, &case.area, *asked, &mut after.data)?;
            after.taken = take.entries as u64;
            after.closing = take.closing;
        }
    }
    mark_pending(&device, &held, after.marks());
    after.record = device.record;
    Ok(after)
}

/// Refusal 1, its second half, in W7: "1 expects 256 words". W9: "1 speaks of each engine's own record and area".
fn lent_whole(case: &Case) -> Result<(), Refusal> {
    if case.marks().whole() {
        Ok(())
    } else {
        Err(UNSOUND)
    }
}

/// Suspended, more, granularity and number of runs, read from a done report's bytes.
fn report_numbers(buffer: &[u8]) -> [u64; 4] {
    match read_report(buffer) {
        Some(report) => {
            [u64::from(report.suspended), u64::from(report.more), report.granularity, report.descriptors.len() as u64]
        }
        // Cannot be; and were it so, a comparison with another program would show it.
        None => [u64::MAX; 4],
    }
}

/// The answer's bytes. Each part has room for the most that a case may lend, with zeros past what was lent.
fn answer(outcome: &Outcome) -> Vec<u8> {
    let mut bytes = Vec::new();
    put(&mut bytes, u128::from(outcome.refusal), 1);
    put(&mut bytes, outcome.row as u128, 1);
    put(&mut bytes, u128::from(outcome.count), 8);
    for (number, width) in outcome.report.iter().zip(&[1, 1, 1, 8]) {
        put(&mut bytes, u128::from(*number), *width);
    }
    put(&mut bytes, u128::from(outcome.notes_done), 8);
    put(&mut bytes, u128::from(outcome.cut), 1);
    put(&mut bytes, u128::from(outcome.whole), 8);
    put(&mut bytes, u128::from(outcome.stopped), 1);
    put(&mut bytes, u128::from(outcome.taken), 8);
    put(&mut bytes, u128::from(outcome.closing), 1);
    put(&mut bytes, u128::from(outcome.groups), 8);
    bytes.extend_from_slice(&record_bytes(&outcome.record));
    let marks_end = bytes.len() + 8 * MOST_WORDS;
    for word in outcome.plain.as_ref().map_or_else(|| outcome.words.clone(), Plain::words) {
        put(&mut bytes, u128::from(word), 8);
    }
    bytes.resize(marks_end, 0);
    // A part may lend more bytes than the answer has room for; these are left out.
    bytes.extend_from_slice(&outcome.data);
    bytes.resize(marks_end + MOST_DATA, 0);
    // So may a queue's area; the bytes from the one on that the case names are there. Of a call that has no area those of the
    // plain engine are, if it is made on that one.
    bytes.extend(outcome.area.iter().skip(outcome.shown));
    bytes.extend(outcome.plain.iter().flat_map(Plain::shown_bytes));
    bytes.resize(marks_end + MOST_DATA + MOST_AREA, 0);
    bytes
}
