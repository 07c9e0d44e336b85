//! A session: one device, and an answer to each line (document 01, "Session listing").

use std::io::{self, Read, Write};

use crate::device::{Batch, Device};
use crate::lines::{play_lines, Cut};
use crate::listing::{parse, Line, MOST_BYTES};
use crate::log::{Booked, Log};
use crate::report::read_report;
use crate::rules::{Note, Reason, Refusal};
use crate::structure::structure_bytes;

/// What lies in the buffer of a `recv` or `take` line before the call; no answer may depend on it.
pub const STALE: u8 = 0xA5;

/// "Before a done `dev`, calls answer 1": the session begins with the closed device. Beside the device stands its log (W13),
/// in which every done write, batch, report and stop is booked.
#[derive(Clone, Debug, Default, PartialEq, Eq)]
pub struct Session {
    pub device: Device,
    pub log: Log,
}

/// Answers each line of a session listing.
pub fn play<R: Read, W: Write>(input: &mut R, output: &mut W) -> io::Result<()> {
    let mut session = Session::default();
    play_lines(input, output, MOST_BYTES, &mut |cut| session.answer(cut))
}

/// The whole answer to a line, with its line feeds. "Any other line answers `bad`." A shelf listing, which has lines of
/// its own to read and to play, answers likewise.
pub fn answer_line<L>(
    cut: &Cut,
    parse: &dyn Fn(&[u8]) -> Option<L>,
    play: &mut dyn FnMut(&L) -> Result<String, Reason>,
) -> String {
    let line = match cut {
        Cut::TooLong => None,
        Cut::Line(bytes) => parse(bytes),
    };
    match line {
        None => "bad\n".to_string(),
        Some(line) => match play(&line) {
            Ok(answer) => answer,
            Err(Reason { number, row: None }) => format!("{}\n", number),
            // W3: "the session prints it after the number".
            Err(Reason { number, row: Some(row) }) => format!("{} {}\n", number, row),
        },
    }
}

impl Session {
    pub fn answer(&mut self, cut: &Cut) -> String {
        answer_line(cut, &parse, &mut |line| self.play(self.first_manager(), line))
    }

    /// W12: "The session keeps one manager", which makes all its calls. The closed device has none, and answers 1 whoever
    /// calls.
    pub fn first_manager(&self) -> u64 {
        self.device.record.settings.manager
    }

    /// "Each answers one line: the number, and after a done write its count. A report adds four named numbers and a
    /// line a descriptor." A call that names its manager is made by this one (W12).
    pub fn play(&mut self, by: u64, line: &Line) -> Result<String, Reason> {
        match line {
            // "a refused `dev` keeps the device there was", and its log; a new device's numbers begin anew.
            Line::Dev(settings) => {
                self.device = Device::fresh(settings)?;
                self.log = Log::new(&settings.used_identifiers());
            }
            Line::Start { id, granularity, ranges } => {
                self.device.start(by, *id, &structure_bytes(*granularity, ranges))?;
            }
            // W13: "units dropped by a stop while still pending"
            Line::Stop { id } => {
                let pending = self.device.pending_units(*id);
                self.device.stop(by, *id)?;
                self.log.book(*id, Booked::Dropped(pending as u128));
            }
            Line::Write(note) => {
                let count = self.device.write(note)?;
                self.log.book(note.id, Booked::Marked(u128::from(count)));
                return Ok(format!("0 {}\n", count));
            }
            Line::Recv { id, buffer } => {
                let report = self.recv(by, *id, *buffer)?;
                return Ok(format!("{}\n{}", report.first_line, report.others));
            }
            Line::Susp { id, kind } => self.device.suspend(by, *id, *kind)?,
            Line::Resume { id } => self.device.resume(by, *id)?,
        }
        Ok("0\n".to_string())
    }

    /// A `recv` line. Its groups (W10) are none of the four numbers of a session listing; in a shelf listing they are printed.
    pub fn recv(&mut self, by: u64, id: u64, buffer: u64) -> Result<ReportLines, Refusal> {
        // At most 4096 bytes: a line with more is bad.
        let mut bytes = vec![STALE; buffer as usize];
        let groups = self.device.receive(by, id, &mut bytes)?;
        let lines = report_lines(&bytes, groups);
        self.log.book(id, Booked::Reported(lines.units));
        Ok(lines)
    }

    /// A batch (W4), which a session listing has no line for. In the log each of its notes is booked by itself.
    pub fn batch(&mut self, notes: &[Note]) -> Result<Batch, Refusal> {
        let batch = self.device.batch(notes)?;
        for (note, count) in notes.iter().zip(&batch.counts) {
            self.log.book(note.id, Booked::Marked(u128::from(*count)));
        }
        Ok(batch)
    }
}

/// A done report's lines, read from its bytes, the first one without its line feed; how many groups were examined; and how
/// many units its descriptors have together.
pub struct ReportLines {
    pub first_line: String,
    pub groups: usize,
    pub others: String,
    pub units: u128,
}

fn report_lines(buffer: &[u8], groups: usize) -> ReportLines {
    let report = match read_report(buffer) {
        Some(report) => report,
        // Cannot be; and were it so, a comparison with another program would show it.
        None => {
            return ReportLines { first_line: "unreadable report".to_string(), groups, others: String::new(), units: 0 }
        }
    };
    let first_line = format!(
        "0 susp {} more {} gran {} runs {}",
        bit(report.suspended),
        bit(report.more),
        report.granularity,
        report.descriptors.len()
    );
    let mut others = String::new();
    let mut units = 0;
    for descriptor in &report.descriptors {
        others.push_str(&format!("{} {}\n", descriptor.address, descriptor.length));
        units += descriptor.length;
    }
    ReportLines { first_line, groups, others, units }
}

fn bit(value: bool) -> u8 {
    if value {
        1
    } else {
        0
    }
}
