//! A shelf listing: the lines of a session listing with their answers, and lines for the calls that change requests add
//! (READINGS 0.7), because document 01 fixes the words of a session listing.

#[cfg(test)]
mod group_tests;
mod hex;
mod listing;
#[cfg(test)]
mod log_tests;
#[cfg(test)]
mod manager_tests;
#[cfg(test)]
mod part_tests;
#[cfg(test)]
mod queue_tests;
#[cfg(test)]
mod settings_tests;
#[cfg(test)]
mod tests;

use std::io::{self, Read, Write};

use crate::lines::{play_lines, Cut};
use crate::listing::Line;
use crate::log::Numbers;
use crate::queue::ENTRY_BYTES;
use crate::rules::{Reason, Refusal, Settings, MOST_CONTROLLERS, STATE_BYTES, UNKNOWN};
use crate::session::{answer_line, Session, STALE};
use crate::settings_file::{read, read_version_1, second_in_file, write};

use self::hex::hex_of;
use self::listing::{parse, Called, ShelfLine, GREATEST_SIZE, MOST_BYTES};

/// The session whose device the shelf's own lines call as well; the state area (W6), "handed on from part to part and
/// used for nothing else"; and for each place of an identifier the area of its controller's queue (W8), "a lent area of
/// its own, handed on from call to call and used for nothing else". A new device leaves the areas as they were.
#[derive(Clone, Debug, PartialEq, Eq)]
pub struct Shelf {
    session: Session,
    area: Vec<u8>,
    queue_areas: Vec<Vec<u8>>,
}

/// "The state area and the queues' areas begin as zeros"
impl Default for Shelf {
    fn default() -> Shelf {
        let queue_areas = vec![vec![0; GREATEST_SIZE as usize]; MOST_CONTROLLERS];
        Shelf { session: Session::default(), area: vec![0; STATE_BYTES], queue_areas }
    }
}

/// Answers each line of a shelf listing.
pub fn play<R: Read, W: Write>(input: &mut R, output: &mut W) -> io::Result<()> {
    let mut shelf = Shelf::default();
    play_lines(input, output, MOST_BYTES, &mut |cut| shelf.answer(cut))
}

impl Shelf {
    pub fn answer(&mut self, cut: &Cut) -> String {
        answer_line(cut, &parse, &mut |called| self.play(called))
    }

    fn play(&mut self, called: &Called) -> Result<String, Reason> {
        // "called by that manager; without `by` it is the first manager"
        let by = called.by.unwrap_or(self.session.first_manager());
        match &called.line {
            // "its first line ends with ` groups G` (in shelf listings only)"
            ShelfLine::Session(Line::Recv { id, buffer }) => {
                let report = self.session.recv(by, *id, *buffer)?;
                Ok(format!("{} groups {}\n{}", report.first_line, report.groups, report.others))
            }
            ShelfLine::Session(line) => self.session.play(by, line),
            ShelfLine::Batch(notes) => {
                let batch = self.session.batch(notes)?;
                Ok(format!("0 done {} new {} refusal {}\n", batch.done, batch.count, batch.refusal.unwrap_or(0)))
            }
            // "`0 whole W`, and where W isn't 0 a second line, the W assembled bytes in hex"
            ShelfLine::Part(part) => {
                let whole = self.session.device.set_state(by, &mut self.area, part)?;
                let mut answer = format!("0 whole {}\n", whole);
                if whole != 0 {
                    answer.push_str(&format!("{}\n", hex_of(&self.area[..whole])));
                }
                Ok(answer)
            }
            ShelfLine::Queue { id, size } => {
                let area = self.lent(*id, *size);
                self.session.device.make_queue(*id, &area)?;
                Ok("0\n".to_string())
            }
            // "`0 stopped S`, S 0 or 1"
            ShelfLine::Post { id, size, entry } => {
                let mut area = self.lent(*id, *size);
                let stopped = self.session.device.post(*id, &mut area, entry)?;
                self.give_back(*id, &area);
                Ok(format!("0 stopped {}\n", u8::from(stopped)))
            }
            // "`0 taken M closing C`, and a line of hex for each entry taken"
            ShelfLine::Take { id, size, asked, buffer } => {
                let area = self.lent(*id, *size);
                // At most 4096 bytes: a line with more is bad.
                let mut bytes = vec![STALE; *buffer as usize];
                let take = self.session.device.take(*id, &area, *asked, &mut bytes)?;
                let mut answer = format!("0 taken {} closing {}\n", take.entries, u8::from(take.closing));
                for entry in bytes.chunks(ENTRY_BYTES).take(take.entries) {
                    answer.push_str(&format!("{}\n", hex_of(entry)));
                }
                Ok(answer)
            }
            // These three "need no device".
            ShelfLine::Old(file) => Ok(settings_line(&read_version_1(file)?, &[])),
            // "one manager shows as second equal to manager, limit2 0"
            ShelfLine::New(file) => {
                let settings = read(file)?;
                let second = second_in_file(&settings);
                Ok(settings_line(&settings, &[second.id, second.limit, settings.shelf]))
            }
            ShelfLine::Save { version, settings } => Ok(format!("0 {}\n", hex_of(&write(*version, settings)?))),
            // "the number (1, 2); done: `0 marked M reported R dropped D`, or `unknown` for all three"
            ShelfLine::Log { id } => Ok(format!("0 {}\n", self.log(*id)?)),
        }
    }

    /// The numbers for the log (W13): 1, 2, as each call of an identifier begins.
    fn log(&self, id: u64) -> Result<Numbers, Refusal> {
        self.session.device.place(id)?;
        self.session.log.numbers(id).ok_or(UNKNOWN)
    }

    /// "lends the first so many bytes of that controller's own area": a copy of them. An identifier that isn't in the
    /// settings has no area, and what is lent there is all one: its call is refused with 1 or 2.
    fn lent(&self, id: u64, size: u64) -> Vec<u8> {
        let mut lent = match self.place(id) {
            Some(place) => self.queue_areas[place].clone(),
            None => Vec::new(),
        };
        lent.resize(size as usize, 0);
        lent
    }

    /// The lent bytes as a call has left them.
    fn give_back(&mut self, id: u64, lent: &[u8]) {
        if let Some(place) = self.place(id) {
            self.queue_areas[place][..lent.len()].copy_from_slice(lent);
        }
    }

    fn place(&self, id: u64) -> Option<usize> {
        self.session.device.record.settings.used_identifiers().iter().position(|identifier| *identifier == id)
    }
}

/// "`0` manager least greatest rule limit", what a version 2 file has more of, "identifiers".
fn settings_line(settings: &Settings, more: &[u64]) -> String {
    let mut numbers = vec![0, settings.manager, settings.least, settings.greatest, settings.rule, settings.limit];
    numbers.extend_from_slice(more);
    numbers.extend(settings.used_identifiers());
    let words: Vec<String> = numbers.iter().map(u64::to_string).collect();
    format!("{}\n", words.join(" "))
}
