//! The device and its calls (document 01, "Refusal numbers" to "The report").
//!
//! The marks are kept here as a set of pending units for each controller, not as words of bits; so the rule about
//! "256 lent words" (W7) has no counterpart here, and refusal 1 is about the record alone, and in W6 about the state area.
//! (`records` lends words.) A share that moves is another base in the record, and the sets stay as they are: "moving marks
//! changes no pending unit".
//!
//! W12: start, stop, receive, suspend, resume and a part of a state name the manager that makes them, which is `by` here;
//! writes, batches and the calls of a queue don't. Where a call has two 2, the first is for the manager.

use std::collections::{BTreeMap, BTreeSet};

use crate::queue::{made, posted, taken};
use crate::report::{report_bytes, room, Descriptor, Report, LEAST_BUFFER};
use crate::rules::*;
use crate::state::{part_refusal, Part};
use crate::structure::{read_header, read_ranges};

/// A unit of a controller's ranges: the row of the range that it belongs to (W2: "the earliest listed"), and its
/// address. Sets of them are ordered as runs are: "in the order of the list, then by address".
#[derive(Clone, Copy, Debug, PartialEq, Eq, PartialOrd, Ord)]
pub struct Unit {
    pub row: usize,
    pub address: u128,
}

/// "groups of 64 units" (W10)
const GROUP_UNITS: usize = 64;

/// A run: its first unit and how many units it has.
#[derive(Clone, Copy, Debug, PartialEq, Eq)]
struct Run {
    first: Unit,
    length: u128,
}

/// What a done batch answers (W4): "the number done, the total newly pending and the refusal, if any", which is that of
/// the note behind those done. And for the log (W13) the count with which each note done is "answered singly".
#[derive(Clone, Debug, PartialEq, Eq)]
pub struct Batch {
    pub done: usize,
    pub count: usize,
    pub refusal: Option<Refusal>,
    pub counts: Vec<u64>,
}

/// What a done take answers (W8): how many entries it took, and "whether its last entry is the closing one".
#[derive(Clone, Copy, Debug, PartialEq, Eq)]
pub struct Take {
    pub entries: usize,
    pub closing: bool,
}

/// The device record, and the pending units of each controller by its identifier. The default is the closed device,
/// which has no identifiers, is unsound, and so "answers 1 to every call".
#[derive(Clone, Debug, Default, PartialEq, Eq)]
pub struct Device {
    pub record: Record,
    pub pending: BTreeMap<u64, BTreeSet<Unit>>,
}

impl Device {
    /// Fresh: 16. "done, all marks are 0, nobody is tracked or suspended".
    pub fn fresh(settings: &Settings) -> Result<Device, Refusal> {
        if settings_broken(settings) {
            return Err(SETTINGS);
        }
        let mut device = Device::default();
        // "fresh, start and stop fill those [unused places] they leave unused with zeros".
        device.record.settings = Settings { identifiers: [0; MOST_CONTROLLERS], ..settings.clone() };
        let used = settings.used_identifiers();
        for (place, identifier) in device.record.settings.identifiers.iter_mut().zip(&used) {
            *place = *identifier;
        }
        for identifier in used {
            device.pending.insert(identifier, BTreeSet::new());
        }
        Ok(device)
    }

    /// Start: 1, 2, 2, 4, 3, 8 (header), 6, 7, 8 (listed ranges), 18, then row by row 19, 20 and 21, then 10, 11, 12, 34.
    /// "An accepted start clears the controller's 64 words and records granularity and ranges." W7: "A share stands for
    /// 01's 64 words". W12: it records who starts, too.
    pub fn start(&mut self, by: u64, id: u64, buffer: &[u8]) -> Result<(), Reason> {
        let manager = self.manager(by)?;
        let controller = self.controller(id)?;
        if controller.suspended {
            return Err(SUSPENDED.into());
        }
        // W12: "3 if either manager tracks that controller".
        if controller.tracking != Tracking::Off {
            return Err(ALREADY_TRACKED.into());
        }
        let header = match read_header(buffer) {
            Some(header) => header,
            None => return Err(BUFFER_TOO_SHORT.into()),
        };
        if header.version != 0 {
            return Err(VERSION.into());
        }
        if granularity_broken(&self.record.settings, header.granularity) {
            return Err(GRANULARITY.into());
        }
        // "there, a count over 16 is met as 8 if the buffer doesn't hold them all", else as 18 (W3).
        let ranges = match read_ranges(buffer, header.count) {
            Some(ranges) => ranges,
            None => return Err(BUFFER_TOO_SHORT.into()),
        };
        if let Some(fault) = first_fault(header.granularity, header.count, &ranges) {
            return Err(fault.into());
        }
        if power_of_two_broken(&self.record.settings, &ranges) {
            return Err(POWER_OF_TWO.into());
        }
        if too_many_units(&self.record, header.granularity, &ranges) {
            return Err(TOO_MANY_UNITS.into());
        }
        if let Some(refusal) = limit_refusal(&self.record, manager, ranges.len()) {
            return Err(refusal.into());
        }
        let mut places = [Range::default(); MOST_RANGES];
        for (place, range) in places.iter_mut().zip(&ranges) {
            *place = *range;
        }
        let controller = self.controller_mut(id)?;
        controller.tracking = Tracking::On { granularity: header.granularity, count: header.count };
        controller.manager = by;
        controller.ranges = places;
        self.pending.insert(id, BTreeSet::new());
        self.pack();
        Ok(())
    }

    /// READINGS 7.2: "tracked shares stand one after another from bit 0 in the order of the settings, the new one in its
    /// place among them".
    ///
    /// So all tracked units are put in one row, each told by its controller's place, and a share begins where its first
    /// unit stands there. A controller that is off stands nowhere, and its base is left as it was.
    fn pack(&mut self) {
        let used = self.record.settings.used_identifiers().len();
        let mut row = Vec::new();
        for (place, controller) in self.record.controllers.iter().take(used).enumerate() {
            row.extend(units(controller).map(|_| place));
        }
        for (place, controller) in self.record.controllers.iter_mut().take(used).enumerate() {
            if let Some(first) = row.iter().position(|other| *other == place) {
                controller.base = first as u64;
            }
        }
    }

    /// Stop: 1, 2, 2, 4, 5. "An accepted stop clears them again and forgets the ranges." READINGS 7.2: it "moves nothing"; its
    /// base is 0 then, as that of every place that is left unused, and so is its manager.
    pub fn stop(&mut self, by: u64, id: u64) -> Result<(), Refusal> {
        self.manager(by)?;
        let controller = self.controller(id)?;
        if controller.suspended {
            return Err(SUSPENDED);
        }
        tracked_granularity(controller, by)?;
        let controller = self.controller_mut(id)?;
        controller.tracking = Tracking::Off;
        controller.base = 0;
        controller.manager = 0;
        controller.ranges = [Range::default(); MOST_RANGES];
        self.pending.insert(id, BTreeSet::new());
        Ok(())
    }

    /// Write: 1, 2, 4, 14. "Touched units of tracked ranges become pending. The answer counts the units that were not
    /// pending before. For a controller that isn't tracked a call not refused is done with count 0."
    pub fn write(&mut self, note: &Note) -> Result<u64, Refusal> {
        let controller = self.writer(note)?;
        let granularity = match controller.tracking {
            Tracking::Off => return Ok(0),
            Tracking::On { granularity, .. } => granularity,
        };
        let bytes = unit_bytes(granularity);
        // A sound record has at most 16,384 different units.
        let units = units(controller);
        let pending = self.pending.entry(note.id).or_default();
        let mut count = 0;
        for unit in units {
            if touches(note.address, note.bytes, unit.address, bytes) && pending.insert(unit) {
                count += 1;
            }
        }
        Ok(count)
    }

    /// Batch (W4): 1, 22. "It does exactly the single notes in list order up to the first refused one"; "such a batch
    /// counts as done."
    ///
    /// Every note is asked first, on the device as it is: no note changes what another is refused for. Those before the
    /// first refused one are played on a copy, and what is pending there and not here is the total.
    pub fn batch(&mut self, list: &[Note]) -> Result<Batch, Refusal> {
        self.asked_sound()?;
        if list.len() > MOST_NOTES {
            return Err(LIST_TOO_LONG);
        }
        let mut refusals = Vec::new();
        for note in list {
            refusals.push(self.writer(note).err());
        }
        let done = refusals.iter().take_while(|refusal| refusal.is_none()).count();
        let refusal = refusals.into_iter().flatten().next();
        let mut after = self.clone();
        let mut counts = Vec::new();
        for note in list.iter().take(done) {
            counts.push(after.write(note)?);
        }
        let count = newly_pending(self, &after);
        *self = after;
        Ok(Batch { done, count, refusal, counts })
    }

    /// Receive: 1, 2, 2, 5, 8. "The first so many are reported and made clear; later ones stay. More To Report is set
    /// exactly if a run stays." "Bytes after the last descriptor are unchanged. The granularity is the one with which
    /// that controller was started." W10: "Put in the result how many groups of 64 units ... were examined", which is "taken
    /// over the marks before the call".
    pub fn receive(&mut self, by: u64, id: u64, buffer: &mut [u8]) -> Result<usize, Refusal> {
        self.manager(by)?;
        let controller = self.controller(id)?;
        let granularity = tracked_granularity(controller, by)?;
        if buffer.len() < LEAST_BUFFER {
            return Err(BUFFER_TOO_SHORT);
        }
        let suspended = controller.suspended;
        let unit = unit_bytes(granularity);
        let units: Vec<Unit> = units(controller).collect();
        let pending = self.pending.entry(id).or_default();
        let mut reported = runs(pending, unit);
        let groups = groups_examined(&units, reported.get(room(buffer.len())));
        let more = reported.len() > room(buffer.len());
        reported.truncate(room(buffer.len()));
        let mut descriptors = Vec::new();
        for run in &reported {
            descriptors.push(Descriptor { address: run.first.address, length: run.length });
            for number in 0..run.length {
                pending.remove(&Unit { row: run.first.row, address: run.first.address + number * unit });
            }
        }
        let bytes = report_bytes(&Report { suspended, more, identifier: id, granularity, descriptors });
        for (place, byte) in buffer.iter_mut().zip(&bytes) {
            *place = *byte;
        }
        Ok(groups)
    }

    /// Suspend: 1, 2, 2, 15. "Suspend type 1 suspends, also where already suspended (house). Type 0 is a notice and
    /// changes nothing (house)." W12: "Suspension belongs to the controller, whoever asked."
    pub fn suspend(&mut self, by: u64, id: u64, kind: u64) -> Result<(), Refusal> {
        self.manager(by)?;
        let controller = self.controller_mut(id)?;
        match kind {
            0 => Ok(()),
            1 => {
                controller.suspended = true;
                Ok(())
            }
            _ => Err(SUSPEND_TYPE),
        }
    }

    /// Resume: 1, 2, 2, 13. W6: "its resume drops its unfinished sequence".
    pub fn resume(&mut self, by: u64, id: u64) -> Result<(), Refusal> {
        self.manager(by)?;
        let controller = self.controller_mut(id)?;
        if !controller.suspended {
            return Err(NOT_SUSPENDED);
        }
        controller.suspended = false;
        if let Sequence::Open { owner, .. } = self.record.sequence {
            if owner == id {
                self.record.sequence = Sequence::Nothing;
            }
        }
        Ok(())
    }

    /// Set Controller State (W6): 1, 2, 2, 13, then 23 to 27. Answers how many bytes are assembled, which are the area's
    /// first, and 0 where the sequence goes on. "A refused part changes nothing, an accepted one only its own bytes of the
    /// area."
    ///
    /// The part is judged by the joined bytes, before any of them is stored; those before its own are the area's anyway.
    pub fn set_state(&mut self, by: u64, area: &mut [u8], part: &Part) -> Result<usize, Refusal> {
        self.asked_sound()?;
        // "in one lent area of that size (else 1)"
        if area.len() != STATE_BYTES {
            return Err(UNSOUND);
        }
        self.manager(by)?;
        // "The named controller must be suspended"
        if !self.controller(part.id)?.suspended {
            return Err(NOT_SUSPENDED);
        }
        if let Some(refusal) = part_refusal(part, self.record.sequence, area) {
            return Err(refusal);
        }
        let joined = part.joined(area);
        for (place, byte) in area.iter_mut().zip(&joined) {
            *place = *byte;
        }
        if part.finishes() {
            self.record.sequence = Sequence::Nothing;
            Ok(joined.len())
        } else {
            self.record.sequence = Sequence::Open { owner: part.id, end: joined.len() as u64 };
            Ok(0)
        }
    }

    /// Make a queue (W8): 1, 2, 28. It is "made anew, empty, with totals 0", whatever queue there was. The lent area is that
    /// queue's from then on, and none of its bytes changes.
    pub fn make_queue(&mut self, id: u64, area: &[u8]) -> Result<(), Refusal> {
        let controller = self.controller_mut(id)?;
        controller.queue = Some(made(area)?);
        Ok(())
    }

    /// Post (W8): 1, 2, 28, 29, 8, 30. Answers whether it has stopped the queue: the entry isn't stored then, and the
    /// closing one is.
    pub fn post(&mut self, id: u64, area: &mut [u8], entry: &[u8]) -> Result<bool, Refusal> {
        let controller = self.controller_mut(id)?;
        let after = posted(controller.queue, area, entry)?;
        controller.queue = Some(after.queue);
        for (place, byte) in area.iter_mut().zip(&after.area) {
            *place = *byte;
        }
        Ok(after.queue.stopped)
    }

    /// Take (W8): 1, 2, 28, 29. The entries stand in the buffer one behind another. "The rest of its buffer is unchanged."
    pub fn take(&mut self, id: u64, area: &[u8], asked: u64, buffer: &mut [u8]) -> Result<Take, Refusal> {
        let controller = self.controller_mut(id)?;
        let after = taken(controller.queue, area, asked, buffer.len())?;
        controller.queue = Some(after.queue);
        for (place, byte) in buffer.iter_mut().zip(&after.bytes()) {
            *place = *byte;
        }
        Ok(Take { entries: after.entries.len(), closing: after.closing() })
    }

    /// How many units of this controller are pending now, 0 where it isn't tracked or isn't there.
    pub fn pending_units(&self, id: u64) -> usize {
        self.pending.get(&id).map_or(0, BTreeSet::len)
    }

    /// With what each call begins: 1, "device record is unsound".
    fn asked_sound(&self) -> Result<(), Refusal> {
        if sound(&self.record) {
            Ok(())
        } else {
            Err(UNSOUND)
        }
    }

    /// With what each call that names its manager begins: 1; then "2 for an unknown manager" (W12).
    fn manager(&self, by: u64) -> Result<Manager, Refusal> {
        self.asked_sound()?;
        self.record.settings.known_manager(by).ok_or(UNKNOWN)
    }

    /// With what each call of an identifier begins: 1; then 2, "identifier not in the settings, or the manager's own".
    /// Answers the place of the identifier.
    pub fn place(&self, id: u64) -> Result<usize, Refusal> {
        self.asked_sound()?;
        if self.record.settings.known_manager(id).is_some() {
            return Err(UNKNOWN);
        }
        for (place, identifier) in self.record.settings.used_identifiers().iter().enumerate() {
            if *identifier == id {
                return Ok(place);
            }
        }
        Err(UNKNOWN)
    }

    fn controller(&self, id: u64) -> Result<&Controller, Refusal> {
        let place = self.place(id)?;
        self.record.controllers.get(place).ok_or(UNKNOWN)
    }

    /// What a write is refused with, and else its controller.
    fn writer(&self, note: &Note) -> Result<&Controller, Refusal> {
        let controller = self.controller(note.id)?;
        if controller.suspended {
            return Err(SUSPENDED);
        }
        if write_ends_past_memory(note.address, note.bytes) {
            return Err(PAST_THE_END);
        }
        Ok(controller)
    }

    fn controller_mut(&mut self, id: u64) -> Result<&mut Controller, Refusal> {
        let place = self.place(id)?;
        self.record.controllers.get_mut(place).ok_or(UNKNOWN)
    }
}

/// The granularity with which this manager tracks the controller; else 5. W12: "stop and receive by the other manager get
/// 5."
fn tracked_granularity(controller: &Controller, by: u64) -> Result<u64, Refusal> {
    match controller.tracking {
        Tracking::On { granularity, .. } if controller.manager == by => Ok(granularity),
        _ => Err(NOT_TRACKED),
    }
}

/// The units of a controller, each once, at the range that it belongs to: "in the order of the ranges as listed and by
/// address within a range". They are made as they are asked for, as an unsound record may list 2^32 and more.
pub fn units(controller: &Controller) -> impl Iterator<Item = Unit> {
    let granularity = match controller.tracking {
        Tracking::Off => 0,
        Tracking::On { granularity, .. } => granularity,
    };
    let unit = unit_bytes(granularity);
    stretches(granularity, &controller.used_ranges()).into_iter().flat_map(move |stretch| {
        (stretch.span.first..stretch.span.after)
            .map(move |number| Unit { row: stretch.row, address: number.saturating_mul(unit) })
    })
}

/// How many units of all controllers are pending after and weren't before.
fn newly_pending(before: &Device, after: &Device) -> usize {
    let none = BTreeSet::new();
    let mut count = 0;
    for (id, units) in &after.pending {
        count += units.difference(before.pending.get(id).unwrap_or(&none)).count();
    }
    count
}

/// W2: "Runs are pending units consecutive in address and belonging to one range." "Runs are taken in the order of the
/// list, then by address, and never joined across two ranges."
///
/// So a run begins at each pending unit whose neighbour below is not pending or belongs to another range, and goes on
/// as long as the next unit is pending and belongs to the same one.
fn runs(pending: &BTreeSet<Unit>, unit: u128) -> Vec<Run> {
    let mut runs = Vec::new();
    for first in pending {
        let joined_below = match first.address.checked_sub(unit) {
            Some(below) => pending.contains(&Unit { row: first.row, address: below }),
            None => false,
        };
        if joined_below {
            continue;
        }
        let mut length: u128 = 1;
        while pending.contains(&Unit { row: first.row, address: first.address + length * unit }) {
            length += 1;
        }
        runs.push(Run { first: *first, length });
    }
    runs
}

/// W10: "the groups up to and including the one where run k + 1 begins, or, if there is none, all".
///
/// So the controller's units are cut into groups, 64 each and the last what is left, and of these the one is sought that has
/// the first unit of the run behind the last one reported.
fn groups_examined(units: &[Unit], next_run: Option<&Run>) -> usize {
    let groups = units.chunks(GROUP_UNITS);
    match next_run {
        Some(run) => groups.take_while(|group| !group.contains(&run.first)).count() + 1,
        None => groups.count(),
    }
}

#[cfg(test)]
mod tests {
    use super::*;
    use crate::structure::structure_bytes;
    use crate::tests::Random;

    /// Manager 1, granularities 0 to 8, rule off, limit 16, controllers 5 and 6.
    fn device() -> Device {
        Device::fresh(&Settings {
            manager: 1,
            least: 0,
            greatest: 8,
            rule: 0,
            limit: 16,
            second: None,
            shelf: 128,
            number: 2,
            identifiers: [5, 6, 0, 0, 0, 0, 0, 0],
        })
        .unwrap()
    }

    fn one_range() -> Vec<u8> {
        structure_bytes(0, &[Range { start: 65536, length: 4 }])
    }

    fn note(id: u64, address: u64, bytes: u64) -> Note {
        Note { id, address, bytes }
    }

    /// A part of controller 5 that counts as many dwords as its data have.
    fn part(indicator: u64, low: u64, data: &[u8]) -> Part {
        Part { id: 5, indicator, low, high: 0, count: data.len() as u64 / 4, data: data.to_vec() }
    }

    /// The device above with both controllers suspended, and an area of stale bytes.
    fn receiver() -> (Device, Vec<u8>) {
        let mut device = device();
        device.suspend(1, 5, 1).unwrap();
        device.suspend(1, 6, 1).unwrap();
        (device, vec![0xEE; 4096])
    }

    /// 60 bytes: sizes 1 and 2, and 12 bytes that tell their places apart.
    fn sixty() -> Vec<u8> {
        let mut state = vec![0; 48];
        state[16] = 1;
        state[32] = 2;
        state.extend(1..13);
        state
    }

    /// A refused start's number and row, if it has one. It changes nothing.
    fn refused_start(device: &Device, buffer: &[u8]) -> (Refusal, Option<usize>) {
        let mut after = device.clone();
        let answer = after.start(1, 5, buffer);
        assert_eq!(&after, device);
        let reason = answer.unwrap_err();
        (reason.number, reason.row)
    }

    #[test]
    fn closed_device_answers_1_to_every_call() {
        let mut device = Device::default();
        assert_eq!(device.start(1, 0, &one_range()), Err(Reason { number: 1, row: None }));
        assert_eq!(device.stop(1, 0), Err(1));
        assert_eq!(device.write(&note(0, 0, 0)), Err(1));
        assert_eq!(device.batch(&[]), Err(1));
        assert_eq!(device.batch(&[note(0, 0, 0)]), Err(1));
        assert_eq!(device.batch(&[note(0, 0, 0); 1025]), Err(1));
        assert_eq!(device.receive(1, 0, &mut [0; 64]), Err(1));
        assert_eq!(device.suspend(1, 0, 9), Err(1));
        assert_eq!(device.resume(1, 0), Err(1));
        assert_eq!(device.set_state(1, &mut [0; 4096], &part(3, 0, &[0; 48])), Err(1));
        assert_eq!(device.make_queue(0, &[0; 64]), Err(1));
        assert_eq!(device.post(0, &mut [0; 64], &[0; 32]), Err(1));
        assert_eq!(device.take(0, &[0; 64], 1, &mut [0; 32]), Err(1));
        assert_eq!(device, Device::default());
    }

    #[test]
    fn unsound_record_answers_1_before_all_else() {
        let mut device = device();
        device.start(1, 5, &one_range()).unwrap();
        device.record.controllers[0].ranges[0].length = 0;
        let before = device.clone();
        for id in [1, 5, 6, 7].iter() {
            assert_eq!(device.start(1, *id, &[]), Err(Reason { number: 1, row: None }));
            assert_eq!(device.stop(1, *id), Err(1));
            assert_eq!(device.write(&note(*id, u64::MAX, u64::MAX)), Err(1));
            for notes in [0, 1, 1024, 1025].iter() {
                assert_eq!(device.batch(&vec![note(*id, u64::MAX, u64::MAX); *notes]), Err(1));
            }
            assert_eq!(device.receive(1, *id, &mut []), Err(1));
            assert_eq!(device.suspend(1, *id, 2), Err(1));
            assert_eq!(device.resume(1, *id), Err(1));
            assert_eq!(device.set_state(1, &mut [0; 4096], &Part { id: *id, ..part(4, 2, &[0; 3]) }), Err(1));
            assert_eq!(device.make_queue(*id, &[]), Err(1));
            assert_eq!(device.post(*id, &mut [], &[]), Err(1));
            assert_eq!(device.take(*id, &[], 0, &mut []), Err(1));
        }
        assert_eq!(device, before);
    }

    #[test]
    fn unused_places_are_zeros() {
        let mut device = Device::fresh(&Settings {
            manager: 1,
            least: 0,
            greatest: 8,
            rule: 0,
            limit: 16,
            second: None,
            shelf: 128,
            number: 1,
            identifiers: [5, 6, 7, 8, 9, 10, 11, 12],
        })
        .unwrap();
        assert_eq!(device.record.settings.identifiers, [5, 0, 0, 0, 0, 0, 0, 0]);
        assert_eq!(device.record.controllers[0], Controller::default());
        let ranges = [Range { start: 65536, length: 4 }, Range { start: 0, length: 2 }];
        device.start(1, 5, &structure_bytes(0, &ranges)).unwrap();
        let controller = &device.record.controllers[0];
        assert_eq!(controller.tracking, Tracking::On { granularity: 0, count: 2 });
        assert_eq!(controller.ranges[0], ranges[0]);
        assert_eq!(controller.ranges[1], ranges[1]);
        for range in &controller.ranges[2..] {
            assert_eq!(*range, Range { start: 0, length: 0 });
        }
        device.stop(1, 5).unwrap();
        assert_eq!(device.record.controllers[0], Controller::default());
    }

    #[test]
    fn start_clears_what_was_pending() {
        // No listing comes here with a unit pending; a start clears all the same, and only its controller's units.
        let mut device = device();
        let stale = Unit { row: 0, address: 65536 };
        device.pending.insert(5, [stale].iter().cloned().collect());
        device.pending.insert(6, [stale].iter().cloned().collect());
        device.start(1, 5, &one_range()).unwrap();
        assert_eq!(device.pending.get(&5), Some(&BTreeSet::new()));
        assert_eq!(device.pending.get(&6), Some(&[stale].iter().cloned().collect()));
    }

    /// Controllers 5 to 12, and a limit of 128.
    fn eight() -> Device {
        let identifiers = [5, 6, 7, 8, 9, 10, 11, 12];
        Device::fresh(&Settings { limit: 128, number: 8, identifiers, ..device().record.settings }).unwrap()
    }

    /// Starts a controller with so many pages from page 0 on.
    fn start_pages(device: &mut Device, id: u64, pages: u64) -> Result<(), Reason> {
        device.start(1, id, &structure_bytes(0, &[Range { start: 0, length: pages }]))
    }

    fn bases(device: &Device) -> Vec<u64> {
        device.record.controllers.iter().map(|controller| controller.base).collect()
    }

    #[test]
    fn starts_pack_and_stops_leave_gaps() {
        let mut device = eight();
        for (id, pages) in [(9, 100), (6, 1), (12, 63), (5, 64)].iter() {
            start_pages(&mut device, *id, *pages).unwrap();
        }
        assert_eq!(bases(&device), [0, 64, 0, 0, 65, 0, 0, 165]);
        // What is off is at 0, and the others stay where they are.
        device.stop(1, 5).unwrap();
        assert_eq!(bases(&device), [0, 64, 0, 0, 65, 0, 0, 165]);
        device.stop(1, 9).unwrap();
        assert_eq!(bases(&device), [0, 64, 0, 0, 0, 0, 0, 165]);
        // The next start packs, whoever starts.
        start_pages(&mut device, 7, 2).unwrap();
        assert_eq!(bases(&device), [0, 0, 1, 0, 0, 0, 0, 3]);
        // A suspended one moves too. A refused start moves nothing.
        device.suspend(1, 12, 1).unwrap();
        device.stop(1, 6).unwrap();
        assert_eq!(start_pages(&mut device, 10, 16320), Err(Reason { number: 11, row: None }));
        assert_eq!(bases(&device), [0, 0, 1, 0, 0, 0, 0, 3]);
        assert_eq!(start_pages(&mut device, 10, 16319), Ok(()));
        assert_eq!(bases(&device), [0, 0, 0, 0, 0, 2, 0, 16321]);
    }

    #[test]
    fn bases_of_controllers_that_are_off_stay() {
        let mut device = eight();
        device.record.controllers[1].base = 60000;
        device.record.controllers[7].base = 9;
        start_pages(&mut device, 5, 3).unwrap();
        start_pages(&mut device, 7, 3).unwrap();
        assert_eq!(bases(&device), [0, 60000, 3, 0, 0, 0, 0, 9]);
        // Those that stand in no place of the settings too, on or off.
        device.record.settings.number = 7;
        device.record.controllers[7].tracking = Tracking::On { granularity: 255, count: 255 };
        start_pages(&mut device, 6, 3).unwrap();
        assert_eq!(bases(&device), [0, 3, 6, 0, 0, 0, 0, 9]);
        device.stop(1, 5).unwrap();
        assert_eq!(bases(&device), [0, 3, 6, 0, 0, 0, 0, 9]);
    }

    #[test]
    fn a_start_packs_a_record_that_has_its_shares_anywhere() {
        // 12 lies below 9, and 9 below 6, with gaps; 5 isn't tracked.
        let mut device = eight();
        for (place, pages, base) in [(1, 10, 16374), (4, 20, 300), (7, 30, 64)].iter() {
            let controller: &mut Controller = &mut device.record.controllers[*place];
            controller.tracking = Tracking::On { granularity: 0, count: 1 };
            controller.manager = 1;
            controller.ranges[0] = Range { start: 0, length: *pages };
            controller.base = *base;
        }
        start_pages(&mut device, 10, 5).unwrap();
        assert_eq!(bases(&device), [0, 0, 0, 0, 10, 30, 0, 35]);
    }

    #[test]
    fn a_pool_of_16384_units() {
        let mut device = eight();
        assert_eq!(start_pages(&mut device, 5, 16385), Err(Reason { number: 11, row: None }));
        assert_eq!(start_pages(&mut device, 5, 10000), Ok(()));
        assert_eq!(start_pages(&mut device, 6, 6385), Err(Reason { number: 11, row: None }));
        assert_eq!(start_pages(&mut device, 6, 6384), Ok(()));
        assert_eq!(start_pages(&mut device, 7, 1), Err(Reason { number: 11, row: None }));
        assert_eq!(device.write(&note(6, 0, u64::MAX)), Ok(6384));
        device.stop(1, 5).unwrap();
        assert_eq!(start_pages(&mut device, 7, 10000), Ok(()));
        assert_eq!(bases(&device), [0, 0, 6384, 0, 0, 0, 0, 0]);
        assert_eq!(device.pending[&6].len(), 6384);
        assert_eq!(device.pending[&7].len(), 0);
    }

    #[test]
    fn start_with_a_short_buffer() {
        let device = device();
        for bytes in 0..8 {
            assert_eq!(refused_start(&device, &one_range()[..bytes]), (8, None));
        }
        for bytes in 8..20 {
            assert_eq!(refused_start(&device, &one_range()[..bytes]), (8, None));
        }
        // Version 1: behind 8 for the header, before 7 and before 8 for the ranges.
        let mut buffer = one_range();
        buffer[0] = 1;
        buffer[3] = 9;
        assert_eq!(refused_start(&device, &buffer), (6, None));
        assert_eq!(refused_start(&device, &buffer[..8]), (6, None));
        assert_eq!(refused_start(&device, &buffer[..7]), (8, None));
        // Granularity 9: before 8 for the ranges.
        buffer[0] = 0;
        assert_eq!(refused_start(&device, &buffer), (7, None));
        assert_eq!(refused_start(&device, &buffer[..8]), (7, None));
        // 8 for the ranges stands before 19, 20 and 21, also of rows that are wholly there.
        let mut buffer = structure_bytes(0, &[Range { start: 65537, length: 0 }, Range { start: u64::MAX, length: 1 }]);
        assert_eq!(refused_start(&device, &buffer[..31]), (8, None));
        assert_eq!(refused_start(&device, &buffer), (19, Some(0)));
        // Bytes after the last listed range and reserved bytes are ignored.
        buffer = one_range();
        buffer[1] = 255;
        buffer[2] = 255;
        buffer.push(255);
        assert_eq!(device.clone().start(1, 5, &buffer), Ok(()));
    }

    #[test]
    fn start_with_a_count_over_16() {
        let device = device();
        let mut ranges = Vec::new();
        for row in 0..17 {
            ranges.push(Range { start: row * 4096, length: 1 });
        }
        let buffer = structure_bytes(0, &ranges);
        assert_eq!(buffer.len(), 212);
        assert_eq!(refused_start(&device, &buffer), (18, Some(0)));
        assert_eq!(refused_start(&device, &buffer[..211]), (8, None));
        assert_eq!(refused_start(&device, &buffer[..8]), (8, None));
        let mut huge = buffer.clone();
        huge[7] = 255;
        assert_eq!(refused_start(&device, &huge), (8, None));
        let mut sixteen = buffer.clone();
        sixteen[4] = 16;
        assert_eq!(device.clone().start(1, 5, &sixteen), Ok(()));
        let mut none = buffer;
        none[4] = 0;
        assert_eq!(refused_start(&device, &none), (18, Some(0)));
        assert_eq!(refused_start(&device, &none[..8]), (18, Some(0)));
    }

    #[test]
    fn a_count_over_16_before_all_behind_it() {
        // Seventeen rows, and in each of them, or in the first, or in the last alone: 19, 20, 21.
        let device = device();
        for bad in [(65536, 0), (65537, 1), (u64::MAX, 1), (18446744073709547520, 2)].iter() {
            let bad = Range { start: bad.0, length: bad.1 };
            let mut ranges = vec![bad; 17];
            assert_eq!(refused_start(&device, &structure_bytes(0, &ranges)), (18, Some(0)));
            ranges[1..].copy_from_slice(&[Range { start: 0, length: 1 }; 16]);
            assert_eq!(refused_start(&device, &structure_bytes(0, &ranges)), (18, Some(0)));
            ranges.rotate_left(1);
            assert_eq!(refused_start(&device, &structure_bytes(0, &ranges)), (18, Some(0)));
        }
        // 10, 11 and 12: lengths of 16,385 with the rule on, and a limit of 16.
        let mut device = device;
        device.record.settings.rule = 1;
        let long = Range { start: 0, length: 16385 };
        assert_eq!(refused_start(&device, &structure_bytes(0, &[long; 17])), (18, Some(0)));
        assert_eq!(refused_start(&device, &structure_bytes(0, &[long; 16])), (10, None));
        // 7 stands before it.
        assert_eq!(refused_start(&device, &structure_bytes(9, &[long; 17])), (7, None));
        assert_eq!(refused_start(&device, &structure_bytes(9, &[])), (7, None));
        assert_eq!(refused_start(&device, &structure_bytes(0, &[])), (18, Some(0)));
    }

    #[test]
    fn report_in_its_buffer() {
        let mut device = device();
        device.start(1, 5, &one_range()).unwrap();
        assert_eq!(device.write(&note(5, 65536, 1)), Ok(1));
        assert_eq!(device.write(&note(5, 73728, 1)), Ok(1));
        // Refused: the buffer is unchanged, and so is the device.
        let before = device.clone();
        let mut buffer = [170; 31];
        assert_eq!(device.receive(1, 5, &mut buffer), Err(8));
        assert_eq!(buffer, [170; 31]);
        assert_eq!(device, before);
        // One descriptor in 47 bytes; those after it are unchanged.
        let mut buffer = [170; 47];
        assert_eq!(device.receive(1, 5, &mut buffer), Ok(1));
        let mut expected = [170; 47];
        expected[..32].copy_from_slice(&[
            0, 1, 5, 0, 1, 0, 0, 0, 0, 0, 0, 0, 0, 0, 0, 0, // more, identifier 5, one, granularity 0
            0, 0, 1, 0, 0, 0, 0, 0, 1, 0, 0, 0, 0, 0, 0, 0, // 65536, 1
        ]);
        assert_eq!(buffer, expected);
        // The other one, while suspended.
        assert_eq!(device.suspend(1, 5, 1), Ok(()));
        let mut buffer = [170; 47];
        assert_eq!(device.receive(1, 5, &mut buffer), Ok(1));
        let mut expected = [170; 47];
        expected[..32].copy_from_slice(&[
            0, 2, 5, 0, 1, 0, 0, 0, 0, 0, 0, 0, 0, 0, 0, 0, // suspended
            0, 32, 1, 0, 0, 0, 0, 0, 1, 0, 0, 0, 0, 0, 0, 0, // 73728 = 0x12000, 1
        ]);
        assert_eq!(buffer, expected);
        // Nothing left: a header alone.
        let mut buffer = [170; 32];
        assert_eq!(device.receive(1, 5, &mut buffer), Ok(1));
        let mut expected = [170; 32];
        expected[..16].copy_from_slice(&[0, 2, 5, 0, 0, 0, 0, 0, 0, 0, 0, 0, 0, 0, 0, 0]);
        assert_eq!(buffer, expected);
    }

    #[test]
    fn batch_in_all() {
        let mut device = device();
        device.start(1, 5, &one_range()).unwrap();
        let record = device.record.clone();
        // Units 1 and 2 of controller 5; 6 isn't tracked, and 7 isn't there, so the last note is not tried.
        let list = [note(5, 69632, 1), note(5, 73727, 2), note(6, 0, 5), note(7, 0, 1), note(5, 65536, 1)];
        assert_eq!(device.batch(&list), Ok(Batch { done: 3, count: 2, refusal: Some(2), counts: vec![1, 1, 0] }));
        assert_eq!(device.record, record);
        let units = [Unit { row: 0, address: 69632 }, Unit { row: 0, address: 73728 }];
        assert_eq!(device.pending.get(&5), Some(&units.iter().cloned().collect()));
        assert_eq!(device.pending.get(&6), Some(&BTreeSet::new()));
        // Cut at once, and an empty list: done, and nothing changes.
        let before = device.clone();
        assert_eq!(device.batch(&list[3..]), Ok(Batch { done: 0, count: 0, refusal: Some(2), counts: vec![] }));
        assert_eq!(device.batch(&[]), Ok(Batch { done: 0, count: 0, refusal: None, counts: vec![] }));
        assert_eq!(device, before);
    }

    #[test]
    fn lists_of_1024_and_1025() {
        let mut device = device();
        device.start(1, 5, &one_range()).unwrap();
        let before = device.clone();
        // 22 is asked before any note, good or bad.
        for each in [note(5, 65536, 1), note(7, 0, 1), note(5, u64::MAX, 2)].iter() {
            assert_eq!(device.batch(&[*each; 1025]), Err(22));
            assert_eq!(device.batch(&[*each; 5000]), Err(22));
        }
        assert_eq!(device, before);
        let cut_at_once = Batch { done: 0, count: 0, refusal: Some(2), counts: vec![] };
        assert_eq!(device.batch(&[note(7, 0, 1); 1024]), Ok(cut_at_once));
        assert_eq!(device, before);
        let mut list = [note(5, 65536, 1); 1024];
        list[1023] = note(5, 77824, 1);
        let mut counts = vec![0; 1024];
        counts[0] = 1;
        counts[1023] = 1;
        assert_eq!(device.batch(&list), Ok(Batch { done: 1024, count: 2, refusal: None, counts }));
    }

    /// This part is refused so, and changes neither device nor area.
    fn assert_refused(device: &Device, area: &[u8], part: &Part, refusal: Refusal) {
        let mut after = device.clone();
        let mut area_after = area.to_vec();
        assert_eq!(after.set_state(1, &mut area_after, part), Err(refusal), "{:?}", part);
        assert_eq!((&after, area_after.as_slice()), (device, area), "{:?}", part);
    }

    #[test]
    fn state_in_parts() {
        let (mut device, mut area) = receiver();
        let state = sixty();
        assert_eq!(device.set_state(1, &mut area, &part(1, 0, &state[..16])), Ok(0));
        assert_eq!(device.record.sequence, Sequence::Open { owner: 5, end: 16 });
        assert_eq!(device.set_state(1, &mut area, &part(0, 16, &state[16..44])), Ok(0));
        assert_eq!(device.record.sequence, Sequence::Open { owner: 5, end: 44 });
        // A dword is missing; the sequence stays open, and the bytes are not stored.
        assert_refused(&device, &area, &part(2, 44, &state[44..56]), 27);
        assert_eq!(device.set_state(1, &mut area, &part(2, 44, &state[44..])), Ok(60));
        assert_eq!(device.record.sequence, Sequence::Nothing);
        assert_eq!(area[..60].to_vec(), state);
        assert_eq!(area[60..].to_vec(), vec![0xEE; 4036]);
    }

    #[test]
    fn however_divided() {
        let state = sixty();
        for one in (4..60).step_by(4) {
            for two in (one + 4..=60).step_by(4) {
                let (mut device, mut area) = receiver();
                assert_eq!(device.set_state(1, &mut area, &part(1, 0, &state[..one])), Ok(0));
                assert_eq!(device.set_state(1, &mut area, &part(0, one as u64, &state[one..two])), Ok(0));
                assert_eq!(device.set_state(1, &mut area, &part(2, two as u64, &state[two..])), Ok(60));
                assert_eq!(area[..60].to_vec(), state, "{} {}", one, two);
            }
        }
        let (mut device, mut area) = receiver();
        assert_eq!(device.set_state(1, &mut area, &part(3, 0, &state)), Ok(60));
        assert_eq!(area[..60].to_vec(), state);
    }

    #[test]
    fn areas_that_are_not_4096_bytes() {
        let (device, _) = receiver();
        for bytes in [0, 1, 48, 4095, 4097, 4200, 8192].iter() {
            let area = vec![7; *bytes];
            assert_refused(&device, &area, &part(3, 0, &[0; 48]), 1);
            // Before all the others.
            assert_refused(&device, &area, &Part { id: 7, ..part(4, 2, &[0; 3]) }, 1);
        }
    }

    #[test]
    fn order_of_a_part() {
        let (mut device, mut area) = receiver();
        device.record.settings.number = 3;
        device.record.settings.identifiers[2] = 7;
        assert_eq!(device.set_state(1, &mut area, &part(1, 0, &[0; 16])), Ok(0));
        // An offset of 2 and more that is wrong: of an unknown one, of one that runs, of another, of the owner.
        let bad = part(4, 2, &[0; 3]);
        assert_refused(&device, &area, &Part { id: 9, ..bad.clone() }, 2);
        assert_refused(&device, &area, &Part { id: 1, ..bad.clone() }, 2);
        assert_refused(&device, &area, &Part { id: 7, ..bad.clone() }, 13);
        assert_refused(&device, &area, &Part { id: 6, ..bad.clone() }, 23);
        assert_refused(&device, &area, &bad, 24);
        assert_refused(&device, &area, &Part { low: 0, ..bad.clone() }, 25);
        assert_refused(&device, &area, &part(0, 20, &[0; 4]), 26);
        assert_refused(&device, &area, &part(2, 16, &[0; 4]), 27);
        // The word that is the higher one.
        assert_refused(&device, &area, &Part { high: 1, ..part(1, 0, &[0; 4]) }, 24);
    }

    #[test]
    fn offsets_and_counts() {
        let (mut device, mut area) = receiver();
        assert_refused(&device, &area, &part(1, 4098, &[0; 4]), 24);
        assert_refused(&device, &area, &part(1, 4, &[0; 4]), 26);
        assert_refused(&device, &area, &part(1, 0, &[0; 4100]), 27);
        assert_refused(&device, &area, &part(0, 0, &[0; 4]), 26);
        assert_refused(&device, &area, &part(2, 0, &[]), 26);
        assert_refused(&device, &area, &part(1, 0, &[]), 25);
        assert_refused(&device, &area, &part(3, 0, &[]), 25);
        assert_refused(&device, &area, &Part { count: 1, ..part(1, 0, &[0; 3]) }, 25);
        assert_refused(&device, &area, &Part { count: 1073741836, ..part(3, 0, &[0; 48]) }, 25);
        // As many bytes as may be: sizes that sum to 1,012 dwords.
        let mut state = vec![0x5A; 4096];
        state[..48].copy_from_slice(&[0; 48]);
        state[16] = 244;
        state[17] = 3;
        assert_eq!(device.set_state(1, &mut area, &part(1, 0, &state)), Ok(0));
        assert_refused(&device, &area, &part(0, 4096, &[0; 4]), 27);
        assert_refused(&device, &area, &part(0, 4100, &[0; 4]), 24);
        assert_refused(&device, &area, &part(0, 4096, &[]), 25);
        assert_refused(&device, &area, &Part { count: 0, ..part(2, 4096, &[0; 4]) }, 25);
        assert_eq!(device.set_state(1, &mut area, &part(2, 4096, &[])), Ok(4096));
        assert_eq!(area, state);
    }

    #[test]
    fn parts_that_begin_anew() {
        let (mut device, mut area) = receiver();
        // Refused, neither of them ends the open sequence nor stores a byte.
        assert_eq!(device.set_state(1, &mut area, &part(1, 0, &[0; 20])), Ok(0));
        let mut bad = vec![0xEE; 48];
        bad[0] = 0;
        bad[1] = 1;
        assert_refused(&device, &area, &part(3, 0, &bad), 27);
        assert_refused(&device, &area, &part(1, 0, &[0xEE; 4100]), 27);
        assert_eq!(device.set_state(1, &mut area, &part(2, 20, &[0; 28])), Ok(48));
        assert_eq!(area[..49].to_vec(), [vec![0; 48], vec![0xEE]].concat());
        // Accepted, a first one goes on from its own end, and an only one ends all.
        assert_eq!(device.set_state(1, &mut area, &part(1, 0, &[0xEE; 48])), Ok(0));
        assert_eq!(device.set_state(1, &mut area, &part(1, 0, &[0; 4])), Ok(0));
        assert_eq!(device.record.sequence, Sequence::Open { owner: 5, end: 4 });
        assert_eq!(area[..8].to_vec(), [0, 0, 0, 0, 0xEE, 0xEE, 0xEE, 0xEE]);
        assert_refused(&device, &area, &part(0, 48, &[0; 4]), 26);
        assert_eq!(device.set_state(1, &mut area, &part(3, 0, &[0; 48])), Ok(48));
        assert_refused(&device, &area, &part(2, 48, &[]), 26);
        assert_refused(&device, &area, &part(0, 4, &[0; 4]), 26);
    }

    #[test]
    fn resume_drops_its_own_sequence_alone() {
        let (mut device, mut area) = receiver();
        assert_eq!(device.set_state(1, &mut area, &part(1, 0, &[0; 16])), Ok(0));
        assert_eq!(device.resume(1, 6), Ok(()));
        assert_eq!(device.record.sequence, Sequence::Open { owner: 5, end: 16 });
        assert_eq!(device.resume(1, 6), Err(13));
        assert_eq!(device.set_state(1, &mut area, &part(0, 16, &[0; 4])), Ok(0));
        let before = area.clone();
        assert_eq!(device.resume(1, 5), Ok(()));
        assert_eq!(device.record.sequence, Sequence::Nothing);
        assert_refused(&device, &area, &part(0, 20, &[0; 4]), 13);
        assert_eq!(device.suspend(1, 5, 1), Ok(()));
        assert_refused(&device, &area, &part(0, 20, &[0; 4]), 26);
        assert_eq!(area, before);
    }

    #[test]
    fn other_calls_carry_the_sequence_on() {
        let (mut device, mut area) = receiver();
        device.resume(1, 6).unwrap();
        assert_eq!(device.set_state(1, &mut area, &part(1, 0, &[0; 16])), Ok(0));
        let open = Sequence::Open { owner: 5, end: 16 };
        assert_eq!(device.start(1, 6, &one_range()), Ok(()));
        assert_eq!(device.write(&note(6, 65536, 1)), Ok(1));
        assert_eq!(device.batch(&[note(6, 69632, 1), note(5, 0, 1)]).unwrap().refusal, Some(4));
        assert_eq!(device.receive(1, 6, &mut [0; 64]), Ok(1));
        assert_eq!(device.stop(1, 6), Ok(()));
        for kind in 0..2 {
            assert_eq!(device.suspend(1, 5, kind), Ok(()));
            assert_eq!(device.suspend(1, 6, kind), Ok(()));
        }
        assert_eq!(device.suspend(1, 5, 2), Err(15));
        assert_eq!(device.record.sequence, open);
        // Of the owner itself these two are refused.
        assert_eq!(device.start(1, 5, &one_range()), Err(Reason { number: 4, row: None }));
        assert_eq!(device.stop(1, 5), Err(4));
        assert_eq!(device.record.sequence, open);
    }

    #[test]
    fn a_sequence_makes_a_record_unsound() {
        let (mut device, area) = receiver();
        for (owner, end) in [(5, 6), (5, 0), (5, 4100), (9, 16)].iter() {
            device.record.sequence = Sequence::Open { owner: *owner, end: *end };
            let before = device.clone();
            assert_refused(&device, &area, &part(1, 0, &[0; 4]), 1);
            assert_eq!(device.resume(1, 5), Err(1));
            assert_eq!(device.suspend(1, 5, 1), Err(1));
            assert_eq!(device.batch(&[]), Err(1));
            assert_eq!(device, before);
        }
    }

    /// A lent area, and the device above with a queue of so many places of controller 5 in it.
    fn queued(places: usize) -> (Device, Vec<u8>) {
        let mut device = device();
        let area = vec![0xEE; 32 * places];
        assert_eq!(device.make_queue(5, &area), Ok(()));
        assert_eq!(area, vec![0xEE; 32 * places]);
        (device, area)
    }

    fn queue_of_5(device: &Device) -> Queue {
        device.record.controllers[0].queue.unwrap()
    }

    /// Sets the queue of controller 5, which isn't stopped.
    fn set_queue(device: &mut Device, size: u64, posted: u64, taken: u64, place: u64) {
        device.record.controllers[0].queue = Some(Queue { size, posted, taken, place, stopped: false });
    }

    /// This post is refused so, and changes neither device nor area.
    fn assert_post_refused(device: &Device, id: u64, area: &[u8], entry: &[u8], refusal: Refusal) {
        let mut after = device.clone();
        let mut area_after = area.to_vec();
        assert_eq!(after.post(id, &mut area_after, entry), Err(refusal));
        assert_eq!((&after, area_after.as_slice()), (device, area));
    }

    /// This take is refused so, and changes neither device nor buffer.
    fn assert_take_refused(device: &Device, id: u64, area: &[u8], asked: u64, bytes: usize, refusal: Refusal) {
        let mut after = device.clone();
        let mut buffer = vec![170; bytes];
        assert_eq!(after.take(id, area, asked, &mut buffer), Err(refusal));
        assert_eq!((&after, buffer), (device, vec![170; bytes]));
    }

    /// A take into so many stale bytes yields these entries, of one byte each, and leaves the rest of the buffer.
    fn assert_taken(device: &mut Device, area: &[u8], asked: u64, bytes: usize, expected: &[u8], closing: bool) {
        let mut buffer = vec![170; bytes];
        let before = area.to_vec();
        let answer = device.take(5, area, asked, &mut buffer);
        assert_eq!(answer, Ok(Take { entries: expected.len(), closing }));
        let mut whole: Vec<u8> = expected.iter().flat_map(|byte| vec![*byte; 32]).collect();
        whole.resize(bytes, 170);
        assert_eq!((buffer, area), (whole, before.as_slice()));
    }

    #[test]
    fn worked_queue_of_two_places() {
        let (mut device, mut area) = queued(2);
        let (a, b, c) = ([1; 32], [2; 32], [3; 32]);
        assert_eq!(device.post(5, &mut area, &a), Ok(false));
        assert_eq!(area, [[1; 32], [0xEE; 32]].concat());
        assert_eq!(device.post(5, &mut area, &b), Ok(true));
        assert_eq!(area, [[1; 32], [255; 32]].concat());
        assert_post_refused(&device, 5, &area, &c, 30);
        assert_post_refused(&device, 5, &area, &[3; 31], 8);
        assert_taken(&mut device, &area, 10, 100, &[1, 255], true);
        assert_taken(&mut device, &area, 10, 100, &[], false);
        assert_post_refused(&device, 5, &area, &c, 30);
        assert_eq!(queue_of_5(&device), Queue { size: 2, posted: 2, taken: 2, place: 0, stopped: true });
        assert_eq!(device.make_queue(5, &area), Ok(()));
        assert_eq!(queue_of_5(&device), Queue { size: 2, ..Queue::default() });
        assert_eq!(device.post(5, &mut area, &c), Ok(false));
        assert_eq!(area, [[3; 32], [255; 32]].concat());
    }

    #[test]
    fn worked_posted_entry_of_ffh() {
        let (mut device, mut area) = queued(3);
        assert_eq!(device.post(5, &mut area, &[255; 32]), Ok(false));
        assert_taken(&mut device, &area, 1, 32, &[255], false);
        // The last one stored before the closing one is of FFh, and the one that isn't stored.
        assert_eq!(device.post(5, &mut area, &[1; 32]), Ok(false));
        assert_eq!(device.post(5, &mut area, &[255; 32]), Ok(false));
        assert_eq!(device.post(5, &mut area, &[255; 32]), Ok(true));
        assert_taken(&mut device, &area, 2, 999, &[1, 255], false);
        assert_taken(&mut device, &area, 2, 999, &[255], true);
    }

    #[test]
    fn worked_queue_of_four_places() {
        let (mut device, mut area) = queued(4);
        for byte in 1..4 {
            assert_eq!(device.post(5, &mut area, &[byte; 32]), Ok(false));
        }
        assert_eq!(device.post(5, &mut area, &[4; 32]), Ok(true));
        assert_taken(&mut device, &area, 3, 128, &[1, 2, 3], false);
        assert_taken(&mut device, &area, 1, 128, &[255], true);
    }

    #[test]
    fn worked_buffers() {
        let (mut device, mut area) = queued(4);
        for byte in 1..4 {
            assert_eq!(device.post(5, &mut area, &[byte; 32]), Ok(false));
        }
        let before = device.clone();
        assert_taken(&mut device, &area, 9, 31, &[], false);
        assert_taken(&mut device, &area, 9, 0, &[], false);
        assert_taken(&mut device, &area, 0, 999, &[], false);
        assert_eq!(device, before);
        assert_taken(&mut device, &area, 9, 63, &[1], false);
        assert_taken(&mut device, &area, 9, 64, &[2, 3], false);
        assert_taken(&mut device, &area, 9, 64, &[], false);
    }

    #[test]
    fn worked_totals_past_2_32() {
        // Fill 3 of 4, from place 1 on: the post goes to place 0 and closes.
        let (mut device, mut area) = queued(4);
        set_queue(&mut device, 4, 2, 4294967295, 1);
        assert_eq!(device.post(5, &mut area, &[1; 32]), Ok(true));
        assert_eq!(area, [[255; 32], [0xEE; 32], [0xEE; 32], [0xEE; 32]].concat());
        assert_eq!(queue_of_5(&device), Queue { size: 4, posted: 3, taken: 4294967295, place: 1, stopped: true });
        // Three places, which 2^32 isn't a multiple of.
        let (mut device, mut area) = queued(3);
        set_queue(&mut device, 3, 4294967295, 4294967295, 0);
        assert_eq!(device.post(5, &mut area, &[1; 32]), Ok(false));
        assert_eq!(area, [[1; 32], [0xEE; 32], [0xEE; 32]].concat());
        assert_eq!(queue_of_5(&device), Queue { size: 3, posted: 0, taken: 4294967295, place: 0, stopped: false });
        assert_taken(&mut device, &area, 1, 32, &[1], false);
        assert_eq!(queue_of_5(&device), Queue { size: 3, posted: 0, taken: 0, place: 1, stopped: false });
        assert_eq!(device.post(5, &mut area, &[2; 32]), Ok(false));
        assert_eq!(area, [[1; 32], [2; 32], [0xEE; 32]].concat());
    }

    #[test]
    fn worked_areas() {
        for bytes in [0, 1, 32, 63, 65, 95, 97, 32767, 32769, 32800].iter() {
            let mut device = device();
            assert_eq!(device.make_queue(5, &vec![0; *bytes]), Err(28));
            assert_eq!(device, self::device());
            // Never made, and made with 96.
            for device in [device, queued(3).0].iter() {
                assert_post_refused(device, 5, &vec![7; *bytes], &[1; 32], 28);
                assert_take_refused(device, 5, &vec![7; *bytes], 1, 32, 28);
            }
        }
        for bytes in [64, 96, 32736, 32768].iter() {
            let mut device = device();
            assert_post_refused(&device, 5, &vec![7; *bytes], &[1; 32], 29);
            assert_take_refused(&device, 5, &vec![7; *bytes], 1, 32, 29);
            assert_eq!(device.make_queue(5, &vec![0; *bytes]), Ok(()));
            assert_eq!(queue_of_5(&device), Queue { size: *bytes as u64 / 32, ..Queue::default() });
        }
        let (device, _) = queued(3);
        for bytes in [64, 128, 32768].iter() {
            assert_post_refused(&device, 5, &vec![7; *bytes], &[1; 32], 28);
            assert_take_refused(&device, 5, &vec![7; *bytes], 1, 32, 28);
        }
    }

    #[test]
    fn order_of_posts_and_takes() {
        let (mut device, mut area) = queued(2);
        device.post(5, &mut area, &[1; 32]).unwrap();
        device.post(5, &mut area, &[1; 32]).unwrap();
        // Stopped: all that is wrong, then ever less.
        assert_post_refused(&device, 9, &[0; 65], &[1; 31], 2);
        assert_post_refused(&device, 1, &[0; 65], &[1; 31], 2);
        assert_post_refused(&device, 5, &[0; 65], &[1; 31], 28);
        assert_post_refused(&device, 5, &[0; 96], &[1; 31], 28);
        assert_post_refused(&device, 5, &area, &[1; 31], 8);
        assert_post_refused(&device, 5, &area, &[], 8);
        assert_post_refused(&device, 5, &area, &[1; 64], 8);
        assert_post_refused(&device, 5, &area, &[1; 32], 30);
        // 6 has no queue.
        assert_post_refused(&device, 6, &[0; 65], &[1; 31], 28);
        assert_post_refused(&device, 6, &[0; 64], &[1; 31], 29);
        assert_take_refused(&device, 9, &[0; 65], 1, 0, 2);
        assert_take_refused(&device, 1, &[0; 65], 1, 0, 2);
        assert_take_refused(&device, 5, &[0; 65], 0, 0, 28);
        assert_take_refused(&device, 6, &[0; 65], 0, 0, 28);
        assert_take_refused(&device, 6, &[0; 64], 0, 0, 29);
        let mut after = device.clone();
        assert_eq!(after.make_queue(9, &[0; 65]), Err(2));
        assert_eq!(after.make_queue(1, &[0; 64]), Err(2));
        assert_eq!(after.make_queue(5, &[0; 65]), Err(28));
        assert_eq!(after, device);
    }

    #[test]
    fn a_queue_makes_a_record_unsound() {
        let (device, area) = queued(2);
        for (posted, taken, place) in [(2, 0, 0), (0, 1, 0), (0, 0, 2), (7, 3, 1)].iter() {
            let mut device = device.clone();
            set_queue(&mut device, 2, *posted, *taken, *place);
            let before = device.clone();
            for id in [5, 6, 9].iter() {
                assert_post_refused(&device, *id, &area, &[1; 32], 1);
                assert_take_refused(&device, *id, &area, 1, 32, 1);
                assert_eq!(device.make_queue(*id, &area), Err(1));
                assert_eq!(device.write(&note(*id, 0, 0)), Err(1));
            }
            assert_eq!(device.batch(&[]), Err(1));
            assert_eq!(device, before);
        }
    }

    #[test]
    fn other_calls_leave_the_queue() {
        let (mut device, mut area) = queued(4);
        device.post(5, &mut area, &[1; 32]).unwrap();
        device.post(5, &mut area, &[2; 32]).unwrap();
        assert_taken(&mut device, &area, 1, 32, &[1], false);
        let queue = queue_of_5(&device);
        assert_eq!(queue, Queue { size: 4, posted: 2, taken: 1, place: 1, stopped: false });
        let mut state = vec![0; 4096];
        device.start(1, 5, &one_range()).unwrap();
        assert_eq!(queue_of_5(&device), queue);
        device.write(&note(5, 65536, 1)).unwrap();
        device.batch(&[note(5, 69632, 1)]).unwrap();
        device.receive(1, 5, &mut [0; 64]).unwrap();
        assert_eq!(queue_of_5(&device), queue);
        device.stop(1, 5).unwrap();
        assert_eq!(queue_of_5(&device), queue);
        assert_eq!(device.record.controllers[0], Controller { queue: Some(queue), ..Controller::default() });
        device.suspend(1, 5, 1).unwrap();
        device.set_state(1, &mut state, &part(1, 0, &[0; 16])).unwrap();
        // A suspended controller's queue is as any other, and leaves the sequence.
        assert_eq!(device.post(5, &mut area, &[3; 32]), Ok(false));
        assert_taken(&mut device, &area, 1, 32, &[2], false);
        assert_eq!(device.record.sequence, Sequence::Open { owner: 5, end: 16 });
        device.resume(1, 5).unwrap();
        assert_eq!(queue_of_5(&device), Queue { size: 4, posted: 3, taken: 2, place: 2, stopped: false });
        assert_eq!(device.record.controllers[1].queue, None);
        // A fresh device has none.
        assert_eq!(Device::fresh(&device.record.settings).unwrap().record.controllers[0].queue, None);
    }

    #[test]
    fn queues_leave_all_else() {
        // 5 is tracked with a unit pending, 6 suspended; each has its own queue.
        let mut device = device();
        device.start(1, 5, &one_range()).unwrap();
        device.write(&note(5, 65536, 1)).unwrap();
        device.suspend(1, 6, 1).unwrap();
        let before = device.clone();
        let (mut area_of_5, mut area_of_6) = (vec![5; 64], vec![6; 96]);
        device.make_queue(5, &area_of_5).unwrap();
        device.make_queue(6, &area_of_6).unwrap();
        device.post(5, &mut area_of_5, &[1; 32]).unwrap();
        device.post(6, &mut area_of_6, &[2; 32]).unwrap();
        device.post(6, &mut area_of_6, &[3; 32]).unwrap();
        device.post(5, &mut area_of_5, &[4; 32]).unwrap();
        let mut buffer = [0; 96];
        assert_eq!(device.take(6, &area_of_6, 9, &mut buffer), Ok(Take { entries: 2, closing: false }));
        assert_eq!(buffer.to_vec(), [[2; 32], [3; 32], [0; 32]].concat());
        assert_taken(&mut device, &area_of_5, 9, 96, &[1, 255], true);
        device.record.controllers[0].queue = None;
        device.record.controllers[1].queue = None;
        assert_eq!(device, before);
    }

    /// READINGS 8.13: "the entries taken since the last make, joined, and those queued now, are the entries stored since
    /// then in order, then the closing one if stopped". Here what is stored is kept as a list of its own, from the calls
    /// alone. The same calls from totals just below 2^32 on have the same answers.
    #[test]
    fn each_entry_once_and_in_order() {
        let mut random = Random(9);
        let (mut closed, mut passed) = (0, 0);
        for _ in 0..400 {
            let places = [2, 3, 4, 5, 7, 8, 30][random.below(7)];
            let (mut device, mut area) = queued(places);
            let (mut later, mut later_area) = queued(places);
            let total = 4294967296 - 1 - random.below(60) as u64;
            let mut made_anew = false;
            set_queue(&mut later, places as u64, total, total, random.below(places) as u64);
            // The entries stored and not taken, and whether the last of them is the closing one.
            let (mut stored, mut stopped): (Vec<Vec<u8>>, bool) = (Vec::new(), false);
            for _ in 0..100 {
                if random.below(3) == 0 {
                    let (asked, bytes) = (random.below(places + 2), random.below(32 * places + 40));
                    let least = asked.min(bytes / 32).min(stored.len());
                    let closing = least > 0 && least == stored.len() && stopped;
                    let mut expected: Vec<u8> = stored.drain(..least).flatten().collect();
                    expected.resize(bytes, 170);
                    for (device, area) in [(&mut device, &area), (&mut later, &later_area)] {
                        let mut buffer = vec![170; bytes];
                        let answer = device.take(5, area, asked as u64, &mut buffer);
                        assert_eq!((answer, &buffer), (Ok(Take { entries: least, closing }), &expected));
                    }
                } else if stopped && random.below(8) == 0 {
                    device.make_queue(5, &area).unwrap();
                    later.make_queue(5, &later_area).unwrap();
                    stored.clear();
                    stopped = false;
                    made_anew = true;
                } else {
                    // Some are of FFh.
                    let entry = vec![if random.below(4) == 0 { 255 } else { random.below(256) as u8 }; 32];
                    let answer = device.post(5, &mut area, &entry);
                    assert_eq!(later.post(5, &mut later_area, &entry), answer);
                    let closes = stored.len() + 1 == places;
                    assert_eq!(answer, if stopped { Err(30) } else { Ok(closes) });
                    if !stopped {
                        stored.push(if closes { vec![255; 32] } else { entry });
                        stopped = closes;
                        closed += u64::from(closes);
                    }
                }
                assert_eq!(queue_of_5(&device).fill(), stored.len() as u64);
                assert_eq!(queue_of_5(&later).fill(), stored.len() as u64);
                passed += u64::from(!made_anew && queue_of_5(&later).taken < 4294960000);
            }
        }
        assert!(closed > 100 && passed > 100, "{} {}", closed, passed);
    }

    #[test]
    fn a_queue_of_1024_places() {
        let (mut device, mut area) = queued(1024);
        set_queue(&mut device, 1024, 4294967000, 4294967000, 1000);
        for number in 0..1023u64 {
            assert_eq!(device.post(5, &mut area, &number.to_le_bytes().repeat(4)), Ok(false));
        }
        assert_eq!(queue_of_5(&device).posted, 727);
        assert_eq!(device.post(5, &mut area, &[0; 32]), Ok(true));
        assert_post_refused(&device, 5, &area, &[0; 32], 30);
        let mut buffer = vec![170; 32768];
        assert_eq!(device.take(5, &area, 1023, &mut buffer), Ok(Take { entries: 1023, closing: false }));
        for (number, entry) in buffer.chunks(32).take(1023).enumerate() {
            assert_eq!(entry, (number as u64).to_le_bytes().repeat(4));
        }
        assert_eq!(buffer[32736..], [170; 32]);
        assert_taken(&mut device, &area, 4294967295, 40, &[255], true);
        assert_eq!(queue_of_5(&device), Queue { size: 1024, posted: 728, taken: 728, place: 1000, stopped: true });
    }

    /// READINGS W12: managers 1 (16) and 2 (4), shelf 18, controllers 5, 6 and 7.
    fn two_managers() -> Device {
        let second = Some(Manager { id: 2, limit: 4 });
        let identifiers = [5, 6, 7, 0, 0, 0, 0, 0];
        Device::fresh(&Settings { second, shelf: 18, number: 3, identifiers, ..device().record.settings }).unwrap()
    }

    /// So many ranges of one unit.
    fn ranges_of(count: usize) -> Vec<u8> {
        let ranges: Vec<Range> = (0..count).map(|row| Range { start: 8192 * row as u64, length: 1 }).collect();
        structure_bytes(0, &ranges)
    }

    /// The number of a start by this manager with so many ranges of one unit, 0 done. A refused one changes nothing.
    fn start_by(device: &mut Device, by: u64, id: u64, count: usize) -> Refusal {
        let before = device.clone();
        match device.start(by, id, &ranges_of(count)) {
            Ok(()) => 0,
            Err(reason) => {
                assert_eq!(device, &before);
                reason.number
            }
        }
    }

    fn managers(device: &Device) -> Vec<u64> {
        device.record.controllers.iter().map(|controller| controller.manager).collect()
    }

    #[test]
    fn worked_two_managers() {
        let mut device = two_managers();
        assert_eq!(start_by(&mut device, 1, 5, 10), 0);
        assert_eq!(start_by(&mut device, 2, 5, 1), 3);
        assert_eq!(device.stop(2, 5), Err(5));
        assert_eq!(device.receive(2, 5, &mut [0; 16]), Err(5));
        for unknown in [1, 2].iter() {
            assert_eq!(start_by(&mut device, 1, *unknown, 1), 2);
            assert_eq!(start_by(&mut device, 2, *unknown, 1), 2);
        }
        assert_eq!(start_by(&mut device, 2, 6, 5), 12);
        assert_eq!(start_by(&mut device, 2, 6, 4), 0);
        assert_eq!(start_by(&mut device, 1, 7, 7), 12, "17 of 16, although 21 of 18");
        assert_eq!(start_by(&mut device, 1, 7, 5), 34, "15 of 16, and 19 of 18");
        assert_eq!(start_by(&mut device, 1, 7, 4), 0);
        assert_eq!(managers(&device), [1, 2, 1, 0, 0, 0, 0, 0]);
        assert_eq!(device.suspend(2, 5, 1), Ok(()));
        assert_eq!(device.stop(1, 5), Err(4));
        assert_eq!(device.stop(2, 5), Err(4));
        assert_eq!(device.resume(1, 5), Ok(()));
        assert_eq!(device.stop(1, 5), Ok(()));
        assert_eq!(managers(&device), [0, 2, 1, 0, 0, 0, 0, 0]);
        assert_eq!(start_by(&mut device, 1, 5, 10), 0, "given back to both");
    }

    #[test]
    fn a_shelf_limit_with_one_manager() {
        let mut device = two_managers();
        device.record.settings.second = None;
        device.record.settings.shelf = 3;
        assert_eq!(start_by(&mut device, 1, 5, 4), 34);
        assert_eq!(start_by(&mut device, 1, 5, 16), 34);
        assert_eq!(start_by(&mut device, 1, 5, 3), 0);
        assert_eq!(start_by(&mut device, 1, 6, 1), 34);
        assert_eq!(start_by(&mut device, 1, 6, 14), 12, "17 of 16");
        assert_eq!(start_by(&mut device, 2, 6, 1), 2, "there is no second one");
    }

    #[test]
    fn unknown_managers() {
        // 5 is tracked and 6 suspended; all that can be wrong is wrong as well.
        let mut device = two_managers();
        device.start(1, 5, &one_range()).unwrap();
        device.suspend(1, 6, 1).unwrap();
        let before = device.clone();
        // Controllers are no managers, nor is the name of a place that is off, or an unused one.
        for by in [0, 3, 5, 6, 7, 257, 258, 65535, 65536, u64::MAX].iter() {
            for id in [1, 2, 3, 5, 6, 7, 9].iter() {
                assert_eq!(device.start(*by, *id, &[]), Err(Reason { number: 2, row: None }));
                assert_eq!(device.start(*by, *id, &one_range()), Err(Reason { number: 2, row: None }));
                assert_eq!(device.stop(*by, *id), Err(2));
                assert_eq!(device.receive(*by, *id, &mut []), Err(2));
                assert_eq!(device.receive(*by, *id, &mut [0; 64]), Err(2));
                assert_eq!(device.suspend(*by, *id, 1), Err(2));
                assert_eq!(device.suspend(*by, *id, 2), Err(2));
                assert_eq!(device.resume(*by, *id), Err(2));
                let part = Part { id: *id, ..part(1, 0, &[0; 4]) };
                assert_eq!(device.set_state(*by, &mut [0; 4096], &part), Err(2));
                assert_eq!(device.set_state(*by, &mut [0; 4095], &part), Err(1), "1 comes first");
            }
        }
        assert_eq!(device, before);
        // Unsound: 1 comes first, whoever calls. 5 is tracked by one that isn't there.
        device.record.controllers[0].manager = 3;
        let before = device.clone();
        for by in [1, 2, 3, 5].iter() {
            assert_eq!(device.start(*by, 7, &one_range()), Err(Reason { number: 1, row: None }));
            assert_eq!(device.stop(*by, 5), Err(1));
            assert_eq!(device.receive(*by, 5, &mut [0; 64]), Err(1));
            assert_eq!(device.suspend(*by, 5, 1), Err(1));
            assert_eq!(device.resume(*by, 6), Err(1));
            assert_eq!(device.set_state(*by, &mut [0; 4096], &part(1, 0, &[0; 4])), Err(1));
        }
        assert_eq!(device.write(&note(5, 0, 1)), Err(1));
        assert_eq!(device.batch(&[]), Err(1));
        assert_eq!(device.make_queue(5, &[0; 64]), Err(1));
        assert_eq!(device, before);
    }

    #[test]
    fn a_closed_device_has_no_manager() {
        // All zeros: 0 is the name there, and 1 answers whoever calls.
        let mut device = Device::default();
        for by in [0, 1, 2, 65535].iter() {
            assert_eq!(device.start(*by, 5, &one_range()), Err(Reason { number: 1, row: None }));
            assert_eq!(device.stop(*by, 5), Err(1));
            assert_eq!(device.receive(*by, 5, &mut [0; 64]), Err(1));
            assert_eq!(device.suspend(*by, 5, 1), Err(1));
            assert_eq!(device.resume(*by, 5), Err(1));
            assert_eq!(device.set_state(*by, &mut [0; 4096], &part(1, 0, &[0; 4])), Err(1));
        }
    }

    #[test]
    fn the_other_manager_gets_5() {
        let mut device = two_managers();
        device.start(2, 5, &one_range()).unwrap();
        device.write(&note(5, 65536, 1)).unwrap();
        let before = device.clone();
        // 5 before 8, and nothing is reported or dropped.
        for bytes in [0, 16, 31, 32, 64].iter() {
            let mut buffer = vec![170; *bytes];
            assert_eq!(device.receive(1, 5, &mut buffer), Err(5));
            assert_eq!(buffer, vec![170; *bytes]);
        }
        assert_eq!(device.stop(1, 5), Err(5));
        assert_eq!(device, before);
        // 4 before 5, of both; the report of a suspended one is its manager's alone.
        device.suspend(1, 5, 1).unwrap();
        assert_eq!(device.stop(1, 5), Err(4));
        assert_eq!(device.stop(2, 5), Err(4));
        assert_eq!(device.receive(1, 5, &mut [0; 64]), Err(5));
        assert_eq!(device.receive(2, 5, &mut [0; 31]), Err(8));
        assert_eq!(device.receive(2, 5, &mut [0; 32]), Ok(1));
        assert_eq!(device.pending[&5].len(), 0);
        device.resume(1, 5).unwrap();
        assert_eq!(device.stop(2, 5), Ok(()));
        // Tracked by nobody it is 5 to both.
        for by in [1, 2].iter() {
            assert_eq!(device.stop(*by, 5), Err(5));
            assert_eq!(device.receive(*by, 5, &mut [0; 64]), Err(5));
        }
        // And now the other one may start it.
        assert_eq!(start_by(&mut device, 1, 5, 1), 0);
        assert_eq!(managers(&device)[0], 1);
    }

    #[test]
    fn either_manager_makes_it_3() {
        // Also the one that tracks it, and before anything of the structure is read. 4 comes before, and 2.
        for tracks in [1, 2].iter() {
            let mut device = two_managers();
            device.start(*tracks, 5, &one_range()).unwrap();
            for by in [1, 2].iter() {
                assert_eq!(device.start(*by, 5, &[]), Err(Reason { number: 3, row: None }));
                assert_eq!(device.start(*by, 5, &[9; 8]), Err(Reason { number: 3, row: None }));
                assert_eq!(start_by(&mut device, *by, 5, 16), 3);
            }
            device.suspend(3 - tracks, 5, 1).unwrap();
            assert_eq!(start_by(&mut device, 1, 5, 1), 4);
            assert_eq!(start_by(&mut device, 2, 5, 1), 4);
            assert_eq!(start_by(&mut device, 3, 5, 1), 2);
        }
    }

    #[test]
    fn manager_0() {
        // 0 is what a controller that is off names, and an identifier like any other.
        let mut device = two_managers();
        device.record.settings.manager = 0;
        assert_eq!(device.stop(0, 5), Err(5));
        assert_eq!(device.receive(0, 5, &mut [0; 64]), Err(5));
        assert_eq!(start_by(&mut device, 0, 5, 2), 0);
        assert_eq!(start_by(&mut device, 2, 5, 2), 3);
        assert_eq!(device.stop(2, 5), Err(5));
        assert_eq!(start_by(&mut device, 0, 6, 15), 12);
        assert_eq!(device.receive(0, 5, &mut [0; 64]), Ok(1));
        assert_eq!(device.stop(0, 5), Ok(()));
        assert_eq!(start_by(&mut device, 1, 5, 2), 2);
    }

    #[test]
    fn orders_of_11_12_and_34() {
        let mut device = two_managers();
        assert_eq!(start_by(&mut device, 1, 5, 14), 0);
        // 2 asks for 5 of its 4 in a shelf that has room for 4, with units that the pool has no room for, and then with less
        // and less that is wrong.
        let start = |device: &Device, count: usize, pages: u64| {
            let mut ranges = vec![Range { start: 0, length: 1 }; count];
            ranges[0].length = pages;
            device.clone().start(2, 6, &structure_bytes(0, &ranges)).err().map_or(0, |reason| reason.number)
        };
        assert_eq!(start(&device, 5, 16371), 11);
        assert_eq!(start(&device, 5, 16370), 12);
        assert_eq!(start(&device, 4, 16370), 0);
        device.record.settings.shelf = 17;
        assert_eq!(start(&device, 5, 16371), 11);
        assert_eq!(start(&device, 5, 16370), 12);
        assert_eq!(start(&device, 4, 16371), 11);
        assert_eq!(start(&device, 4, 16370), 34);
        assert_eq!(start(&device, 3, 16370), 0);
        device.record.settings.rule = 1;
        assert_eq!(start(&device, 5, 16371), 10);
    }

    #[test]
    fn one_pool_for_both() {
        let mut device = two_managers();
        let pages = |device: &mut Device, by, id, length| {
            device
                .start(by, id, &structure_bytes(0, &[Range { start: 0, length }]))
                .err()
                .map_or(0, |reason| reason.number)
        };
        assert_eq!(pages(&mut device, 1, 6, 10000), 0);
        assert_eq!(pages(&mut device, 2, 5, 6385), 11);
        assert_eq!(pages(&mut device, 2, 5, 6384), 0);
        assert_eq!(bases(&device), [0, 6384, 0, 0, 0, 0, 0, 0], "the order is that of the settings, whoever tracks");
        assert_eq!(pages(&mut device, 1, 7, 1), 11);
        assert_eq!(device.stop(2, 5), Ok(()));
        assert_eq!(pages(&mut device, 1, 7, 6384), 0);
        assert_eq!(bases(&device), [0, 0, 10000, 0, 0, 0, 0, 0]);
    }

    #[test]
    fn both_managers_have_one_sequence() {
        let mut device = two_managers();
        let mut area = vec![0xEE; 4096];
        let state = sixty();
        device.suspend(1, 5, 1).unwrap();
        device.suspend(2, 6, 1).unwrap();
        assert_eq!(device.set_state(1, &mut area, &part(1, 0, &state[..16])), Ok(0));
        // Another controller's, whoever sends; and 2 goes on with what 1 began.
        let of_6 = Part { id: 6, ..part(1, 0, &[0; 4]) };
        assert_eq!(device.set_state(1, &mut area, &of_6), Err(23));
        assert_eq!(device.set_state(2, &mut area, &of_6), Err(23));
        assert_eq!(device.set_state(2, &mut area, &part(0, 16, &state[16..44])), Ok(0));
        assert_eq!(device.set_state(3, &mut area, &part(2, 44, &state[44..])), Err(2));
        assert_eq!(device.set_state(1, &mut area, &part(2, 44, &state[44..])), Ok(60));
        assert_eq!(area[..60].to_vec(), state);
        // One drops by a resume what the other began.
        assert_eq!(device.set_state(1, &mut area, &part(1, 0, &state[..16])), Ok(0));
        assert_eq!(device.resume(3, 5), Err(2));
        assert_eq!(device.record.sequence, Sequence::Open { owner: 5, end: 16 });
        assert_eq!(device.resume(2, 5), Ok(()));
        assert_eq!(device.record.sequence, Sequence::Nothing);
    }

    #[test]
    fn managers_where_nobody_tracks_stay() {
        // What stands in a place that is off, or unused, is left by every call but a start of it.
        let mut device = two_managers();
        device.record.controllers[1].manager = 60000;
        device.record.controllers[7].manager = 9;
        device.record.controllers[7].tracking = Tracking::On { granularity: 255, count: 255 };
        assert_eq!(start_by(&mut device, 2, 7, 2), 0);
        assert_eq!(device.write(&note(7, 0, 1)), Ok(1));
        assert_eq!(device.receive(2, 7, &mut [0; 64]), Ok(1));
        assert_eq!(device.suspend(1, 6, 1), Ok(()));
        assert_eq!(device.resume(2, 6), Ok(()));
        assert_eq!(managers(&device), [0, 60000, 2, 0, 0, 0, 0, 9]);
        assert_eq!(device.stop(2, 7), Ok(()));
        assert_eq!(managers(&device), [0, 60000, 0, 0, 0, 0, 0, 9]);
        assert_eq!(start_by(&mut device, 1, 6, 2), 0);
        assert_eq!(managers(&device), [0, 1, 0, 0, 0, 0, 0, 9]);
        assert_eq!(device.stop(1, 6), Ok(()));
        assert_eq!(managers(&device), [0, 0, 0, 0, 0, 0, 0, 9]);
    }

    /// What the numbers of calls by several managers have to be, worked out from the calls alone: who tracks each
    /// controller and with how many ranges, and whether it is suspended.
    #[derive(Default)]
    struct Expected {
        tracked: BTreeMap<u64, (u64, u64)>,
        suspended: BTreeSet<u64>,
    }

    impl Expected {
        fn counts(&self, of: &dyn Fn(u64) -> bool) -> u64 {
            self.tracked.values().filter(|(by, _)| of(*by)).map(|(_, count)| count).sum()
        }

        fn start(&mut self, limits: (u64, u64, u64), by: u64, id: u64, count: u64) -> Refusal {
            let limit = [0, limits.0, limits.1][by as usize];
            if self.suspended.contains(&id) {
                4
            } else if self.tracked.contains_key(&id) {
                3
            } else if count + self.counts(&|other| other == by) > limit {
                12
            } else if count + self.counts(&|_| true) > limits.2 {
                34
            } else {
                self.tracked.insert(id, (by, count));
                0
            }
        }

        fn stop(&mut self, by: u64, id: u64) -> Refusal {
            match self.tracked.get(&id) {
                _ if self.suspended.contains(&id) => 4,
                Some((tracks, _)) if *tracks == by => {
                    self.tracked.remove(&id);
                    0
                }
                _ => 5,
            }
        }

        fn receive(&self, by: u64, id: u64) -> Refusal {
            match self.tracked.get(&id) {
                Some((tracks, _)) if *tracks == by => 0,
                _ => 5,
            }
        }
    }

    /// Devices on which the same calls have the same answers: one that names the managers the other way round, and
    /// one in which their names are changed, 1 for 2 and 2 for 1, as they are in the calls.
    #[test]
    fn calls_by_two_managers() {
        let mut random = Random(12);
        let mut met = [0; 35];
        for _ in 0..200 {
            let limits = (random.below(20) as u64, random.below(10) as u64, random.below(24) as u64);
            let (first, second) = (Manager { id: 1, limit: limits.0 }, Manager { id: 2, limit: limits.1 });
            let of = |first: Manager, second: Manager| {
                let identifiers = [5, 6, 7, 8, 0, 0, 0, 0];
                let settings = Settings { number: 4, identifiers, shelf: limits.2, ..device().record.settings };
                let (manager, limit) = (first.id, first.limit);
                Device::fresh(&Settings { manager, limit, second: Some(second), ..settings }).unwrap()
            };
            let mut device = of(first, second);
            let mut turned = of(second, first);
            let mut renamed = of(Manager { id: 2, ..first }, Manager { id: 1, ..second });
            let mut expected = Expected::default();
            for _ in 0..80 {
                let (by, id) = (1 + random.below(2) as u64, 5 + random.below(4) as u64);
                let count = 1 + random.below(9);
                let call = random.below(10);
                let call_of = |device: &mut Device, by: u64| match call {
                    0..=3 => start_by(device, by, id, count),
                    4 | 5 => device.stop(by, id).err().unwrap_or(0),
                    6 => device.receive(by, id, &mut [0; 64]).err().unwrap_or(0),
                    7 => device.suspend(by, id, 1).err().unwrap_or(0),
                    8 => device.resume(by, id).err().unwrap_or(0),
                    _ => device.write(&note(id, 0, 65536)).err().unwrap_or(0),
                };
                let number = match call {
                    0..=3 => expected.start(limits, by, id, count as u64),
                    4 | 5 => expected.stop(by, id),
                    6 => expected.receive(by, id),
                    7 => {
                        expected.suspended.insert(id);
                        0
                    }
                    8 if expected.suspended.remove(&id) => 0,
                    8 => 13,
                    _ if expected.suspended.contains(&id) => 4,
                    _ => 0,
                };
                assert_eq!(call_of(&mut device, by), number);
                assert_eq!(call_of(&mut turned, by), number);
                assert_eq!(call_of(&mut renamed, 3 - by), number);
                assert_eq!(
                    (&device.record.controllers, &device.pending),
                    (&turned.record.controllers, &turned.pending)
                );
                assert_eq!(device.pending, renamed.pending);
                for (place, id) in [5, 6, 7, 8].iter().enumerate() {
                    let tracks = expected.tracked.get(id).map_or(0, |(by, _)| *by);
                    assert_eq!(device.record.controllers[place].manager, tracks);
                }
                met[number as usize] += 1;
            }
        }
        for number in [0, 3, 4, 5, 12, 13, 34].iter() {
            assert!(met[*number] > 200, "{}: {}", number, met[*number]);
        }
    }

    /// W12: suspend, resume and parts are the same whichever manager makes them, and a device with one manager is the
    /// same as one with a second that does nothing.
    #[test]
    fn who_asks_makes_no_difference() {
        let mut random = Random(13);
        for _ in 0..60 {
            let mut one = two_managers();
            one.record.settings.second = None;
            let mut two = two_managers();
            let (mut area_of_one, mut area_of_two) = (vec![0; 4096], vec![0; 4096]);
            for _ in 0..60 {
                let (by, id) = (1 + random.below(2) as u64, 5 + random.below(3) as u64);
                let count = 1 + random.below(7);
                let low = 4 * random.below(4) as u64;
                let part = Part { id, ..part(random.below(3) as u64, low, &[0; 4]) };
                let call = random.below(8);
                let call_of = |device: &mut Device, area: &mut [u8], by: u64| match call {
                    0 => u64::from(start_by(device, 1, id, count)),
                    1 => device.stop(1, id).err().map_or(0, u64::from),
                    2 => device.receive(1, id, &mut [0; 48]).map_or_else(u64::from, |groups| 100 + groups as u64),
                    3 => device.suspend(by, id, 1).err().map_or(0, u64::from),
                    4 => device.resume(by, id).err().map_or(0, u64::from),
                    5 | 6 => device.set_state(by, area, &part).map_or_else(u64::from, |whole| 100 + whole as u64),
                    _ => device.write(&note(id, 0, 8192)).map_or_else(u64::from, |count| 100 + count),
                };
                assert_eq!(call_of(&mut one, &mut area_of_one, 1), call_of(&mut two, &mut area_of_two, by));
                assert_eq!(one.record.controllers, two.record.controllers);
                assert_eq!((one.record.sequence, &one.pending), (two.record.sequence, &two.pending));
                assert_eq!(area_of_one, area_of_two);
            }
        }
    }

    #[test]
    fn newly_pending_by_hand() {
        let unit = |address| Unit { row: 0, address };
        let mut before = device();
        let mut after = device();
        assert_eq!(newly_pending(&before, &after), 0);
        before.pending.insert(5, [unit(0), unit(4096)].iter().cloned().collect());
        after.pending.insert(5, [unit(0), unit(4096), unit(8192)].iter().cloned().collect());
        // The same units of another controller are others.
        after.pending.insert(6, [unit(0), unit(4096)].iter().cloned().collect());
        assert_eq!(newly_pending(&before, &after), 3);
        assert_eq!(newly_pending(&after, &after), 0);
    }

    #[test]
    fn runs_by_hand() {
        let unit = |row, address| Unit { row, address };
        let mut pending = BTreeSet::new();
        // Range 0 lies above range 1; the two touch at 8192.
        for one in [unit(1, 0), unit(1, 4096), unit(0, 8192), unit(0, 12288), unit(0, 20480)].iter() {
            pending.insert(*one);
        }
        assert_eq!(
            runs(&pending, 4096),
            [
                Run { first: unit(0, 8192), length: 2 },
                Run { first: unit(0, 20480), length: 1 },
                Run { first: unit(1, 0), length: 2 },
            ]
        );
        assert_eq!(runs(&BTreeSet::new(), 4096), []);
        // Range 0 has the page in the midst of range 1, and one run is on either side.
        let mut pending = BTreeSet::new();
        for one in [unit(0, 8192), unit(1, 0), unit(1, 4096), unit(1, 12288), unit(1, 16384)].iter() {
            pending.insert(*one);
        }
        assert_eq!(
            runs(&pending, 4096),
            [
                Run { first: unit(0, 8192), length: 1 },
                Run { first: unit(1, 0), length: 2 },
                Run { first: unit(1, 12288), length: 2 },
            ]
        );
    }

    #[test]
    fn units_by_hand() {
        let mut controller = Controller::default();
        assert_eq!(units(&controller).count(), 0);
        // 1 MiB units: number 3, then 2 to 4 without it, then one that is taken, then 1 and 2 without 2.
        controller.tracking = Tracking::On { granularity: 8, count: 4 };
        controller.ranges[0] = Range { start: 3145728, length: 1 };
        controller.ranges[1] = Range { start: 2097152, length: 3 };
        controller.ranges[2] = Range { start: 4194304, length: 1 };
        controller.ranges[3] = Range { start: 1048576, length: 2 };
        let unit = |row, address| Unit { row, address };
        let found: Vec<Unit> = units(&controller).collect();
        assert_eq!(found, [unit(0, 3145728), unit(1, 2097152), unit(1, 4194304), unit(3, 1048576)]);
        // Such a record is unsound, and has more units than can be listed; the first ones can.
        controller.tracking = Tracking::On { granularity: u64::MAX, count: u64::MAX };
        controller.ranges = [Range { start: u64::MAX, length: u64::MAX }; 16];
        assert_eq!(units(&controller).take(2).count(), 2);
    }

    #[test]
    fn a_unit_listed_twice_is_marked_once() {
        let mut device = device();
        let ranges = [Range { start: 69632, length: 1 }, Range { start: 65536, length: 4 }];
        device.start(1, 5, &structure_bytes(0, &ranges)).unwrap();
        assert_eq!(device.write(&note(5, 69632, 1)), Ok(1));
        assert_eq!(device.pending[&5].iter().cloned().collect::<Vec<_>>(), [Unit { row: 0, address: 69632 }]);
        assert_eq!(device.write(&note(5, 65536, 16384)), Ok(3));
        assert_eq!(device.write(&note(5, 65536, 16384)), Ok(0));
    }
}
