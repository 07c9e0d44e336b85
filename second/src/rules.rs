//! The rules of document 01 that speak of plain numbers: settings (with change request W12 of document 02), granularities,
//! ranges and whose a unit is (with W2 and W3), the pool of units (W7), the limits of managers and shelf (W12), touching, a
//! queue's fill (W8), and when a device record is sound (with W6, W7, W8 and W12). Nothing here knows of a session.
//!
//! Arithmetic on addresses is done in 128 bits and stops at the greatest number there (saturates) instead of
//! wrapping. No number that passes the rules comes near it; one that stops there is far past 2^64 and so is
//! refused, which is the right answer.

use std::collections::{BTreeMap, BTreeSet};

/// Document 01, "Refusal numbers": "Every refused call returns its number".
pub type Refusal = u8;

pub const UNSOUND: Refusal = 1;
pub const UNKNOWN: Refusal = 2;
pub const ALREADY_TRACKED: Refusal = 3;
pub const SUSPENDED: Refusal = 4;
pub const NOT_TRACKED: Refusal = 5;
pub const VERSION: Refusal = 6;
pub const GRANULARITY: Refusal = 7;
pub const BUFFER_TOO_SHORT: Refusal = 8;
pub const POWER_OF_TWO: Refusal = 10;
pub const TOO_MANY_UNITS: Refusal = 11;
pub const LIMIT_PASSED: Refusal = 12;
pub const NOT_SUSPENDED: Refusal = 13;
pub const PAST_THE_END: Refusal = 14;
pub const SUSPEND_TYPE: Refusal = 15;
pub const SETTINGS: Refusal = 16;
pub const RANGE_COUNT: Refusal = 18;
pub const LENGTH_0: Refusal = 19;
pub const UNALIGNED: Refusal = 20;
pub const RANGE_PAST_THE_END: Refusal = 21;
pub const LIST_TOO_LONG: Refusal = 22;
pub const ANOTHERS_SEQUENCE: Refusal = 23;
pub const OFFSET: Refusal = 24;
pub const PART_FORM: Refusal = 25;
pub const OUT_OF_SEQUENCE: Refusal = 26;
pub const STATE: Refusal = 27;
pub const QUEUE_AREA: Refusal = 28;
pub const NO_QUEUE: Refusal = 29;
pub const LOGGING_STOPPED: Refusal = 30;
pub const MARK: Refusal = 31;
pub const FILE_VERSION: Refusal = 32;
pub const SHELF_LIMIT_PASSED: Refusal = 34;
pub const FILE_LENGTH: Refusal = 35;

/// "tracks, for up to 8 migratable controllers".
pub const MOST_CONTROLLERS: usize = 8;
/// "At most 16 ranges for each of 8 controllers".
pub const MOST_RANGES: usize = 16;
/// W7: "one pool of 16,384 units"; "The 4,096 rule goes." A unit has a bit.
pub const POOL_UNITS: u128 = 16_384;
/// W4: "At most 1,024 records."
pub const MOST_NOTES: usize = 1024;
/// W6: "the state is at most 4,096 bytes, in one lent area of that size"
pub const STATE_BYTES: usize = 4096;
/// The dwords in which W6 counts.
pub const DWORD_BYTES: usize = 4;
/// "least ≤ greatest ≤ 20 (house)".
pub const GREATEST_GRANULARITY: u64 = 20;
/// "The descriptor limit (CMMRTD), 0 to 128."; the shelf's likewise (W11).
pub const GREATEST_LIMIT: u64 = 128;
/// "16 bits each".
pub const GREATEST_IDENTIFIER: u64 = 65535;
/// 2^64, the first address past the end of memory.
pub const END_OF_MEMORY: u128 = 18_446_744_073_709_551_616;
/// W8: "free-running 32-bit totals": as many values they have, and behind the last one comes 0 again.
pub const TOTALS: u64 = 4_294_967_296;

/// The settings, as plain numbers that may be nonsense. They "name one or two managers" (W12). Of the identifiers the first
/// `number` are used.
#[derive(Clone, Debug, Default, PartialEq, Eq)]
pub struct Settings {
    /// The first manager, and below its limit.
    pub manager: u64,
    pub least: u64,
    pub greatest: u64,
    /// The power-of-two rule: 0 off, 1 on.
    pub rule: u64,
    pub limit: u64,
    pub second: Option<Manager>,
    /// The shelf's limit: "one over both".
    pub shelf: u64,
    pub number: u64,
    pub identifiers: [u64; MOST_CONTROLLERS],
}

/// A manager's identifier and its descriptor limit.
#[derive(Clone, Copy, Debug, Default, PartialEq, Eq)]
pub struct Manager {
    pub id: u64,
    pub limit: u64,
}

/// "Each range has a 64-bit start address and a length in units."
#[derive(Clone, Copy, Debug, Default, PartialEq, Eq)]
pub struct Range {
    pub start: u64,
    pub length: u64,
}

/// A write record (W4): "each an identifier, address and byte length". The word record is the device's here.
#[derive(Clone, Copy, Debug, Default, PartialEq, Eq)]
pub struct Note {
    pub id: u64,
    pub address: u64,
    pub bytes: u64,
}

/// "A controller is either not tracked, or tracked with its granularity and its number of ranges."
#[derive(Clone, Copy, Debug, Default, PartialEq, Eq)]
pub enum Tracking {
    #[default]
    Off,
    On {
        granularity: u64,
        count: u64,
    },
}

/// What the record has of a controller's user-data queue (W8): its size in places, the totals "of entries posted and
/// taken", the place of the oldest entry that is queued, and whether logging has stopped. The entries are in a lent area.
#[derive(Clone, Copy, Debug, Default, PartialEq, Eq)]
pub struct Queue {
    pub size: u64,
    pub posted: u64,
    pub taken: u64,
    pub place: u64,
    pub stopped: bool,
}

/// "Separately it is running or suspended." Of the ranges the first `count` are used, and none where it is off. W7: "The
/// device record tells where each share lies": the base is the share's first bit, and not used where it is off. W8: "one
/// queue per controller", tracked or not, once it is made. W12: the record "says which manager tracks which controller": by
/// its identifier, which isn't used where it is off.
#[derive(Clone, Debug, Default, PartialEq, Eq)]
pub struct Controller {
    pub tracking: Tracking,
    pub suspended: bool,
    pub base: u64,
    pub manager: u64,
    pub queue: Option<Queue>,
    pub ranges: [Range; MOST_RANGES],
}

/// The parts of a controller's state that have come so far (W6): "One sequence exists per device". The owner is an
/// identifier, and the end is where its last accepted part ended.
#[derive(Clone, Copy, Debug, Default, PartialEq, Eq)]
pub enum Sequence {
    #[default]
    Nothing,
    Open {
        owner: u64,
        end: u64,
    },
}

/// A device record: the settings, a controller for each place of an identifier, and the open sequence. The default is
/// the closed device, "all zeros".
#[derive(Clone, Debug, Default, PartialEq, Eq)]
pub struct Record {
    pub settings: Settings,
    pub controllers: [Controller; MOST_CONTROLLERS],
    pub sequence: Sequence,
}

impl Settings {
    /// The identifiers in use. Those past their number are what document 01 calls unused places.
    pub fn used_identifiers(&self) -> Vec<u64> {
        let mut used = Vec::new();
        for (identifier, _) in self.identifiers.iter().zip(0..self.number) {
            used.push(*identifier);
        }
        used
    }

    /// The managers that the settings name: the first one, and the second if there is one.
    pub fn managers(&self) -> Vec<Manager> {
        let mut managers = vec![Manager { id: self.manager, limit: self.limit }];
        managers.extend(self.second);
        managers
    }

    /// The manager of this identifier; nothing for "an unknown manager" (W12).
    pub fn known_manager(&self, id: u64) -> Option<Manager> {
        self.managers().into_iter().find(|manager| manager.id == id)
    }
}

impl Controller {
    /// The ranges in use. Those past the count are unused places, and so are all ranges of a controller that is off.
    pub fn used_ranges(&self) -> Vec<Range> {
        let mut used = Vec::new();
        if let Tracking::On { count, .. } = self.tracking {
            for (range, _) in self.ranges.iter().zip(0..count) {
                used.push(*range);
            }
        }
        used
    }
}

impl Queue {
    /// How many entries are queued. The totals "pass 2^32 in service and must still give the right fill": no entry is
    /// taken before it is posted, so where posted reads as less than taken, it has passed 2^32 once more often.
    pub fn fill(&self) -> u64 {
        let (posted, taken) = (self.posted % TOTALS, self.taken % TOTALS);
        let passed = if posted < taken { posted + TOTALS } else { posted };
        passed - taken
    }
}

/// "A granularity n means a unit of 2^n times 4 KiB, that is 2^(12+n) bytes."
pub fn unit_bytes(granularity: u64) -> u128 {
    let mut bytes: u128 = 4096;
    // 2^127 is the greatest power of two that fits, and 115 doublings away; more stop at the greatest number.
    for _ in 0..granularity.min(200) {
        bytes = bytes.saturating_mul(2);
    }
    bytes
}

/// "start plus length in bytes", for a range of units of `unit` bytes: the first address after it.
fn range_end(unit: u128, range: Range) -> u128 {
    let length_in_bytes = u128::from(range.length).saturating_mul(unit);
    u128::from(range.start).saturating_add(length_in_bytes)
}

/// Refusal 16: "settings break the rules above", that is the list in "Settings and sizes". W12: "The managers' identifiers
/// differ and are not among the controllers, else 16."
///
/// The names of all managers and of all controllers are put into one set, and none may get lost there.
pub fn settings_broken(settings: &Settings) -> bool {
    // "1 to 8 controller identifiers"
    if settings.number < 1 || settings.number > MOST_CONTROLLERS as u64 {
        return true;
    }
    let managers = settings.managers();
    let mut names = settings.used_identifiers();
    names.extend(managers.iter().map(|manager| manager.id));
    // "all different, 16 bits each; the manager's own identifier, not among them"
    let different: BTreeSet<&u64> = names.iter().collect();
    if different.len() < names.len() || names.iter().any(|name| *name > GREATEST_IDENTIFIER) {
        return true;
    }
    // "Least and greatest granularity, least ≤ greatest ≤ 20 (house)."
    if settings.least > settings.greatest || settings.greatest > GREATEST_GRANULARITY {
        return true;
    }
    // "The power-of-two rule, on or off (the MRTLL bit)."
    if settings.rule != 0 && settings.rule != 1 {
        return true;
    }
    // "The descriptor limit (CMMRTD), 0 to 128.", of each manager; W11: "a whole-shelf limit of 0 to 128".
    managers.iter().any(|manager| manager.limit > GREATEST_LIMIT) || settings.shelf > GREATEST_LIMIT
}

/// Refusal 7: "granularity below the least or above the greatest".
pub fn granularity_broken(settings: &Settings, granularity: u64) -> bool {
    granularity < settings.least || granularity > settings.greatest
}

/// A broken range rule and the row that breaks it, counted from 0 (W3). The row is compared first, then the number.
#[derive(Clone, Copy, Debug, PartialEq, Eq, PartialOrd, Ord)]
pub struct Fault {
    pub row: usize,
    pub number: Refusal,
}

/// Why a call is refused. W3: "Say which rule and row"; a refusal that is no range rule's has no row.
#[derive(Clone, Copy, Debug, PartialEq, Eq)]
pub struct Reason {
    pub number: Refusal,
    pub row: Option<usize>,
}

impl From<Refusal> for Reason {
    fn from(number: Refusal) -> Reason {
        Reason { number, row: None }
    }
}

impl From<Fault> for Reason {
    fn from(fault: Fault) -> Reason {
        Reason { number: fault.number, row: Some(fault.row) }
    }
}

/// Refusals 18 to 21: "the earliest row first; within a row length 0, unaligned, past the end". That is the least fault
/// of all, as the numbers have this order too; 18, of row 0 and the least number, is before every other.
pub fn first_fault(granularity: u64, count: u64, ranges: &[Range]) -> Option<Fault> {
    range_faults(granularity, count, ranges).into_iter().min()
}

/// Every broken range rule of every row, rule by rule. W2: "Overlap is now allowed." The count is what header or record
/// says; a record may say more than its 16 places.
fn range_faults(granularity: u64, count: u64, ranges: &[Range]) -> Vec<Fault> {
    let unit = unit_bytes(granularity);
    let mut faults = Vec::new();
    // "18 count 0 or over 16 (row 0)"
    if count < 1 || count > MOST_RANGES as u64 {
        faults.push(Fault { row: 0, number: RANGE_COUNT });
    }
    // "each length is at least 1"
    faults.extend(faults_of(LENGTH_0, ranges, &|range| range.length == 0));
    // "each start is a multiple of the unit"
    faults.extend(faults_of(UNALIGNED, ranges, &|range| u128::from(range.start) % unit != 0));
    // "start plus length in bytes is at most 2^64"
    faults.extend(faults_of(RANGE_PAST_THE_END, ranges, &|range| range_end(unit, *range) > END_OF_MEMORY));
    faults
}

/// The faults of one rule, one for each row that breaks it.
fn faults_of(number: Refusal, ranges: &[Range], broken: &dyn Fn(&Range) -> bool) -> Vec<Fault> {
    let mut faults = Vec::new();
    for (row, range) in ranges.iter().enumerate() {
        if broken(range) {
            faults.push(Fault { row, number });
        }
    }
    faults
}

/// Refusal 10: "power-of-two rule is on and some length isn't a power of two". The lengths are those listed, also where
/// an earlier range takes units away.
pub fn power_of_two_broken(settings: &Settings, ranges: &[Range]) -> bool {
    settings.rule == 1 && ranges.iter().any(|range| !is_power_of_two(range.length))
}

/// Whether halving again and again, while that leaves no rest, ends at 1.
fn is_power_of_two(number: u64) -> bool {
    let mut rest = number;
    while rest > 1 && rest % 2 == 0 {
        rest /= 2;
    }
    rest == 1
}

/// Numbers that follow on each other: from `first` on, before `after`.
#[derive(Clone, Copy, Debug, PartialEq, Eq)]
pub struct Span {
    pub first: u128,
    pub after: u128,
}

/// Units consecutive in address that belong to one range, by their numbers. A unit's number is its address divided by its
/// size.
#[derive(Clone, Copy, Debug, PartialEq, Eq)]
pub struct Stretch {
    pub row: usize,
    pub span: Span,
}

/// W2: "A unit covered by several ranges counts once and belongs to the earliest listed." So of each range there is what
/// none before it has taken, in stretches: in the order of the list, then by address. For ranges without a fault.
///
/// No unit is walked here; a range that is refused with 11 may have 2^32 - 1 of them.
pub fn stretches(granularity: u64, ranges: &[Range]) -> Vec<Stretch> {
    let mut all: Vec<Stretch> = Vec::new();
    for (row, range) in ranges.iter().enumerate() {
        let first = u128::from(range.start) / unit_bytes(granularity);
        let mut left = vec![Span { first, after: first + u128::from(range.length) }];
        for taken in &all {
            left = left.iter().flat_map(|span| without(span, &taken.span)).collect();
        }
        all.extend(left.into_iter().map(|span| Stretch { row, span }));
    }
    all
}

/// What is left of a span below and above the numbers that are taken: none, one or two spans.
fn without(span: &Span, taken: &Span) -> Vec<Span> {
    let below = Span { after: span.after.min(taken.first), ..*span };
    let above = Span { first: span.first.max(taken.after), ..*span };
    let mut left = vec![below, above];
    left.retain(|part| part.first < part.after);
    left
}

/// How many different units these ranges have (W2: "A unit covered by several ranges counts once").
pub fn different_units(granularity: u64, ranges: &[Range]) -> u128 {
    let mut different: u128 = 0;
    for stretch in stretches(granularity, ranges) {
        different = different.saturating_add(stretch.span.after - stretch.span.first);
    }
    different
}

/// The shares of all controllers now tracked, in the order of the settings: as many bits as it has different units, from
/// its base on. "Unused places aren't looked at", so the base of a controller that is off has no share.
pub fn shares(record: &Record) -> Vec<Span> {
    let mut shares = Vec::new();
    for (controller, _) in record.controllers.iter().zip(0..record.settings.number) {
        if let Tracking::On { granularity, .. } = controller.tracking {
            let first = u128::from(controller.base);
            let units = different_units(granularity, &controller.used_ranges());
            shares.push(Span { first, after: first.saturating_add(units) });
        }
    }
    shares
}

/// The units of all controllers now tracked, together; the same page of two controllers is two of them.
pub fn units_together(record: &Record) -> u128 {
    let mut together: u128 = 0;
    for share in shares(record) {
        together = together.saturating_add(share.after - share.first);
    }
    together
}

/// Refusal 11 (W7): "exactly if the request and all tracked units together pass 16,384".
pub fn too_many_units(record: &Record, granularity: u64, ranges: &[Range]) -> bool {
    units_together(record).saturating_add(different_units(granularity, ranges)) > POOL_UNITS
}

/// W7: "1 covers shares that overlap or leave these words and, in place of 11, tracked units above 16,384 in all."
///
/// Each share is taken out of the room that those before it have left, and must be wholly in one span of it. For shares
/// of at least one bit.
pub fn pool_broken(record: &Record) -> bool {
    let mut room = vec![Span { first: 0, after: POOL_UNITS }];
    for share in shares(record) {
        if !room.iter().any(|free| free.first <= share.first && share.after <= free.after) {
            return true;
        }
        room = room.iter().flat_map(|free| without(free, &share)).collect();
    }
    units_together(record) > POOL_UNITS
}

/// How many ranges are tracked for each manager, by its identifier: "The shared record says which manager tracks which
/// controller". Each tracked controller's count is booked on the account of the one that the record names, be it a manager
/// of the settings or not; one that tracks nobody has no account.
pub fn accounts(record: &Record) -> BTreeMap<u64, u128> {
    let mut accounts: BTreeMap<u64, u128> = BTreeMap::new();
    for (controller, _) in record.controllers.iter().zip(0..record.settings.number) {
        if let Tracking::On { count, .. } = controller.tracking {
            let account = accounts.entry(controller.manager).or_default();
            *account = account.saturating_add(u128::from(count));
        }
    }
    accounts
}

/// The counts on these accounts, together: "all counts".
pub fn counts_together(accounts: &BTreeMap<u64, u128>) -> u128 {
    accounts.values().fold(0, |together, count| together.saturating_add(*count))
}

/// Refusals 12 and 34 (W12): "12 exactly if the request and that manager's tracked counts together pass its limit, then 34
/// exactly if the request and both managers' tracked counts together pass the shelf's." W2: "the descriptor limit still counts
/// listed ranges".
///
/// So the request is booked on the manager's account, and then that account and all together are asked.
pub fn limit_refusal(record: &Record, manager: Manager, requested: usize) -> Option<Refusal> {
    let mut booked = accounts(record);
    let account = booked.entry(manager.id).or_default();
    *account = account.saturating_add(requested as u128);
    if *account > u128::from(manager.limit) {
        return Some(LIMIT_PASSED);
    }
    if counts_together(&booked) > u128::from(record.settings.shelf) {
        return Some(SHELF_LIMIT_PASSED);
    }
    None
}

/// W12: "in a sound one that manager is in the settings, its counts are within its limit, and all counts within the
/// shelf's."
pub fn accounts_broken(record: &Record) -> bool {
    let accounts = accounts(record);
    for (id, count) in &accounts {
        match record.settings.known_manager(*id) {
            Some(manager) if *count <= u128::from(manager.limit) => {}
            _ => return true,
        }
    }
    counts_together(&accounts) > u128::from(record.settings.shelf)
}

/// W6: "An open one is unsound if its owner isn't suspended or its end isn't whole dwords, 4 to 4,096 bytes." An owner
/// that isn't in the settings has no controller that could be suspended: an unused place isn't looked at.
pub fn sequence_broken(record: &Record) -> bool {
    let (owner, end) = match record.sequence {
        Sequence::Nothing => return false,
        Sequence::Open { owner, end } => (owner, end),
    };
    let mut suspended = Vec::new();
    for (identifier, controller) in record.settings.used_identifiers().iter().zip(&record.controllers) {
        if controller.suspended {
            suspended.push(*identifier);
        }
    }
    let mut ends = (DWORD_BYTES..=STATE_BYTES).step_by(DWORD_BYTES);
    !suspended.contains(&owner) || !ends.any(|whole| whole as u64 == end)
}

/// W8: "A fill above the queue's size, a place outside it, or a full queue not stopped, is unsound." That is asked of the
/// places that are free: fewer than none, or none. READINGS 8.8: a size that no area has is not by itself unsound.
pub fn queue_broken(queue: &Queue) -> bool {
    let filled_wrong = match queue.size.checked_sub(queue.fill()) {
        None => true,
        Some(0) => !queue.stopped,
        Some(_) => false,
    };
    filled_wrong || !(0..queue.size).contains(&queue.place)
}

/// Refusal 1, its first half: "A record is sound exactly if its settings would pass 16, each tracked controller's
/// granularity and ranges would pass 7, 9, 10 and 11, and the counts together are within the limit. Unused places
/// aren't looked at". W3: "9 becomes 18 ..., 19 ..., 20 ..., 21"; here it is all one which of them, and which row. W6
/// adds the open sequence, W7 puts the shares in the place of 11, W8 adds each queue, and W12 has each manager's counts and
/// all counts asked, and who tracks whom.
pub fn sound(record: &Record) -> bool {
    let settings = &record.settings;
    if settings_broken(settings) {
        return false;
    }
    for (controller, _) in record.controllers.iter().zip(0..settings.number) {
        if let Tracking::On { granularity, count } = controller.tracking {
            let ranges = controller.used_ranges();
            if granularity_broken(settings, granularity)
                || first_fault(granularity, count, &ranges).is_some()
                || power_of_two_broken(settings, &ranges)
            {
                return false;
            }
        }
        if controller.queue.iter().any(queue_broken) {
            return false;
        }
    }
    !accounts_broken(record) && !pool_broken(record) && !sequence_broken(record)
}

/// Refusal 14: "a written range ends past 2^64".
pub fn write_ends_past_memory(address: u64, bytes: u64) -> bool {
    u128::from(address) + u128::from(bytes) > END_OF_MEMORY
}

/// "A written range is an address and a length in bytes. It touches each unit with which it shares a byte. Length 0
/// touches none."
pub fn touches(address: u64, bytes: u64, unit_start: u128, unit_bytes: u128) -> bool {
    if bytes == 0 {
        return false;
    }
    let first_written = u128::from(address);
    let last_written = first_written + u128::from(bytes) - 1;
    let first_of_unit = unit_start;
    let last_of_unit = unit_start + unit_bytes - 1;
    first_written <= last_of_unit && first_of_unit <= last_written
}

#[cfg(test)]
mod tests {
    use super::*;

    /// Manager 1, granularities 0 to 8, rule off, limit 16, no second manager, shelf limit 128, controllers 5 and 6, nobody
    /// tracked. Each place names manager 1, which isn't looked at where it is off.
    fn record() -> Record {
        let mut record = Record::default();
        record.settings = Settings {
            manager: 1,
            least: 0,
            greatest: 8,
            rule: 0,
            limit: 16,
            second: None,
            shelf: 128,
            number: 2,
            identifiers: [5, 6, 0, 0, 0, 0, 0, 0],
        };
        for controller in record.controllers.iter_mut() {
            controller.manager = 1;
        }
        record
    }

    fn on(granularity: u64, count: u64) -> Tracking {
        Tracking::On { granularity, count }
    }

    fn range(start: u64, length: u64) -> Range {
        Range { start, length }
    }

    /// The record above, with controller 5 tracked at `granularity` with these ranges.
    fn tracked(granularity: u64, ranges: &[Range]) -> Record {
        let mut record = record();
        record.controllers[0].tracking = on(granularity, ranges.len() as u64);
        for (place, range) in record.controllers[0].ranges.iter_mut().zip(ranges) {
            *place = *range;
        }
        record
    }

    #[test]
    fn units_of_each_granularity() {
        assert_eq!(unit_bytes(0), 4096);
        assert_eq!(unit_bytes(1), 8192);
        assert_eq!(unit_bytes(8), 1048576);
        assert_eq!(unit_bytes(20), 4294967296);
        assert_eq!(unit_bytes(115), 1 << 127);
        assert_eq!(unit_bytes(255), u128::MAX);
        assert_eq!(unit_bytes(u64::MAX), u128::MAX);
    }

    #[test]
    fn powers_of_two() {
        for power in [1, 2, 4, 8, 1024, 4096, 1 << 31, 1 << 63].iter() {
            assert!(is_power_of_two(*power), "{}", power);
        }
        for other in [0, 3, 5, 6, 7, 12, 4095, 4097, 4294967295, u64::MAX].iter() {
            assert!(!is_power_of_two(*other), "{}", other);
        }
    }

    #[test]
    fn touching() {
        // The unit from 69632 to 73727.
        let unit = |address, bytes| touches(address, bytes, 69632, 4096);
        assert!(unit(69632, 1));
        assert!(unit(73727, 1));
        assert!(unit(73727, 2));
        assert!(unit(0, 18446744073709551615));
        assert!(unit(69631, 2));
        assert!(!unit(69631, 1));
        assert!(!unit(73728, 1));
        assert!(!unit(69632, 0));
        assert!(!unit(70000, 0));
        // The last page.
        assert!(touches(18446744073709551615, 1, 18446744073709547520, 4096));
        assert!(!touches(18446744073709547519, 1, 18446744073709547520, 4096));
    }

    #[test]
    fn closed_device_is_unsound() {
        assert!(!sound(&Record::default()));
    }

    #[test]
    fn idle_device_is_sound() {
        assert!(sound(&record()));
    }

    #[test]
    fn number_of_identifiers() {
        for number in [0, 9, 10, 255, u64::MAX].iter() {
            let mut record = record();
            record.settings.identifiers = [5, 6, 7, 8, 9, 10, 11, 12];
            record.settings.number = *number;
            assert!(!sound(&record), "{}", number);
        }
        for number in 1..=8 {
            let mut record = record();
            record.settings.identifiers = [5, 6, 7, 8, 9, 10, 11, 12];
            record.settings.number = number;
            assert!(sound(&record), "{}", number);
        }
    }

    #[test]
    fn identifiers_all_different() {
        let mut record = record();
        record.settings.identifiers = [5, 6, 5, 0, 0, 0, 0, 0];
        assert!(sound(&record), "the third place is unused");
        record.settings.number = 3;
        assert!(!sound(&record));
        record.settings.identifiers[2] = 6;
        assert!(!sound(&record));
        record.settings.identifiers[2] = 0;
        assert!(sound(&record));
        record.settings.number = 4;
        assert!(!sound(&record), "0 twice");
    }

    #[test]
    fn manager_not_among_them() {
        let mut record = record();
        record.settings.manager = 5;
        assert!(!sound(&record));
        record.settings.manager = 6;
        assert!(!sound(&record));
        record.settings.manager = 0;
        assert!(sound(&record), "0 stands in unused places only");
        record.settings.number = 3;
        assert!(!sound(&record));
    }

    #[test]
    fn identifiers_of_16_bits() {
        let mut record = record();
        record.settings.identifiers[1] = 65535;
        assert!(sound(&record));
        record.settings.identifiers[1] = 65536;
        assert!(!sound(&record));
        record.settings.identifiers[1] = 6;
        record.settings.identifiers[2] = 65536;
        assert!(sound(&record), "the third place is unused");
        record.settings.manager = 65535;
        assert!(sound(&record));
        record.settings.manager = 65536;
        assert!(!sound(&record));
    }

    #[test]
    fn granularities_of_the_settings() {
        let with = |least, greatest| {
            let mut record = record();
            record.settings.least = least;
            record.settings.greatest = greatest;
            sound(&record)
        };
        assert!(with(0, 0));
        assert!(with(0, 20));
        assert!(with(20, 20));
        assert!(!with(1, 0));
        assert!(!with(20, 19));
        assert!(!with(0, 21));
        assert!(!with(21, 21));
        assert!(!with(0, 255));
        assert!(!with(255, 0));
        assert!(!with(0, u64::MAX));
    }

    #[test]
    fn rule_and_limit() {
        let mut record = record();
        record.settings.rule = 1;
        assert!(sound(&record));
        record.settings.rule = 2;
        assert!(!sound(&record));
        record.settings.rule = 0;
        record.settings.limit = 0;
        assert!(sound(&record));
        record.settings.limit = 128;
        assert!(sound(&record));
        record.settings.limit = 129;
        assert!(!sound(&record));
        record.settings.limit = u64::MAX;
        assert!(!sound(&record));
    }

    fn manager(id: u64, limit: u64) -> Manager {
        Manager { id, limit }
    }

    #[test]
    fn one_manager_or_two() {
        let mut settings = record().settings;
        assert_eq!(settings.managers(), [manager(1, 16)]);
        assert_eq!(settings.known_manager(1), Some(manager(1, 16)));
        assert_eq!(settings.known_manager(2), None);
        assert_eq!(settings.known_manager(5), None, "a controller is no manager");
        settings.second = Some(manager(2, 4));
        assert_eq!(settings.managers(), [manager(1, 16), manager(2, 4)]);
        assert_eq!(settings.known_manager(1), Some(manager(1, 16)));
        assert_eq!(settings.known_manager(2), Some(manager(2, 4)));
        for unknown in [0, 3, 5, 257, 65535, u64::MAX].iter() {
            assert_eq!(settings.known_manager(*unknown), None, "{}", unknown);
        }
    }

    #[test]
    fn settings_of_a_shelf() {
        let with = |second: Option<Manager>, shelf: u64| {
            let mut record = record();
            record.settings.second = second;
            record.settings.shelf = shelf;
            assert_eq!(sound(&record), !settings_broken(&record.settings));
            sound(&record)
        };
        // The shelf's limit may be below, between and above those of the managers.
        for shelf in [0, 1, 4, 15, 17, 127, 128].iter() {
            assert!(with(None, *shelf), "{}", shelf);
            assert!(with(Some(manager(2, 4)), *shelf), "{}", shelf);
        }
        for shelf in [129, 256, 65535, u64::MAX].iter() {
            assert!(!with(None, *shelf), "{}", shelf);
            assert!(!with(Some(manager(2, 4)), *shelf), "{}", shelf);
        }
        // A second manager's limit, its name, and one that is the first or a controller.
        for (id, limit, expected) in [
            (2, 0, true),
            (2, 128, true),
            (2, 129, false),
            (2, u64::MAX, false),
            (0, 4, true),
            (65535, 4, true),
            (65536, 4, false),
            (u64::MAX, 4, false),
            (1, 0, false),
            (1, 4, false),
            (1, 16, false),
            (5, 4, false),
            (6, 4, false),
            (6, 0, false),
            (7, 4, true),
        ]
        .iter()
        {
            assert_eq!(with(Some(manager(*id, *limit)), 128), *expected, "{} {}", id, limit);
        }
        // A controller in an unused place is none, and what document 01 asks is asked too.
        let mut settings = Settings { second: Some(manager(7, 4)), shelf: 18, ..record().settings };
        settings.identifiers[2] = 7;
        assert!(!settings_broken(&settings));
        settings.number = 3;
        assert!(settings_broken(&settings));
        settings.second = None;
        assert!(!settings_broken(&settings));
        settings.limit = 129;
        assert!(settings_broken(&settings));
        settings.limit = 16;
        settings.manager = 7;
        assert!(settings_broken(&settings));
    }

    #[test]
    fn tracked_controllers_granularity() {
        assert!(sound(&tracked(0, &[range(65536, 4)])));
        assert!(sound(&tracked(8, &[range(1048576, 4)])));
        assert!(!sound(&tracked(9, &[range(0, 4)])));
        assert!(!sound(&tracked(255, &[range(0, 4)])));
        assert!(!sound(&tracked(u64::MAX, &[range(0, 4)])));
        let mut record = tracked(3, &[range(0, 4)]);
        record.settings.least = 3;
        assert!(sound(&record));
        record.settings.least = 4;
        assert!(!sound(&record));
    }

    #[test]
    fn tracked_controllers_count() {
        assert!(!sound(&tracked(0, &[])), "a tracked controller has at least one range");
        let mut sixteen = Vec::new();
        for row in 0..16 {
            sixteen.push(range(row * 4096, 1));
        }
        assert!(sound(&tracked(0, &sixteen)));
        for count in [17, 18, 255, 65536, u64::MAX].iter() {
            let mut record = tracked(0, &sixteen);
            record.settings.limit = 128;
            assert!(sound(&record));
            record.controllers[0].tracking = on(0, *count);
            assert!(!sound(&record), "{}", count);
        }
    }

    #[test]
    fn tracked_controllers_ranges() {
        // lengths
        assert!(!sound(&tracked(0, &[range(65536, 0)])));
        assert!(!sound(&tracked(0, &[range(65536, 4), range(0, 0)])));
        // multiples of the unit
        assert!(!sound(&tracked(0, &[range(65537, 4)])));
        assert!(!sound(&tracked(0, &[range(4095, 1)])));
        assert!(!sound(&tracked(8, &[range(1052672, 4)])));
        // the end of memory
        assert!(sound(&tracked(0, &[range(18446744073709547520, 1)])));
        assert!(!sound(&tracked(0, &[range(18446744073709547520, 2)])));
        assert!(!sound(&tracked(0, &[range(0, u64::MAX)])));
        assert!(!sound(&tracked(8, &[range(18446744073708503040, u64::MAX)])));
        // touching, and sharing a unit
        assert!(sound(&tracked(0, &[range(65536, 4), range(81920, 4)])));
        assert!(sound(&tracked(0, &[range(81920, 4), range(65536, 4)])));
        assert!(sound(&tracked(0, &[range(65536, 5), range(81920, 4)])));
        assert!(sound(&tracked(0, &[range(81920, 4), range(65536, 5)])));
        assert!(sound(&tracked(0, &[range(65536, 4), range(0, 1), range(65536, 4)])));
        // a range that has no unit of its own keeps the rules all the same, or not
        assert!(!sound(&tracked(0, &[range(65536, 4), range(69632, 0)])));
        assert!(!sound(&tracked(0, &[range(65536, 4), range(69633, 1)])));
    }

    #[test]
    fn tracked_controllers_lengths() {
        // 10
        let mut record = tracked(0, &[range(65536, 4), range(0, 3)]);
        assert!(sound(&record));
        record.settings.rule = 1;
        assert!(!sound(&record));
        record.controllers[0].ranges[1].length = 2;
        assert!(sound(&record));
        // units above 16,384 in all; 67108864 is page 16,384
        assert!(sound(&tracked(0, &[range(0, 4097)])));
        assert!(sound(&tracked(0, &[range(0, 16384)])));
        assert!(!sound(&tracked(0, &[range(0, 16385)])));
        assert!(sound(&tracked(0, &[range(0, 16383), range(67108864, 1)])));
        assert!(!sound(&tracked(0, &[range(0, 16383), range(67108864, 2)])));
        // a range within another one: its length is asked by 10, and its units are not counted again
        let mut record = tracked(0, &[range(65536, 4), range(65536, 3)]);
        assert!(sound(&record));
        record.settings.rule = 1;
        assert!(!sound(&record));
    }

    fn fault(row: usize, number: Refusal) -> Fault {
        Fault { row, number }
    }

    /// The least fault of these ranges, of which as many are said as are there.
    fn first(granularity: u64, ranges: &[Range]) -> Option<Fault> {
        first_fault(granularity, ranges.len() as u64, ranges)
    }

    #[test]
    fn faults_of_one_row() {
        let page = 18446744073709547520; // 2^64 - 4096
        let of = |start, length| first(0, &[range(start, length)]);
        assert_eq!(of(65536, 4), None);
        assert_eq!(of(page, 1), None);
        assert_eq!(of(65536, 0), Some(fault(0, 19)));
        assert_eq!(of(65537, 1), Some(fault(0, 20)));
        assert_eq!(of(page, 2), Some(fault(0, 21)));
        // Two at once: of no length and unaligned, then unaligned and past the end.
        assert_eq!(of(65537, 0), Some(fault(0, 19)));
        assert_eq!(of(u64::MAX, 0), Some(fault(0, 19)));
        assert_eq!(of(u64::MAX, 1), Some(fault(0, 20)));
        assert_eq!(of(page + 1, 1), Some(fault(0, 20)));
        // A range of length 0 ends where it begins, and so never past the end.
        assert_eq!(of(page, 0), Some(fault(0, 19)));
        assert_eq!(range_faults(0, 1, &[range(page, 0)]), [fault(0, 19)]);
    }

    #[test]
    fn faults_at_other_granularities() {
        // 2^20, 2^20 + 4096 and 2^64 - 2^20 in units of 2^20 bytes; the same in pages.
        let last = 18446744073708503040;
        assert_eq!(first(8, &[range(1048576, 1), range(1052672, 1)]), Some(fault(1, 20)));
        assert_eq!(first(0, &[range(1048576, 1), range(1052672, 1)]), None);
        assert_eq!(first(8, &[range(last, 1), range(last, 2)]), Some(fault(1, 21)));
        assert_eq!(first(0, &[range(last, 256), range(last, 257)]), Some(fault(1, 21)));
        assert_eq!(first(0, &[range(last, 1), range(last, 2)]), None);
        // 2^32 - 1 units of 2^32 bytes end at 2^64 from the second unit on, and one past it from the third.
        assert_eq!(first(20, &[range(4294967296, 4294967295)]), None);
        assert_eq!(first(20, &[range(8589934592, 4294967295)]), Some(fault(0, 21)));
        assert_eq!(first(20, &[range(2147483648, 4294967295)]), Some(fault(0, 20)), "half a unit");
    }

    #[test]
    fn faults_of_all_rows() {
        // Row 0 is of no length and unaligned, row 1 is good, row 2 unaligned and past the end, row 3 of no length.
        let ranges = [range(4097, 0), range(65536, 4), range(u64::MAX, 1), range(0, 0)];
        let mut faults = range_faults(0, 4, &ranges);
        faults.sort();
        assert_eq!(faults, [fault(0, 19), fault(0, 20), fault(2, 20), fault(2, 21), fault(3, 19)]);
        assert_eq!(first(0, &ranges), Some(fault(0, 19)));
        assert_eq!(first(0, &ranges[1..]), Some(fault(1, 20)), "rows are counted anew");
        assert_eq!(first(0, &ranges[3..]), Some(fault(0, 19)));
        assert_eq!(first(0, &ranges[1..2]), None);
    }

    #[test]
    fn the_count_before_every_row() {
        assert_eq!(first(0, &[]), Some(fault(0, 18)));
        assert_eq!(first(0, &[range(65536, 4); 1]), None);
        assert_eq!(first(0, &[range(65536, 4); 16]), None);
        assert_eq!(first(0, &[range(65536, 4); 17]), Some(fault(0, 18)));
        assert_eq!(first(0, &[range(4097, 0); 16]), Some(fault(0, 19)));
        assert_eq!(first(0, &[range(4097, 0); 17]), Some(fault(0, 18)));
        assert_eq!(first(0, &[range(4097, 0); 84]), Some(fault(0, 18)));
        // A record that says more than the 16 there are, or none.
        assert_eq!(first_fault(0, 17, &[range(4097, 0); 16]), Some(fault(0, 18)));
        assert_eq!(first_fault(0, u64::MAX, &[range(65536, 4); 16]), Some(fault(0, 18)));
        assert_eq!(first_fault(0, 0, &[]), Some(fault(0, 18)));
    }

    #[test]
    fn earlier_faults_are_less() {
        // W3's own order: the count, then the rows, and within a row its three rules.
        let mut order = vec![fault(0, 18)];
        for row in 0..16 {
            order.extend_from_slice(&[fault(row, 19), fault(row, 20), fault(row, 21)]);
        }
        for pair in order.windows(2) {
            assert!(pair[0] < pair[1], "{:?}", pair);
        }
    }

    #[test]
    fn reasons_with_a_row_and_without() {
        assert_eq!(Reason::from(POWER_OF_TWO), Reason { number: 10, row: None });
        assert_eq!(Reason::from(fault(0, 18)), Reason { number: 18, row: Some(0) });
        assert_eq!(Reason::from(fault(15, 21)), Reason { number: 21, row: Some(15) });
    }

    fn span(first: u128, after: u128) -> Span {
        Span { first, after }
    }

    fn row(row: usize, first: u128, after: u128) -> Stretch {
        Stretch { row, span: span(first, after) }
    }

    #[test]
    fn stretches_by_hand() {
        // Pages: 65536 is page 16.
        let of = |ranges: &[Range]| stretches(0, ranges);
        assert_eq!(of(&[]), []);
        assert_eq!(of(&[range(65536, 4)]), [row(0, 16, 20)]);
        // touching, in both orders
        assert_eq!(of(&[range(65536, 4), range(81920, 1)]), [row(0, 16, 20), row(1, 20, 21)]);
        assert_eq!(of(&[range(81920, 1), range(65536, 4)]), [row(0, 20, 21), row(1, 16, 20)]);
        // equal
        assert_eq!(of(&[range(65536, 4), range(65536, 4)]), [row(0, 16, 20)]);
        // partly the same: the later one keeps what is above, or below
        assert_eq!(of(&[range(65536, 4), range(73728, 4)]), [row(0, 16, 20), row(1, 20, 22)]);
        assert_eq!(of(&[range(73728, 4), range(65536, 4)]), [row(0, 18, 22), row(1, 16, 18)]);
        // the small one within: nothing left of it, or a hole in the great one
        assert_eq!(of(&[range(65536, 4), range(69632, 2)]), [row(0, 16, 20)]);
        assert_eq!(of(&[range(69632, 2), range(65536, 4)]), [row(0, 17, 19), row(1, 16, 17), row(1, 19, 20)]);
        assert_eq!(of(&[range(65536, 2), range(65536, 4)]), [row(0, 16, 18), row(1, 18, 20)]);
        assert_eq!(of(&[range(73728, 2), range(65536, 4)]), [row(0, 18, 20), row(1, 16, 18)]);
        // two holes, listed from above, then one range around all of these
        assert_eq!(
            of(&[range(77824, 1), range(69632, 1), range(65536, 8), range(61440, 20)]),
            [
                row(0, 19, 20),
                row(1, 17, 18),
                row(2, 16, 17),
                row(2, 18, 19),
                row(2, 20, 24),
                row(3, 15, 16),
                row(3, 24, 35)
            ]
        );
        // covered by two together
        assert_eq!(of(&[range(65536, 2), range(73728, 2), range(69632, 2)]), [row(0, 16, 18), row(1, 18, 20)]);
    }

    #[test]
    fn stretches_at_the_end_of_memory() {
        // 2^64 is page 2^52, or 2^32 units of granularity 20.
        let last = 4503599627370495;
        assert_eq!(
            stretches(0, &[range(18446744073709547520, 1), range(18446744073709543424, 2)]),
            [row(0, last, last + 1), row(1, last - 1, last)]
        );
        let last = 4294967295;
        assert_eq!(
            stretches(20, &[range(18446744069414584320, 1), range(18446744065119617024, 2)]),
            [row(0, last, last + 1), row(1, last - 1, last)]
        );
    }

    #[test]
    fn different_units_by_hand() {
        let of = |granularity, ranges: &[Range]| different_units(granularity, ranges);
        assert_eq!(of(0, &[]), 0);
        assert_eq!(of(0, &[range(65536, 4)]), 4);
        // Two equal ranges of 16,384 units, and sixteen of them; a unit more at either end.
        assert_eq!(of(0, &[range(0, 16384), range(0, 16384)]), 16384);
        assert_eq!(of(0, &[range(0, 16384); 16]), 16384);
        assert_eq!(of(0, &[range(4096, 16384), range(8192, 16384)]), 16385);
        assert_eq!(of(0, &[range(4096, 16384), range(0, 16384)]), 16385);
        assert_eq!(of(0, &[range(0, 2049), range(8388608, 2048)]), 4096, "2,048, one shared, and 2,047");
        assert_eq!(of(0, &[range(0, 2049), range(8392704, 2048)]), 4097);
        // At another granularity the same starts are other units: 2,048 apart in pages, 8 in units of 1 MiB.
        assert_eq!(of(0, &[range(0, 2049), range(8388608, 2049)]), 4097);
        assert_eq!(of(8, &[range(0, 2049), range(8388608, 2049)]), 2057);
        // As long as can be, and as often.
        assert_eq!(of(20, &[range(0, 4294967295); 16]), 4294967295);
        assert_eq!(of(0, &[range(0, 1), range(0, 4294967295)]), 4294967295);
        assert_eq!(of(0, &[range(0, 4294967295), range(4096, 4294967295)]), 4294967296);
    }

    /// Controllers 5 and 6 track 4 pages and 1 page, at these bases.
    fn two(base_of_5: u64, base_of_6: u64) -> Record {
        let mut record = tracked(0, &[range(65536, 4)]);
        record.controllers[1].tracking = on(0, 1);
        record.controllers[1].ranges[0] = range(65536, 1);
        record.controllers[0].base = base_of_5;
        record.controllers[1].base = base_of_6;
        record
    }

    #[test]
    fn shares_by_hand() {
        assert_eq!(shares(&record()), []);
        assert_eq!(shares(&two(0, 4)), [span(0, 4), span(4, 5)]);
        // In the order of the settings, whatever the bases are.
        assert_eq!(shares(&two(9, 3)), [span(9, 13), span(3, 4)]);
        assert_eq!(
            shares(&two(65535, u64::MAX)),
            [span(65535, 65539), span(18446744073709551615, 18446744073709551616)]
        );
        assert_eq!(units_together(&two(9, 3)), 5, "the same page of two controllers is two units");
        let mut record = two(9, 3);
        record.controllers[0].tracking = Tracking::Off;
        assert_eq!(shares(&record), [span(3, 4)]);
        record.settings.number = 1;
        assert_eq!(shares(&record), []);
        assert_eq!(units_together(&record), 0);
    }

    #[test]
    fn shares_that_leave_the_pool() {
        // READINGS W7: base 16,383 with one unit is sound, 16,384 isn't.
        for (base, good) in
            [(0, true), (16379, true), (16380, true), (16381, false), (16383, false), (16384, false), (65535, false)]
                .iter()
        {
            assert_eq!(sound(&two(*base, if *base == 0 { 4 } else { 0 })), *good, "{}", base);
        }
        for (base, good) in
            [(4, true), (16382, true), (16383, true), (16384, false), (16385, false), (60000, false), (65535, false)]
                .iter()
        {
            assert_eq!(sound(&two(0, *base)), *good, "{}", base);
        }
        // A pool's worth of units lies at 0 alone.
        let mut record = tracked(0, &[range(0, 16384)]);
        assert!(sound(&record));
        record.controllers[0].base = 1;
        assert!(!sound(&record));
        record.controllers[0].ranges[0].length = 16383;
        assert!(sound(&record));
        record.controllers[0].base = 2;
        assert!(!sound(&record));
    }

    #[test]
    fn shares_that_overlap() {
        // READINGS W7: 5 at 0 with 4 units, 6 at 3 with one.
        assert!(!sound(&two(0, 3)));
        for base in 0..4 {
            assert!(!sound(&two(0, base)), "{}", base);
        }
        assert!(sound(&two(0, 4)), "they touch");
        assert!(sound(&two(1, 0)), "the later one below");
        for base in 97..=100 {
            assert!(!sound(&two(base, 100)), "{}", base);
        }
        assert!(sound(&two(96, 100)));
        assert!(sound(&two(101, 100)));
        // By a single bit, and over all.
        let mut record = two(0, 16383);
        record.controllers[0].ranges[0].length = 16383;
        assert!(sound(&record));
        record.controllers[0].ranges[0].length = 16384;
        assert!(!sound(&record));
        assert!(pool_broken(&record));
        // It is the different units that count: 4 pages listed twice.
        let mut record = two(0, 4);
        record.controllers[0].tracking = on(0, 2);
        record.controllers[0].ranges[1] = range(65536, 4);
        assert!(sound(&record));
        record.controllers[0].ranges[1] = range(65536, 5);
        assert!(!sound(&record));
    }

    #[test]
    fn bases_that_are_not_looked_at() {
        let mut record = two(0, 60000);
        assert!(!sound(&record));
        record.controllers[1].tracking = Tracking::Off;
        assert!(sound(&record));
        record.controllers[1].base = 0;
        assert!(sound(&record));
        // In an unused place.
        let mut record = two(0, 3);
        record.settings.number = 1;
        assert!(sound(&record));
    }

    #[test]
    fn shares_in_any_order_with_gaps() {
        // Eight shares of 4 bits: every order of the same eight places, by rotations and turned round.
        let mut bases = vec![16380, 0, 70, 62, 4, 8192, 100, 66];
        for turned in 0..2 {
            for rotation in 0..8 {
                let mut record = record();
                record.settings.number = 8;
                record.settings.identifiers = [5, 6, 7, 8, 9, 10, 11, 12];
                for (controller, base) in record.controllers.iter_mut().zip(&bases) {
                    controller.tracking = on(0, 1);
                    controller.ranges[0] = range(0, 4);
                    controller.base = *base;
                }
                assert!(sound(&record), "{} {}", turned, rotation);
                // 62 to 65, 66 to 69 and 70 to 73 stand side by side: a unit more is too many for the first two.
                for place in 0..8 {
                    let mut longer = record.clone();
                    longer.controllers[place].ranges[0].length = 5;
                    let good = ![16380, 0, 62, 66].contains(&longer.controllers[place].base);
                    assert_eq!(sound(&longer), good, "{}", longer.controllers[place].base);
                }
                bases.rotate_left(1);
            }
            bases.reverse();
        }
    }

    #[test]
    fn a_request_beside_all_tracked_units() {
        // 5 units are tracked.
        let record = two(0, 4);
        assert!(!too_many_units(&record, 0, &[range(0, 16379)]));
        assert!(too_many_units(&record, 0, &[range(0, 16380)]));
        assert!(!too_many_units(&record, 0, &[range(0, 16379); 16]));
        assert!(too_many_units(&record, 8, &[range(0, 4294967295); 16]));
        // The bases have nothing to do with it.
        assert!(!too_many_units(&two(16380, 100), 0, &[range(0, 16379)]));
        let mut record = two(0, 4);
        record.controllers[0].tracking = Tracking::Off;
        assert!(!too_many_units(&record, 0, &[range(0, 16383)]));
        assert!(too_many_units(&record, 0, &[range(0, 16384)]));
    }

    /// Whose each unit is, walked unit by unit: the first range of the list that has it.
    fn owners(ranges: &[Range]) -> Vec<(usize, u128)> {
        let mut owners = Vec::new();
        for (row, range) in ranges.iter().enumerate() {
            for number in 0..u128::from(range.length) {
                let unit = u128::from(range.start) / 4096 + number;
                if !owners.iter().any(|(_, other)| *other == unit) {
                    owners.push((row, unit));
                }
            }
        }
        owners
    }

    #[test]
    fn stretches_are_what_a_walk_finds() {
        // Every list of three ranges of 1 to 4 units in the first 7 units.
        let mut every = Vec::new();
        for first in 0..4 {
            for length in 1..5 {
                every.push(range(first * 4096, length));
            }
        }
        for one in &every {
            for two in &every {
                for three in &every {
                    let ranges = [*one, *two, *three];
                    let mut walked = Vec::new();
                    for stretch in stretches(0, &ranges) {
                        for unit in stretch.span.first..stretch.span.after {
                            walked.push((stretch.row, unit));
                        }
                    }
                    assert_eq!(walked, owners(&ranges), "{:?}", ranges);
                }
            }
        }
    }

    #[test]
    fn counts_within_the_limit() {
        let mut record = tracked(0, &[range(0, 1), range(4096, 1), range(8192, 1)]);
        record.controllers[1].tracking = on(8, 2);
        record.controllers[1].ranges[0] = range(0, 1);
        record.controllers[1].ranges[1] = range(1048576, 1);
        record.controllers[1].base = 3;
        record.settings.limit = 5;
        assert!(sound(&record), "two controllers may track the same memory");
        record.settings.limit = 4;
        assert!(!sound(&record));
        record.controllers[1].tracking = Tracking::Off;
        assert!(sound(&record));
        record.settings.limit = 2;
        assert!(!sound(&record));
    }

    /// READINGS W12: managers 1 (16) and 2 (4), shelf 18, controllers 5, 6 and 7. Each of these is tracked by this
    /// manager, with so many ranges of one unit, if there is one of them.
    fn shelf(tracked: [(u64, u64); 3]) -> Record {
        let mut record = record();
        record.settings.second = Some(manager(2, 4));
        record.settings.shelf = 18;
        record.settings.number = 3;
        record.settings.identifiers[2] = 7;
        for (place, (by, count)) in tracked.iter().enumerate() {
            let controller: &mut Controller = &mut record.controllers[place];
            controller.manager = *by;
            controller.base = 16 * place as u64;
            if *count > 0 {
                controller.tracking = on(0, *count);
            }
            for (row, range) in controller.ranges.iter_mut().enumerate().take(*count as usize) {
                *range = Range { start: 8192 * row as u64, length: 1 };
            }
        }
        record
    }

    #[test]
    fn worked_accounts() {
        // READINGS W12: 5 tracked by 3; 6 tracked by 2 with 5 ranges; 16 and 4.
        assert!(sound(&shelf([(1, 10), (2, 4), (1, 4)])));
        assert!(!sound(&shelf([(3, 10), (2, 4), (1, 4)])));
        assert!(!sound(&shelf([(1, 10), (2, 5), (1, 1)])));
        assert!(!sound(&shelf([(1, 16), (2, 4), (1, 0)])), "20 of 18");
        assert!(sound(&shelf([(1, 14), (2, 4), (1, 0)])));
        assert!(!sound(&shelf([(1, 15), (2, 4), (1, 0)])), "19 of 18");
        assert!(sound(&shelf([(1, 16), (2, 2), (1, 0)])));
        assert!(!sound(&shelf([(1, 16), (2, 3), (1, 0)])));
        // 1 tracks two of them: 16, and 17 of its 16.
        assert!(sound(&shelf([(1, 8), (1, 8), (2, 2)])));
        assert!(!sound(&shelf([(1, 8), (1, 9), (2, 0)])));
        // 2 tracks two: 4, and 5 of its 4. Each is within its limit, and together they aren't.
        assert!(sound(&shelf([(2, 1), (1, 8), (2, 3)])));
        assert!(!sound(&shelf([(2, 2), (1, 8), (2, 3)])));
        assert!(!sound(&shelf([(2, 4), (1, 1), (2, 1)])));
    }

    #[test]
    fn who_tracks_whom() {
        for by in [0, 3, 5, 6, 257, 258, 65535, u64::MAX].iter() {
            for place in 0..3 {
                let mut record = shelf([(1, 1), (2, 1), (1, 1)]);
                record.controllers[place].manager = *by;
                assert!(!sound(&record), "{} {}", by, place);
                // Off it isn't looked at.
                record.controllers[place].tracking = Tracking::Off;
                assert!(sound(&record), "{} {}", by, place);
            }
            // In an unused place neither.
            let mut record = shelf([(1, 1), (2, 1), (*by, 1)]);
            record.settings.number = 2;
            assert!(sound(&record), "{}", by);
        }
        // The second manager is gone, and then it is another; then the first one is.
        let mut record = shelf([(1, 1), (2, 1), (1, 1)]);
        record.settings.second = None;
        assert!(!sound(&record));
        record.settings.second = Some(manager(3, 4));
        assert!(!sound(&record));
        record.settings.second = Some(manager(2, 4));
        record.settings.manager = 3;
        assert!(!sound(&record));
        // 1 is the second one now, with the limit of that one: its two ranges are within it, or not.
        record.settings.manager = 2;
        record.settings.second = Some(manager(1, 2));
        assert!(sound(&record));
        record.settings.second = Some(manager(1, 1));
        assert!(!sound(&record));
        // A manager may be 0, which a controller that is off names as well.
        let mut record = shelf([(0, 1), (2, 1), (0, 0)]);
        record.settings.manager = 0;
        assert!(sound(&record));
        record.settings.limit = 1;
        assert!(sound(&record));
        record.settings.limit = 0;
        assert!(!sound(&record));
    }

    #[test]
    fn accounts_by_hand() {
        let of = |record: &Record| accounts(record).into_iter().collect::<Vec<_>>();
        assert_eq!(of(&shelf([(1, 0), (2, 0), (3, 0)])), []);
        assert_eq!(of(&shelf([(1, 10), (2, 4), (1, 4)])), [(1, 14), (2, 4)]);
        assert_eq!(of(&shelf([(9, 1), (2, 4), (9, 2)])), [(2, 4), (9, 3)]);
        assert_eq!(counts_together(&accounts(&shelf([(9, 1), (2, 4), (9, 2)]))), 7);
        // One that says it has no ranges has an account all the same, and so an unknown manager is found.
        let mut record = shelf([(1, 1), (2, 4), (1, 1)]);
        record.controllers[0].tracking = on(0, 0);
        record.controllers[0].manager = 9;
        assert_eq!(of(&record), [(1, 1), (2, 4), (9, 0)]);
        assert!(accounts_broken(&record));
        record.controllers[0].manager = 1;
        assert!(!accounts_broken(&record));
    }

    #[test]
    fn a_request_beside_all_counts() {
        let (first, second) = (manager(1, 16), manager(2, 4));
        // READINGS W12: 1 tracks 10.
        let record = shelf([(1, 10), (2, 0), (1, 0)]);
        assert_eq!(limit_refusal(&record, second, 5), Some(12));
        assert_eq!(limit_refusal(&record, second, 4), None);
        // And 2 tracks 4: 17 of 16 is 12, although 21 are above 18 too; 15 of 16 and 19 of 18.
        let record = shelf([(1, 10), (2, 4), (1, 0)]);
        assert_eq!(limit_refusal(&record, first, 7), Some(12));
        assert_eq!(limit_refusal(&record, first, 6), Some(34));
        assert_eq!(limit_refusal(&record, first, 5), Some(34));
        assert_eq!(limit_refusal(&record, first, 4), None);
        assert_eq!(limit_refusal(&record, second, 1), Some(12));
        // 14 and 4 are all; none more, of either.
        let record = shelf([(1, 10), (2, 4), (1, 4)]);
        assert_eq!(limit_refusal(&record, first, 1), Some(34));
        assert_eq!(limit_refusal(&record, first, 2), Some(34));
        assert_eq!(limit_refusal(&record, first, 3), Some(12));
        // Nobody is tracked, and the shelf's limit is below the managers'.
        let mut record = shelf([(1, 0), (2, 0), (1, 0)]);
        record.settings.shelf = 3;
        assert_eq!(limit_refusal(&record, first, 3), None);
        assert_eq!(limit_refusal(&record, first, 4), Some(34));
        assert_eq!(limit_refusal(&record, first, 16), Some(34));
        assert_eq!(limit_refusal(&record, first, 17), Some(12));
        assert_eq!(limit_refusal(&record, second, 4), Some(34));
        assert_eq!(limit_refusal(&record, second, 5), Some(12));
        // One manager: the shelf's alone is met.
        record.settings.second = None;
        assert_eq!(limit_refusal(&record, first, 4), Some(34));
        assert_eq!(limit_refusal(&record, first, 3), None);
    }

    #[test]
    fn unused_places_are_not_looked_at() {
        let mut record = tracked(0, &[range(65536, 4)]);
        record.settings.limit = 1;
        record.settings.shelf = 1;
        for place in 1..8 {
            record.controllers[place].manager = u64::MAX;
        }
        record.settings.identifiers = [5, 6, 5, 6, 1, 1, u64::MAX, 70000];
        for row in 1..16 {
            record.controllers[0].ranges[row] = range(u64::MAX, u64::MAX);
        }
        for row in 0..16 {
            record.controllers[1].ranges[row] = range(1, 0);
        }
        for place in 1..8 {
            record.controllers[place].base = u64::MAX;
        }
        for place in 2..8 {
            record.controllers[place].tracking = on(u64::MAX, u64::MAX);
            record.controllers[place].suspended = true;
            record.controllers[place].queue = Some(queue(0, 9, 3, u64::MAX));
            record.controllers[place].ranges[0] = range(3, 0);
        }
        assert!(sound(&record));
        // With nothing open the suspended flag has nothing to do with soundness.
        record.controllers[0].suspended = true;
        record.controllers[1].suspended = true;
        assert!(sound(&record));
        // Each of these places counts once it is used.
        record.settings.shelf = 128;
        let mut more = record.clone();
        more.controllers[0].tracking = on(0, 2);
        more.settings.limit = 128;
        assert!(!sound(&more));
        let mut more = record.clone();
        more.controllers[1].tracking = on(0, 1);
        more.controllers[1].manager = 1;
        more.settings.limit = 128;
        assert!(!sound(&more));
        let mut more = record.clone();
        more.settings.identifiers[2] = 7;
        more.controllers[2].manager = 1;
        more.settings.number = 3;
        more.settings.limit = 128;
        assert!(!sound(&more));
    }

    /// The record above with controller 6 suspended and this sequence open.
    fn opened(owner: u64, end: u64) -> Record {
        let mut record = record();
        record.controllers[1].suspended = true;
        record.sequence = Sequence::Open { owner, end };
        record
    }

    #[test]
    fn ends_of_an_open_sequence() {
        for end in [4, 8, 12, 44, 48, 2048, 4088, 4092, 4096].iter() {
            assert!(sound(&opened(6, *end)), "{}", end);
        }
        for end in [0, 1, 2, 3, 5, 6, 7, 10, 47, 4093, 4095, 4097, 4098, 4100, 8192, 65532, 65535, u64::MAX].iter() {
            assert!(!sound(&opened(6, *end)), "{}", end);
        }
        // Nothing open: nobody need be suspended.
        assert!(sound(&record()));
    }

    #[test]
    fn owners_of_an_open_sequence() {
        // Controller 5 runs; 1 is the manager; the others are unknown.
        for owner in [5, 1, 0, 7, 262, 65535, u64::MAX].iter() {
            assert!(!sound(&opened(*owner, 16)), "{}", owner);
        }
        // It is the owner who must be suspended, and being tracked is all one.
        let mut record = opened(5, 16);
        record.controllers[0].suspended = true;
        assert!(sound(&record));
        record.controllers[1].suspended = false;
        assert!(sound(&record));
        record.controllers[0].tracking = on(0, 1);
        record.controllers[0].ranges[0] = range(65536, 4);
        assert!(sound(&record));
        record.controllers[0].suspended = false;
        assert!(!sound(&record));
    }

    #[test]
    fn an_unused_place_owns_nothing() {
        let mut record = opened(7, 16);
        record.settings.identifiers[2] = 7;
        record.controllers[2].suspended = true;
        assert!(!sound(&record));
        record.settings.number = 3;
        assert!(sound(&record));
        // The owner stands in two places, and the used one runs.
        let mut record = opened(5, 16);
        record.settings.identifiers[2] = 5;
        record.controllers[2].suspended = true;
        assert!(!sound(&record));
    }

    /// A queue of so many places that isn't stopped, with these totals and the oldest entry in this place.
    fn queue(size: u64, posted: u64, taken: u64, place: u64) -> Queue {
        Queue { size, posted, taken, place, stopped: false }
    }

    fn stopped(queue: Queue) -> Queue {
        Queue { stopped: true, ..queue }
    }

    /// Whether the record above is sound with this queue of controller 6.
    fn sound_with(queue: Queue) -> bool {
        let mut record = record();
        record.controllers[1].queue = Some(queue);
        sound(&record)
    }

    const LAST_TOTAL: u64 = 4294967295;

    #[test]
    fn fills_by_hand() {
        for (posted, taken, fill) in [
            (0, 0, 0),
            (1, 0, 1),
            (1024, 0, 1024),
            (1024, 1023, 1),
            (LAST_TOTAL, LAST_TOTAL, 0),
            (LAST_TOTAL, 0, LAST_TOTAL),
            // Past 2^32: READINGS W8's 2 and 2^32 - 1, and more.
            (2, LAST_TOTAL, 3),
            (0, LAST_TOTAL, 1),
            (0, 1, LAST_TOTAL),
            (5, 4294966277, 1024),
            (2147483648, 2147483648, 0),
            (0, 2147483648, 2147483648),
            (2147483647, 2147483648, LAST_TOTAL),
        ]
        .iter()
        {
            assert_eq!(queue(4, *posted, *taken, 0).fill(), *fill, "{} {}", posted, taken);
        }
        assert_eq!(queue(4, u64::MAX, u64::MAX - 3, 0).fill(), 3);
        assert_eq!(queue(4, 0, u64::MAX, 0).fill(), 1);
    }

    #[test]
    fn worked_queues() {
        // READINGS W8.
        assert!(!sound_with(queue(2, 2, 0, 0)));
        assert!(sound_with(stopped(queue(2, 2, 0, 0))));
        assert!(!sound_with(queue(2, 0, 1, 0)));
        assert!(!sound_with(stopped(queue(2, 0, 1, 0))));
        assert!(!sound_with(queue(2, 0, 0, 2)));
        assert!(sound_with(stopped(queue(2, 0, 0, 0))));
        assert!(sound_with(queue(4, 2, LAST_TOTAL, 1)));
        assert!(sound_with(queue(3, LAST_TOTAL, LAST_TOTAL, 0)));
    }

    #[test]
    fn fills_at_and_past_the_size() {
        // From totals 0 and from totals that pass 2^32 on the way.
        for taken in [0, 1, 4294966000, LAST_TOTAL].iter() {
            for size in [1, 2, 3, 4, 1000, 1024, 1025, 65535].iter() {
                let filled = |fill| queue(*size, (*taken + fill) % 4294967296, *taken, size - 1);
                assert!(sound_with(filled(0)));
                assert!(sound_with(filled(size - 1)));
                assert!(!sound_with(filled(*size)));
                assert!(!sound_with(filled(size + 1)));
                assert!(!sound_with(filled(LAST_TOTAL)));
                for fill in 0..3 {
                    assert_eq!(sound_with(stopped(filled(size - 1 + fill))), fill < 2, "{} {}", size, fill);
                }
                assert!(!sound_with(stopped(filled(LAST_TOTAL))));
            }
        }
    }

    #[test]
    fn places_of_a_queue() {
        for size in [1, 2, 3, 1024, 65535].iter() {
            for place in [0, size - 1].iter() {
                assert!(sound_with(queue(*size, 7, 7, *place)), "{} {}", size, place);
                assert!(sound_with(stopped(queue(*size, 7, 7, *place))), "{} {}", size, place);
            }
            for place in [*size, size + 1, 65536, u64::MAX].iter() {
                assert!(!sound_with(queue(*size, 7, 7, *place)), "{} {}", size, place);
                assert!(!sound_with(stopped(queue(*size, 7, 7, *place))), "{} {}", size, place);
            }
        }
        // No place is inside a queue of none, and stopped or not is all one.
        assert!(!sound_with(queue(0, 0, 0, 0)));
        assert!(!sound_with(stopped(queue(0, 0, 0, 0))));
    }

    #[test]
    fn queues_of_each_controller() {
        let bad = queue(2, 0, 0, 2);
        for place in 0..8 {
            let mut record = record();
            record.controllers[place].queue = Some(bad);
            // Controllers 5 and 6 are in use; the others stand in unused places.
            assert_eq!(sound(&record), place >= 2, "{}", place);
            // Tracked and suspended have nothing to do with it.
            record.controllers[0].suspended = true;
            record.controllers[1].tracking = on(0, 1);
            record.controllers[1].ranges[0] = range(0, 1);
            assert_eq!(sound(&record), place >= 2, "{}", place);
        }
        let mut record = record();
        record.settings.number = 8;
        record.settings.identifiers = [5, 6, 7, 8, 9, 10, 11, 12];
        for controller in record.controllers.iter_mut() {
            controller.queue = Some(stopped(queue(3, 1, 4294967294, 2)));
        }
        assert!(sound(&record));
        for place in 0..8 {
            let mut other = record.clone();
            other.controllers[place].queue = Some(bad);
            assert!(!sound(&other), "{}", place);
            other.controllers[place].queue = None;
            assert!(sound(&other), "{}", place);
        }
    }

    #[test]
    fn full_device_is_sound() {
        let mut record = record();
        record.settings.number = 8;
        record.settings.identifiers = [65535, 0, 2, 3, 4, 5, 6, 7];
        record.settings.greatest = 20;
        record.settings.limit = 128;
        record.settings.rule = 1;
        for (place, controller) in record.controllers.iter_mut().enumerate() {
            controller.tracking = on(20, 16);
            controller.base = 2048 * place as u64;
            for (row, range) in controller.ranges.iter_mut().enumerate() {
                // 128 units of 2^32 bytes are 2^39 bytes.
                *range = Range { start: row as u64 * 549755813888, length: 128 };
            }
        }
        assert!(sound(&record), "8 times 2,048 units, side by side");
        record.settings.limit = 127;
        assert!(!sound(&record));
        record.settings.limit = 128;
        record.settings.shelf = 127;
        assert!(!sound(&record));
        record.settings.shelf = 128;
        for place in 0..8 {
            let mut longer = record.clone();
            longer.controllers[place].ranges[15].length = 256;
            assert!(!sound(&longer), "2,176 units");
        }
    }

    #[test]
    fn nonsense_everywhere() {
        let mut record = Record::default();
        record.settings = Settings {
            manager: u64::MAX,
            least: u64::MAX,
            greatest: u64::MAX,
            rule: u64::MAX,
            limit: u64::MAX,
            second: Some(manager(u64::MAX, u64::MAX)),
            shelf: u64::MAX,
            number: u64::MAX,
            identifiers: [u64::MAX; 8],
        };
        for controller in record.controllers.iter_mut() {
            controller.tracking = on(u64::MAX, u64::MAX);
            controller.base = u64::MAX;
            controller.manager = u64::MAX;
            controller.queue = Some(queue(u64::MAX, u64::MAX, u64::MAX, u64::MAX));
            controller.ranges = [range(u64::MAX, u64::MAX); 16];
        }
        assert!(!sound(&record));
        // The rules one by one have an answer for any numbers too.
        assert_eq!(first_fault(u64::MAX, 1, &[range(0, 1)]), Some(fault(0, 21)));
        assert_eq!(first_fault(u64::MAX, 1, &[range(u64::MAX, u64::MAX)]), Some(fault(0, 20)));
        assert_eq!(first_fault(u64::MAX, u64::MAX, &[range(u64::MAX, u64::MAX)]), Some(fault(0, 18)));
        assert!(too_many_units(&record, u64::MAX, &[range(0, u64::MAX); 16]));
        assert!(too_many_units(&Record::default(), 0, &[range(u64::MAX, u64::MAX), range(0, 1), range(4095, 3)]));
        assert!(pool_broken(&record));
        assert!(!pool_broken(&Record::default()));
        // 8 times 2^64 - 1 are on one account, and a request is booked beside them.
        assert!(accounts_broken(&record));
        assert!(!accounts_broken(&Record::default()));
        assert_eq!(limit_refusal(&record, manager(u64::MAX, u64::MAX), usize::MAX), Some(12));
        assert_eq!(limit_refusal(&record, manager(0, u64::MAX), usize::MAX), Some(34));
        assert!(queue_broken(&queue(u64::MAX, u64::MAX, u64::MAX, u64::MAX)));
        assert!(!queue_broken(&queue(u64::MAX, u64::MAX, 0, u64::MAX - 1)));
        assert!(queue_broken(&queue(0, 0, 0, 0)));
    }
}
