//! Cases worked out by hand from documents 01 and 02. Pages: 65536 is page 16, 69632 page 17, 73728 page 18, 81920
//! page 20; and 57344 is page 14, 61440 page 15, 77824 page 19.

use super::*;
use crate::device::units;
use crate::rules::{Controller, Manager, Queue, Range, Sequence, Settings, Tracking};
use crate::structure::structure_bytes;
use crate::tests::Random;

/// Manager 1, granularities 0 to 8, rule off, limit 16, shelf limit 128, controllers 5, 6 and 7. Controller 5 tracks 4 units
/// from page 16 on and 2 units from page 0 on; 6 is not tracked; 7 is suspended and tracks 3 units of granularity 8. The share
/// of 5 begins at bit 0, and that of 7 at bit 8192, in word 128. All marks are 0. Manager 1 calls.
fn base(call: Call, id: u64) -> Case {
    let mut record = Record::default();
    record.settings = Settings {
        manager: 1,
        least: 0,
        greatest: 8,
        rule: 0,
        limit: 16,
        second: None,
        shelf: 128,
        number: 3,
        identifiers: [5, 6, 7, 0, 0, 0, 0, 0],
    };
    turn_on(&mut record, 0, 0, 2);
    record.controllers[0].ranges[0] = Range { start: 65536, length: 4 };
    record.controllers[0].ranges[1] = Range { start: 0, length: 2 };
    turn_on(&mut record, 2, 8, 1);
    record.controllers[2].suspended = true;
    record.controllers[2].ranges[0] = Range { start: 1048576, length: 3 };
    record.controllers[2].base = 8192;
    Case { record, words: vec![0; 256], plain: None, call, by: 1, id, data: Vec::new(), area: Vec::new(), shown: 0 }
}

/// Manager 1 tracks the controller in this place at this granularity, with so many ranges.
fn turn_on(record: &mut Record, place: usize, granularity: u64, count: u64) {
    record.controllers[place].tracking = Tracking::On { granularity, count };
    record.controllers[place].manager = 1;
}

/// A batch of these notes: identifier, address and bytes.
fn batch(notes: &[(u64, u64, u64)]) -> Call {
    Call::Batch(notes.iter().map(|(id, address, bytes)| Note { id: *id, address: *address, bytes: *bytes }).collect())
}

/// A part of controller 7 that counts as many dwords as its data have, with a state area of stale bytes.
fn part(indicator: u64, low: u64, data: &[u8]) -> Case {
    let mut case = base(Call::Part { indicator, low, high: 0, count: data.len() as u64 / 4 }, 7);
    case.data = data.to_vec();
    case.area = vec![0xEE; 4096];
    case
}

/// A queue that isn't stopped.
fn queue(size: u64, posted: u64, taken: u64, place: u64) -> Queue {
    Queue { size, posted, taken, place, stopped: false }
}

/// An area whose places have one byte each.
fn area_of(places: &[u8]) -> Vec<u8> {
    places.iter().flat_map(|byte| vec![*byte; 32]).collect()
}

/// A call of controller 6's queue, with this area. There is none yet.
fn queue_call(call: Call, area: &[u8]) -> Case {
    let mut case = base(call, 6);
    case.area = area.to_vec();
    case
}

/// A post of 32 bytes of 99 to this queue.
fn post(queue: Queue, area: &[u8]) -> Case {
    let mut case = queue_call(Call::Post, area);
    case.record.controllers[1].queue = Some(queue);
    case.data = vec![99; 32];
    case
}

/// A take from this queue, into so many stale bytes.
fn take(queue: Queue, area: &[u8], asked: u64, bytes: usize) -> Case {
    let mut case = queue_call(Call::Take { asked }, area);
    case.record.controllers[1].queue = Some(queue);
    case.data = vec![170; bytes];
    case
}

/// The base with each of the eleven calls that look at the record; each is done there.
fn calls() -> Vec<Case> {
    let mut start = base(Call::Start, 6);
    start.data = structure_bytes(0, &[Range { start: 65536, length: 1 }]);
    let mut receive = base(Call::Receive, 5);
    receive.data = vec![170; 64];
    vec![
        start,
        base(Call::Stop, 5),
        base(Call::Write { address: 69632, bytes: 1 }, 5),
        receive,
        base(Call::Suspend { kind: 1 }, 5),
        base(Call::Resume, 7),
        base(batch(&[(5, 69632, 1), (5, 65536, 1)]), 0),
        part(1, 0, &[1, 2, 3, 4]),
        queue_call(Call::MakeQueue, &[1; 64]),
        post(queue(3, 1, 0, 0), &[1; 96]),
        take(queue(3, 1, 0, 0), &[1; 96], 1, 64),
    ]
}

/// What each of the eleven calls answers once the base's record is changed so, and the first manager calls. A refused one must
/// leave all as it was.
fn refusals(change: &dyn Fn(&mut Record)) -> Vec<Refusal> {
    let mut refusals = Vec::new();
    for mut case in calls() {
        change(&mut case.record);
        case.by = case.record.settings.manager;
        let after = outcome(&case);
        if after.refusal != 0 {
            assert_eq!(after, Outcome { refusal: after.refusal, ..untouched(&case) });
        }
        refusals.push(after.refusal);
    }
    refusals
}

fn assert_unsound(change: &dyn Fn(&mut Record)) {
    assert_eq!(refusals(change), [1; 11]);
}

fn assert_sound(change: &dyn Fn(&mut Record)) {
    assert_eq!(refusals(change), [0; 11]);
}

/// Sound, and the start is refused so; all others are done.
fn assert_start_refused(change: &dyn Fn(&mut Record), refusal: Refusal) {
    let mut expected = [0; 11];
    expected[0] = refusal;
    assert_eq!(refusals(change), expected);
}

/// Puts these ranges, and no others, into the first controller's places.
fn track(record: &mut Record, granularity: u64, ranges: &[(u64, u64)]) {
    turn_on(record, 0, granularity, ranges.len() as u64);
    record.controllers[0].ranges = Default::default();
    for (place, (start, length)) in record.controllers[0].ranges.iter_mut().zip(ranges) {
        *place = Range { start: *start, length: *length };
    }
}

// ---------------------------------------------------------------------------------------------------------------
// When a record is sound
// ---------------------------------------------------------------------------------------------------------------

#[test]
fn base_is_sound() {
    assert_sound(&|_| ());
}

#[test]
fn closed_device_answers_1() {
    assert_unsound(&|record| *record = Record::default());
}

#[test]
fn settings_at_and_past_their_limits() {
    for number in &[0, 9, 255, 259, 4294967299, u64::MAX] {
        assert_unsound(&|record| record.settings.number = *number);
    }
    assert_sound(&|record| {
        record.settings.number = 8;
        record.settings.identifiers = [5, 6, 7, 0, 65535, 2, 3, 4];
    });
    // 0 in two places, then the manager among them, who tracks under that name.
    assert_unsound(&|record| record.settings.number = 5);
    let named = |record: &mut Record, manager| {
        record.settings.manager = manager;
        record.controllers[0].manager = manager;
        record.controllers[2].manager = manager;
    };
    assert_unsound(&|record| named(record, 6));
    assert_sound(&|record| named(record, 0));
    assert_sound(&|record| record.settings.greatest = 20);
    assert_unsound(&|record| record.settings.greatest = 21);
    assert_unsound(&|record| record.settings.least = 9);
    assert_sound(&|record| record.settings.limit = 128);
    assert_unsound(&|record| record.settings.limit = 129);
}

#[test]
fn counts_and_granularities_at_and_past_their_limits() {
    for count in &[0, 17, 255] {
        assert_unsound(&|record| turn_on(record, 0, 0, *count));
        assert_unsound(&|record| turn_on(record, 1, 0, *count));
    }
    assert_unsound(&|record| turn_on(record, 2, 9, 1));
    // Controller 5 was started with 0, controller 7 with 8.
    assert_unsound(&|record| record.settings.least = 1);
    assert_unsound(&|record| record.settings.greatest = 7);
}

#[test]
fn ranges_at_and_past_their_limits() {
    // They touch, in both orders; then they share page 19; then all of it, and the second one breaks a rule.
    assert_sound(&|record| track(record, 0, &[(65536, 4), (81920, 2)]));
    assert_sound(&|record| track(record, 0, &[(81920, 2), (65536, 4)]));
    assert_sound(&|record| track(record, 0, &[(65536, 4), (77824, 2)]));
    assert_sound(&|record| track(record, 0, &[(77824, 2), (65536, 4)]));
    assert_sound(&|record| track(record, 0, &[(65536, 4), (65536, 4)]));
    assert_unsound(&|record| track(record, 0, &[(65536, 4), (65536, 0)]));
    assert_unsound(&|record| track(record, 0, &[(65536, 4), (65537, 1)]));
    // The end at 2^64, and past it.
    assert_sound(&|record| track(record, 0, &[(18446744073709547520, 1)]));
    assert_unsound(&|record| track(record, 0, &[(18446744073709547520, 2)]));
    assert_sound(&|record| track(record, 8, &[(18446744073708503040, 1)]));
    assert_unsound(&|record| track(record, 8, &[(18446744073708503040, 2)]));
    // No multiple of the unit; no unit at all.
    assert_unsound(&|record| track(record, 0, &[(65537, 4)]));
    assert_unsound(&|record| track(record, 8, &[(1052672, 4)]));
    assert_unsound(&|record| track(record, 0, &[(65536, 0)]));
    // Up to the share of 7, and into it; a sum that would be 1 in 32 bits. 33554432 is page 8192.
    assert_sound(&|record| track(record, 0, &[(0, 8191), (33554432, 1)]));
    assert_unsound(&|record| track(record, 0, &[(0, 8191), (33554432, 2)]));
    assert_unsound(&|record| track(record, 0, &[(0, 4294967295), (17592186044416, 2)]));
    // Different units are counted.
    assert_sound(&|record| track(record, 0, &[(0, 8192), (0, 8192)]));
    assert_unsound(&|record| track(record, 0, &[(0, 8192), (4096, 8192)]));
    assert_unsound(&|record| track(record, 0, &[(4096, 8192), (0, 8192)]));
    assert_unsound(&|record| track(record, 0, &[(0, 4294967295), (0, 4294967295)]));
    // The power-of-two rule: controller 7 has 3 units, 5 has 4 and 2.
    assert_unsound(&|record| record.settings.rule = 1);
    assert_sound(&|record| {
        record.settings.rule = 1;
        record.controllers[2].ranges[0].length = 4;
    });
}

#[test]
fn counts_together_at_and_past_the_limit() {
    // 2 and 1 are tracked, and the start asks for one more.
    assert_sound(&|record| record.settings.limit = 4);
    assert_start_refused(&|record| record.settings.limit = 3, 12);
    assert_unsound(&|record| record.settings.limit = 2);
}

/// Full of what no rule allows, in every place that isn't used.
fn rubbish(record: &mut Record) {
    for identifier in record.settings.identifiers.iter_mut().skip(3) {
        *identifier = 1;
    }
    for (controller, used) in record.controllers.iter_mut().zip(&[2, 0, 1, 0, 0, 0, 0, 0]) {
        for range in controller.ranges.iter_mut().skip(*used) {
            *range = Range { start: 65537, length: 4294967295 };
        }
    }
    record.controllers[1].base = 60000;
    record.controllers[1].manager = 60001;
    for controller in record.controllers.iter_mut().skip(3) {
        controller.tracking = Tracking::On { granularity: 255, count: 255 };
        controller.suspended = true;
        controller.base = 65535;
        controller.manager = 65534;
        controller.queue = Some(queue(2, 9, 3, 65535));
    }
}

#[test]
fn unused_places_are_not_looked_at() {
    assert_sound(&rubbish);
}

#[test]
fn marks_that_are_not_256_words() {
    for mut case in calls() {
        for words in &[0, 1, 255, 257, 512] {
            case.words = vec![7; *words];
            assert_eq!(outcome(&case), Outcome { refusal: 1, ..untouched(&case) });
        }
    }
}

// ---------------------------------------------------------------------------------------------------------------
// Which row (W3)
// ---------------------------------------------------------------------------------------------------------------

/// A start of controller 6 at granularity 0 with these ranges, in a record full of rubbish.
fn start_with(ranges: &[(u64, u64)]) -> Case {
    let mut case = base(Call::Start, 6);
    rubbish(&mut case.record);
    let ranges: Vec<Range> = ranges.iter().map(|(start, length)| Range { start: *start, length: *length }).collect();
    case.data = structure_bytes(0, &ranges);
    case
}

/// This call is refused so, and leaves all as it was.
fn assert_refused(case: &Case, refusal: Refusal, row: usize) {
    assert_eq!(outcome(case), Outcome { refusal, row, ..untouched(case) });
}

#[test]
fn rows_of_refused_starts() {
    assert_refused(&start_with(&[]), 18, 0);
    assert_refused(&start_with(&[(65536, 0)]), 19, 0);
    assert_refused(&start_with(&[(4097, 0)]), 19, 0);
    assert_refused(&start_with(&[(65536, 4), (4097, 1), (0, 0)]), 20, 1);
    assert_refused(&start_with(&[(65536, 1), (18446744073709547520, 2)]), 21, 1);
    let mut ranges = vec![(65536, 4); 16];
    ranges[15] = (18446744073709551615, 1);
    assert_refused(&start_with(&ranges), 20, 15);
    ranges[3] = (18446744073709547520, 2);
    assert_refused(&start_with(&ranges), 21, 3);
    // Seventeen, and then the last of them not wholly there.
    ranges.push((65536, 0));
    let mut case = start_with(&ranges);
    assert_refused(&case, 18, 0);
    case.data.pop();
    assert_refused(&case, 8, 0);
}

#[test]
fn refusals_that_have_no_row() {
    // Row 1 breaks 20; then ever earlier rules are broken as well.
    let mut case = start_with(&[(65536, 4), (4097, 1)]);
    assert_refused(&case, 20, 1);
    case.data[3] = 9;
    assert_refused(&case, 7, 0);
    case.data[0] = 1;
    assert_refused(&case, 6, 0);
    case.id = 5;
    assert_refused(&case, 3, 0);
    case.id = 7;
    assert_refused(&case, 4, 0);
    case.id = 1;
    assert_refused(&case, 2, 0);
    // Row 1 of the record is of no length: unsound, and no row is told. So with 255 words.
    let mut unsound = case.clone();
    unsound.record.controllers[0].ranges[1].length = 0;
    assert_refused(&unsound, 1, 0);
    case.words.pop();
    assert_refused(&case, 1, 0);
    // Those behind 21: a length that is no power of two, 16,376 units beside the 9 that are tracked, 14 ranges beside 3.
    let mut case = start_with(&[(65536, 4), (0, 3)]);
    case.record.settings.rule = 1;
    case.record.controllers[2].ranges[0].length = 4;
    assert_refused(&case, 10, 0);
    assert_refused(&start_with(&[(65536, 4), (0, 16376)]), 11, 0);
    let after = outcome(&start_with(&[(65536, 4), (0, 16375)]));
    assert_eq!((after.refusal, after.row), (0, 0));
    assert_refused(&start_with(&[(65536, 4); 14]), 12, 0);
    let after = outcome(&start_with(&[(65536, 4); 13]));
    assert_eq!((after.refusal, after.row), (0, 0));
}

#[test]
fn no_other_call_has_a_row() {
    // The record's row 15 is of no length: each call answers 1.
    assert_unsound(&|record| {
        let mut ranges = vec![(65536, 4); 16];
        ranges[15] = (65536, 0);
        track(record, 0, &ranges);
        record.settings.limit = 128;
    });
    assert_sound(&|record| {
        track(record, 0, &[(65536, 4); 16]);
        record.settings.limit = 128;
    });
}

// ---------------------------------------------------------------------------------------------------------------
// Batches (W4)
// ---------------------------------------------------------------------------------------------------------------

/// The device of READINGS W4's worked numbers, with a batch: controllers 5 and 6, and 5 tracks 4 units from page 16 on.
/// So 7 stands in an unused place.
fn worked(notes: &[(u64, u64, u64)]) -> Case {
    let mut case = base(batch(notes), 0);
    case.record.settings.number = 2;
    track(&mut case.record, 0, &[(65536, 4)]);
    case
}

/// So many notes of this batch are done, so many units are new, and this refusal cuts it. Only these words change.
fn assert_batch(case: &Case, notes_done: u64, count: u64, cut: Refusal, words: &[(usize, u64)]) {
    let mut expected = Outcome { notes_done, count, cut, ..untouched(case) };
    for (word, mark) in words {
        expected.words[*word] = *mark;
    }
    assert_eq!(outcome(case), expected);
}

#[test]
fn worked_batches() {
    let list = [(5, 69632, 1), (5, 73727, 2), (6, 0, 5), (7, 0, 1), (5, 65536, 1)];
    assert_batch(&worked(&list), 3, 2, 2, &[(0, 0b0110)]);
    assert_batch(&worked(&[(7, 0, 1)]), 0, 0, 2, &[]);
    assert_batch(&worked(&[]), 0, 0, 0, &[]);
    assert_batch(&worked(&[(5, 65536, 1); 2]), 2, 1, 0, &[(0, 1)]);
    assert_batch(&worked(&[(5, 65536, 1); 1024]), 1024, 1, 0, &[(0, 1)]);
    assert_batch(&worked(&[(5, u64::MAX, 1), (5, u64::MAX, 2)]), 1, 0, 14, &[]);
    let mut suspended = worked(&[(6, 0, 1), (5, 65536, 1), (6, 0, 1)]);
    suspended.record.controllers[0].suspended = true;
    assert_batch(&suspended, 1, 0, 4, &[]);
    assert_batch(&worked(&[(7, 0, 0); 1024]), 0, 0, 2, &[]);
    assert_refused(&worked(&[(7, 0, 0); 1025]), 22, 0);
}

#[test]
fn refused_batches() {
    // 1 before 22, for the record and for the words; 22 whatever the notes are.
    for note in [(5, 65536, 1), (7, 0, 0), (5, u64::MAX, 2)].iter() {
        for records in [0, 1, 1024, 1025].iter() {
            let mut unsound = worked(&vec![*note; *records]);
            unsound.words = vec![9; 256];
            let mut short = unsound.clone();
            unsound.record.controllers[0].ranges[0].length = 0;
            assert_refused(&unsound, 1, 0);
            short.words.pop();
            assert_refused(&short, 1, 0);
        }
        assert_refused(&worked(&[*note; 1025]), 22, 0);
    }
}

#[test]
fn batches_keep_to_their_bits() {
    // Page 0 is pending. Pages 17 and 18 and page 1 become so; 6 isn't tracked, and 7 is suspended.
    let list = [(5, 73727, 2), (6, 0, u64::MAX), (5, 0, 8192), (7, 0, 1), (5, 65536, 1), (6, 0, 1)];
    let mut case = base(batch(&list), 0);
    rubbish(&mut case.record);
    case.words = vec![0xffff_ffff_ffff_ffd0; 256];
    assert_batch(&case, 3, 3, 4, &[(0, 0xffff_ffff_ffff_fff6)]);
    case.call = batch(&list[4..]);
    assert_batch(&case, 2, 1, 0, &[(0, 0xffff_ffff_ffff_ffd1)]);
}

#[test]
fn batches_of_several_controllers() {
    // Controller 6 tracks pages 0 and 1, in word 64; 7 runs, and its units of 1 MiB from 1 on are in word 128.
    let list = [(7, 1048575, 2), (5, 0, 1), (6, 0, 1), (7, 2097152, 1), (6, 4095, 2), (5, 0, 4096)];
    let mut case = base(batch(&list), 0);
    turn_on(&mut case.record, 1, 0, 1);
    case.record.controllers[1].ranges[0] = Range { start: 0, length: 2 };
    case.record.controllers[1].base = 4096;
    case.record.controllers[2].suspended = false;
    assert_batch(&case, 6, 5, 0, &[(0, 16), (64, 3), (128, 3)]);
    // Before the last two the manager, or an end past 2^64.
    for (bad, cut) in [((1, 0, 1), 2), ((6, 2, u64::MAX), 14)].iter() {
        let mut list = list.to_vec();
        list.insert(4, *bad);
        case.call = batch(&list);
        assert_batch(&case, 4, 4, *cut, &[(0, 16), (64, 1), (128, 3)]);
    }
}

#[test]
fn batches_over_ranges_that_overlap() {
    // Page 17, pages 16 and 17, page 14; then 9 is unknown, and what stands behind it would mark all.
    let list = [(5, 69632, 1), (5, 65536, 8192), (5, 57344, 1), (9, 0, 1), (5, 0, u64::MAX)];
    assert_batch(&shared(batch(&list), &[0; 256]), 3, 3, 2, &[(0, 0b010101)]);
    assert_batch(&shared(batch(&list[..3]), &[1; 256]), 3, 2, 0, &[(0, 0b010101)]);
    assert_batch(&shared(batch(&list[4..]), &[0b010101; 256]), 1, 3, 0, &[(0, 0b111111)]);
}

// ---------------------------------------------------------------------------------------------------------------
// Parts (W6)
// ---------------------------------------------------------------------------------------------------------------

/// This sequence is open.
fn open(case: &Case, owner: u64, end: u64) -> Case {
    let mut case = case.clone();
    case.record.sequence = Sequence::Open { owner, end };
    case
}

#[test]
fn sequences_that_are_sound_and_not() {
    // 7 is suspended; 5 runs, 6 too; 1 is the manager.
    for end in [4, 16, 4092, 4096].iter() {
        assert_sound(&|record| record.sequence = Sequence::Open { owner: 7, end: *end });
    }
    for end in [0, 2, 6, 4095, 4097, 4100, 65535].iter() {
        assert_unsound(&|record| record.sequence = Sequence::Open { owner: 7, end: *end });
    }
    for owner in [0, 1, 5, 6, 9, 263, 65535].iter() {
        assert_unsound(&|record| record.sequence = Sequence::Open { owner: *owner, end: 16 });
    }
    // 9 is suspended in an unused place.
    let mut case = open(&part(1, 0, &[0; 4]), 9, 16);
    rubbish(&mut case.record);
    case.record.settings.identifiers[3] = 9;
    assert_refused(&case, 1, 0);
    case.record.settings.number = 4;
    case.record.controllers[3].tracking = Tracking::Off;
    assert_refused(&case, 1, 0);
    case.record.controllers[3].queue = None;
    assert_refused(&case, 23, 0);
}

#[test]
fn areas_of_any_length() {
    for length in [0, 1, 48, 4095, 4097, 4200].iter() {
        let mut case = part(3, 0, &[0; 48]);
        case.area = vec![7; *length];
        assert_refused(&case, 1, 0);
        case.id = 9;
        assert_refused(&case, 1, 0);
    }
}

#[test]
fn parts_leave_all_but_their_own_bytes() {
    let mut case = open(&part(0, 16, &[1, 2, 3, 4, 5, 6, 7, 8]), 7, 16);
    rubbish(&mut case.record);
    case.words = vec![0xffff_ffff_ffff_ffd0; 256];
    let mut expected = untouched(&case);
    expected.record.sequence = Sequence::Open { owner: 7, end: 24 };
    expected.area[16..24].copy_from_slice(&[1, 2, 3, 4, 5, 6, 7, 8]);
    assert_eq!(outcome(&case), expected);
    // A last one is judged by the area's bytes as well: here these are no header of version 0.
    case.call = Call::Part { indicator: 2, low: 16, high: 0, count: 2 };
    assert_refused(&case, 27, 0);
    case.area = vec![0; 4096];
    assert_refused(&case, 27, 0);
    // 24 bytes of zeros are no header. Of 48, of which 8 are the part's, sizes stand at 32 to 39.
    case = open(&case, 7, 40);
    case.call = Call::Part { indicator: 2, low: 40, high: 0, count: 2 };
    case.data = vec![0; 8];
    let mut expected = untouched(&case);
    expected.record.sequence = Sequence::Nothing;
    expected.whole = 48;
    assert_eq!(outcome(&case), expected);
    case.area[39] = 1;
    assert_refused(&case, 27, 0);
    case.area[39] = 0;
    case.data[7] = 1;
    assert_refused(&case, 27, 0);
}

#[test]
fn resume_and_the_sequence() {
    let mut case = open(&base(Call::Resume, 7), 7, 16);
    let mut expected = untouched(&case);
    expected.record.sequence = Sequence::Nothing;
    expected.record.controllers[2].suspended = false;
    assert_eq!(outcome(&case), expected);
    // Another's stays.
    case.record.controllers[0].suspended = true;
    case.id = 5;
    let mut expected = untouched(&case);
    expected.record.controllers[0].suspended = false;
    assert_eq!(outcome(&case), expected);
}

#[test]
fn every_other_call_carries_the_sequence_on() {
    for case in calls().iter().filter(|case| case.call != Call::Resume) {
        let open = open(case, 7, 16);
        let after = outcome(&open);
        assert_eq!(after.refusal, 0);
        let first = Sequence::Open { owner: 7, end: 4 };
        let is_part = matches!(case.call, Call::Part { .. });
        assert_eq!(after.record.sequence, if is_part { first } else { open.record.sequence });
    }
    // A fresh device has none, and a closed one neither.
    let mut case = open(&base(Call::Fresh, 0), 7, 6);
    assert_eq!(outcome(&case).record.sequence, Sequence::Nothing);
    case.words.pop();
    assert_eq!(outcome(&case).record, Record::default());
}

// ---------------------------------------------------------------------------------------------------------------
// Queues (W8)
// ---------------------------------------------------------------------------------------------------------------

const LAST_TOTAL: u64 = 4294967295;

fn stopped(queue: Queue) -> Queue {
    Queue { stopped: true, ..queue }
}

/// This post is done: so are the queue and the area after it, and all else is as it was.
fn assert_posted(case: &Case, queue: Queue, area: &[u8]) {
    let mut expected = Outcome { stopped: queue.stopped, area: area.to_vec(), ..untouched(case) };
    expected.record.controllers[1].queue = Some(queue);
    assert_eq!(outcome(case), expected);
}

/// This take is done and yields these entries, of one byte each. So is the queue after it; all else, and the rest of the
/// buffer, is as it was.
fn assert_taken(case: &Case, queue: Queue, entries: &[u8], closing: bool) {
    let mut expected = Outcome { taken: entries.len() as u64, closing, ..untouched(case) };
    expected.record.controllers[1].queue = Some(queue);
    let bytes = area_of(entries);
    expected.data[..bytes.len()].copy_from_slice(&bytes);
    assert_eq!(outcome(case), expected);
}

#[test]
fn queues_that_are_sound_and_not() {
    // Of 5, which is tracked, and of 7, which is suspended. READINGS W8, and its neighbours.
    for place in [0, 2].iter() {
        for good in [
            stopped(queue(2, 2, 0, 0)),
            stopped(queue(2, 0, 0, 0)),
            queue(2, 1, 0, 1),
            queue(4, 2, LAST_TOTAL, 1),
            queue(3, LAST_TOTAL, LAST_TOTAL, 0),
            stopped(queue(1024, 1023, LAST_TOTAL, 1023)),
            queue(1024, 1022, LAST_TOTAL, 1023),
            // Sizes that no area has.
            queue(1, 0, 0, 0),
            stopped(queue(1, 0, LAST_TOTAL, 0)),
            queue(1025, 1024, 0, 1024),
            queue(65535, 65534, 0, 65534),
            stopped(queue(65535, 65534, LAST_TOTAL, 65534)),
        ]
        .iter()
        {
            assert_sound(&|record| record.controllers[*place].queue = Some(*good));
        }
        for bad in [
            queue(2, 2, 0, 0),
            queue(2, 0, 1, 0),
            stopped(queue(2, 0, 1, 0)),
            queue(2, 0, 0, 2),
            queue(2, 0, 0, 65535),
            queue(2, 3, 0, 0),
            stopped(queue(2, 3, 0, 0)),
            stopped(queue(2, 1, 4294967294, 0)),
            queue(1024, 1023, LAST_TOTAL, 1023),
            stopped(queue(1024, 1024, LAST_TOTAL, 1023)),
            queue(1, 1, 0, 0),
            queue(0, 0, 0, 0),
            stopped(queue(0, 0, 0, 0)),
            queue(65535, 65535, 0, 0),
            queue(65535, 0, 0, 65535),
        ]
        .iter()
        {
            assert_unsound(&|record| record.controllers[*place].queue = Some(*bad));
            // In an unused place it is not looked at.
            assert_sound(&|record| record.controllers[3].queue = Some(*bad));
        }
    }
}

#[test]
fn worked_posts() {
    let two = [3, 4];
    assert_posted(&post(queue(2, 0, 0, 0), &area_of(&two)), queue(2, 1, 0, 0), &area_of(&[99, 4]));
    assert_posted(&post(queue(2, 1, 0, 0), &area_of(&two)), stopped(queue(2, 2, 0, 0)), &area_of(&[3, 255]));
    let four = [3, 4, 5, 6];
    assert_posted(
        &post(queue(4, 2, LAST_TOTAL, 1), &area_of(&four)),
        stopped(queue(4, 3, LAST_TOTAL, 1)),
        &area_of(&[255, 4, 5, 6]),
    );
    let three = [3, 4, 5];
    assert_posted(
        &post(queue(3, LAST_TOTAL, LAST_TOTAL, 0), &area_of(&three)),
        queue(3, 0, LAST_TOTAL, 0),
        &area_of(&[99, 4, 5]),
    );
    assert_posted(&post(queue(3, 0, 0, 1), &area_of(&three)), queue(3, 1, 0, 1), &area_of(&[3, 99, 5]));
    // A posted entry of FFh is stored, and doesn't stop.
    let mut case = post(queue(3, 0, 0, 2), &area_of(&three));
    case.data = vec![255; 32];
    assert_posted(&case, queue(3, 1, 0, 2), &area_of(&[3, 4, 255]));
}

#[test]
fn worked_takes() {
    let two = area_of(&[3, 255]);
    assert_taken(&take(stopped(queue(2, 2, 0, 0)), &two, 10, 100), stopped(queue(2, 2, 2, 0)), &[3, 255], true);
    assert_taken(&take(stopped(queue(2, 2, 2, 0)), &two, 10, 100), stopped(queue(2, 2, 2, 0)), &[], false);
    // Of FFh, and posted.
    let ffh = area_of(&[255, 4, 5]);
    assert_taken(&take(queue(3, 1, 0, 0), &ffh, 1, 32), queue(3, 1, 1, 1), &[255], false);
    let four = area_of(&[3, 4, 5, 255]);
    let full = stopped(queue(4, 4, 0, 0));
    assert_taken(&take(full, &four, 3, 128), stopped(queue(4, 4, 3, 3)), &[3, 4, 5], false);
    assert_taken(&take(stopped(queue(4, 4, 3, 3)), &four, 1, 128), stopped(queue(4, 4, 4, 0)), &[255], true);
    // The closing one is told by the record alone: these bytes are not of FFh.
    let other = area_of(&[3, 4, 5, 6]);
    assert_taken(&take(full, &other, 9, 1024), stopped(queue(4, 4, 4, 0)), &[3, 4, 5, 6], true);
    for (bytes, entries) in [(0, 0), (31, 0), (32, 1), (63, 1), (64, 2), (95, 2), (96, 3), (127, 3), (128, 4)].iter() {
        let after = stopped(queue(4, 4, *entries as u64, *entries as u64 % 4));
        assert_taken(&take(full, &four, LAST_TOTAL, *bytes), after, &[3, 4, 5, 255][..*entries], *entries == 4);
        assert_taken(&take(full, &four, 0, *bytes), full, &[], false);
    }
    assert_taken(&take(queue(3, 0, LAST_TOTAL, 0), &area_of(&[7, 8, 9]), 1, 32), queue(3, 0, 0, 1), &[7], false);
    // Over the end of the places, and over 2^32.
    assert_taken(
        &take(queue(4, 1, 4294967294, 2), &area_of(&[3, 4, 5, 6]), 9, 1024),
        queue(4, 1, 1, 1),
        &[5, 6, 3],
        false,
    );
}

#[test]
fn queues_are_made() {
    for (bytes, size) in [(64, 2), (96, 3), (32736, 1023), (32768, 1024)].iter() {
        let mut case = queue_call(Call::MakeQueue, &vec![7; *bytes]);
        rubbish(&mut case.record);
        let mut expected = untouched(&case);
        expected.record.controllers[1].queue = Some(queue(*size, 0, 0, 0));
        assert_eq!(outcome(&case), expected);
        // Anew, whatever there was.
        for before in [stopped(queue(2, 2, 0, 0)), queue(2, 6, 5, 1), queue(65535, 9, 9, 9)].iter() {
            case.record.controllers[1].queue = Some(*before);
            assert_eq!(outcome(&case), expected);
        }
    }
    for bytes in [0, 1, 31, 32, 33, 63, 65, 95, 32767, 32769, 32799, 32800].iter() {
        let mut case = queue_call(Call::MakeQueue, &vec![7; *bytes]);
        assert_refused(&case, 28, 0);
        case.record.controllers[1].queue = Some(queue(2, 1, 0, 0));
        assert_refused(&case, 28, 0);
    }
}

#[test]
fn refusals_of_a_queue() {
    // All that is wrong with a post to a stopped queue of two places, then ever less; a take has the first three.
    let mut case = post(stopped(queue(2, 1, 1, 1)), &[7; 63]);
    case.data.pop();
    case.id = 9;
    case.record.controllers[1].queue = Some(queue(2, 2, 0, 0));
    let take_of = |case: &Case| Case { call: Call::Take { asked: 1 }, ..case.clone() };
    let make_of = |case: &Case| Case { call: Call::MakeQueue, ..case.clone() };
    for case in [case.clone(), take_of(&case), make_of(&case)].iter() {
        assert_refused(case, 1, 0);
    }
    case.record.controllers[1].queue = Some(stopped(queue(2, 2, 0, 0)));
    for id in [9, 1].iter() {
        case.id = *id;
        for case in [case.clone(), take_of(&case), make_of(&case)].iter() {
            assert_refused(case, 2, 0);
            let mut short = case.clone();
            short.words.pop();
            assert_refused(&short, 1, 0);
        }
    }
    case.id = 6;
    for bytes in [63, 65, 32, 0, 96, 32768, 32800].iter() {
        case.area = vec![7; *bytes];
        assert_refused(&case, 28, 0);
        assert_refused(&take_of(&case), 28, 0);
    }
    // 5 has no queue.
    case.id = 5;
    for bytes in [64, 96, 32768].iter() {
        case.area = vec![7; *bytes];
        assert_refused(&case, 29, 0);
        assert_refused(&take_of(&case), 29, 0);
    }
    case.area = vec![7; 63];
    assert_refused(&case, 28, 0);
    assert_refused(&take_of(&case), 28, 0);
    case.id = 6;
    case.area = vec![7; 64];
    for bytes in [0, 1, 31, 33, 64, 1024].iter() {
        case.data = vec![5; *bytes];
        assert_refused(&case, 8, 0);
    }
    case.data = vec![5; 32];
    assert_refused(&case, 30, 0);
    assert_taken(&take_of(&case), stopped(queue(2, 2, 1, 1)), &[7], false);
}

#[test]
fn sizes_that_no_area_has() {
    for size in [1, 1025, 65535].iter() {
        for bytes in [0, 32, 64, 32768, 32800].iter() {
            assert_refused(&post(queue(*size, 0, 0, 0), &vec![7; *bytes]), 28, 0);
            assert_refused(&take(queue(*size, 0, 0, 0), &vec![7; *bytes], 0, 0), 28, 0);
        }
    }
}

#[test]
fn queues_in_a_record_full_of_rubbish() {
    // 6 is tracked and suspended; marks are of every kind.
    let change = |mut case: Case| {
        rubbish(&mut case.record);
        share(&mut case.record, 1, 500, 70);
        case.record.controllers[1].suspended = true;
        case.words = (0..256).map(|word| word * 0x0101_0101_0101_0101).collect();
        case.record.sequence = Sequence::Open { owner: 7, end: 16 };
        case
    };
    let area = area_of(&[3, 4, 5, 6]);
    let first = change(post(queue(4, 9, 7, 1), &area));
    assert_posted(&first, queue(4, 10, 7, 1), &area_of(&[3, 4, 5, 99]));
    let last = change(post(queue(4, 9, 6, 1), &area));
    assert_posted(&last, stopped(queue(4, 10, 6, 1)), &area_of(&[255, 4, 5, 6]));
    assert_taken(&change(take(queue(4, 9, 7, 3), &area, 2, 200)), queue(4, 9, 9, 1), &[6, 3], false);
}

#[test]
fn every_other_call_carries_the_queues_on() {
    let of_5 = queue(7, 3, LAST_TOTAL, 6);
    let of_7 = stopped(queue(2, 2, 0, 1));
    for mut case in calls() {
        case.record.controllers[0].queue = Some(of_5);
        case.record.controllers[2].queue = Some(of_7);
        case.record.controllers[5].queue = Some(queue(0, 1, 2, 3));
        let after = outcome(&case);
        assert_eq!(after.refusal, 0);
        let queues: Vec<Option<Queue>> = after.record.controllers.iter().map(|controller| controller.queue).collect();
        let of_6 = match case.call {
            Call::MakeQueue => Some(queue(2, 0, 0, 0)),
            Call::Post => Some(queue(3, 2, 0, 0)),
            Call::Take { .. } => Some(queue(3, 1, 1, 1)),
            _ => None,
        };
        assert_eq!(queues, [Some(of_5), of_6, Some(of_7), None, None, Some(queue(0, 1, 2, 3)), None, None]);
    }
    // A fresh device has none, and a closed one neither.
    let mut case = base(Call::Fresh, 0);
    case.record.controllers[0].queue = Some(of_5);
    case.record.controllers[1].queue = Some(queue(0, 1, 2, 3));
    let after = outcome(&case);
    assert_eq!(after.refusal, 0);
    assert!(after.record.controllers.iter().all(|controller| *controller == Controller::default()));
    case.words.pop();
    assert_eq!(outcome(&case).record, Record::default());
}

#[test]
fn all_places_of_a_queue() {
    // Every place, fill and total about 2^32 of queues of 2 to 5 places: where a post goes and what a take yields.
    for size in 2..6u64 {
        let bytes: Vec<u8> = (0..size as u8).collect();
        let area = area_of(&bytes);
        for place in 0..size {
            for fill in 0..size {
                for taken in [0, LAST_TOTAL - 3, LAST_TOTAL - 1, LAST_TOTAL].iter() {
                    let total = |count: u64| (taken + count) % 4294967296;
                    let before = queue(size, total(fill), *taken, place);
                    let mut after = bytes.clone();
                    let closes = fill + 1 == size;
                    after[((place + fill) % size) as usize] = if closes { 255 } else { 99 };
                    let posted = Queue { posted: total(fill + 1), stopped: closes, ..before };
                    assert_posted(&post(before, &area), posted, &area_of(&after));
                    for asked in 0..=fill {
                        let entries: Vec<u8> = (0..asked).map(|number| ((place + number) % size) as u8).collect();
                        let left = Queue { taken: total(asked), place: (place + asked) % size, ..before };
                        assert_taken(&take(before, &area, asked, 200), left, &entries, false);
                        let closing = asked > 0 && asked == fill;
                        assert_taken(&take(stopped(before), &area, asked, 200), stopped(left), &entries, closing);
                    }
                }
            }
        }
    }
}

// ---------------------------------------------------------------------------------------------------------------
// What each call leaves behind, in a record full of rubbish
// ---------------------------------------------------------------------------------------------------------------

#[test]
fn fresh_zeroes_all_it_leaves_unused() {
    let mut case = base(Call::Fresh, 0);
    rubbish(&mut case.record);
    case.words = vec![u64::MAX; 256];
    let after = outcome(&case);
    assert_eq!((after.refusal, after.words), (0, vec![0; 256]));
    assert_eq!(after.record.settings.identifiers, [5, 6, 7, 0, 0, 0, 0, 0]);
    assert_eq!(after.record.settings.limit, 16);
    for controller in &after.record.controllers {
        assert_eq!(*controller, Controller::default());
    }
}

#[test]
fn refused_fresh_is_closed() {
    // 1 for the marks' length, and 16 before it.
    let mut case = base(Call::Fresh, 0);
    case.words = vec![9; 255];
    let closed = |refusal, case: &Case| Outcome { refusal, record: Record::default(), ..untouched(case) };
    assert_eq!(outcome(&case), closed(1, &case));
    case.record.settings.limit = 129;
    assert_eq!(outcome(&case), closed(16, &case));
    case.words = vec![9; 256];
    assert_eq!(outcome(&case), closed(16, &case));
}

#[test]
fn start_and_stop_zero_what_they_leave_unused() {
    for (case, place) in calls().iter().take(2).zip(&[1, 0]) {
        let mut case = case.clone();
        rubbish(&mut case.record);
        case.words = vec![u64::MAX; 256];
        let mut expected = untouched(&case);
        expected.record.controllers[*place] = Controller::default();
        if *place == 1 {
            turn_on(&mut expected.record, 1, 0, 1);
            expected.record.controllers[1].ranges[0] = Range { start: 65536, length: 1 };
            // Six bits of 5, one of 6, which is clear, and three of 7; all behind them are 0.
            expected.record.controllers[1].base = 6;
            expected.record.controllers[2].base = 7;
            expected.words = vec![0; 256];
            expected.words[0] = 0b1110111111;
        } else {
            // The six bits of 5 alone.
            expected.words[0] = u64::MAX - 63;
        }
        assert_eq!(outcome(&case), expected);
    }
}

#[test]
fn writes_and_reports_keep_to_their_bits() {
    // Bits 0 to 3 are pages 16 to 19, bits 4 and 5 pages 0 and 1; all other bits stay as they are.
    let mut case = base(Call::Write { address: 73727, bytes: 2 }, 5);
    rubbish(&mut case.record);
    case.words = vec![0xffff_ffff_ffff_ffd0; 256];
    let mut expected = untouched(&case);
    expected.count = 2;
    expected.words[0] = 0xffff_ffff_ffff_ffd6;
    assert_eq!(outcome(&case), expected);

    // Pages 17 and 18, and page 0: two runs, of which 32 bytes hold one.
    case.call = Call::Receive;
    case.words = expected.words;
    case.data = vec![170; 47];
    let mut expected = untouched(&case);
    expected.report = [0, 1, 0, 1];
    expected.groups = 1;
    expected.words[0] = 0xffff_ffff_ffff_ffd0;
    expected.data[..32].copy_from_slice(&[
        0, 1, 5, 0, 1, 0, 0, 0, 0, 0, 0, 0, 0, 0, 0, 0, // more, identifier 5, one, granularity 0
        0, 16, 1, 0, 0, 0, 0, 0, 2, 0, 0, 0, 0, 0, 0, 0, // 69632, 2
    ]);
    assert_eq!(outcome(&case), expected);
}

#[test]
fn last_bit_of_a_controller() {
    // Unit 4095 of a share that begins at bit 4096 is the highest bit of word 127.
    let mut case = base(Call::Write { address: 16777215, bytes: 1 }, 6);
    turn_on(&mut case.record, 1, 0, 1);
    case.record.controllers[1].ranges[0] = Range { start: 0, length: 4096 };
    case.record.controllers[1].base = 4096;
    let mut expected = untouched(&case);
    expected.count = 1;
    expected.words[127] = 1 << 63;
    assert_eq!(outcome(&case), expected);
    // A share that ends with the pool, behind that of 7: the highest bit of word 255.
    case.record.controllers[1].base = 12288;
    let mut expected = untouched(&case);
    expected.count = 1;
    expected.words[255] = 1 << 63;
    assert_eq!(outcome(&case), expected);
}

// ---------------------------------------------------------------------------------------------------------------
// The pool (W7)
// ---------------------------------------------------------------------------------------------------------------

/// The controller in this place tracks so many pages from page 0 on, and its share begins at this bit.
fn share(record: &mut Record, place: usize, base: u64, pages: u64) {
    turn_on(record, place, 0, 1);
    record.controllers[place].ranges = Default::default();
    record.controllers[place].ranges[0] = Range { start: 0, length: pages };
    record.controllers[place].base = base;
}

#[test]
fn shares_at_the_end_of_the_pool_and_past_it() {
    // 7 has 3 units.
    for base in &[6, 7, 63, 64, 8192, 16380, 16381] {
        assert_sound(&|record| record.controllers[2].base = *base);
    }
    for base in &[16382, 16383, 16384, 16385, 32768, 60000, 65535] {
        assert_unsound(&|record| record.controllers[2].base = *base);
    }
    // 5 at 0, with 6 units, is overlapped from 0 to 5; 5 has room below that of 7, and above it.
    for base in 0..6 {
        assert_unsound(&|record| record.controllers[2].base = base);
    }
    for base in &[1, 8186, 8195, 16378] {
        assert_sound(&|record| record.controllers[0].base = *base);
    }
    for base in &[8187, 8191, 8192, 8193, 8194, 16379, 65530, 65535] {
        assert_unsound(&|record| record.controllers[0].base = *base);
    }
    // READINGS W7: 6 at 16,383 with one unit, at 16,384, and off at 60,000. A start of 6 meets 3, or is done.
    assert_start_refused(&|record| share(record, 1, 16383, 1), 3);
    assert_unsound(&|record| share(record, 1, 16384, 1));
    assert_unsound(&|record| share(record, 1, 3, 1));
    assert_sound(&|record| record.controllers[1].base = 60000);
}

#[test]
fn a_full_pool() {
    // 16,381 units of 5 and 3 of 7: sound where they stand side by side, in either order. A start finds no room.
    for (base_of_5, base_of_7) in &[(0, 16381), (3, 0)] {
        let filled = |record: &mut Record, pages| {
            share(record, 0, *base_of_5, pages);
            record.controllers[2].base = *base_of_7;
        };
        assert_start_refused(&|record| filled(record, 16381), 11);
        assert_sound(&|record| filled(record, 16380));
        assert_unsound(&|record| filled(record, 16382));
    }
    assert_unsound(&|record| share(record, 0, 0, 16384));
    // 7 off, and alone it may have all.
    let alone = |record: &mut Record| {
        record.controllers[2].tracking = Tracking::Off;
        share(record, 0, 0, 16384);
    };
    assert_start_refused(&alone, 11);
}

/// The words with these bits set alone.
fn words_of(bits: &[usize]) -> Vec<u64> {
    let mut words = vec![0; 256];
    for bit in bits {
        words[bit / 64] |= 1 << (bit % 64);
    }
    words
}

#[test]
fn a_start_moves_pending_units_with_their_shares() {
    // 7 lies at 8192, before 5 at 12,000, whose 130 pages lie over three words; 6, between them in the settings, is new.
    let mut case = start_with(&[(0, 70)]);
    share(&mut case.record, 0, 12000, 130);
    // Units 0, 63, 64 and 129 of 5, units 0 and 2 of 7, and bits outside: one before, one behind and one between.
    case.words = words_of(&[12000, 12063, 12064, 12129, 8192, 8194, 11999, 12130, 8195, 0, 16383, 200]);
    let mut expected = untouched(&case);
    expected.record.controllers[0].base = 0;
    expected.record.controllers[1] = Controller { base: 130, ..Controller::default() };
    turn_on(&mut expected.record, 1, 0, 1);
    expected.record.controllers[1].ranges[0] = Range { start: 0, length: 70 };
    expected.record.controllers[2].base = 200;
    expected.words = words_of(&[0, 63, 64, 129, 200, 202]);
    assert_eq!(outcome(&case), expected);
}

#[test]
fn shares_that_change_their_order() {
    // Eight controllers of 5 pages each lie in turned order, every other bit of a share pending. 12 is off and starts.
    let mut case = start_with(&[(0, 7)]);
    case.id = 12;
    case.record.settings.number = 8;
    case.record.settings.identifiers = [5, 6, 7, 8, 9, 10, 11, 12];
    let (mut bits, mut moved) = (Vec::new(), Vec::new());
    for place in 0..7 {
        let base = 700 - 100 * place;
        case.record.controllers[place] = Controller::default();
        share(&mut case.record, place, base as u64, 5);
        bits.extend_from_slice(&[base - 1, base, base + 2, base + 4, base + 5]);
        moved.extend_from_slice(&[5 * place, 5 * place + 2, 5 * place + 4]);
    }
    case.record.controllers[7] = Controller::default();
    case.words = words_of(&bits);
    let mut expected = untouched(&case);
    for place in 0..7 {
        expected.record.controllers[place].base = 5 * place as u64;
    }
    share(&mut expected.record, 7, 35, 7);
    expected.words = words_of(&moved);
    assert_eq!(outcome(&case), expected);
}

#[test]
fn each_word_moves() {
    // 16,000 pages in the midst of the pool, of which each 61st is pending: a start before them in the settings lets them
    // move up or down.
    let pending: Vec<usize> = (0..16000).step_by(61).collect();
    for (base, pages) in &[(0, 375), (1, 375), (300, 1), (375, 64), (64, 64), (380, 375), (375, 375)] {
        let mut case = start_with(&[(0, *pages)]);
        case.record.controllers[0] = Controller::default();
        case.record.controllers[2].base = 16381;
        share(&mut case.record, 2, *base as u64, 16000);
        case.words = words_of(&pending.iter().map(|unit| base + unit).collect::<Vec<usize>>());
        let after = outcome(&case);
        assert_eq!(after.refusal, 0);
        let bases: Vec<u64> = after.record.controllers.iter().take(3).map(|controller| controller.base).collect();
        assert_eq!(bases, [0, 0, *pages]);
        assert_eq!(after.words, words_of(&pending.iter().map(|unit| *pages as usize + unit).collect::<Vec<usize>>()));
    }
}

/// The words of the mark 1: one bit of each, which are 0, 65, 130 and so on up to 4,095, and from 4,096 on again.
fn one_bit_a_word() -> Vec<u64> {
    let mut bits = Vec::new();
    for from in [0, 4096, 8192, 12288].iter() {
        bits.extend((0..64).map(|word| from + 65 * word));
    }
    words_of(&bits)
}

#[test]
fn words_that_differ_move() {
    // 6's 200 pages lie at a base, and 5 starts with so many pages; of their bits are set ...
    for (base, pages, moved) in [
        (64, 1, [2, 67, 132, 197]),               // 65, 130, 195, 260
        (65, 64, [64, 129, 194, 259]),            // the same, by a bit to the left
        (0, 63, [63, 128, 193, 258]),             // 0, 65, 130, 195, to the right
        (0, 64, [64, 129, 194, 259]),             // by a word
        (0, 65, [65, 130, 195, 260]),             // by a word and a bit
        (4096, 64, [64, 129, 194, 259]),          // 4096, 4161, 4226, 4291
        (16184, 1, [5, 70, 135, 200]),            // 16188, 16253, 16318, 16383
        (0, 16181, [16181, 16246, 16311, 16376]), // 7's three units are behind them
    ]
    .iter()
    {
        let mut case = start_with(&[(0, *pages)]);
        case.id = 5;
        case.record.controllers[0] = Controller { base: 60000, ..Controller::default() };
        share(&mut case.record, 1, *base, 200);
        case.record.controllers[2].base = if *base == 0 { 201 } else { 61 };
        case.words = one_bit_a_word();
        let after = outcome(&case);
        let bases: Vec<u64> = after.record.controllers.iter().take(3).map(|controller| controller.base).collect();
        assert_eq!((after.refusal, bases), (0, vec![0, *pages, *pages + 200]));
        assert_eq!(after.words, words_of(moved));
    }
}

#[test]
fn whole_words_change_places() {
    // 5 has words 3 and 4, and 7 words 0 to 2; 6 starts with a word between them.
    let mut case = start_with(&[(0, 64)]);
    share(&mut case.record, 0, 192, 128);
    share(&mut case.record, 2, 0, 192);
    case.words = (1..257).collect();
    let mut expected = vec![4, 5, 0, 1, 2, 3];
    expected.resize(256, 0);
    assert_eq!(outcome(&case).words, expected);
    // 5 has words 128 to 255, but for the last bit, and 7 words 0 to 126; 6 starts with what is left, a bit and a word.
    let mut case = start_with(&[(0, 65)]);
    share(&mut case.record, 0, 8192, 8191);
    share(&mut case.record, 2, 0, 8128);
    case.words = (1..257).collect();
    assert_eq!(outcome(&case).words, (129..257).chain(0..128).collect::<Vec<u64>>());
}

#[test]
fn a_stop_moves_nothing() {
    // All bits are set: the stop clears those of its share, within three words, and no other.
    let mut case = base(Call::Stop, 5);
    rubbish(&mut case.record);
    share(&mut case.record, 0, 100, 150);
    case.words = vec![u64::MAX; 256];
    let mut expected = untouched(&case);
    expected.record.controllers[0] = Controller::default();
    expected.words[1] = (1 << 36) - 1;
    expected.words[2] = 0;
    expected.words[3] = u64::MAX << 58;
    assert_eq!(outcome(&case), expected);
    // So of the whole pool.
    share(&mut case.record, 0, 0, 16384);
    case.record.controllers[2].tracking = Tracking::Off;
    let after = outcome(&case);
    assert_eq!((after.refusal, after.words), (0, vec![0; 256]));
    assert_eq!(after.record.controllers[2].base, 8192, "off, so as it was");
}

#[test]
fn writes_and_reports_at_a_base() {
    // Page 0 is bit 12,010, in the midst of word 187: pages 21 and 22 are its last bit and the next word's first.
    let mut case = base(Call::Write { address: 86016, bytes: 4097 }, 5);
    rubbish(&mut case.record);
    share(&mut case.record, 0, 12010, 100);
    let mut expected = untouched(&case);
    expected.count = 2;
    expected.words = words_of(&[12031, 12032]);
    assert_eq!(outcome(&case), expected);
    // Every bit outside is set and stays so, and decides nothing.
    case.words = vec![u64::MAX; 256];
    case.words[187] = (1 << 42) - 1;
    case.words[188] = 0;
    case.words[189] = u64::MAX << 14;
    let mut expected = untouched(&case);
    expected.count = 2;
    expected.words[187] |= 1 << 63;
    expected.words[188] |= 1;
    assert_eq!(outcome(&case), expected);
    let before = case.words.clone();
    case.call = Call::Receive;
    case.words = expected.words;
    case.data = vec![170; 32];
    let mut expected = untouched(&case);
    expected.report = [0, 0, 0, 1];
    // 100 units, and no second run.
    expected.groups = 2;
    expected.words = before;
    expected.data.copy_from_slice(&[
        0, 0, 5, 0, 1, 0, 0, 0, 0, 0, 0, 0, 0, 0, 0, 0, // identifier 5, one, granularity 0
        0, 80, 1, 0, 0, 0, 0, 0, 2, 0, 0, 0, 0, 0, 0, 0, // 86016, 2
    ]);
    assert_eq!(outcome(&case), expected);
}

#[test]
fn other_calls_leave_bases_and_words() {
    // Behind start and stop. The share of 5 is word 250's six lowest bits.
    for mut case in calls().into_iter().skip(2) {
        rubbish(&mut case.record);
        case.record.controllers[0].base = 16000;
        case.words = vec![u64::MAX; 256];
        let after = outcome(&case);
        assert_eq!(after.refusal, 0);
        for (controller, before) in after.record.controllers.iter().zip(&case.record.controllers) {
            assert_eq!(controller.base, before.base);
        }
        // The report clears them; all else is as it was.
        if case.call == Call::Receive {
            case.words[250] -= 63;
        }
        assert_eq!(after.words, case.words);
    }
}

/// The bits of these words.
fn bits_of(words: &[u64]) -> Vec<bool> {
    (0..64 * words.len()).map(|bit| words[bit / 64] >> (bit % 64) & 1 == 1).collect()
}

/// The bits of each tracked controller's share, by its place, as a row of bools; nothing for one that is off.
fn rows_of(record: &Record, words: &[u64]) -> Vec<Option<Vec<bool>>> {
    let bits = bits_of(words);
    let mut rows = Vec::new();
    for controller in record.controllers.iter().take(record.settings.number as usize) {
        let first = controller.base as usize;
        rows.push(match controller.tracking {
            Tracking::Off => None,
            Tracking::On { .. } => Some(bits[first..first + units(controller).count()].to_vec()),
        });
    }
    rows
}

/// A session as a row of cases, each given the record and the words that the one before left. It is answered as a session
/// of the device alone, which has no words; after a done start the words are the rows joined, and else only the called
/// controller's row may have changed. Two managers call, and at times an unknown one.
#[test]
fn a_row_of_cases_is_a_session() {
    let mut random = Random(8);
    let fresh = start_with(&[]);
    let mut met = [0; 35];
    for _ in 0..60 {
        let mut record = Record { settings: fresh.record.settings.clone(), ..Record::default() };
        record.settings.number = 5;
        record.settings.limit = 2 + random.below(5) as u64;
        record.settings.second = Some(Manager { id: 2, limit: 2 + random.below(3) as u64 });
        record.settings.shelf = 3 + random.below(5) as u64;
        record.settings.identifiers = [5, 6, 7, 8, 9, 0, 0, 0];
        let mut device = Device::fresh(&record.settings).unwrap();
        let mut words = vec![0; 256];
        for _ in 0..60 {
            let place = random.below(5);
            let lengths = [1, 2, 63, 64, 65, 130, 4000, 8192, 16384 - random.below(9000), 16384 - random.below(16384)];
            let ranges = [
                Range { start: 4096 * random.below(99) as u64, length: 1 + random.below(99) as u64 },
                Range { start: 4096 * random.below(99) as u64, length: lengths[random.below(10)] as u64 },
            ];
            let ranges = &ranges[random.below(2)..];
            let (address, bytes) = (random.below(16384) as u64 * 4096, 1 + random.below(400) as u64 * 4096);
            let call = match random.below(20) {
                0..=6 => Call::Start,
                7..=9 => Call::Stop,
                10 | 11 => Call::Receive,
                12 => Call::Suspend { kind: 1 },
                13 | 14 => Call::Resume,
                _ => Call::Write { address: address % 4194304, bytes },
            };
            let id = device.record.settings.identifiers[place];
            let by = [1, 1, 1, 1, 2, 2, 2, 2, 3][random.below(9)];
            let data = if call == Call::Start { structure_bytes(0, ranges) } else { vec![170; 48] };
            let case = Case { record, words, call, by, data: data.clone(), ..base(Call::Fresh, id) };
            let after = outcome(&case);
            let mut buffer = data;
            let (refusal, count) = match &case.call {
                Call::Start => (device.start(by, id, &buffer).err().map(|reason| reason.number), 0),
                Call::Stop => (device.stop(by, id).err(), 0),
                Call::Receive => (device.receive(by, id, &mut buffer).err(), 0),
                Call::Suspend { kind } => (device.suspend(by, id, *kind).err(), 0),
                Call::Resume => (device.resume(by, id).err(), 0),
                _ => {
                    let noted = device.write(&Note { id, address: address % 4194304, bytes });
                    (noted.err(), noted.unwrap_or(0))
                }
            };
            assert_eq!((after.refusal, after.count), (refusal.unwrap_or(0), count));
            assert_eq!((&after.record, &after.data), (&device.record, &buffer));
            met[after.refusal as usize] += 1;
            // The words after, by those before.
            let mut rows = rows_of(&case.record, &case.words);
            let rows_after = rows_of(&after.record, &after.words);
            let mut expected = bits_of(&case.words);
            if refusal.is_none() && case.call == Call::Start {
                assert_eq!(rows[place], None);
                rows[place] = Some(vec![false; units(&after.record.controllers[place]).count()]);
                expected = rows.iter().flatten().flatten().cloned().collect();
                expected.resize(16384, false);
            } else if let Some(row) = &rows[place] {
                let first = case.record.controllers[place].base as usize;
                let own = first..first + row.len();
                let cleared = vec![false; row.len()];
                expected[own].copy_from_slice(rows_after[place].as_ref().unwrap_or(&cleared));
            }
            assert_eq!(bits_of(&after.words), expected);
            record = after.record;
            words = after.words;
        }
    }
    for refusal in [0, 2, 3, 4, 5, 11, 12, 13, 34].iter() {
        assert!(met[*refusal] > 30, "{}: {}", refusal, met[*refusal]);
    }
}

/// Controller 5 tracks page 17, then pages 15 to 18, then page 16, then pages 14 to 19: bit 0 is page 17, bits 1 to 3
/// are pages 15, 16 and 18, the third range has none, and bits 4 and 5 are pages 14 and 19.
fn shared(call: Call, words: &[u64]) -> Case {
    let mut case = base(call, 5);
    track(&mut case.record, 0, &[(69632, 1), (61440, 4), (65536, 1), (57344, 6)]);
    case.words = words.to_vec();
    case
}

#[test]
fn bits_of_ranges_that_overlap() {
    // A byte of each page from 13 to 20, and its bit.
    for (page, bit) in [(13, 0), (14, 16), (15, 2), (16, 4), (17, 1), (18, 8), (19, 32), (20, 0)].iter() {
        let case = shared(Call::Write { address: page * 4096 + 4095, bytes: 1 }, &[0; 256]);
        let mut expected = untouched(&case);
        expected.count = if *bit == 0 { 0 } else { 1 };
        expected.words[0] = *bit;
        assert_eq!(outcome(&case), expected, "{}", page);
    }
    // All of them, with the bits past the total as they were; page 16 was pending.
    let case = shared(Call::Write { address: 0, bytes: u64::MAX }, &[0xffff_ffff_ffff_ffc4; 256]);
    let mut expected = untouched(&case);
    expected.count = 5;
    expected.words[0] = u64::MAX;
    assert_eq!(outcome(&case), expected);
}

#[test]
fn reports_of_ranges_that_overlap() {
    // The runs are page 17; pages 15 and 16; page 18; page 14; page 19. 48 bytes hold two of them.
    let mut case = shared(Call::Receive, &[u64::MAX; 256]);
    case.data = vec![170; 63];
    let mut expected = untouched(&case);
    expected.report = [0, 1, 0, 2];
    expected.groups = 1;
    expected.words[0] = 0xffff_ffff_ffff_fff8;
    expected.data[..48].copy_from_slice(&[
        0, 1, 5, 0, 2, 0, 0, 0, 0, 0, 0, 0, 0, 0, 0, 0, // more, identifier 5, two, granularity 0
        0, 16, 1, 0, 0, 0, 0, 0, 1, 0, 0, 0, 0, 0, 0, 0, // 69632, 1
        0, 240, 0, 0, 0, 0, 0, 0, 2, 0, 0, 0, 0, 0, 0, 0, // 61440, 2
    ]);
    assert_eq!(outcome(&case), expected);

    // The other three fit.
    case.words = expected.words;
    case.data = vec![170; 64];
    let mut expected = untouched(&case);
    expected.report = [0, 0, 0, 3];
    expected.groups = 1;
    expected.words[0] = 0xffff_ffff_ffff_ffc0;
    expected.data[..64].copy_from_slice(&[
        0, 0, 5, 0, 3, 0, 0, 0, 0, 0, 0, 0, 0, 0, 0, 0, // identifier 5, three, granularity 0
        0, 32, 1, 0, 0, 0, 0, 0, 1, 0, 0, 0, 0, 0, 0, 0, // 73728, 1
        0, 224, 0, 0, 0, 0, 0, 0, 1, 0, 0, 0, 0, 0, 0, 0, // 57344, 1
        0, 48, 1, 0, 0, 0, 0, 0, 1, 0, 0, 0, 0, 0, 0, 0, // 77824, 1
    ]);
    assert_eq!(outcome(&case), expected);
}

#[test]
fn last_bits_of_ranges_that_overlap() {
    // Page 4095 first, then 4,096 pages from 0 on: page 4094 is unit 4095, the highest bit of word 63.
    let mut case = base(Call::Write { address: 16769024, bytes: 1 }, 5);
    track(&mut case.record, 0, &[(16773120, 1), (0, 4096)]);
    let mut expected = untouched(&case);
    expected.count = 1;
    expected.words[63] = 1 << 63;
    assert_eq!(outcome(&case), expected);
    // Page 4095 is unit 0, and page 0 is unit 1.
    case.call = Call::Write { address: 16773120, bytes: 1 };
    let mut expected = untouched(&case);
    expected.count = 1;
    expected.words[0] = 1;
    assert_eq!(outcome(&case), expected);
    case.call = Call::Write { address: 0, bytes: 1 };
    expected.words[0] = 2;
    assert_eq!(outcome(&case), expected);
}

// ---------------------------------------------------------------------------------------------------------------
// The plain engine (W9)
// ---------------------------------------------------------------------------------------------------------------

/// The same call on the plain engine, which is lent these bytes and no words.
fn on_bytes(case: &Case, bytes: &[u8]) -> Case {
    Case { words: Vec::new(), plain: Some(Plain { bytes: bytes.to_vec(), shown: Some(0) }), ..case.clone() }
}

/// An area that tells its bytes apart: none is 0, and any two that are fewer than 255 apart differ.
fn all_pending() -> Vec<u8> {
    (0..16384).map(|byte| (byte % 255 + 1) as u8).collect()
}

/// The call is done, and leaves these bytes. All else of the outcome is answered.
fn assert_leaves(case: &Case, bytes: &[u8]) -> Outcome {
    let after = outcome(case);
    assert_eq!((after.refusal, &after.words), (0, &vec![]));
    // Those that differ are few, and shown by their numbers.
    let given = &after.plain.as_ref().unwrap().bytes;
    assert_eq!(given.len(), bytes.len());
    let differ: Vec<usize> = (0..bytes.len()).filter(|byte| given[*byte] != bytes[*byte]).collect();
    assert_eq!(differ, []);
    after
}

#[test]
fn areas_that_are_not_16384_bytes() {
    for case in calls() {
        for bytes in &[0, 1, 64, 256, 16320, 16383, 16385, 32768] {
            // 256 words that are there as well are not looked at.
            for words in &[0, 256] {
                let case = Case { words: vec![0; *words], ..on_bytes(&case, &vec![7; *bytes]) };
                assert_refused(&case, 1, 0);
            }
        }
        // With 16,384 it is done, without a word too.
        assert_eq!(outcome(&on_bytes(&case, &[7; 16384])).refusal, 0);
        assert_eq!(outcome(&Case { words: Vec::new(), ..case }).refusal, 1);
    }
    // A fresh is closed, and 16 comes before.
    let closed = |refusal, case: &Case| Outcome { refusal, record: Record::default(), ..untouched(case) };
    let mut case = on_bytes(&base(Call::Fresh, 0), &[7; 16383]);
    assert_eq!(outcome(&case), closed(1, &case));
    case.record.settings.limit = 129;
    assert_eq!(outcome(&case), closed(16, &case));
    case = on_bytes(&case, &[7; 16384]);
    assert_eq!(outcome(&case), closed(16, &case));
}

#[test]
fn unsound_records_leave_the_bytes() {
    for mut case in calls() {
        case.record.controllers[0].ranges[1].length = 0;
        assert_refused(&on_bytes(&case, &all_pending()), 1, 0);
        case.record.controllers[0].ranges[1].length = 2;
        case.record.controllers[2].base = 65535;
        assert_refused(&on_bytes(&case, &all_pending()), 1, 0);
    }
}

#[test]
fn notes_leave_what_is_pending() {
    // READINGS W9: page 17 holds 80h, and a write of pages 17 and 18 counts 18 alone.
    let mut bytes = vec![0; 16384];
    bytes[1] = 0x80;
    let mut case = on_bytes(&base(Call::Write { address: 69632, bytes: 8192 }, 5), &bytes);
    bytes[2] = 1;
    assert_eq!(assert_leaves(&case, &bytes).count, 1);
    // A batch: page 17 twice, page 16, and all of 6, which isn't tracked; then page 0, of which 7 is left.
    case = on_bytes(&base(batch(&[(5, 69632, 1), (5, 69632, 1), (5, 65536, 1), (6, 0, 9), (5, 0, 1)]), 0), &bytes);
    case.plain.as_mut().unwrap().bytes[4] = 7;
    bytes[0] = 1;
    bytes[4] = 7;
    let after = assert_leaves(&case, &bytes);
    assert_eq!((after.notes_done, after.count, after.cut), (5, 1, 0));
    // With every value from 1 to 255 in every unit of 5 a write of all counts none.
    for value in 1..=255 {
        let case = on_bytes(&base(Call::Write { address: 0, bytes: u64::MAX }, 5), &[value; 16384]);
        assert_eq!(assert_leaves(&case, &[value; 16384]).count, 0);
    }
}

#[test]
fn reported_bytes_are_0() {
    // Pages 17 and 18, and page 0: two runs, of which 47 bytes hold one. Then all four bytes of the first range.
    let mut bytes = all_pending();
    for (byte, value) in [0, 0x80, 255, 0, 9, 0].iter().enumerate() {
        bytes[byte] = *value;
    }
    let mut case = on_bytes(&base(Call::Receive, 5), &bytes);
    case.data = vec![170; 47];
    bytes[1] = 0;
    bytes[2] = 0;
    let after = assert_leaves(&case, &bytes);
    assert_eq!(after.report, [0, 1, 0, 1]);
    assert_eq!(after.data[16..32], [0, 16, 1, 0, 0, 0, 0, 0, 2, 0, 0, 0, 0, 0, 0, 0]);
    // Both runs, of which the first is all of its range now. The bytes behind 5's share stay.
    let mut bytes = all_pending();
    let mut case = on_bytes(&base(Call::Receive, 5), &bytes);
    case.data = vec![170; 48];
    bytes[..6].copy_from_slice(&[0; 6]);
    assert_eq!(assert_leaves(&case, &bytes).report, [0, 0, 0, 2]);
}

#[test]
fn a_start_moves_bytes_as_they_are() {
    // 5's six stay, 6's one is clear, and 7's three are those from 8192 on, which is 32 times 255 and 32; all behind them
    // is 0.
    let bytes = all_pending();
    let mut moved = vec![0; 16384];
    moved[..10].copy_from_slice(&[1, 2, 3, 4, 5, 6, 0, 33, 34, 35]);
    let after = assert_leaves(&on_bytes(&calls()[0], &bytes), &moved);
    assert_eq!((after.record.controllers[1].base, after.record.controllers[2].base), (6, 7));
    // Shares that change their order: 5 lies behind 7, and 6 starts with two pages.
    let mut case = base(Call::Start, 6);
    share(&mut case.record, 0, 300, 3);
    share(&mut case.record, 2, 299, 1);
    case.data = structure_bytes(0, &[Range { start: 0, length: 2 }]);
    let mut moved = vec![0; 16384];
    moved[..6].copy_from_slice(&[46, 47, 48, 0, 0, 45]);
    assert_leaves(&on_bytes(&case, &bytes), &moved);
    // What was clear is clear, and isn't 1.
    let mut few = bytes;
    few[301] = 0;
    moved[1] = 0;
    assert_leaves(&on_bytes(&case, &few), &moved);
    // A refused one moves nothing.
    case.data = structure_bytes(0, &[Range { start: 0, length: 16381 }]);
    assert_refused(&on_bytes(&case, &few), 11, 0);
}

#[test]
fn bytes_after_the_other_calls() {
    // A stop clears its share alone, here one across the bytes 299 to 302, and moves nothing.
    let mut case = base(Call::Stop, 5);
    share(&mut case.record, 0, 299, 4);
    let mut bytes = all_pending();
    bytes[299..303].copy_from_slice(&[0; 4]);
    assert_leaves(&on_bytes(&case, &all_pending()), &bytes);
    // A fresh clears all.
    assert_leaves(&on_bytes(&base(Call::Fresh, 0), &all_pending()), &[0; 16384]);
    // Suspend, resume, a part and the calls of a queue leave all.
    for place in &[4, 5, 7, 8, 9, 10] {
        assert_leaves(&on_bytes(&calls()[*place], &all_pending()), &all_pending());
    }
}

/// W10: "numbered from the controller's unit 0", wherever its share lies, on both engines.
#[test]
fn groups_at_any_base() {
    // Units 0 and 59 of 100, with room for one run; then with room for two, where no run is left.
    for base_bit in [0, 4, 5, 63, 64, 8000, 16284].iter() {
        let mut case = base(Call::Receive, 5);
        share(&mut case.record, 0, *base_bit, 100);
        case.words = words_of(&[*base_bit as usize, *base_bit as usize + 59]);
        for (buffer, groups) in [(32, 1), (47, 1), (48, 2), (1024, 2), (31, 0)].iter() {
            case.data = vec![170; *buffer];
            let bytes: Vec<u8> = bits_of(&case.words).iter().map(|bit| 77 * u8::from(*bit)).collect();
            assert_eq!(outcome(&case).groups, *groups, "{} {}", base_bit, buffer);
            assert_eq!(outcome(&on_bytes(&case, &bytes)).groups, *groups, "{} {}", base_bit, buffer);
        }
    }
}

#[test]
fn calls_without_groups() {
    for case in calls().iter().filter(|case| case.call != Call::Receive) {
        assert_eq!((outcome(case).refusal, outcome(case).groups), (0, 0));
    }
}

/// Bytes of which those are 0 whose bit is clear.
fn random_bytes(random: &mut Random, words: &[u64]) -> Vec<u8> {
    bits_of(words).iter().map(|bit| if *bit { 1 + random.below(255) as u8 } else { 0 }).collect()
}

/// W9: "both engines meet every sequence of calls with the same answers, refusals, counts and report bytes". The bytes that
/// aren't 0 after a call are those whose bits are set. A done start leaves every share's bytes as they were, wherever that is
/// now; of any other call a byte stays, becomes 0, or was 0 and becomes 1.
#[test]
fn both_engines_answer_the_same() {
    let mut random = Random(9);
    let mut met = [0; 35];
    for _ in 0..40 {
        let mut words: Vec<u64> = (0..256).map(|word| 0x8e5a_0f3c_7001_c0d1_u64.rotate_left(word)).collect();
        let mut bytes = random_bytes(&mut random, &words);
        let mut record = base(Call::Fresh, 0).record;
        record.settings.limit = 3 + random.below(3) as u64;
        record.settings.second = Some(Manager { id: 2, limit: 2 + random.below(2) as u64 });
        record.settings.shelf = 3 + random.below(4) as u64;
        for _ in 0..60 {
            let id = 5 + random.below(3) as u64;
            let page = 4096 * random.below(40) as u64;
            let (address, length) = (page, 1 + 4096 * random.below(9) as u64);
            let mut case = match random.below(12) {
                0..=2 => base(Call::Start, id),
                3 | 4 => base(Call::Stop, id),
                5 | 6 => base(Call::Write { address, bytes: length }, id),
                7 => base(Call::Receive, id),
                8 => base(Call::Suspend { kind: 1 }, id),
                9 | 10 => base(Call::Resume, id),
                _ => base(batch(&[(5, address, length), (id, 0, 4097), (7, address, 1)]), 0),
            };
            case.by = [1, 1, 1, 2, 2, 2, 3][random.below(7)];
            case.data = vec![170; 64];
            if case.call == Call::Start {
                let length = [3, 130, 9000, 16380][random.below(4)];
                case.data = structure_bytes(0, &[Range { start: page, length }, Range { start: 0, length: 3 }]);
            }
            case.record = record;
            case.words = words;
            let after = outcome(&case);
            let plain = outcome(&on_bytes(&case, &bytes));
            let bytes_after = plain.plain.clone().unwrap().bytes;
            let pending: Vec<bool> = bytes_after.iter().map(|byte| *byte != 0).collect();
            assert_eq!(pending, bits_of(&after.words));
            assert_eq!(Outcome { words: after.words.clone(), plain: None, ..plain }, after);
            if after.refusal == 0 && case.call == Call::Start {
                for (before, now) in case.record.controllers.iter().zip(&after.record.controllers) {
                    let share = |bytes: &[u8], base| bytes[base as usize..][..units(before).count()].to_vec();
                    assert_eq!(share(&bytes_after, now.base), share(&bytes, before.base));
                }
            } else {
                for (before, byte) in bytes.iter().zip(&bytes_after) {
                    assert!(byte == before || *byte == 0 || (*before, *byte) == (0, 1), "{} {}", before, byte);
                }
            }
            met[after.refusal as usize] += 1;
            record = after.record;
            words = after.words;
            bytes = bytes_after;
        }
    }
    for refusal in [0, 2, 3, 4, 5, 11, 12, 13, 34].iter() {
        assert!(met[*refusal] > 10, "{}: {}", refusal, met[*refusal]);
    }
}

// ---------------------------------------------------------------------------------------------------------------
// Two managers (W12)
// ---------------------------------------------------------------------------------------------------------------

/// There is a second manager, 2, with limit 4, and the shelf's limit is 18. Manager 1 tracks 5 and 7 with 2 ranges and with 1.
fn two_managers(record: &mut Record) {
    record.settings.second = Some(Manager { id: 2, limit: 4 });
    record.settings.shelf = 18;
}

/// The controller in this place is tracked by this manager, with so many ranges of one page.
fn tracked_by(record: &mut Record, place: usize, by: u64, count: usize) {
    record.controllers[place].tracking = Tracking::On { granularity: 0, count: count as u64 };
    record.controllers[place].manager = by;
    record.controllers[place].base = 1000 * place as u64;
    record.controllers[place].ranges = Default::default();
    for (row, range) in record.controllers[place].ranges.iter_mut().enumerate().take(count) {
        *range = Range { start: 8192 * row as u64, length: 1 };
    }
}

/// The calls that name their manager are the first, second, fourth to sixth and eighth of the eleven.
const NAME_A_MANAGER: [usize; 6] = [0, 1, 3, 4, 5, 7];

#[test]
fn settings_of_managers_at_and_past_their_limits() {
    assert_sound(&two_managers);
    for (id, limit, good) in [
        (2, 0, true),
        (2, 128, true),
        (2, 129, false),
        (2, 65535, false),
        (0, 4, true),
        (65535, 4, true),
        (1, 0, false),
        (1, 4, false),
        (1, 16, false),
        (5, 4, false),
        (6, 0, false),
        (7, 4, false),
        (8, 4, true),
    ]
    .iter()
    {
        let change = |record: &mut Record| record.settings.second = Some(Manager { id: *id, limit: *limit });
        let check = if *good { assert_sound } else { assert_unsound };
        check(&change);
        // So of a fresh: 16, and the closed device.
        let mut case = base(Call::Fresh, 0);
        change(&mut case.record);
        let after = outcome(&case);
        assert_eq!(after.refusal, if *good { 0 } else { 16 });
        assert_eq!(after.record.settings, if *good { case.record.settings } else { Settings::default() });
    }
    // 3 ranges are tracked, and the start asks for one more.
    for shelf in [4, 16, 127, 128].iter() {
        assert_sound(&|record| record.settings.shelf = *shelf);
    }
    assert_start_refused(&|record| record.settings.shelf = 3, 34);
    for shelf in [0, 2, 129, 256, 65535].iter() {
        assert_unsound(&|record| record.settings.shelf = *shelf);
    }
    // Both limits are passed: 12.
    assert_start_refused(
        &|record| {
            record.settings.limit = 3;
            record.settings.shelf = 3;
        },
        12,
    );
    // A name in an unused place is none.
    assert_sound(&|record| {
        record.settings.second = Some(Manager { id: 9, limit: 4 });
        record.settings.identifiers[3] = 9;
    });
}

#[test]
fn fresh_devices_of_managers() {
    let mut case = base(Call::Fresh, 0);
    two_managers(&mut case.record);
    rubbish(&mut case.record);
    let after = outcome(&case);
    assert_eq!((after.refusal, after.record.settings.second), (0, Some(Manager { id: 2, limit: 4 })));
    assert_eq!((after.record.settings.shelf, after.record.settings.limit), (18, 16));
    assert!(after.record.controllers.iter().all(|controller| *controller == Controller::default()));
    // Whatever stands there as the caller.
    for by in [0, 2, 3, 65535].iter() {
        assert_eq!(outcome(&Case { by: *by, ..case.clone() }), after);
    }
    case.record.settings.shelf = 129;
    let closed = Outcome { refusal: 16, record: Record::default(), ..untouched(&case) };
    assert_eq!(outcome(&case), closed);
    case.words.pop();
    assert_eq!(outcome(&case).refusal, 16, "before 1");
    case.record.settings.shelf = 0;
    assert_eq!(outcome(&case).refusal, 1);
}

#[test]
fn who_tracks_whom() {
    for by in [0, 2, 3, 5, 6, 257, 65535].iter() {
        for place in [0, 2].iter() {
            assert_unsound(&|record| record.controllers[*place].manager = *by);
        }
        // Off, and in an unused place, it isn't looked at.
        assert_sound(&|record| record.controllers[1].manager = *by);
        assert_sound(&|record| tracked_by(record, 3, *by, 16));
    }
    // READINGS W12: 5 tracked by 3; 6 tracked by 2 with 5 ranges; 16 and 4. A start of 6 is 3 then.
    let worked = |tracked: [(u64, usize); 3]| {
        move |record: &mut Record| {
            two_managers(record);
            for (place, (by, count)) in tracked.iter().enumerate() {
                tracked_by(record, place, *by, *count);
            }
        }
    };
    assert_unsound(&worked([(3, 10), (2, 4), (1, 1)]));
    assert_unsound(&worked([(1, 10), (2, 5), (1, 1)]));
    assert_unsound(&worked([(1, 15), (2, 4), (1, 1)]));
    assert_unsound(&worked([(1, 14), (2, 4), (1, 1)]));
    assert_start_refused(&worked([(1, 13), (2, 4), (1, 1)]), 3);
    assert_start_refused(&worked([(1, 15), (2, 2), (1, 1)]), 3);
    assert_unsound(&worked([(1, 16), (2, 1), (1, 1)]));
    assert_unsound(&worked([(1, 15), (2, 3), (1, 1)]));
    // Without the second manager, and with another one in its place.
    assert_unsound(&|record| {
        worked([(1, 1), (2, 1), (1, 1)])(record);
        record.settings.second = None;
    });
    assert_unsound(&|record| {
        worked([(1, 1), (2, 1), (1, 1)])(record);
        record.settings.second = Some(Manager { id: 3, limit: 4 });
    });
}

#[test]
fn callers_that_are_unknown() {
    for by in [0, 3, 5, 6, 257, 258, 65535].iter() {
        for (number, mut case) in calls().into_iter().enumerate() {
            two_managers(&mut case.record);
            rubbish(&mut case.record);
            let known = outcome(&case);
            assert_eq!(known.refusal, 0);
            case.by = *by;
            if NAME_A_MANAGER.contains(&number) {
                assert_refused(&case, 2, 0);
                assert_refused(&on_bytes(&case, &all_pending()), 2, 0);
                // 1 comes first, of the record, of the words and of the bytes; and it stands before all that the call says.
                let mut short = case.clone();
                short.words.pop();
                assert_refused(&short, 1, 0);
                assert_refused(&on_bytes(&case, &[7; 16383]), 1, 0);
                let mut unsound = case.clone();
                unsound.record.controllers[0].manager = 3;
                assert_refused(&unsound, 1, 0);
                let mut bad = case.clone();
                bad.data = Vec::new();
                for id in [1, 2, 5, 6, 7, 9].iter() {
                    bad.id = *id;
                    assert_refused(&bad, 2, 0);
                }
            } else {
                // The others are as they were.
                assert_eq!(outcome(&case), known);
            }
        }
    }
    // A state area that isn't 4,096 bytes is 1 before it.
    let mut case = part(1, 0, &[1, 2, 3, 4]);
    case.by = 3;
    assert_refused(&case, 2, 0);
    case.area.pop();
    assert_refused(&case, 1, 0);
}

#[test]
fn calls_by_the_other_manager() {
    for (number, mut case) in calls().into_iter().enumerate() {
        two_managers(&mut case.record);
        let by_1 = outcome(&case);
        case.by = 2;
        match case.call {
            Call::Start => {
                let mut expected = by_1;
                expected.record.controllers[1].manager = 2;
                assert_eq!(outcome(&case), expected);
            }
            Call::Stop | Call::Receive => assert_refused(&case, 5, 0),
            _ => assert_eq!(outcome(&case), by_1, "{}", number),
        }
    }
    // Short buffers are 5 too, and a stop of a suspended one is 4.
    let mut case = base(Call::Receive, 5);
    two_managers(&mut case.record);
    case.by = 2;
    for bytes in [0, 16, 31, 32, 1024].iter() {
        case.data = vec![170; *bytes];
        assert_refused(&case, 5, 0);
    }
    let mut case = base(Call::Stop, 7);
    two_managers(&mut case.record);
    for by in [1, 2].iter() {
        case.by = *by;
        assert_refused(&case, 4, 0);
    }
    // A manager is no controller.
    for id in [1, 2].iter() {
        for by in [1, 2].iter() {
            for case in calls() {
                let mut case = Case { by: *by, id: *id, ..case };
                two_managers(&mut case.record);
                if !matches!(case.call, Call::Batch(_)) {
                    assert_refused(&case, 2, 0);
                }
            }
        }
    }
}

#[test]
fn worked_starts_of_two_managers() {
    // READINGS W12: 1 tracks 5 with 10 ranges, and 6 and 7 are off.
    let start = |by: u64, id: u64, count: usize, of_6: usize| {
        let mut case = base(Call::Start, id);
        two_managers(&mut case.record);
        rubbish(&mut case.record);
        tracked_by(&mut case.record, 0, 1, 10);
        case.record.controllers[2] = Controller { manager: 9, ..Controller::default() };
        if of_6 > 0 {
            tracked_by(&mut case.record, 1, 2, of_6);
        }
        let ranges: Vec<Range> = (0..count).map(|row| Range { start: 8192 * row as u64, length: 1 }).collect();
        case.data = structure_bytes(0, &ranges);
        case.words = vec![u64::MAX; 256];
        case.by = by;
        case
    };
    for (by, id, count, of_6, refusal) in [
        (2, 5, 1, 0, 3),
        (1, 5, 1, 0, 3),
        (3, 6, 1, 0, 2),
        (2, 6, 5, 0, 12),
        (1, 6, 7, 0, 12),
        (1, 7, 7, 4, 12),
        (1, 7, 6, 4, 34),
        (1, 7, 5, 4, 34),
        (2, 7, 1, 4, 12),
    ]
    .iter()
    {
        let case = start(*by, *id, *count, *of_6);
        assert_refused(&case, *refusal, 0);
        assert_refused(&on_bytes(&case, &all_pending()), *refusal, 0);
    }
    for (by, id, count, of_6) in [(2, 6, 4, 0), (1, 6, 6, 0), (1, 7, 4, 4)].iter() {
        let case = start(*by, *id, *count, *of_6);
        let after = outcome(&case);
        assert_eq!(after.refusal, 0);
        // The manager that started is there, and the others are as they were.
        let managers = |record: &Record| -> Vec<u64> { record.controllers.iter().map(|one| one.manager).collect() };
        let mut expected = managers(&case.record);
        expected[*id as usize - 5] = *by;
        assert_eq!(managers(&after.record), expected);
        let plain = outcome(&on_bytes(&case, &all_pending()));
        assert_eq!((plain.refusal, plain.record), (0, after.record));
    }
    // A stop leaves 0 there.
    let mut case = start(2, 6, 1, 4);
    case.call = Call::Stop;
    let mut expected = untouched(&case);
    expected.record.controllers[1] = Controller::default();
    expected.words[15] &= !(0b1111 << 40);
    assert_eq!(outcome(&case), expected);
    case.by = 1;
    assert_refused(&case, 5, 0);
}

// ---------------------------------------------------------------------------------------------------------------
// The form
// ---------------------------------------------------------------------------------------------------------------

/// A whole case with each field's bytes at its offset in tests/RECORDS.md.
fn case_bytes() -> Vec<u8> {
    let mut bytes = vec![0; CASE_BYTES];
    let fields: [(usize, &[u8]); 36] = [
        (0, &[1, 2]),                           // manager
        (2, &[3]),                              // least
        (3, &[4]),                              // greatest
        (4, &[1]),                              // rule
        (5, &[5, 6]),                           // limit
        (7, &[1, 73, 74, 75, 76]),              // a second manager, and its limit
        (12, &[77, 78]),                        // the shelf's limit
        (14, &[7, 0, 0, 0, 0, 0, 0, 8]),        // count
        (22, &[9, 10]),                         // the first identifier
        (36, &[11, 12]),                        // the last identifier
        (38, &[1, 13, 14, 1]),                  // the first controller
        (42, &[51, 52]),                        // its base
        (44, &[79, 80]),                        // its manager
        (46, &[1, 57, 58]),                     // its queue, and that one's size
        (49, &[59, 0, 0, 60, 61, 0, 0, 62]),    // the totals, posted and taken
        (57, &[63, 64, 1]),                     // its place, and that it is stopped
        (60, &[15, 0, 0, 0, 0, 0, 0, 16]),      // the first controller's first start
        (68, &[17, 0, 0, 18]),                  // its first length
        (252, &[1, 19, 20, 0, 53, 54, 81, 82]), // the second controller
        (1540, &[55, 56, 83, 84]),              // the last controller's base and manager
        (1544, &[1, 65, 0, 0, 0, 0, 66]),       // its queue, whose size and posted total are of a byte each
        (1551, &[67, 0, 0, 0, 68, 0, 0]),       // the taken total, the place, and that it isn't stopped
        (1738, &[21, 0, 0, 0, 0, 0, 0, 22]),    // the last controller's last start
        (1746, &[23, 0, 0, 24]),                // the last length
        (1750, &[1, 37, 38, 39, 40]),           // an open sequence, its owner and its end
        (1755, &[1, 1]),                        // 257 words
        (1757, &[25, 0, 0, 0, 0, 0, 0, 26]),    // their mark
        (1765, &[3, 85, 86, 27, 28]),           // a write, the manager that calls, and of which identifier
        (1770, &[29, 0, 0, 0, 0, 0, 0, 30]),    // address
        (1778, &[31, 0, 0, 0, 0, 0, 0, 32]),    // bytes
        (1786, &[33, 3, 0, 34, 35, 36, 99]),    // type, 3 lent bytes, and one that isn't lent
        (2815, &[41, 42, 0, 0, 43]),            // a part's indicator, and its offset's lower word
        (2820, &[44, 0, 0, 45, 46, 0, 0, 47]),  // the upper word, and the count
        (2828, &[70, 0, 48, 49]),               // 70 bytes of area, their fill, and the first of its front
        (2894, &[50]),                          // the last of its front
        (2895, &[69, 0, 0, 70, 71, 72]),        // how many entries are asked for, and the first byte shown
    ];
    for (at, field) in &fields {
        bytes[*at..*at + field.len()].copy_from_slice(field);
    }
    bytes
}

/// A number of 8 bytes, zeros save the lowest and the highest.
fn high(lowest: u64, highest: u64) -> u64 {
    lowest + highest * 72057594037927936
}

#[test]
fn fields_at_their_offsets() {
    let case = read_case(&case_bytes()).unwrap();
    let settings = Settings {
        manager: 513,
        least: 3,
        greatest: 4,
        rule: 1,
        limit: 1541,
        second: Some(Manager { id: 19017, limit: 19531 }),
        shelf: 20045,
        number: high(7, 8),
        identifiers: [2569, 0, 0, 0, 0, 0, 0, 3083],
    };
    assert_eq!(case.record.settings, settings);
    let first = &case.record.controllers[0];
    assert_eq!((first.tracking, first.suspended), (Tracking::On { granularity: 13, count: 14 }, true));
    assert_eq!(first.ranges[0], Range { start: high(15, 16), length: 301989905 });
    let second = &case.record.controllers[1];
    assert_eq!((second.tracking, second.suspended), (Tracking::On { granularity: 19, count: 20 }, false));
    assert_eq!(case.record.controllers[7].ranges[15], Range { start: high(21, 22), length: 402653207 });
    let bases: Vec<u64> = case.record.controllers.iter().map(|controller| controller.base).collect();
    assert_eq!(bases, [13363, 13877, 0, 0, 0, 0, 0, 14391]);
    let managers: Vec<u64> = case.record.controllers.iter().map(|controller| controller.manager).collect();
    assert_eq!(managers, [20559, 21073, 0, 0, 0, 0, 0, 21587]);
    let stopped = Queue { stopped: true, ..queue(14905, 1006633019, 1040187453, 16447) };
    let mut queues = [None; 8];
    queues[0] = Some(stopped);
    queues[7] = Some(queue(65, 1107296256, 67, 68));
    assert_eq!(case.record.controllers.iter().map(|controller| controller.queue).collect::<Vec<_>>(), queues);
    assert_eq!((case.words.len(), case.words[0]), (257, high(25, 26)));
    assert_eq!(case.call, Call::Write { address: high(29, 30), bytes: high(31, 32) });
    assert_eq!((case.by, case.id, case.data), (22101, 7195, vec![34, 35, 36]));
    assert_eq!(case.record.sequence, Sequence::Open { owner: 9765, end: 10279 });
    // Only a part and the calls of a queue have an area, and of a queue's alone a byte is named from which on it is shown.
    assert_eq!((case.area, case.shown), (vec![], 0));
}

#[test]
fn words_of_a_mark() {
    // Rotated by 0 to 3 the lowest byte and the highest have room: 25 and 26, doubled each time.
    let words = read_case(&case_bytes()).unwrap().words;
    assert_eq!(words[..4], [high(25, 26), high(50, 52), high(100, 104), high(200, 208)]);
    // Then each loses its highest bit to the byte above it: 16 times 25 is 256 and 144, 16 times 26 is 256 and 160.
    assert_eq!(words[4], high(145, 160) + 256);
    // Rotated by 63: halved, and what is left over of 25 is the highest bit.
    assert_eq!(words[63], high(12, 13 + 128));
    assert_eq!(words[64..256], [&words[..64], &words[..64], &words[..64]].concat()[..]);
    assert_eq!(words[256], high(25, 26));
    // Zeros and ones stay as they are.
    for byte in [0, 255].iter() {
        let mut bytes = case_bytes();
        bytes[1757..1765].copy_from_slice(&[*byte; 8]);
        assert_eq!(read_case(&bytes).unwrap().words, vec![if *byte == 0 { 0 } else { u64::MAX }; 257]);
    }
    // A bit is in each word one place higher, and in word 64 where it was.
    let mut bytes = case_bytes();
    bytes[1757..1765].copy_from_slice(&[1, 0, 0, 0, 0, 0, 0, 0]);
    let words = read_case(&bytes).unwrap().words;
    assert_eq!((words[0], words[1], words[63], words[64], words[65]), (1, 2, 1 << 63, 1, 2));
}

#[test]
fn fields_of_a_part() {
    let mut bytes = case_bytes();
    bytes[1765] = 8;
    let case = read_case(&bytes).unwrap();
    assert_eq!(case.call, Call::Part { indicator: 41, low: 721420330, high: 754974764, count: 788529198 });
    assert_eq!((case.id, case.data), (7195, vec![34, 35, 36]));
    // The 64 of the front, and the fill in each of six more.
    let mut area = vec![49];
    area.resize(63, 0);
    area.push(50);
    area.resize(70, 48);
    assert_eq!((case.area, case.shown), (area, 0));
    // Areas no longer than the front, and as long as can be.
    for (length, low, high) in [(0, 0, 0), (1, 1, 0), (63, 63, 0), (64, 64, 0), (4200, 104, 16)].iter() {
        bytes[2828] = *low;
        bytes[2829] = *high;
        let mut expected = [vec![49], vec![0; 62], vec![50], vec![48; 4136]].concat();
        expected.truncate(*length);
        assert_eq!(read_case(&bytes).unwrap().area, expected);
    }
}

#[test]
fn fields_of_a_queue() {
    let mut bytes = case_bytes();
    for (number, call) in [Call::MakeQueue, Call::Post, Call::Take { asked: 1174405189 }].iter().enumerate() {
        bytes[1765] = 9 + number as u8;
        let case = read_case(&bytes).unwrap();
        assert_eq!(case.call, *call);
        assert_eq!((case.id, case.data, case.shown), (7195, vec![34, 35, 36], 18503));
        // The 64 of the front, and the fill and 2 in each of six more.
        let mut area = vec![49];
        area.resize(63, 0);
        area.push(50);
        area.resize(70, 50);
        assert_eq!(case.area, area);
    }
    // Areas no longer than the front, longer than a state area, and as long as can be.
    bytes[2830] = 250;
    for (length, low, high) in
        [(0, 0, 0), (1, 1, 0), (64, 64, 0), (65, 65, 0), (4201, 105, 16), (32768, 0, 128), (32800, 32, 128)].iter()
    {
        bytes[2828] = *low;
        bytes[2829] = *high;
        let mut expected = [vec![49], vec![0; 62], vec![50]].concat();
        // 252 to 255 in places 2 to 5, 0 in place 6, and 250 + 1024 = 4 * 256 + 250 in place 1024.
        for place in 2..1025 {
            expected.extend(vec![((250 + place) % 256) as u8; 32]);
        }
        assert_eq!(
            (expected[64], expected[160], expected[191], expected[192], expected[32799]),
            (252, 255, 255, 0, 250)
        );
        expected.truncate(*length);
        assert_eq!(read_case(&bytes).unwrap().area, expected);
    }
}

/// The same with so many bytes lent to the plain engine, and this value.
fn plain_bytes(units: u64, value: u8) -> Vec<u8> {
    let mut bytes = case_bytes();
    bytes[2901..2905].copy_from_slice(&[1, (units % 256) as u8, (units / 256) as u8, value]);
    bytes
}

#[test]
fn fields_of_the_plain_engine() {
    assert_eq!(read_case(&case_bytes()).unwrap().plain, None);
    // The mark is 25 and 26 in its lowest byte and its highest: bits 0, 3 and 4, and 57, 59 and 60. In the next word each is
    // one higher, and so is each in word 64 than in word 63, where they are 63, 2 and 3, and 56, 58 and 59.
    let case = read_case(&plain_bytes(4100, 200)).unwrap();
    assert_eq!((case.words, case.call), (vec![], Call::Write { address: high(29, 30), bytes: high(31, 32) }));
    let plain = case.plain.unwrap();
    assert_eq!((plain.bytes.len(), plain.shown), (4100, Some(18503)));
    let pending: Vec<usize> = (0..4100).filter(|unit| plain.bytes[*unit] != 0).collect();
    assert_eq!(pending[..12], [0, 3, 4, 57, 59, 60, 65, 68, 69, 122, 124, 125]);
    assert_eq!(pending[pending.len() - 8..], [4034, 4035, 4088, 4090, 4091, 4095, 4096, 4099]);
    // 200 and the number of the unit, from 255 on again from 0, and 1.
    let values: Vec<u8> = pending[..6].iter().map(|unit| plain.bytes[*unit]).collect();
    assert_eq!(values, [201, 204, 205, 3, 5, 6]);
    assert_eq!((plain.bytes[4091], plain.bytes[4095], plain.bytes[4096]), (212, 216, 217));

    // All ones: every value in turn. 255 as the value is as 0.
    for (value, first) in [(0, [1, 2]), (1, [2, 3]), (253, [254, 255]), (254, [255, 1]), (255, [1, 2])].iter() {
        let mut bytes = plain_bytes(32768, *value);
        bytes[1757..1765].copy_from_slice(&[255; 8]);
        let lent = read_case(&bytes).unwrap().plain.unwrap().bytes;
        assert_eq!((lent.len(), lent[..2].to_vec()), (32768, first.to_vec()));
        assert_eq!(lent[255..], lent[..32513]);
        assert_eq!(lent[..255].iter().collect::<std::collections::BTreeSet<_>>().len(), 255);
        assert!(!lent.contains(&0));
    }
    // None.
    assert_eq!(read_case(&plain_bytes(0, 9)).unwrap().plain, Some(Plain { bytes: vec![], shown: Some(18503) }));
    // Words are not looked at, not even where there are too many.
    let mut bytes = plain_bytes(64, 9);
    let case = read_case(&bytes);
    bytes[1755..1757].copy_from_slice(&[255, 255]);
    assert_eq!(read_case(&bytes), case);
    // A part and the calls of a queue show their own area.
    for call in 0..12 {
        let mut bytes = plain_bytes(64, 9);
        bytes[1765] = call;
        bytes[1787] = if call == 7 { 0 } else { 3 };
        let case = read_case(&bytes).unwrap();
        assert_eq!(case.plain.unwrap().shown, if call < 8 { Some(18503) } else { None });
        assert_eq!(case.shown, if call < 9 { 0 } else { 18503 });
    }
}

#[test]
fn data_of_a_part() {
    // 4,100 bytes, of which the case has room for 1,024: the others are zeros.
    let mut bytes = case_bytes();
    bytes[1765] = 8;
    bytes[1787] = 4;
    bytes[1788] = 16;
    bytes[2812] = 98;
    let mut expected = vec![34, 35, 36, 99];
    expected.resize(1023, 0);
    expected.push(98);
    expected.resize(4100, 0);
    assert_eq!(read_case(&bytes).unwrap().data, expected);
    bytes[1787] = 5;
    assert_eq!(read_case(&bytes), None, "4,101 bytes");
}

#[test]
fn record_is_written_as_it_was_read() {
    let bytes = case_bytes();
    assert_eq!(record_bytes(&read_case(&bytes).unwrap().record), bytes[..1755].to_vec());
    assert_eq!(record_bytes(&Record::default()), vec![0; 1755]);
}

#[test]
fn each_call_by_its_number() {
    let mut bytes = case_bytes();
    let write = read_case(&bytes).unwrap().call;
    for (number, call) in
        [Call::Fresh, Call::Start, Call::Stop, write, Call::Receive, Call::Suspend { kind: 33 }, Call::Resume]
            .iter()
            .enumerate()
    {
        bytes[1765] = number as u8;
        assert_eq!(read_case(&bytes).unwrap().call, *call);
    }
    assert_eq!(read_case(&batch_bytes(0, 0)).unwrap().call, Call::Batch(Vec::new()));
}

/// A batch with this many records, and as many lent bytes of two rows.
fn batch_bytes(records: u64, lent: u8) -> Vec<u8> {
    let mut bytes = case_bytes();
    bytes[1765] = 7;
    bytes[1787] = lent;
    bytes[1789..1825].copy_from_slice(&[
        1, 2, 3, 0, 0, 0, 0, 0, 0, 4, 5, 0, 0, 0, 0, 0, 0, 6, // identifier, address, bytes
        7, 8, 9, 0, 0, 0, 0, 0, 0, 10, 11, 0, 0, 0, 0, 0, 0, 12,
    ]);
    bytes[2813] = (records % 256) as u8;
    bytes[2814] = (records / 256) as u8;
    bytes
}

#[test]
fn rows_of_a_batch() {
    let call = |records, lent| read_case(&batch_bytes(records, lent)).unwrap().call;
    let first = (513, high(3, 4), high(5, 6));
    let second = (2055, high(9, 10), high(11, 12));
    assert_eq!(call(2, 36), batch(&[first, second]));
    // Record j is row j modulo the number of rows.
    assert_eq!(call(5, 36), batch(&[first, second, first, second, first]));
    assert_eq!(call(1, 36), batch(&[first]));
    assert_eq!(call(3, 18), batch(&[first; 3]));
    assert_eq!(call(1025, 18), batch(&[first; 1025]));
    // No row.
    assert_eq!(call(1025, 0), batch(&[(0, 0, 0); 1025]));
    // The rows are lent bytes like any other.
    assert_eq!(read_case(&batch_bytes(5, 36)).unwrap().data, batch_bytes(0, 0)[1789..1825].to_vec());
}

#[test]
fn bytes_that_are_no_batch() {
    // 1,026 records; rows that aren't whole.
    assert_eq!(read_case(&batch_bytes(1026, 18)), None);
    for lent in [1, 17, 19, 35].iter() {
        assert_eq!(read_case(&batch_bytes(1, *lent)), None, "{}", lent);
    }
}

#[test]
fn bytes_that_are_no_case() {
    // Rule 2, second manager 2, none with an identifier and a limit or with one of them, tracking 2, off with a granularity,
    // suspended 2, queue 2, none with what only a queue has, stopped 2, sequence 2, none with an owner and an end or with one
    // of them, 513 words, call 12, 1,025 lent bytes of a write and of a post, 4,201 bytes of area, and 32,801 of a queue's;
    // engine 2, words with bytes or a value of the plain engine, 32,769 bytes.
    let damages: [&[(usize, u8)]; 33] = [
        &[(4, 2)],
        &[(7, 2)],
        &[(7, 0)],
        &[(7, 0), (8, 0), (9, 0)],
        &[(7, 0), (10, 0), (11, 0)],
        &[(38, 2)],
        &[(38, 0)],
        &[(41, 2)],
        &[(46, 2)],
        &[(46, 0)],
        &[(59, 2)],
        &[(260, 2)],
        &[(261, 1)],
        &[(266, 1)],
        &[(267, 1)],
        &[(272, 1)],
        &[(273, 1)],
        &[(1544, 0)],
        &[(1750, 2)],
        &[(1750, 0)],
        &[(1750, 0), (1751, 0), (1752, 0)],
        &[(1750, 0), (1753, 0), (1754, 0)],
        &[(1756, 2)],
        &[(1765, 12)],
        &[(1787, 1), (1788, 4)],
        &[(1765, 10), (1787, 1), (1788, 4)],
        &[(2828, 105), (2829, 16)],
        &[(1765, 11), (2828, 33), (2829, 128)],
        &[(2901, 2)],
        &[(2902, 1)],
        &[(2903, 64)],
        &[(2904, 1)],
        &[(2901, 1), (2902, 1), (2903, 128)],
    ];
    for damage in &damages {
        let mut bytes = case_bytes();
        for (at, byte) in damage.iter() {
            bytes[*at] = *byte;
        }
        assert_eq!(read_case(&bytes), None, "{:?}", damage);
    }
    assert_eq!(read_case(&[]), None);
    let mut short = case_bytes();
    short.pop();
    assert!(play(&mut &short[..], &mut Vec::new()).is_err());
}

#[test]
fn answers_at_their_offsets() {
    let case = read_case(&case_bytes()).unwrap();
    let report = [3, 4, 5, high(6, 7)];
    let numbers = Outcome { refusal: 200, row: 201, count: high(1, 2), report, ..untouched(&case) };
    let numbers = Outcome { notes_done: high(8, 9), cut: 10, whole: high(11, 12), ..numbers };
    let mut after = Outcome { stopped: true, taken: high(13, 14), closing: true, groups: high(15, 16), ..numbers };
    after.words = vec![high(25, 26); 256];
    after.words.push(high(41, 42));
    after.area = vec![97, 98, 43, 44];
    after.shown = 2;
    let mut expected = vec![0; 11131];
    let fields: [(usize, &[u8]); 12] = [
        (0, &[200, 201]),                     // refusal and row
        (2, &[1, 0, 0, 0, 0, 0, 0, 2]),       // count
        (10, &[3, 4, 5]),                     // suspended, more, granularity
        (13, &[6, 0, 0, 0, 0, 0, 0, 7]),      // number of runs
        (21, &[8, 0, 0, 0, 0, 0, 0, 9, 10]),  // notes done, and the refusal that cut the batch
        (30, &[11, 0, 0, 0, 0, 0, 0, 12]),    // whole
        (38, &[1]),                           // stopped
        (39, &[13, 0, 0, 0, 0, 0, 0, 14, 1]), // taken and closing
        (48, &[15, 0, 0, 0, 0, 0, 0, 16]),    // groups
        (3859, &[41, 0, 0, 0, 0, 0, 0, 42]),  // the last of 257 words
        (5907, &[34, 35, 36]),                // 3 lent bytes
        (6931, &[43, 44]),                    // the area, of which 2 bytes are shown
    ];
    for (at, field) in &fields {
        expected[*at..*at + field.len()].copy_from_slice(field);
    }
    expected[56..1811].copy_from_slice(&case_bytes()[..1755]);
    for word in 0..256 {
        expected[1811 + 8 * word..1819 + 8 * word].copy_from_slice(&[25, 0, 0, 0, 0, 0, 0, 26]);
    }
    assert_eq!(answer(&after), expected);
}

#[test]
fn answer_to_a_case_that_lends_the_most() {
    // 512 words answer 1. Nothing is changed, so the answer ends in all that was lent.
    let mut case = base(Call::Receive, 5);
    case.words = vec![u64::MAX; 512];
    case.data = vec![170; 1024];
    let mut expected = vec![1];
    expected.resize(56, 0);
    expected.extend_from_slice(&record_bytes(&case.record));
    expected.resize(5907, 255);
    expected.resize(6931, 170);
    expected.resize(11131, 0);
    assert_eq!(answer(&outcome(&case)), expected);
    // So with a part: of its 4,100 bytes the first 1,024 are there, and the area is.
    let mut case = part(1, 0, &[170; 4100]);
    case.words = vec![u64::MAX; 512];
    case.area = vec![85; 4200];
    expected.truncate(6931);
    expected.resize(11131, 85);
    assert_eq!(answer(&outcome(&case)), expected);
}

#[test]
fn answer_to_a_start_that_names_a_row() {
    // 32 bytes are lent: a header and two ranges, of which the second is unaligned. All words are 0.
    let case = start_with(&[(65536, 4), (4097, 1)]);
    let mut expected = vec![20, 1];
    expected.resize(56, 0);
    expected.extend_from_slice(&record_bytes(&case.record));
    expected.resize(5907, 0);
    expected.extend_from_slice(&[
        0, 0, 0, 0, 2, 0, 0, 0, // version, reserved, granularity, count
        0, 0, 1, 0, 0, 0, 0, 0, 4, 0, 0, 0, // 65536, 4
        1, 16, 0, 0, 0, 0, 0, 0, 1, 0, 0, 0, // 4097, 1
    ]);
    expected.resize(11131, 0);
    assert_eq!(answer(&outcome(&case)), expected);
}

#[test]
fn answer_to_a_start_of_the_second_manager() {
    // Controller 6 at byte 38 + 214 of the record: on, one range, running, base 6, manager 258; that of 7 is 7 now.
    let mut case = calls()[0].clone();
    case.record.settings.second = Some(Manager { id: 258, limit: 1 });
    case.by = 258;
    let given = answer(&outcome(&case));
    assert_eq!((given[0], given.len()), (0, 11131));
    assert_eq!(given[56 + 7..56 + 14], [1, 2, 1, 1, 0, 128, 0]);
    assert_eq!(given[56 + 38..56 + 38 + 8], [1, 0, 2, 0, 0, 0, 1, 0]);
    assert_eq!(given[56 + 252..56 + 252 + 8], [1, 0, 1, 0, 6, 0, 2, 1]);
    assert_eq!(given[56 + 466..56 + 466 + 8], [1, 8, 1, 1, 7, 0, 1, 0]);
    // The manager of place p is at 100 + 214p.
    assert_eq!((given[100], given[314], given[315], given[528]), (1, 2, 1, 1));
    // Its limit is 1: of two ranges it is 12, and nothing has changed.
    case.data = structure_bytes(0, &[Range { start: 0, length: 1 }; 2]);
    let given = answer(&outcome(&case));
    assert_eq!(given[0], 12);
    assert_eq!(given[56..1811], record_bytes(&case.record)[..]);
    case.record.settings.shelf = 4;
    case.record.settings.second = Some(Manager { id: 258, limit: 2 });
    assert_eq!(answer(&outcome(&case))[0], 34);
}

#[test]
fn answer_to_a_batch_that_is_cut() {
    // READINGS W4: three notes are done and two units are new, pages 17 and 18; then 2.
    let case = worked(&[(5, 69632, 1), (5, 73727, 2), (6, 0, 5), (7, 0, 1), (5, 65536, 1)]);
    let mut expected = vec![0, 0, 2];
    expected.resize(21, 0);
    expected.extend_from_slice(&[3, 0, 0, 0, 0, 0, 0, 0, 2]);
    expected.resize(56, 0);
    expected.extend_from_slice(&record_bytes(&case.record));
    expected.push(0b0110);
    expected.resize(11131, 0);
    assert_eq!(answer(&outcome(&case)), expected);
}

#[test]
fn answer_to_a_part_that_yields_a_state() {
    // The area's first 20 bytes and the data are 48 zeros; the sequence is over, and the area's other bytes are stale.
    let mut case = part(2, 20, &[0; 28]);
    case.record.sequence = Sequence::Open { owner: 7, end: 20 };
    case.area[..20].copy_from_slice(&[0; 20]);
    let mut expected = vec![0; 30];
    expected.push(48);
    expected.resize(56, 0);
    let mut record = case.record.clone();
    record.sequence = Sequence::Nothing;
    expected.extend_from_slice(&record_bytes(&record));
    expected.resize(6931 + 48, 0);
    expected.resize(6931 + 4096, 0xEE);
    expected.resize(11131, 0);
    assert_eq!(answer(&outcome(&case)), expected);
}

#[test]
fn answer_to_a_post_that_stops() {
    // The closing entry goes to place 2, of which the answer has the bytes from 80 on, and those behind it.
    let mut case = post(queue(3, 1, LAST_TOTAL, 0), &area_of(&[3, 4, 5]));
    case.shown = 80;
    let mut expected = vec![0; 38];
    expected.push(1);
    expected.resize(56, 0);
    let mut record = case.record.clone();
    record.controllers[1].queue = Some(stopped(queue(3, 2, LAST_TOTAL, 0)));
    expected.extend_from_slice(&record_bytes(&record));
    expected.resize(5907, 0);
    expected.resize(5907 + 32, 99);
    expected.resize(6931, 0);
    expected.resize(6931 + 16, 255);
    expected.resize(11131, 0);
    assert_eq!(answer(&outcome(&case)), expected);
    // The queue's 14 bytes, at 56 + 38 + 214 + 8.
    assert_eq!(expected[316..330], [1, 3, 0, 2, 0, 0, 0, 255, 255, 255, 255, 0, 0, 1]);
}

#[test]
fn answer_to_a_take_that_closes() {
    // Two entries, then 6 bytes as they were; of the area all but its first byte.
    let mut case = take(stopped(queue(3, 3, 1, 1)), &area_of(&[3, 4, 5]), 258, 70);
    case.shown = 1;
    let mut expected = vec![0; 39];
    expected.extend_from_slice(&[2, 0, 0, 0, 0, 0, 0, 0, 1]);
    expected.resize(56, 0);
    let mut record = case.record.clone();
    record.controllers[1].queue = Some(stopped(queue(3, 3, 3, 0)));
    expected.extend_from_slice(&record_bytes(&record));
    expected.resize(5907, 0);
    expected.extend_from_slice(&area_of(&[4, 5]));
    expected.extend_from_slice(&[170; 6]);
    expected.resize(6931, 0);
    expected.extend_from_slice(&area_of(&[3, 4, 5])[1..]);
    expected.resize(11131, 0);
    assert_eq!(answer(&outcome(&case)), expected);
}

#[test]
fn answers_that_show_an_area() {
    // 32,800 bytes: 4,200 of them from each byte on, or as many as there are.
    let area: Vec<u8> = (0..32800u32).map(|byte| (byte % 251) as u8).collect();
    let mut case = queue_call(Call::MakeQueue, &area);
    for shown in [0, 1, 31, 28599, 28600, 28601, 32799, 32800, 32801, 65535].iter() {
        case.shown = *shown;
        let mut expected: Vec<u8> = area.iter().cloned().skip(*shown).take(4200).collect();
        expected.resize(4200, 0);
        let given = answer(&outcome(&case));
        assert_eq!((given[0], given.len()), (28, 11131));
        assert_eq!(given[6931..], expected[..]);
    }
}

#[test]
fn answers_of_the_plain_engine() {
    // 200 bytes answer 1. Those that aren't 0 are bits: 0, 1 and 63, then 64 and 199, in words 0, 1 and 3.
    let mut lent = vec![0; 200];
    for (byte, value) in [(0, 1), (1, 255), (63, 128), (64, 2), (199, 77)].iter() {
        lent[*byte] = *value;
    }
    let mut case = on_bytes(&base(Call::Receive, 5), &lent);
    case.data = vec![170; 1024];
    for shown in [0, 1, 63, 199, 200, 201, 65535].iter() {
        case.plain.as_mut().unwrap().shown = Some(*shown);
        let mut expected = vec![1];
        expected.resize(56, 0);
        expected.extend_from_slice(&record_bytes(&case.record));
        expected.extend_from_slice(&[3, 0, 0, 0, 0, 0, 0, 128, 1, 0, 0, 0, 0, 0, 0, 0]);
        expected.resize(1811 + 24, 0);
        expected.push(128);
        expected.resize(5907, 0);
        expected.resize(6931, 170);
        expected.extend(lent.iter().skip(*shown));
        expected.resize(11131, 0);
        assert_eq!(answer(&outcome(&case)), expected);
    }
    // As many as can be: all bits, and 4,200 of the bytes, from 28,568 on as far as they go.
    let lent: Vec<u8> = (0..32768u32).map(|byte| (byte % 251 + 1) as u8).collect();
    for shown in [0, 1, 12600, 28567, 28568, 28569, 32767].iter() {
        case.plain = Some(Plain { bytes: lent.clone(), shown: Some(*shown) });
        let given = answer(&outcome(&case));
        assert_eq!((given[0], given.len()), (1, 11131));
        assert_eq!(given[1811..5907], [255; 4096][..]);
        let mut expected: Vec<u8> = lent.iter().cloned().skip(*shown).take(4200).collect();
        expected.resize(4200, 0);
        assert_eq!(given[6931..], expected[..]);
    }
    // A done write: what was 80h stays, and the next one is 1.
    let mut lent = vec![0; 16384];
    lent[1] = 0x80;
    let given = answer(&outcome(&on_bytes(&base(Call::Write { address: 69632, bytes: 8192 }, 5), &lent)));
    assert_eq!((given[0], given[2], given[1811]), (0, 1, 0b110));
    assert_eq!(given[6931..6935], [0, 0x80, 1, 0]);
}

#[test]
fn answers_that_show_an_area_and_no_bytes() {
    // A part and a make show what they would on words, also where they are lent no area.
    for area in [0, 1, 64, 4096, 4200].iter() {
        let made = queue_call(Call::MakeQueue, &vec![85; *area]);
        let set = Case { area: vec![85; *area], ..part(1, 0, &[1, 2, 3, 4]) };
        for case in &[made, set] {
            let case = Case { words: vec![u64::MAX; 256], ..case.clone() };
            let mut plain = on_bytes(&case, &all_pending());
            plain.plain.as_mut().unwrap().shown = None;
            assert_eq!(answer(&outcome(&plain)), answer(&outcome(&case)));
        }
    }
}

#[test]
fn controller_that_is_off_answers_zeros() {
    // A stop of controller 5 zeroes its 214 bytes, from byte 38 of the record on, and the record stays in the form.
    let mut case = base(Call::Stop, 5);
    case.record.controllers[0].base = 12345;
    let mut expected = record_bytes(&case.record);
    for byte in &mut expected[38..252] {
        *byte = 0;
    }
    assert_eq!(answer(&outcome(&case))[56..1811].to_vec(), expected);
    // Of a queue it leaves the 14 bytes.
    case.record.controllers[0].queue = Some(Queue { stopped: true, ..queue(3, 258, 257, 2) });
    expected[46..60].copy_from_slice(&[1, 3, 0, 2, 1, 0, 0, 1, 1, 0, 0, 2, 0, 1]);
    assert_eq!(answer(&outcome(&case))[56..1811].to_vec(), expected);
}

#[test]
fn an_answer_for_each_case() {
    // Two cases of zeros: a fresh whose settings have no identifiers. It answers 16 and is closed; no words, no bytes.
    let mut output = Vec::new();
    play(&mut &vec![0; 2 * CASE_BYTES][..], &mut output).unwrap();
    let mut expected = vec![0; 2 * 11131];
    expected[0] = 16;
    expected[11131] = 16;
    assert_eq!(output, expected);
    let mut output = Vec::new();
    play(&mut &[][..], &mut output).unwrap();
    assert_eq!(output, b"");
}
