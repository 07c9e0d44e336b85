//! The user-data queue of a controller (change request W8): which places of its lent area hold an entry, and what a post and
//! a take leave behind.
//!
//! Which places these are isn't reckoned. All places are put in a row from the oldest entry's on, and the taken total is
//! counted up from place to place until it reads as the posted one: the places passed are those that hold an entry, and the
//! others are free.

use crate::rules::*;

/// "2 to 1,024 places of 32 bytes"
pub const ENTRY_BYTES: usize = 32;
const LEAST_PLACES: usize = 2;
const MOST_PLACES: usize = 1024;

/// "the closing entry, 32 bytes of FFh"
const CLOSING: [u8; ENTRY_BYTES] = [0xFF; ENTRY_BYTES];

/// "Refusals, after 1 and 2: 28 ..., 29 ..., 8 ..., 30 ...". Unlike others' these aren't in the order of their numbers.
const ORDER: [Refusal; 4] = [QUEUE_AREA, NO_QUEUE, BUFFER_TOO_SHORT, LOGGING_STOPPED];

/// What a done post leaves behind: the queue, which is stopped exactly if this post has closed it, and the area.
#[derive(Clone, Debug, PartialEq, Eq)]
pub struct Posted {
    pub queue: Queue,
    pub area: Vec<u8>,
}

/// What a done take leaves behind: the queue, and the entries taken, the oldest first. A take leaves the area as it is.
#[derive(Clone, Debug, PartialEq, Eq)]
pub struct Taken {
    pub queue: Queue,
    pub entries: Vec<Entry>,
}

/// An entry, and whether it is the closing one. That isn't told by its bytes: "a posted entry of FFh is not".
#[derive(Clone, Debug, PartialEq, Eq)]
pub struct Entry {
    pub bytes: Vec<u8>,
    pub closing: bool,
}

impl Taken {
    /// "a take says whether its last entry is the closing one"; one of none has no last entry.
    pub fn closing(&self) -> bool {
        self.entries.last().map_or(false, |entry| entry.closing)
    }

    pub fn bytes(&self) -> Vec<u8> {
        self.entries.iter().flat_map(|entry| entry.bytes.iter().cloned()).collect()
    }
}

/// The places of a sound queue, in the row that begins with the oldest entry's: those that hold an entry, the newest last,
/// and those that are free, in the order in which posts come to them.
struct Places {
    queued: Vec<usize>,
    free: Vec<usize>,
}

fn places(queue: &Queue) -> Places {
    let mut row: Vec<usize> = (0..queue.size as usize).collect();
    row.rotate_left(queue.place as usize);
    let mut places = Places { queued: Vec::new(), free: Vec::new() };
    let mut total = queue.taken;
    for place in row {
        if total == queue.posted {
            places.free.push(place);
        } else {
            places.queued.push(place);
            total = counted_up(total);
        }
    }
    places
}

/// A total after one entry more.
fn counted_up(total: u64) -> u64 {
    if total == TOTALS - 1 {
        0
    } else {
        total + 1
    }
}

/// A queue that is made: "empty, with totals 0". Its size is the area's; what the area holds isn't looked at.
pub fn made(area: &[u8]) -> Result<Queue, Refusal> {
    match whole_places(area) {
        Some(size) => Ok(Queue { size, ..Queue::default() }),
        None => Err(QUEUE_AREA),
    }
}

/// How many places an area has, looked up in the row of all lengths that it may have: 64, 96, ..., 32,768.
fn whole_places(area: &[u8]) -> Option<u64> {
    let mut sizes = LEAST_PLACES..=MOST_PLACES;
    sizes.find(|size| size * ENTRY_BYTES == area.len()).map(|size| size as u64)
}

/// Of all that are earned, the one that stands first in the order.
fn first_of(earned: &[Refusal]) -> Option<Refusal> {
    ORDER.iter().find(|refusal| earned.contains(refusal)).cloned()
}

/// Every refusal that a post and a take earn alike, each asked whatever the other says. READINGS 8.1: where no queue is
/// made, an area of whole places is not of a wrong size.
fn earned_by_both(queue: Option<Queue>, area: &[u8]) -> Vec<Refusal> {
    let mut earned = Vec::new();
    // "28 area isn't a whole 2 to 1,024 places, or, for posts and takes, not the size made"
    let lent = whole_places(area);
    if lent.is_none() || queue.map_or(false, |queue| lent != Some(queue.size)) {
        earned.push(QUEUE_AREA);
    }
    // "29 no queue"
    if queue.is_none() {
        earned.push(NO_QUEUE);
    }
    earned
}

/// The same of a post, with what only a post earns.
fn earned_by_post(queue: Option<Queue>, area: &[u8], entry: &[u8]) -> Vec<Refusal> {
    let mut earned = earned_by_both(queue, area);
    // "30 logging stopped (posts only)"
    if queue.map_or(false, |queue| queue.stopped) {
        earned.push(LOGGING_STOPPED);
    }
    // "8 an entry not of 32 bytes"
    if entry.len() != ENTRY_BYTES {
        earned.push(BUFFER_TOO_SHORT);
    }
    earned
}

/// The queue, if nothing is earned.
fn unrefused(queue: Option<Queue>, earned: &[Refusal]) -> Result<Queue, Refusal> {
    match first_of(earned) {
        Some(refusal) => Err(refusal),
        None => queue.ok_or(NO_QUEUE),
    }
}

/// A post to a sound queue: 28, 29, 8, 30. "A post that finds only one free place is not stored: the closing entry ...
/// goes there and the answer is done, marked stopped." The closing entry counts as posted (READINGS 8.2).
pub fn posted(queue: Option<Queue>, area: &[u8], entry: &[u8]) -> Result<Posted, Refusal> {
    let before = unrefused(queue, &earned_by_post(queue, area, entry))?;
    let free = places(&before).free;
    let (place, stored, stopped) = match free.as_slice() {
        // "a full queue not stopped, is unsound"
        [] => return Err(UNSOUND),
        [only] => (*only, CLOSING.to_vec(), true),
        [first, ..] => (*first, entry.to_vec(), false),
    };
    let mut entries: Vec<Vec<u8>> = area.chunks(ENTRY_BYTES).map(|bytes| bytes.to_vec()).collect();
    entries[place] = stored;
    Ok(Posted { queue: Queue { posted: counted_up(before.posted), stopped, ..before }, area: entries.concat() })
}

/// A take from a sound queue: 28, 29. "The host takes entries in order, each once: the least of those asked for, those
/// queued and those that fit whole in its buffer."
///
/// Entry after entry is taken while it is asked for, is there and fits behind those before it. Then the row begins with
/// the place behind the last one taken.
pub fn taken(queue: Option<Queue>, area: &[u8], asked: u64, buffer_bytes: usize) -> Result<Taken, Refusal> {
    let mut queue = unrefused(queue, &earned_by_both(queue, area))?;
    let row = places(&queue);
    let stored: Vec<&[u8]> = area.chunks(ENTRY_BYTES).collect();
    let mut entries = Vec::new();
    let mut room = buffer_bytes;
    for (place, _) in row.queued.iter().zip(0..asked) {
        if room < ENTRY_BYTES {
            break;
        }
        room -= ENTRY_BYTES;
        let closing = queue.stopped && row.queued.last() == Some(place);
        entries.push(Entry { bytes: stored[*place].to_vec(), closing });
        queue.taken = counted_up(queue.taken);
    }
    if let Some(place) = row.queued.iter().chain(&row.free).cycle().nth(entries.len()) {
        queue.place = *place as u64;
    }
    Ok(Taken { queue, entries })
}

#[cfg(test)]
mod tests {
    use super::*;

    const LAST_TOTAL: u64 = 4294967295;

    fn queue(size: u64, posted: u64, taken: u64, place: u64) -> Queue {
        Queue { size, posted, taken, place, stopped: false }
    }

    /// An entry of this byte.
    fn of(byte: u8) -> Vec<u8> {
        vec![byte; 32]
    }

    /// An area whose places have one byte each.
    fn area_of(bytes: &[u8]) -> Vec<u8> {
        bytes.iter().flat_map(|byte| of(*byte)).collect()
    }

    fn places_of(queue: Queue) -> (Vec<usize>, Vec<usize>) {
        let found = places(&queue);
        (found.queued, found.free)
    }

    #[test]
    fn totals_count_up() {
        assert_eq!(counted_up(0), 1);
        assert_eq!(counted_up(4294967294), 4294967295);
        assert_eq!(counted_up(4294967295), 0);
    }

    #[test]
    fn places_by_hand() {
        assert_eq!(places_of(queue(4, 0, 0, 0)), (vec![], vec![0, 1, 2, 3]));
        assert_eq!(places_of(queue(4, 9, 9, 2)), (vec![], vec![2, 3, 0, 1]));
        assert_eq!(places_of(queue(4, 9, 7, 3)), (vec![3, 0], vec![1, 2]));
        assert_eq!(places_of(queue(4, 9, 5, 3)), (vec![3, 0, 1, 2], vec![]));
        // READINGS W8's record, and 2^32 itself.
        assert_eq!(places_of(queue(4, 2, LAST_TOTAL, 1)), (vec![1, 2, 3], vec![0]));
        assert_eq!(places_of(queue(4, 0, LAST_TOTAL, 3)), (vec![3], vec![0, 1, 2]));
        assert_eq!(places_of(queue(1, 5, 5, 0)), (vec![], vec![0]));
    }

    #[test]
    fn as_many_places_as_the_fill() {
        for size in 1..9 {
            for place in 0..size {
                for fill in 0..=size {
                    for taken in [0, 7, 4294967290, LAST_TOTAL].iter() {
                        let queue = queue(size, (taken + fill) % 4294967296, *taken, place);
                        let (queued, free) = places_of(queue);
                        assert_eq!((queued.len() as u64, free.len() as u64), (queue.fill(), size - queue.fill()));
                        for (number, found) in queued.iter().chain(&free).enumerate() {
                            assert_eq!(*found as u64, (place + number as u64) % size);
                        }
                    }
                }
            }
        }
    }

    #[test]
    fn lengths_of_an_area() {
        for bytes in 0..33000 {
            let whole = bytes % 32 == 0 && (64..=32768).contains(&bytes);
            let expected = if whole { Some(bytes as u64 / 32) } else { None };
            assert_eq!(whole_places(&vec![0; bytes]), expected, "{}", bytes);
        }
        assert_eq!(made(&[7; 96]), Ok(queue(3, 0, 0, 0)));
        assert_eq!(made(&[7; 97]), Err(28));
    }

    #[test]
    fn every_refusal_that_is_earned() {
        let open = Some(queue(3, 0, 0, 0));
        let stopped = Some(Queue { stopped: true, ..queue(3, 0, 0, 0) });
        let bytes = [0; 96];
        let (area, other, odd) = (&bytes[..], &bytes[..64], &bytes[..65]);
        for (queue, area, entry, expected) in [
            (open, area, 32, vec![]),
            (open, area, 31, vec![8]),
            (open, area, 33, vec![8]),
            (open, area, 0, vec![8]),
            (open, area, 64, vec![8]),
            (open, other, 32, vec![28]),
            (open, odd, 31, vec![28, 8]),
            (open, &bytes[..0], 32, vec![28]),
            (stopped, area, 32, vec![30]),
            (stopped, area, 31, vec![30, 8]),
            (stopped, other, 32, vec![28, 30]),
            (stopped, odd, 0, vec![28, 30, 8]),
            (None, area, 32, vec![29]),
            (None, other, 31, vec![29, 8]),
            (None, odd, 32, vec![28, 29]),
            (None, odd, 31, vec![28, 29, 8]),
        ]
        .iter()
        {
            assert_eq!(earned_by_post(*queue, area, &vec![0; *entry]), *expected);
            // A take earns the first two alone.
            let both: Vec<Refusal> = expected.iter().cloned().filter(|refusal| [28, 29].contains(refusal)).collect();
            assert_eq!(earned_by_both(*queue, area), both);
        }
        assert_eq!(first_of(&[]), None);
        assert_eq!(first_of(&[30, 8]), Some(8));
        assert_eq!(first_of(&[8, 29]), Some(29));
        assert_eq!(first_of(&[8, 29, 30]), Some(29));
        assert_eq!(first_of(&[30, 8, 29, 28]), Some(28));
    }

    #[test]
    fn sizes_that_no_area_has() {
        // READINGS 8.8: 28 whatever is lent, and as long as the size says too.
        for size in [1, 1025, 65535].iter() {
            let queue = queue(*size, 0, 0, 0);
            assert!(!queue_broken(&queue));
            for bytes in [0, 32, 64, 32768, 32800, 32 * *size as usize].iter() {
                let area = vec![0; *bytes];
                assert_eq!(posted(Some(queue), &area, &of(1)), Err(28));
                assert_eq!(taken(Some(queue), &area, 1, 32), Err(28));
            }
        }
    }

    #[test]
    fn posts_by_hand() {
        // The free places of each are 1 and 2; 2 and 3; 3 and 0; 0 and 1.
        for (place, expected) in [(3, [0, 9, 2, 3]), (0, [0, 1, 9, 3]), (1, [0, 1, 2, 9]), (2, [9, 1, 2, 3])].iter() {
            let after = posted(Some(queue(4, 6, 4, *place)), &area_of(&[0, 1, 2, 3]), &of(9)).unwrap();
            assert_eq!(after, Posted { queue: queue(4, 7, 4, *place), area: area_of(expected) });
        }
        // One is free: 0; 1; 2; 3.
        for (place, expected) in
            [(1, [255, 1, 2, 3]), (2, [0, 255, 2, 3]), (3, [0, 1, 255, 3]), (0, [0, 1, 2, 255])].iter()
        {
            let after = posted(Some(queue(4, 6, 3, *place)), &area_of(&[0, 1, 2, 3]), &of(9)).unwrap();
            let closed = Queue { stopped: true, ..queue(4, 7, 3, *place) };
            assert_eq!(after, Posted { queue: closed, area: area_of(expected) });
        }
        // None is free, which is unsound and not refused before; it is not stored either.
        assert_eq!(posted(Some(queue(2, 2, 0, 0)), &[0; 64], &of(9)), Err(1));
    }

    #[test]
    fn takes_by_hand() {
        let area = area_of(&[10, 11, 12, 13, 14]);
        // 3 queued, from place 3 on: 13, 14, 10.
        let before = queue(5, 1, 4294967294, 3);
        let entry = |byte, closing| Entry { bytes: of(byte), closing };
        let all = [entry(13, false), entry(14, false), entry(10, false)];
        for (asked, bytes, expected) in [
            (0, 160, 0),
            (1, 160, 1),
            (2, 160, 2),
            (3, 160, 3),
            (4, 160, 3),
            (LAST_TOTAL, 160, 3),
            (LAST_TOTAL, 96, 3),
            (LAST_TOTAL, 95, 2),
            (LAST_TOTAL, 64, 2),
            (LAST_TOTAL, 63, 1),
            (LAST_TOTAL, 32, 1),
            (LAST_TOTAL, 31, 0),
            (LAST_TOTAL, 0, 0),
            (1, 64, 1),
            (2, 32, 1),
        ]
        .iter()
        {
            let after = taken(Some(before), &area, *asked, *bytes).unwrap();
            assert_eq!(after.entries[..], all[..*expected]);
            let (total, place) = [(4294967294, 3), (LAST_TOTAL, 4), (0, 0), (1, 1)][*expected];
            assert_eq!(after.queue, queue(5, 1, total, place));
            assert!(!after.closing());
            // Stopped: the newest alone is the closing one.
            let stopped = Queue { stopped: true, ..before };
            let after = taken(Some(stopped), &area, *asked, *bytes).unwrap();
            assert_eq!(after.closing(), *expected == 3);
            assert_eq!(after.entries.iter().filter(|entry| entry.closing).count(), *expected / 3);
            assert_eq!(after.queue, Queue { stopped: true, ..queue(5, 1, total, place) });
            assert_eq!(after.bytes(), area_of(&[13, 14, 10][..*expected]));
        }
    }

    #[test]
    fn a_full_queue_is_taken_at_once() {
        // The row begins where it began.
        let full = Queue { stopped: true, ..queue(3, 2, LAST_TOTAL, 2) };
        let after = taken(Some(full), &area_of(&[1, 2, 255]), 9, 999).unwrap();
        assert_eq!((after.bytes(), after.closing()), (area_of(&[255, 1, 2]), true));
        assert_eq!(after.queue, Queue { stopped: true, ..queue(3, 2, 2, 2) });
        // It is empty now, and has nothing more to say.
        let after = taken(Some(after.queue), &area_of(&[1, 2, 255]), 9, 999).unwrap();
        assert_eq!((after.entries.len(), after.closing()), (0, false));
    }
}
