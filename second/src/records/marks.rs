//! Lent marks as sets of pending units, and back: words of bits, or the plain engine's bytes.
//!
//! W7: "one pool of 16,384 units, now 256 lent words"; "The device record tells where each share lies". READINGS W7: "the
//! mark of unit m is bit base + m", lowest bit first, in the order of document 01: "in the order of the ranges as listed and
//! by address within a range". W2: a unit covered by several ranges counts once, so it has one bit, among those of the
//! earliest listed.
//!
//! W9: the plain engine has "one byte a unit (0 is clear, all else pending)", and READINGS 9.2: "`base` counts bytes there".
//! What the bytes of pending units hold is kept by unit, beside the sets; so it needs no moving where a share moves.

use std::collections::{BTreeMap, BTreeSet};

use crate::device::{units, Device, Unit};
use crate::rules::{Record, POOL_UNITS};

/// "now 256 lent words"
const MARK_WORDS: usize = 256;
/// "of 64 bits"
const BITS: usize = 64;
/// What the mark of a unit holds once it is pending and wasn't before (READINGS 9.3).
const NEWLY_PENDING: u8 = 1;

/// What an engine is lent, a mark for each unit of the pool.
pub trait Marks {
    /// Whether as much is lent as has to be.
    fn whole(&self) -> bool;
    /// What the mark of this number holds: 0 if it is clear.
    fn held(&self, mark: usize) -> u8;
    fn hold(&mut self, mark: usize, value: u8);
    fn clear_all(&mut self);
}

/// A bit holds 0 or 1.
impl Marks for Vec<u64> {
    fn whole(&self) -> bool {
        self.len() == MARK_WORDS
    }

    fn held(&self, mark: usize) -> u8 {
        (self[mark / BITS] >> (mark % BITS) & 1) as u8
    }

    fn hold(&mut self, mark: usize, value: u8) {
        let word = &mut self[mark / BITS];
        if value != 0 {
            *word |= 1 << (mark % BITS);
        } else {
            *word &= !(1 << (mark % BITS));
        }
    }

    fn clear_all(&mut self) {
        *self = vec![0; MARK_WORDS];
    }
}

/// W9: "its own lent area of 16,384 bytes".
impl Marks for Vec<u8> {
    fn whole(&self) -> bool {
        self.len() == POOL_UNITS as usize
    }

    fn held(&self, mark: usize) -> u8 {
        self[mark]
    }

    fn hold(&mut self, mark: usize, value: u8) {
        self[mark] = value;
    }

    fn clear_all(&mut self) {
        *self = vec![0; POOL_UNITS as usize];
    }
}

/// What the marks of pending units hold, for each identifier in use.
pub type Held = BTreeMap<u64, BTreeMap<Unit, u8>>;

/// A mark of the pool, by its number, and whose it is.
struct Place {
    mark: usize,
    id: u64,
    unit: Unit,
}

/// The marks of all shares. An unsound record may list more units than there are marks, or lay them past the end; those
/// have none here.
fn places(record: &Record) -> Vec<Place> {
    let mut places = Vec::new();
    for (id, controller) in record.settings.used_identifiers().iter().zip(&record.controllers) {
        for (mark, unit) in (controller.base as usize..POOL_UNITS as usize).zip(units(controller)) {
            places.push(Place { mark, id: *id, unit });
        }
    }
    places
}

/// What each mark that isn't clear holds, by its unit. Marks outside all shares are not read.
pub fn held_by_units(record: &Record, marks: &dyn Marks) -> Held {
    let mut held = Held::new();
    for id in record.settings.used_identifiers() {
        held.insert(id, BTreeMap::new());
    }
    for place in places(record) {
        let value = marks.held(place.mark);
        if value != 0 {
            held.entry(place.id).or_default().insert(place.unit, value);
        }
    }
    held
}

/// The units that hold anything, for each identifier in use.
pub fn pending_units(held: &Held) -> BTreeMap<u64, BTreeSet<Unit>> {
    held.iter().map(|(id, units)| (*id, units.keys().cloned().collect())).collect()
}

/// Makes the mark of each unit say whether it is pending: one that was so before the call holds what it held then, wherever
/// its mark is now. Marks outside all shares are not changed.
pub fn mark_pending(device: &Device, held_before: &Held, marks: &mut dyn Marks) {
    for place in places(&device.record) {
        let value = if device.pending[&place.id].contains(&place.unit) {
            held_before[&place.id].get(&place.unit).cloned().unwrap_or(NEWLY_PENDING)
        } else {
            0
        };
        marks.hold(place.mark, value);
    }
}

/// An accepted stop clears its own share, where the record before it has that; it moves nothing.
pub fn clear_share(record: &Record, id: u64, marks: &mut dyn Marks) {
    for place in places(record) {
        if place.id == id {
            marks.hold(place.mark, 0);
        }
    }
}
