//! The numbers for the migration log (W13): "For each controller since the device was made: units newly marked, units
//! reported, units dropped by a stop while still pending."
//!
//! They stand beside the device, which knows nothing of them. Each is booked from a done call and its answer by itself, and
//! none is reckoned from the other two.

use std::fmt;

/// "2^64 − 1"
const MOST: u128 = 18446744073709551615;

/// What a done call adds to one of the three, in units.
#[derive(Clone, Copy, Debug, PartialEq, Eq)]
pub enum Booked {
    /// The count of a write, or of one note of a batch.
    Marked(u128),
    /// The lengths of a report's descriptors together.
    Reported(u128),
    /// The units that were pending when a stop came.
    Dropped(u128),
}

/// The exact totals of one controller, also past 2^64 - 1. At 2^128 - 1 they would stay as they are; no sessions get there, and
/// they read the same.
#[derive(Clone, Copy, Debug, Default, PartialEq, Eq)]
pub struct Totals {
    pub marked: u128,
    pub reported: u128,
    pub dropped: u128,
}

/// The three as they read. An unknown one has no number.
#[derive(Clone, Copy, Debug, PartialEq, Eq)]
pub struct Numbers {
    pub marked: Option<u128>,
    pub reported: Option<u128>,
    pub dropped: Option<u128>,
}

/// The totals of each controller of a device by its identifier, in the settings' order. The closed device has none.
#[derive(Clone, Debug, Default, PartialEq, Eq)]
pub struct Log {
    pub controllers: Vec<(u64, Totals)>,
}

impl Log {
    /// That of a device just made.
    pub fn new(identifiers: &[u64]) -> Log {
        Log { controllers: identifiers.iter().map(|id| (*id, Totals::default())).collect() }
    }

    /// Books what a done call of this controller adds. (A done call's controller is always in the settings.)
    pub fn book(&mut self, id: u64, booked: Booked) {
        for (_, totals) in self.controllers.iter_mut().filter(|(controller, _)| *controller == id) {
            totals.book(booked);
        }
    }

    /// The numbers of one controller, if the device has it.
    pub fn numbers(&self, id: u64) -> Option<Numbers> {
        self.controllers.iter().find(|(controller, _)| *controller == id).map(|(_, totals)| totals.numbers())
    }
}

impl Totals {
    pub fn book(&mut self, booked: Booked) {
        let (total, units) = match booked {
            Booked::Marked(units) => (&mut self.marked, units),
            Booked::Reported(units) => (&mut self.reported, units),
            Booked::Dropped(units) => (&mut self.dropped, units),
        };
        *total = total.saturating_add(units);
    }

    /// "If a total would pass 2^64 − 1, that controller's three read unknown from then on". Totals never fall, so that one
    /// has passed is seen whenever they are read.
    pub fn numbers(&self) -> Numbers {
        let three = [self.marked, self.reported, self.dropped];
        if three.iter().any(|total| *total > MOST) {
            return Numbers { marked: None, reported: None, dropped: None };
        }
        Numbers { marked: Some(self.marked), reported: Some(self.reported), dropped: Some(self.dropped) }
    }
}

impl Numbers {
    /// What a sum begins with.
    pub fn zeros() -> Numbers {
        Totals::default().numbers()
    }

    /// The sum with another controller's numbers. READINGS 13.7: "each of the three by itself".
    pub fn plus(&self, other: &Numbers) -> Numbers {
        Numbers {
            marked: sum(self.marked, other.marked),
            reported: sum(self.reported, other.reported),
            dropped: sum(self.dropped, other.dropped),
        }
    }
}

/// "unknown if it holds an unknown or passes 2^64 − 1". A sum that has passed it stays above, whatever else is added.
fn sum(one: Option<u128>, other: Option<u128>) -> Option<u128> {
    let exact = one?.saturating_add(other?);
    if exact > MOST {
        None
    } else {
        Some(exact)
    }
}

/// "marked 2 reported 2 dropped 0", and `unknown` in place of a number.
impl fmt::Display for Numbers {
    fn fmt(&self, formatter: &mut fmt::Formatter) -> fmt::Result {
        let (marked, reported, dropped) = (shown(self.marked), shown(self.reported), shown(self.dropped));
        write!(formatter, "marked {} reported {} dropped {}", marked, reported, dropped)
    }
}

fn shown(number: Option<u128>) -> String {
    match number {
        Some(number) => number.to_string(),
        None => "unknown".to_string(),
    }
}

#[cfg(test)]
mod tests {
    use super::Booked::{Dropped, Marked, Reported};
    use super::*;

    const UNKNOWN: &str = "marked unknown reported unknown dropped unknown";

    fn totals(marked: u128, reported: u128, dropped: u128) -> Totals {
        Totals { marked, reported, dropped }
    }

    /// How these read, after all that is booked on them.
    fn read(mut totals: Totals, booked: &[Booked]) -> String {
        for each in booked {
            totals.book(*each);
        }
        totals.numbers().to_string()
    }

    fn sum_of(controllers: &[Totals]) -> String {
        let mut sum = Numbers::zeros();
        for totals in controllers {
            sum = sum.plus(&totals.numbers());
        }
        sum.to_string()
    }

    #[test]
    fn each_by_itself() {
        let none = Totals::default();
        assert_eq!(read(none, &[]), "marked 0 reported 0 dropped 0");
        assert_eq!(read(none, &[Marked(7)]), "marked 7 reported 0 dropped 0");
        assert_eq!(read(none, &[Reported(7)]), "marked 0 reported 7 dropped 0");
        assert_eq!(read(none, &[Dropped(7)]), "marked 0 reported 0 dropped 7");
        let all = [Marked(4), Reported(4), Marked(3), Dropped(3), Marked(0), Dropped(2), Reported(10)];
        assert_eq!(read(none, &all), "marked 7 reported 14 dropped 5");
    }

    #[test]
    fn worked_at_2_64() {
        // READINGS W13: Known(2^64 - 1, 0, 0), then a write of 0 new and one of 1 new.
        let full = totals(MOST, 0, 0);
        assert_eq!(MOST, (1 << 64) - 1);
        assert_eq!(read(full, &[]), "marked 18446744073709551615 reported 0 dropped 0");
        assert_eq!(read(full, &[Marked(0)]), "marked 18446744073709551615 reported 0 dropped 0");
        assert_eq!(read(full, &[Marked(1)]), UNKNOWN);
        // The other two may still go up while the first stands at its most.
        assert_eq!(read(full, &[Reported(5), Dropped(6)]), "marked 18446744073709551615 reported 5 dropped 6");
        // Exactly there is known; each of the three makes all unknown.
        assert_eq!(read(totals(MOST - 16384, 0, 0), &[Marked(16384)]), format!("marked {} reported 0 dropped 0", MOST));
        assert_eq!(read(totals(MOST - 16384, 0, 0), &[Marked(16384), Marked(1)]), UNKNOWN);
        assert_eq!(read(totals(MOST - 16383, 0, 0), &[Marked(16384)]), UNKNOWN);
        assert_eq!(read(totals(0, MOST, 0), &[Reported(1)]), UNKNOWN);
        assert_eq!(read(totals(0, 0, MOST), &[Dropped(1)]), UNKNOWN);
        assert_eq!(read(totals(MOST, MOST, MOST), &[]), format!("marked {} reported {} dropped {}", MOST, MOST, MOST));
    }

    #[test]
    fn unknown_from_then_on() {
        let mut totals = totals(MOST, 3, 4);
        totals.book(Marked(1));
        for booked in [Marked(0), Reported(0), Dropped(0), Marked(1), Reported(1), Dropped(1)].iter() {
            totals.book(*booked);
            assert_eq!(totals.numbers().to_string(), UNKNOWN, "{:?}", booked);
        }
        // Also where it would come round in 64 bits, or in 128.
        for units in [1, MOST, MOST + 1, MOST + 2, u128::MAX - MOST, u128::MAX - 1, u128::MAX].iter() {
            let mut totals = totals;
            totals.book(Marked(*units));
            assert_eq!(totals.numbers().to_string(), UNKNOWN, "{}", units);
            totals.book(Marked(*units));
            assert_eq!(totals.numbers().to_string(), UNKNOWN, "{}", units);
        }
    }

    #[test]
    fn each_controller_by_itself() {
        let mut log = Log::new(&[6, 5, 0]);
        let text = |log: &Log, id: u64| log.numbers(id).map(|numbers| numbers.to_string());
        for id in [6, 5, 0].iter() {
            assert_eq!(text(&log, *id).unwrap(), "marked 0 reported 0 dropped 0");
        }
        log.book(5, Marked(3));
        log.book(0, Marked(MOST + 1));
        log.book(6, Dropped(9));
        log.book(5, Reported(2));
        assert_eq!(text(&log, 6).unwrap(), "marked 0 reported 0 dropped 9");
        assert_eq!(text(&log, 5).unwrap(), "marked 3 reported 2 dropped 0");
        assert_eq!(text(&log, 0).unwrap(), UNKNOWN);
        // One that isn't there.
        let before = log.clone();
        log.book(7, Marked(1));
        assert_eq!(log, before);
        assert_eq!(text(&log, 7), None);
        assert_eq!(Log::new(&[]), Log::default());
    }

    #[test]
    fn worked_sum() {
        // READINGS W13: two controllers with marked 2^63 and dropped 1 each.
        let half = totals(1 << 63, 0, 1);
        assert_eq!(sum_of(&[half, half]), "marked unknown reported 0 dropped 2");
        assert_eq!(sum_of(&[half]), "marked 9223372036854775808 reported 0 dropped 1");
        assert_eq!(sum_of(&[]), "marked 0 reported 0 dropped 0");
    }

    #[test]
    fn sums_by_hand() {
        let one_less = totals((1 << 63) - 1, 0, 1);
        let half = totals(1 << 63, 0, 1);
        assert_eq!(sum_of(&[half, one_less]), "marked 18446744073709551615 reported 0 dropped 2", "exactly 2^64 - 1");
        assert_eq!(sum_of(&[half, one_less, totals(0, 5, 0)]), "marked 18446744073709551615 reported 5 dropped 2");
        // Once passed it stays so, also where it would come round; and the other two go on.
        assert_eq!(sum_of(&[half, one_less, totals(1, 5, 0)]), "marked unknown reported 5 dropped 2");
        assert_eq!(sum_of(&[half, half, half, half, totals(7, 7, 7)]), "marked unknown reported 7 dropped 11");
        assert_eq!(
            sum_of(&[totals(0, MOST, MOST), totals(1, 0, 1)]),
            format!("marked 1 reported {} dropped unknown", MOST)
        );
        assert_eq!(sum_of(&[totals(2, MOST, 3), totals(4, 1, 5)]), "marked 6 reported unknown dropped 8");
        // An unknown controller is unknown in all three, wherever it stands.
        let unknown = totals(MOST + 1, 0, 0);
        assert_eq!(sum_of(&[unknown]), UNKNOWN);
        assert_eq!(sum_of(&[unknown, half]), UNKNOWN);
        assert_eq!(sum_of(&[half, unknown]), UNKNOWN);
        assert_eq!(sum_of(&[totals(1, 1, 0), totals(0, 0, MOST + 1), totals(1, 1, 0)]), UNKNOWN);
    }
}
