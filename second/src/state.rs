//! A part of a controller's state (change request W6), and when the assembled bytes are a state. The codes, the fields and
//! the header are those of source document 001, section 5.MSC.1.3.

use crate::little_endian::get;
use crate::rules::*;

/// Figure SCS-FIG1: 00b is neither the first nor the last of its sequence; these are 01b, 10b and 11b.
const FIRST: u64 = 1;
const LAST: u64 = 2;
const ONLY: u64 = 3;

/// Figure SCS-FIG5: the header's fields, by their first byte. The sizes have 16 bytes each.
const VERSION_AT: usize = 0;
const NVMECSS_AT: usize = 16;
const VSS_AT: usize = 32;
const HEADER_BYTES: usize = 48;

/// "Each part has a sequence indicator (codes of source document 001), an offset in two 32-bit words and a dword count",
/// and its data, which need not be as many bytes as the count says.
#[derive(Clone, Debug, Default, PartialEq, Eq)]
pub struct Part {
    pub id: u64,
    pub indicator: u64,
    pub low: u64,
    pub high: u64,
    pub count: u64,
    pub data: Vec<u8>,
}

impl Part {
    /// Figures SCS-FIG3 and SCS-FIG4: the lower and the upper 32 bits of an offset in bytes.
    fn offset(&self) -> u128 {
        u128::from(self.low) + u128::from(self.high) * 4_294_967_296
    }

    /// The bytes that the count says, "the number of dwords being transferred".
    fn counted(&self) -> u128 {
        u128::from(self.count) * DWORD_BYTES as u128
    }

    /// "a first or only part begins anew"
    fn begins(&self) -> bool {
        self.indicator == FIRST || self.indicator == ONLY
    }

    /// "A last or only part is accepted if ..."; it ends its sequence.
    pub fn finishes(&self) -> bool {
        self.indicator == LAST || self.indicator == ONLY
    }

    /// The bytes assembled with this part: those of the area before it, then its own. An offset past the area's end, which
    /// is refused, stands at its end here.
    pub fn joined(&self, area: &[u8]) -> Vec<u8> {
        let before = self.offset().min(area.len() as u128) as usize;
        area.iter().take(before).chain(&self.data).cloned().collect()
    }
}

/// What a part of a suspended controller is refused with: "after 1, 2 and 13: 23 ..., 24 ..., 25 ..., 26 ..., 27 ...".
/// That is the least number of all that it earns, as the order is theirs.
pub fn part_refusal(part: &Part, sequence: Sequence, area: &[u8]) -> Option<Refusal> {
    faults(part, sequence, area).into_iter().min()
}

/// The number of every rule that the part breaks, each asked whatever the others say.
fn faults(part: &Part, sequence: Sequence, area: &[u8]) -> Vec<Refusal> {
    let (anothers, own_end) = match sequence {
        Sequence::Nothing => (false, None),
        Sequence::Open { owner, end } if owner == part.id => (false, Some(u128::from(end))),
        Sequence::Open { .. } => (true, None),
    };
    let most = STATE_BYTES as u128;
    let mut faults = Vec::new();
    // "23 another controller's sequence open"
    if anothers {
        faults.push(ANOTHERS_SEQUENCE);
    }
    // "24 an offset with bits 1:0 set or above 4,096"
    if part.offset() % 4 != 0 || part.offset() > most {
        faults.push(OFFSET);
    }
    // "25 an indicator above 3, a count of 0 unless it is 10b, or data that aren't exactly the counted dwords"
    if part.indicator > 3 || (part.count == 0 && part.indicator != LAST) || part.data.len() as u128 != part.counted() {
        faults.push(PART_FORM);
    }
    // "a first or only part begins anew at offset 0, every other where the open sequence's last accepted part ended"
    let place = if part.begins() { Some(0) } else { own_end };
    if place != Some(part.offset()) {
        faults.push(OUT_OF_SEQUENCE);
    }
    // "27 past 4,096, or the finished size or header"
    if part.offset() + part.counted() > most || (part.finishes() && !is_state(&part.joined(area))) {
        faults.push(STATE);
    }
    faults
}

/// "accepted if the version is 0, the whole is at least its header, and it is as long as the header and its two size
/// fields say, in 001's units." What else the header holds is not looked at.
fn is_state(whole: &[u8]) -> bool {
    whole.len() >= HEADER_BYTES
        && get(whole, VERSION_AT, 2) == Some(0)
        && said_length(whole) == Some(whole.len() as u128)
}

/// "((VSS+ NVMECSS)*4)+47" is the last byte. Nothing where the header isn't there, or for a length of more than 128 bits.
fn said_length(whole: &[u8]) -> Option<u128> {
    let dwords = size(whole, NVMECSS_AT)?.checked_add(size(whole, VSS_AT)?)?;
    dwords.checked_mul(DWORD_BYTES as u128)?.checked_add(HEADER_BYTES as u128)
}

/// A size field: 16 bytes, all of them.
fn size(whole: &[u8], at: usize) -> Option<u128> {
    let lower = get(whole, at, 8)?;
    let upper = get(whole, at + 8, 8)?;
    Some(u128::from(lower) + u128::from(upper) * (u128::from(u64::MAX) + 1))
}

#[cfg(test)]
mod tests {
    use super::*;

    /// A state with these sizes and as many dwords of 5Ah as they say.
    fn state(nvmecss: u8, vss: u8) -> Vec<u8> {
        let mut bytes = vec![0; 48];
        bytes[16] = nvmecss;
        bytes[32] = vss;
        bytes.resize(48 + 4 * (usize::from(nvmecss) + usize::from(vss)), 0x5A);
        bytes
    }

    /// 48 zero bytes with one of them set.
    fn with(at: usize, byte: u8) -> Vec<u8> {
        let mut bytes = vec![0; 48];
        bytes[at] = byte;
        bytes
    }

    #[test]
    fn lengths_of_a_state() {
        for bytes in 0..200 {
            assert_eq!(is_state(&vec![0; bytes]), bytes == 48, "{}", bytes);
        }
        for (nvmecss, vss, length) in
            [(1, 0, 52), (0, 1, 52), (4, 0, 64), (1, 2, 60), (2, 1, 60), (255, 255, 2088)].iter()
        {
            let whole = state(*nvmecss, *vss);
            assert_eq!(whole.len(), *length);
            assert!(is_state(&whole));
            // A byte or a dword too few or too many.
            for other in [length - 4, length - 1, length + 1, length + 4].iter() {
                let mut bytes = whole.clone();
                bytes.resize(*other, 0);
                assert!(!is_state(&bytes), "{} {} {}", nvmecss, vss, other);
            }
        }
    }

    #[test]
    fn fields_at_their_full_width() {
        assert!(!is_state(&with(0, 1)));
        assert!(!is_state(&with(1, 1)));
        for at in 2..16 {
            assert!(is_state(&with(at, 255)), "{}", at);
        }
        // Read in fewer bytes, such a size would be 0.
        for at in 16..48 {
            assert!(!is_state(&with(at, 1)), "{}", at);
            assert!(!is_state(&with(at, 128)), "{}", at);
        }
    }

    #[test]
    fn sizes_are_added_without_a_cut() {
        let both = |nvmecss: u128, vss: u128| {
            let mut bytes = vec![0; 16];
            bytes.extend_from_slice(&nvmecss.to_le_bytes());
            bytes.extend_from_slice(&vss.to_le_bytes());
            bytes
        };
        let in_64_bits = u128::from(u64::MAX) + 1;
        assert_eq!(said_length(&both(1012, 0)), Some(4096));
        assert_eq!(said_length(&both(in_64_bits - 1, 1)), Some(4 * in_64_bits + 48));
        assert_eq!(said_length(&both(in_64_bits / 4, 0)), Some(in_64_bits + 48));
        // 2^126 dwords are 2^128 bytes; and both sizes as great as can be.
        assert_eq!(said_length(&both(1 << 126, 0)), None);
        assert_eq!(said_length(&both(0, 1 << 126)), None);
        assert_eq!(said_length(&both(u128::MAX, 1)), None);
        assert_eq!(said_length(&both(u128::MAX, u128::MAX)), None);
        assert!(!is_state(&both(in_64_bits - 1, 1)));
        assert!(!is_state(&both(1 << 126, 0)));
        assert!(!is_state(&both(u128::MAX, 1)));
        assert!(!is_state(&both(u128::MAX - 5, 6)));
    }

    fn part(indicator: u64, low: u64, count: u64, data: &[u8]) -> Part {
        Part { id: 5, indicator, low, high: 0, count, data: data.to_vec() }
    }

    fn open(end: u64) -> Sequence {
        Sequence::Open { owner: 5, end }
    }

    #[test]
    fn every_broken_rule_is_found() {
        let area = vec![0; 4096];
        let of = |part: &Part, sequence| faults(part, sequence, &area);
        assert_eq!(of(&part(1, 0, 1, &[1; 4]), Sequence::Nothing), []);
        assert_eq!(of(&part(0, 16, 1, &[1; 4]), open(16)), []);
        assert_eq!(of(&part(3, 0, 12, &[0; 48]), open(16)), []);
        assert_eq!(of(&part(2, 48, 0, &[]), open(48)), []);
        // Where another's sequence ended is no place to go on from.
        let others = Sequence::Open { owner: 6, end: 16 };
        assert_eq!(of(&part(1, 0, 1, &[1; 4]), others), [23]);
        assert_eq!(of(&part(0, 16, 1, &[1; 4]), others), [23, 26]);
        // All five: of another, at 4,097, an indicator above 3, not where it ended, and past the end.
        assert_eq!(of(&part(4, 4097, 1, &[1; 4]), others), [23, 24, 25, 26, 27]);
        assert_eq!(part_refusal(&part(4, 4097, 1, &[1; 4]), others, &area), Some(23));
        assert_eq!(part_refusal(&part(4, 4097, 1, &[1; 4]), open(16), &area), Some(24));
        assert_eq!(part_refusal(&part(4, 4096, 1, &[1; 4]), open(16), &area), Some(25));
        assert_eq!(part_refusal(&part(0, 4096, 1, &[1; 4]), open(16), &area), Some(26));
        assert_eq!(part_refusal(&part(0, 4096, 1, &[1; 4]), open(4096), &area), Some(27));
        assert_eq!(part_refusal(&part(0, 4092, 1, &[1; 4]), open(4092), &area), None);
    }

    #[test]
    fn greatest_numbers() {
        let mut most = part(255, 4294967295, 4294967295, &[1; 4100]);
        most.high = 4294967295;
        assert_eq!(faults(&most, Sequence::Nothing, &[]), [24, 25, 26, 27]);
        assert_eq!(most.offset(), u128::from(u64::MAX));
        assert_eq!(most.joined(&[7; 4096]).len(), 8196);
        // Four times this count is 48 in 32 bits.
        assert_eq!(faults(&part(3, 0, 1073741836, &[0; 48]), Sequence::Nothing, &[0; 4096]), [25, 27]);
    }

    #[test]
    fn joined_bytes() {
        let area: Vec<u8> = (0..100).collect();
        assert_eq!(part(0, 0, 1, &[200, 201, 202, 203]).joined(&area), [200, 201, 202, 203]);
        assert_eq!(part(0, 4, 1, &[200, 201, 202, 203]).joined(&area), [0, 1, 2, 3, 200, 201, 202, 203]);
        assert_eq!(part(2, 4, 0, &[]).joined(&area), [0, 1, 2, 3]);
    }
}
