//! Bytes as hex: READINGS 0.7, "*hex* is two lower-case digits a byte, and `-` for no bytes".

const DIGITS: &[u8] = b"0123456789abcdef";

/// The bytes that a field spells, at most so many; nothing for any other field. An empty one is none.
pub fn bytes_of(field: &[u8], most: usize) -> Option<Vec<u8>> {
    if field == b"-" {
        return Some(Vec::new());
    }
    if field.is_empty() || field.len() > 2 * most {
        return None;
    }
    let mut bytes = Vec::new();
    for pair in field.chunks(2) {
        match pair {
            [high, low] => bytes.push(16 * digit(*high)? + digit(*low)?),
            _ => return None,
        }
    }
    Some(bytes)
}

/// Where the digit stands among all of them.
fn digit(byte: u8) -> Option<u8> {
    DIGITS.iter().position(|digit| *digit == byte).map(|place| place as u8)
}

/// One byte or more in hex.
pub fn hex_of(bytes: &[u8]) -> String {
    let mut text = String::new();
    for byte in bytes {
        text.push_str(&format!("{:02x}", byte));
    }
    text
}

#[cfg(test)]
mod tests {
    use super::*;

    #[test]
    fn fields_that_spell_bytes() {
        assert_eq!(bytes_of(b"-", 4), Some(vec![]));
        assert_eq!(bytes_of(b"-", 0), Some(vec![]));
        assert_eq!(bytes_of(b"00", 4), Some(vec![0]));
        assert_eq!(bytes_of(b"09afff10", 4), Some(vec![9, 0xAF, 0xFF, 0x10]));
        let mut every = String::new();
        for byte in 0..=255 {
            every.push_str(&hex_of(&[byte]));
        }
        assert_eq!(bytes_of(every.as_bytes(), 256), Some((0..=255).collect()));
    }

    #[test]
    fn fields_that_do_not() {
        for field in
            ["", "0", "000", "0A", "Af", "FF", "0g", "g0", "--", "0-", "-0", " 0", "0 ", "0x", "+1", "é"].iter()
        {
            assert_eq!(bytes_of(field.as_bytes(), 4), None, "{}", field);
        }
        // A byte too many, or half of one.
        assert_eq!(bytes_of(b"0000000000", 4), None);
        assert_eq!(bytes_of(b"000000000", 4), None);
        assert_eq!(bytes_of(b"00", 0), None);
    }

    #[test]
    fn bytes_in_hex() {
        assert_eq!(hex_of(&[0, 1, 15, 16, 0xAB, 255]), "00010f10abff");
    }
}
