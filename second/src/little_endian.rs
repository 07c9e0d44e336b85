//! Numbers as bytes. Document 01, "What the core does": "All fields are little-endian, as in NVMe."

/// Puts `value` behind `bytes` as `width` bytes, the lowest first.
pub fn put(bytes: &mut Vec<u8>, value: u128, width: usize) {
    let mut rest = value;
    for _ in 0..width {
        bytes.push((rest % 256) as u8);
        rest /= 256;
    }
}

/// The number in the `width` bytes from byte `from` on, at most 8 of them; nothing if they are not all there.
pub fn get(bytes: &[u8], from: usize, width: usize) -> Option<u64> {
    let field = bytes.get(from..from.checked_add(width)?)?;
    let mut value: u128 = 0;
    let mut weight: u128 = 1;
    for byte in field {
        value = value.checked_add(weight.checked_mul(u128::from(*byte))?)?;
        weight = weight.checked_mul(256)?;
    }
    if value <= u128::from(u64::MAX) {
        Some(value as u64)
    } else {
        None
    }
}

#[cfg(test)]
mod tests {
    use super::*;

    #[test]
    fn lowest_byte_first() {
        let mut bytes = vec![9];
        put(&mut bytes, 65536, 8);
        put(&mut bytes, 4, 4);
        put(&mut bytes, 0x0102, 2);
        assert_eq!(bytes, [9, 0, 0, 1, 0, 0, 0, 0, 0, 4, 0, 0, 0, 2, 1]);
        assert_eq!(get(&bytes, 1, 8), Some(65536));
        assert_eq!(get(&bytes, 9, 4), Some(4));
        assert_eq!(get(&bytes, 13, 2), Some(258));
    }

    #[test]
    fn greatest_values() {
        let mut bytes = Vec::new();
        put(&mut bytes, 18446744073709551615, 8);
        assert_eq!(bytes, [255; 8]);
        assert_eq!(get(&bytes, 0, 8), Some(18446744073709551615));
        assert_eq!(get(&bytes, 0, 4), Some(4294967295));
        assert_eq!(get(&bytes, 0, 1), Some(255));
    }

    #[test]
    fn bytes_that_are_not_there() {
        assert_eq!(get(&[1, 2, 3], 0, 4), None);
        assert_eq!(get(&[1, 2, 3], 3, 1), None);
        assert_eq!(get(&[1, 2, 3], 4, 0), None);
        assert_eq!(get(&[], usize::MAX, 8), None);
        assert_eq!(get(&[1, 2, 3], 2, 1), Some(3));
    }
}
