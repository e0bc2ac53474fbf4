//! Packed bits, most significant bit first: one bit at a time.

fn bit(bytes: &[u8], at: usize) -> bool {
    bytes[at / 8] & (0x80 >> (at % 8)) != 0
}

fn in_range(bytes: &[u8], at: usize, width: usize) -> bool {
    (1..=32).contains(&width) && at.checked_add(width).is_some_and(|end| end <= 8 * bytes.len())
}

/// The number in the field of `width` bits from bit `at` on, if there is such a field.
pub fn take(bytes: &[u8], at: usize, width: usize) -> Option<u32> {
    in_range(bytes, at, width).then(|| (at..at + width).fold(0, |n, i| n << 1 | u32::from(bit(bytes, i))))
}

/// Puts the number into that field, if there is one and the number fits it; says whether it did.
pub fn put(bytes: &mut [u8], at: usize, width: usize, value: u32) -> bool {
    if !in_range(bytes, at, width) || u64::from(value) >= 1 << width {
        return false;
    }
    for i in 0..width {
        let mask = 0x80 >> ((at + i) % 8);
        if value >> (width - 1 - i) & 1 == 1 {
            bytes[(at + i) / 8] |= mask;
        } else {
            bytes[(at + i) / 8] &= !mask;
        }
    }
    true
}

/// The bytes with bit `at` inverted.
pub fn inverted(bytes: &[u8], at: usize) -> Vec<u8> {
    let mut changed = bytes.to_vec();
    changed[at / 8] ^= 0x80 >> (at % 8);
    changed
}
