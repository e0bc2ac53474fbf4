//! The check word by a table of 256 remainders.

const fn table() -> [u16; 256] {
    let mut t = [0u16; 256];
    let mut b = 0;
    while b < 256 {
        let mut r = (b as u16) << 8;
        let mut k = 0;
        while k < 8 {
            r = if r & 0x8000 != 0 { r << 1 ^ (1 << 12 | 1 << 5 | 1) } else { r << 1 };
            k += 1;
        }
        t[b] = r;
        b += 1;
    }
    t
}

static TABLE: [u16; 256] = table();

pub fn check_word(bytes: &[u8]) -> u16 {
    bytes.iter().fold(0xFFFF, |r, b| r << 8 ^ TABLE[usize::from((r >> 8) as u8 ^ b)])
}

/// Whether the last two bytes are the check word of those before them, high byte first.
pub fn is_sealed(bytes: &[u8]) -> bool {
    bytes.len().checked_sub(2).is_some_and(|n| check_word(&bytes[..n]).to_be_bytes() == bytes[n..])
}

/// The string with its check word behind it.
pub fn sealed(body: &[u8]) -> Vec<u8> {
    let mut all = body.to_vec();
    all.extend(check_word(body).to_be_bytes());
    all
}
