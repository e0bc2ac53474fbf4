//! Bits and check word: the proved code against the second reading.
use second::random::Random;
use second::{bits, check_word, proved};

const FAR: [usize; 4] = [1 << 32, usize::MAX / 8, usize::MAX - 8, usize::MAX];

#[test]
fn fields_are_taken_alike() {
    let mut random = Random::new(1);
    let mut compared = 0u64;
    for len in 0..=12 {
        for _ in 0..4 {
            let bytes = random.bytes(len);
            for at in (0..8 * len + 10).chain(FAR) {
                for width in (0..=40).chain(FAR) {
                    assert_eq!(proved::take(&bytes, at, width), bits::take(&bytes, at, width), "{bytes:02x?} at {at}, {width} wide");
                    compared += 1;
                }
            }
        }
    }
    println!("fields taken: {compared} comparisons");
}

#[test]
fn fields_are_put_alike() {
    let mut random = Random::new(2);
    let (mut compared, mut put) = (0u64, 0u64);
    for len in 0..=12 {
        for at in (0..8 * len + 10).chain(FAR) {
            for width in (0..=40).chain(FAR) {
                let edge = if width < 32 { 1u32 << width } else { 0 };
                for value in [0, 1, edge.wrapping_sub(1), edge, u32::MAX, random.next() as u32] {
                    let before = random.bytes(len);
                    let (mut ours, mut theirs) = (before.clone(), before.clone());
                    let done = bits::put(&mut theirs, at, width, value);
                    assert_eq!(proved::put(&mut ours, at, width, value), done, "{before:02x?} at {at}, {width} wide, {value}");
                    assert_eq!(ours, theirs, "{before:02x?} at {at}, {width} wide, {value}");
                    assert!(done || ours == before);
                    compared += 1;
                    put += u64::from(done);
                }
            }
        }
    }
    assert!(put > 0 && put < compared);
    println!("fields put: {compared} comparisons, {put} of them put");
}

#[test]
fn published_check_words() {
    let vectors: [(&[u8], u16); 4] = [(b"", 0xFFFF), (b"123456789", 0x29B1), (b"A", 0xB915), (&[b'A'; 256], 0xEA0B)];
    for (bytes, word) in vectors {
        assert_eq!(proved::check_word(bytes), word);
        assert_eq!(check_word::check_word(bytes), word);
    }
    println!("published check words: {} compared", vectors.len());
}

#[test]
fn check_words_agree() {
    let mut random = Random::new(3);
    let mut compared = 0u64;
    for len in (0..=600).chain([4_096, 65_535, 70_000]) {
        for _ in 0..20 {
            let body = random.bytes(len);
            assert_eq!(proved::check_word(&body), check_word::check_word(&body), "{len} bytes");
            let mut room = body.clone();
            room.extend(random.bytes(2));
            let sealed = check_word::sealed(&body);
            assert_eq!(proved::is_sealed(&room), check_word::is_sealed(&room));
            assert!(proved::seal(&mut room));
            assert_eq!(room, sealed);
            assert!(proved::is_sealed(&room));
            compared += 4;
        }
    }
    for len in 0..2 {
        let before = random.bytes(len);
        let mut short = before.clone();
        assert!(!proved::seal(&mut short) && !proved::is_sealed(&short) && short == before);
        compared += 1;
    }
    println!("check words: {compared} comparisons");
}

#[test]
fn every_changed_bit_is_seen() {
    let mut random = Random::new(4);
    let mut compared = 0u64;
    for len in [0, 1, 13, 14, 64, 100, 450, 730] {
        let sealed = check_word::sealed(&random.bytes(len));
        for at in 0..8 * sealed.len() {
            assert!(!proved::is_sealed(&bits::inverted(&sealed, at)), "bit {at} of {} bytes", sealed.len());
            compared += 1;
        }
    }
    println!("one changed bit: {compared} changes, all seen");
}

/// Every pattern of sixteen bits but the empty one, at every position of a least sheet; some patterns on a greatest one.
#[test]
fn every_burst_is_seen() {
    let mut random = Random::new(5);
    let mut compared = 0u64;
    let mut burst = |sealed: &[u8], at: usize, pattern: u32| {
        let mut changed = sealed.to_vec();
        let old = bits::take(sealed, at, 16).unwrap();
        bits::put(&mut changed, at, 16, old ^ pattern);
        assert!(!proved::is_sealed(&changed), "pattern {pattern:04x} at bit {at} of {} bytes", sealed.len());
        compared += 1;
    };
    let least = check_word::sealed(&random.bytes(13));
    for at in 0..=8 * least.len() - 16 {
        for pattern in 1..=0xFFFF {
            burst(&least, at, pattern);
        }
    }
    let greatest = check_word::sealed(&random.bytes(730));
    for at in 0..=8 * greatest.len() - 16 {
        for _ in 0..40 {
            burst(&greatest, at, random.below(0xFFFF) as u32 + 1);
        }
    }
    println!("bursts up to 16 bits: {compared} changes, all seen");
}
