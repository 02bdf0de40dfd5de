//! What a prediction needs of the bytes themselves, in a file that is accepted: the argument of a short float, the bytes that the Rust takes
//! for a try's units, and whether an entry of a reference list is 0. No answer of ours is made here.

/// The place after the LEB128 number at `at`.
pub fn past_leb(bytes: &[u8], mut at: usize) -> usize {
    while bytes[at] & 0x80 != 0 {
        at += 1;
    }
    at + 1
}

fn leb(bytes: &[u8], at: usize) -> u32 {
    (at..past_leb(bytes, at)).rev().fold(0, |v, k| v << 7 | (bytes[k] & 0x7f) as u32)
}

/// The size argument of the value at `at`: how many bytes it has, less one.
pub fn argument(bytes: &[u8], at: usize) -> u32 {
    (bytes[at] >> 5) as u32
}

/// The place after the value at `at`.
pub fn past_value(bytes: &[u8], at: usize) -> usize {
    match bytes[at] & 0x1f {
        0x1c => past_array(bytes, at + 1),
        0x1d => past_annotation(bytes, at + 1),
        0x1e | 0x1f => at + 1,
        _ => at + 2 + argument(bytes, at) as usize,
    }
}

pub fn past_array(bytes: &[u8], at: usize) -> usize {
    let mut p = past_leb(bytes, at);
    for _ in 0..leb(bytes, at) {
        p = past_value(bytes, p);
    }
    p
}

pub fn past_annotation(bytes: &[u8], at: usize) -> usize {
    let size = past_leb(bytes, at);
    let mut p = past_leb(bytes, size);
    for _ in 0..leb(bytes, size) {
        p = past_value(bytes, past_leb(bytes, p));
    }
    p
}

pub fn word(bytes: &[u8], at: usize, big: bool) -> u32 {
    let four: [u8; 4] = bytes[at..at + 4].try_into().unwrap();
    if big { u32::from_be_bytes(four) } else { u32::from_le_bytes(four) }
}

pub fn half(bytes: &[u8], at: usize, big: bool) -> u16 {
    let two: [u8; 2] = bytes[at..at + 2].try_into().unwrap();
    if big { u16::from_be_bytes(two) } else { u16::from_le_bytes(two) }
}
