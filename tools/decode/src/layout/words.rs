//! Numbers of 32 bits in bytes, most significant first.

pub fn word(bytes: &[u8], place: usize) -> u32 {
    let at = 4 * place;
    u32::from_be_bytes([bytes[at], bytes[at + 1], bytes[at + 2], bytes[at + 3]])
}

pub fn set_word(bytes: &mut [u8], place: usize, number: u32) {
    bytes[4 * place..4 * place + 4].copy_from_slice(&number.to_be_bytes());
}

/// The `width` bits of a word that start `from` bits below its most significant end.
pub fn field(word: u32, from: u32, width: u32) -> usize {
    ((word >> (32 - from - width)) & ((1 << width) - 1)) as usize
}

/// The same bits, set to a number that fits them.
pub fn in_field(number: usize, from: u32, width: u32) -> u32 {
    debug_assert!(number < 1 << width);
    (number as u32) << (32 - from - width)
}
