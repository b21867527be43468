//! Bit fields and little-endian words.

/// Bits `low` to `high` of a word, both included, moved down to bit 0.
pub fn field(word: u32, low: u32, high: u32) -> u32 {
    (word >> low) & (u32::MAX >> (31 - (high - low)))
}

pub fn bit(word: u32, number: u32) -> bool {
    word >> number & 1 == 1
}

/// The halfword whose two bytes start at `at`, if both are there.
pub fn halfword_at(bytes: &[u8], at: usize) -> Option<u32> {
    let two = bytes.get(at..at.checked_add(2)?)?;
    Some(u32::from(u16::from_le_bytes(two.try_into().ok()?)))
}

/// The word whose four bytes start at `at`, if all of them are there.
pub fn word_at(bytes: &[u8], at: usize) -> Option<u32> {
    let four = bytes.get(at..at.checked_add(4)?)?;
    Some(u32::from_le_bytes(four.try_into().ok()?))
}
