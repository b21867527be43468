//! Report files that are unfit, and those that only just fit.

use crate::case::{Case, Known};
use crate::draft::{Draft, LONGEST};
use crate::rng::Rng;
use crate::victims::Victim;

pub fn file(rng: &mut Rng) -> Case {
    let draft = Victim::new(rng, false, &[]).draft(rng);
    let mut report = draft.bytes();
    match rng.within(0..=9) {
        0..=2 => report[rng.below(8)] ^= 1 << rng.below(8),
        3 => report.truncate(report.len() - rng.pick(&[1, 2, 4])),
        4 => report.extend(vec![0; rng.pick(&[1, 2, 4])]),
        5 => report.truncate(rng.pick(&[0, 1, 7, 8, 31, 32, 95, 96, 351, 352])),
        6..=8 => spoil_numbers(rng, &mut report),
        _ => return stretched(rng, draft),
    }
    Case::new("aimed, file", report, Known::FirstRefused(14))
}

/// Numbers that do not add up, also those that would if they wrapped.
fn spoil_numbers(rng: &mut Rng, report: &mut [u8]) {
    // The counts of .pdata records, .xdata bytes and stack bytes.
    let at = rng.pick(&[12, 20, 28]);
    let mut number = [0; 4];
    number.copy_from_slice(&report[at..at + 4]);
    let value = u32::from_le_bytes(number);
    let other = match rng.within(0..=3) {
        0 => value + 1,
        1 => value.wrapping_sub(1),
        2 => value ^ 0x2000_0000,
        _ => value ^ 0x8000_0000,
    };
    report[at..at + 4].copy_from_slice(&other.to_le_bytes());
}

/// Stack enough for the longest report there may be, or for more than that.
fn stretched(rng: &mut Rng, mut draft: Draft) -> Case {
    let over = rng.pick(&[0, 0, 0, 1, 4, 4, 100]);
    let missing = LONGEST + over - draft.bytes().len();
    draft.stack.extend(vec![0; missing]);
    let known = if over == 0 { Known::Nothing } else { Known::FirstRefused(14) };
    Case::new("aimed, file", draft.bytes(), known)
}
