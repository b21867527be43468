//! Reports one after the other, each preceded by its length in 32 bits.

use std::iter;

use crate::draft::put_words;

/// Appends a report with its length before it.
pub fn frame(out: &mut Vec<u8>, report: &[u8]) {
    put_words(out, &[report.len() as u32]);
    out.extend(report);
}

/// The reports of a file that `frame` wrote, up to the first that is not whole.
pub fn framed(mut bytes: &[u8]) -> impl Iterator<Item = &[u8]> {
    iter::from_fn(move || {
        let (length, rest) = bytes.split_first_chunk::<4>()?;
        let (report, rest) = rest.split_at_checked(u32::from_le_bytes(*length) as usize)?;
        bytes = rest;
        Some(report)
    })
}
