//! Files one after the other, each preceded by its length in 32 bits, little-endian.

use std::io::{self, Read, Write};

use crate::refusal::Refusal;
use crate::text::refused;

/// Answers every file of `input`, of at most `longest` bytes each, each answer followed by an empty line.
pub fn answer_all(
    mut input: impl Read,
    mut output: impl Write,
    longest: usize,
    answer: fn(&[u8]) -> String,
) -> io::Result<()> {
    loop {
        let text = match next(&mut input, longest)? {
            Item::Report(report) => answer(&report),
            Item::TooLong | Item::Cut => refused(Refusal::Unfit),
            Item::Nothing => return output.flush(),
        };
        writeln!(output, "{text}")?;
    }
}

enum Item {
    Report(Vec<u8>),
    /// Its bytes, as many as there are, have been skipped.
    TooLong,
    /// The input ended inside the length or the report.
    Cut,
    Nothing,
}

fn next(input: &mut impl Read, longest: usize) -> io::Result<Item> {
    let head = up_to(input, 4)?;
    if head.is_empty() {
        return Ok(Item::Nothing);
    }
    let Ok(head) = <[u8; 4]>::try_from(head) else {
        return Ok(Item::Cut);
    };
    let length = u64::from(u32::from_le_bytes(head));
    if length > longest as u64 {
        io::copy(&mut input.take(length), &mut io::sink())?;
        return Ok(Item::TooLong);
    }
    let report = up_to(input, length)?;
    if (report.len() as u64) < length {
        return Ok(Item::Cut);
    }
    Ok(Item::Report(report))
}

/// The next `count` bytes, or all that are left.
fn up_to(input: &mut impl Read, count: u64) -> io::Result<Vec<u8>> {
    let mut bytes = Vec::new();
    input.take(count).read_to_end(&mut bytes)?;
    Ok(bytes)
}
