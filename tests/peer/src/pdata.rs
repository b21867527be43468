//! The .pdata table: which record speaks of a pc.

use crate::bits::word_at;
use crate::refusal::Refusal;

#[derive(Clone, Copy, Debug, PartialEq, Eq)]
pub struct Entry {
    /// Its place in the table, from 0.
    pub number: usize,
    /// RVA of the function's first byte; bit 0, the Thumb mark, is cleared.
    pub start: u32,
    /// A packed record, or the RVA of a full one.
    pub word: u32,
}

fn entries(pdata: &[u8]) -> impl Iterator<Item = Entry> + '_ {
    pdata.chunks_exact(8).enumerate().filter_map(|(number, record)| {
        Some(Entry { number, start: word_at(record, 0)? & !1, word: word_at(record, 4)? })
    })
}

/// Looks at the whole table, not only at the records near a pc.
pub fn check_ascending(pdata: &[u8]) -> Result<(), Refusal> {
    let mut last = None;
    for entry in entries(pdata) {
        if last.is_some_and(|last| entry.start <= last) {
            return Err(Refusal::Unsorted);
        }
        last = Some(entry.start);
    }
    Ok(())
}

/// The record with the greatest start that is not above `rva`, in an ascending table.
pub fn find(pdata: &[u8], rva: u32) -> Option<Entry> {
    entries(pdata).take_while(|entry| entry.start <= rva).last()
}
