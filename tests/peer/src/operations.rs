//! What a C program can ask: the operations on tables, and both texts into a lent buffer.
//!
//! Requests follow one another, each preceded by its length. A request is a word that says which
//! operation it is, numbers of 32 bits, and bytes (tests/README.md); each answer is followed by an
//! empty line.

use std::io::{self, Write};

use crate::bits::word_at;
use crate::full::{Full, Xdata};
use crate::packed::Packed;
use crate::pdata;
use crate::refusal::Refusal;
use crate::text::{caller, listing};

pub const FIND: u32 = 1;
pub const SIZE: u32 = 2;
pub const WORD: u32 = 3;
pub const CODES: u32 = 4;
pub const WALK: u32 = 5;
pub const CALLER: u32 = 6;

pub fn answer_all(mut requests: &[u8], mut output: impl Write) -> io::Result<()> {
    let cut = || io::Error::new(io::ErrorKind::InvalidInput, "a request is cut or unknown");
    while !requests.is_empty() {
        let length = word_at(requests, 0).ok_or_else(cut)? as usize;
        let request = requests.get(4..4 + length).ok_or_else(cut)?;
        writeln!(output, "{}\n", answer(request).ok_or_else(cut)?)?;
        requests = &requests[4 + length..];
    }
    output.flush()
}

/// The answer to one request, if it is one.
pub fn answer(request: &[u8]) -> Option<String> {
    let number = |at: usize| word_at(request, 4 * at);
    let rest = |numbers: usize| request.get(4 * numbers..);
    match number(0)? {
        FIND => Some(find(number(1)?, number(2)?, rest(3)?)),
        SIZE => Some(size(&Xdata { rva: number(1)?, bytes: rest(3)? }, number(2)?)),
        WORD => {
            let fields: Option<Vec<u32>> = (1..=9).map(number).collect();
            Some(word(fields?.try_into().ok()?))
        }
        CODES => Some(codes(number(1)?)),
        WALK => Some(lent("walk", &listing(rest(2)?), number(1)? as usize)),
        CALLER => Some(lent("caller", &caller(rest(2)?), number(1)? as usize)),
        _ => None,
    }
}

/// The refusal's number, or 0, and the answer, or what stands for a refused one.
fn told<T>(result: Result<T, Refusal>, refused: T) -> (u32, T) {
    match result {
        Ok(answer) => (0, answer),
        Err(refusal) => (refusal.number(), refused),
    }
}

fn find(image_base: u32, pc: u32, table: &[u8]) -> String {
    let (refusal, found) = told(find_in(image_base, pc, table), None);
    let [there, number, start, word] = found.map_or([0; 4], |entry| {
        [1, entry.number as u64, u64::from(entry.start), u64::from(entry.word)]
    });
    format!("find {refusal} {there} {number} {start:08x} {word:08x}")
}

fn find_in(image_base: u32, pc: u32, table: &[u8]) -> Result<Option<pdata::Entry>, Refusal> {
    if !table.len().is_multiple_of(8) {
        return Err(Refusal::Parts);
    }
    let rva = (pc & !1).checked_sub(image_base).ok_or(Refusal::BelowImage)?;
    pdata::check_ascending(table)?;
    Ok(pdata::find(table, rva))
}

fn size(xdata: &Xdata, rva: u32) -> String {
    let (refusal, size) = told(Full::size(xdata, rva), 0);
    format!("size {refusal} {size}")
}

fn word(fields: [u32; 9]) -> String {
    let (refusal, word) = told(Packed::write(fields), 0);
    format!("word {refusal} {word:08x}")
}

fn codes(word: u32) -> String {
    let (refusal, lists) =
        told(Packed::only(word).map(|packed| packed.codes()), Default::default());
    let mut bytes = lists.concat();
    bytes.resize(16, 0);
    let bytes: String = bytes.iter().map(|byte| format!("{byte:02x}")).collect();
    format!("codes {refusal} {} {} {bytes}", lists[0].len(), lists[1].len())
}

/// A buffer of dots after the text was laid into it, as far as it fits.
fn lent(what: &str, text: &str, room: usize) -> String {
    let mut buffer = text.to_string();
    buffer.truncate(room);
    format!("{what} {}\n{buffer:.<room$}", text.len())
}
