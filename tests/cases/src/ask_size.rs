//! Requests for the size of an .xdata record.

use peer::operations::SIZE;

use crate::draft::put_words;
use crate::records::{FullRecord, Scope, Scopes};
use crate::requests::Request;
use crate::rng::Rng;

pub const KINDS: [&str; 12] = [
    "whole",
    "at the end",
    "end at 2^32",
    "end above",
    "RVA not of 4",
    "below RVA",
    "first word",
    "version",
    "extension",
    "reserved",
    "a byte short",
    "any words",
];

/// Lent bytes with a record among them.
struct Lent {
    rva: u32,
    bytes: Vec<u8>,
    /// Offset of the record.
    at: usize,
    /// Its bytes.
    size: usize,
}

pub fn request(rng: &mut Rng) -> Request {
    match rng.within(0..=13) {
        0 => end_at_top(rng),
        1 => end_above(rng),
        2 => {
            let mut lent = any_lent(rng);
            lent.rva += rng.within(1..=3);
            lent.refused(rng, "RVA not of 4", 1)
        }
        3 => below(rng),
        4 => first_word(rng),
        5 | 6 => version(rng),
        7 => extension(rng),
        8 | 9 => reserved(rng),
        10 => {
            let mut lent = any_lent(rng);
            lent.cut(lent.size - 1);
            lent.refused(rng, "a byte short", 5)
        }
        11 => any_words(rng),
        12 => {
            let mut lent = any_lent(rng);
            lent.cut(lent.size);
            lent.given(rng, "at the end")
        }
        _ => any_lent(rng).given(rng, "whole"),
    }
}

impl Lent {
    fn ask(&self, rng: &mut Rng, kind: &'static str, known: Option<String>) -> Request {
        // The low two bits of the record's RVA are ignored.
        let at = (self.rva & !3).wrapping_add(self.at as u32) + rng.within(0..=3);
        Request::new(kind, SIZE, &[self.rva, at], &self.bytes, known)
    }

    fn given(&self, rng: &mut Rng, kind: &'static str) -> Request {
        self.ask(rng, kind, Some(format!("size 0 {}", self.size)))
    }

    fn refused(&self, rng: &mut Rng, kind: &'static str, number: u32) -> Request {
        self.ask(rng, kind, Some(format!("size {number} 0")))
    }

    /// Only these bytes of the record are lent.
    fn cut(&mut self, bytes: usize) {
        self.bytes.truncate(self.at + bytes);
    }
}

fn random_record(rng: &mut Rng) -> FullRecord {
    // The size routine does not look at Res.
    let scope = |rng: &mut Rng| Scope { reserved: rng.within(0..=3), ..Scope::always(0, 0) };
    let scopes = if rng.percent(40) {
        Scopes::AtEnd(rng.pick(&[0, 1, 5, 31, 32, 0xffff]))
    } else {
        let count = rng.pick(&[0, 0, 1, 2, 3, 31, 32, 50]);
        Scopes::Listed((0..count).map(|_| scope(rng)).collect())
    };
    let words = rng.pick(&[0, 1, 1, 2, 3, 15, 16, 255]);
    FullRecord {
        length: 2 * rng.within(0..=0x3ffff),
        version: 0,
        fragment: rng.flag(),
        scopes,
        codes: rng.bytes(4 * words),
        handler: rng.flag().then(|| rng.word()),
        extended: rng.percent(30),
        reserved: 0,
    }
}

fn any_lent(rng: &mut Rng) -> Lent {
    let record = random_record(rng);
    lend(rng, &record)
}

/// The record between other bytes; the lent length may be no multiple of 4.
fn lend(rng: &mut Rng, record: &FullRecord) -> Lent {
    let record = record.bytes();
    let mut bytes = Vec::new();
    let before: Vec<u32> = (0..rng.below(4)).map(|_| rng.word()).collect();
    put_words(&mut bytes, &before);
    let at = bytes.len();
    bytes.extend(&record);
    let after = rng.below(8);
    bytes.extend(rng.bytes(after));
    Lent { rva: rng.pick(&[0, 0x8000, 0x0012_3450, 0xf000_0000]), bytes, at, size: record.len() }
}

fn end_at_top(rng: &mut Rng) -> Request {
    let mut lent = any_lent(rng);
    lent.cut(lent.size);
    lent.rva = 0u32.wrapping_sub(lent.bytes.len() as u32);
    lent.given(rng, "end at 2^32")
}

/// By a few bytes: the record itself may be below 2^32.
fn end_above(rng: &mut Rng) -> Request {
    let mut lent = any_lent(rng);
    lent.cut(lent.size);
    lent.rva = 0u32.wrapping_sub(lent.bytes.len() as u32);
    let more = 1 + rng.below(4);
    lent.bytes.extend(rng.bytes(more));
    lent.refused(rng, "end above", 1)
}

fn below(rng: &mut Rng) -> Request {
    let lent = any_lent(rng);
    let rva = lent.rva.max(0x100);
    let at = rva - 4 * rng.within(1..=8) + rng.within(0..=3);
    Request::new("below RVA", SIZE, &[rva, at], &lent.bytes, Some("size 5 0".to_string()))
}

/// Not one whole word is there, also at the end of the lent bytes and past it.
fn first_word(rng: &mut Rng) -> Request {
    let mut lent = any_lent(rng);
    let left = rng.below(4);
    lent.cut(left);
    if left == 0 {
        lent.at += 4 * rng.below(3);
    }
    lent.refused(rng, "first word", 5)
}

/// Vers comes before everything but the first word.
fn version(rng: &mut Rng) -> Request {
    let record = FullRecord { version: rng.within(1..=3), ..random_record(rng) };
    let mut lent = lend(rng, &record);
    if rng.flag() {
        lent.cut(4 + rng.below(lent.size - 3));
    }
    lent.refused(rng, "version", 4)
}

fn extension(rng: &mut Rng) -> Request {
    let record = FullRecord { extended: true, ..random_record(rng) };
    let mut lent = lend(rng, &record);
    lent.cut(4 + rng.below(4));
    lent.refused(rng, "extension", 5)
}

/// The reserved byte comes before the whole record.
fn reserved(rng: &mut Rng) -> Request {
    let highest = rng.pick(&[1, 0x80, 0xff]);
    let record = FullRecord { extended: true, reserved: highest, ..random_record(rng) };
    let mut lent = lend(rng, &record);
    if rng.flag() {
        lent.cut(8 + rng.below(lent.size - 7));
    }
    lent.refused(rng, "reserved", 4)
}

fn any_words(rng: &mut Rng) -> Request {
    let count = rng.below(120);
    // Most words have Vers 0; some say that an extension follows.
    let word = |rng: &mut Rng| {
        let keep = rng.pick(&[!0, !0xc_0000, !0xc_0000, 0x0073_ffff]);
        rng.word() & keep
    };
    let words: Vec<u32> = (0..count).map(|_| word(rng)).collect();
    let mut bytes = Vec::new();
    put_words(&mut bytes, &words);
    let lent = Lent { rva: 0x4000, at: 4 * rng.below(8), bytes, size: 0 };
    lent.ask(rng, "any words", None)
}
