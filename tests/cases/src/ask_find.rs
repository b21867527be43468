//! Requests for the record of a pc.

use peer::operations::FIND;

use crate::draft::put_words;
use crate::requests::Request;
use crate::rng::Rng;

pub const KINDS: [&str; 9] = [
    "length",
    "below base",
    "equal",
    "falling",
    "no records",
    "before",
    "at a start",
    "between",
    "past",
];

/// A table with its pc. Starts are even here; the bytes have bit 0 at random.
struct Table {
    image_base: u32,
    pc: u32,
    starts: Vec<u32>,
    words: Vec<u32>,
}

pub fn request(rng: &mut Rng) -> Request {
    let mut table = random_table(rng);
    match rng.within(0..=9) {
        0 => bad_length(rng, &table),
        1 => below_base(rng, table),
        2 if table.starts.len() > 1 => {
            let at = rng.below(table.starts.len() - 1);
            table.starts[at + 1] = table.starts[at];
            unsorted(rng, &table, "equal")
        }
        3 if table.starts.len() > 1 => {
            let at = rng.below(table.starts.len() - 1);
            table.starts.swap(at, at + 1);
            unsorted(rng, &table, "falling")
        }
        _ => table.sound(rng),
    }
}

fn random_table(rng: &mut Rng) -> Table {
    let image_base = rng.pick(&[0, 0x0040_0000, 0x0040_0001, 0x7fff_ffff, 0xfff0_0000]);
    let count = match rng.within(0..=9) {
        0 => 0,
        1 => 1,
        _ => rng.within(2..=40),
    };
    let mut start = 2 * rng.within(0..=0x40);
    let mut starts = Vec::new();
    for _ in 0..count {
        starts.push(start);
        start += 2 * rng.within(1..=0x100);
    }
    let words = starts.iter().map(|_| rng.word()).collect();
    let rva = match rng.within(0..=3) {
        0 if count > 0 => rng.pick(&starts),
        1 => rng.within(0..=0x20),
        2 => start + rng.within(0..=0x1000),
        _ => rng.within(0..=start),
    };
    Table { image_base, pc: image_base + rva, starts, words }
}

impl Table {
    fn bytes(&self, rng: &mut Rng) -> Vec<u8> {
        let mut out = Vec::new();
        for (start, word) in self.starts.iter().zip(&self.words) {
            put_words(&mut out, &[start | rng.within(0..=1), *word]);
        }
        out
    }

    fn ask(&self, kind: &'static str, pdata: &[u8], known: String) -> Request {
        Request::new(kind, FIND, &[self.image_base, self.pc], pdata, Some(known))
    }

    /// An ascending table, whose record is known by counting.
    fn sound(&self, rng: &mut Rng) -> Request {
        // Bit 0 of a pc is read as 0, which may bring it below an odd base.
        let Some(rva) = (self.pc & !1).checked_sub(self.image_base) else {
            return self.ask("below base", &self.bytes(rng), refused(2));
        };
        let upto = self.starts.iter().filter(|start| **start <= rva).count();
        let kind = match upto {
            0 if self.starts.is_empty() => "no records",
            0 => "before",
            _ if self.starts[upto - 1] == rva => "at a start",
            _ if upto < self.starts.len() => "between",
            _ => "past",
        };
        let known = match upto.checked_sub(1) {
            None => "find 0 0 0 00000000 00000000".to_string(),
            Some(at) => format!("find 0 1 {at} {:08x} {:08x}", self.starts[at], self.words[at]),
        };
        self.ask(kind, &self.bytes(rng), known)
    }
}

fn refused(number: u32) -> String {
    format!("find {number} 0 0 00000000 00000000")
}

/// Whatever else is wrong with it.
fn bad_length(rng: &mut Rng, table: &Table) -> Request {
    let mut pdata = table.bytes(rng);
    let more = 1 + rng.below(7);
    pdata.extend(rng.bytes(more));
    table.ask("length", &pdata, refused(1))
}

/// Just below or far below; the table may be out of order too.
fn below_base(rng: &mut Rng, mut table: Table) -> Request {
    if table.image_base < 2 {
        table.image_base = 0x0040_0000;
    }
    table.pc = match rng.within(0..=2) {
        0 => (table.image_base - 1) & !1,
        1 => (table.image_base - 1) | 1,
        _ => rng.within(0..=table.image_base - 2),
    };
    if rng.flag() {
        table.starts.reverse();
    }
    table.ask("below base", &table.bytes(rng), refused(2))
}

fn unsorted(rng: &mut Rng, table: &Table, kind: &'static str) -> Request {
    if table.pc & !1 < table.image_base {
        return table.ask("below base", &table.bytes(rng), refused(2));
    }
    table.ask(kind, &table.bytes(rng), refused(3))
}
