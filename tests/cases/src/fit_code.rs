//! A function with its code, of which any instruction can be spoiled.

use crate::assembly::Halfwords;
use crate::fit_file::FitFile;
use crate::fit_functions::{stretches, Placed};
use crate::functions::{Function, Record};
use crate::rng::Rng;
use crate::stands::right;

pub struct Coded {
    pub function: Function,
    /// Prologue and epilogues, as they execute.
    pub stretches: Vec<Vec<Placed>>,
    pub code: Vec<u8>,
}

impl Coded {
    /// Right instructions, where a code has any, and a body of any halfwords.
    pub fn new(rng: &mut Rng, function: Function) -> Coded {
        let stretches = stretches(&function);
        let code = body(rng, function.length as usize);
        let mut coded = Coded { function, stretches, code };
        for placed in coded.all() {
            if let Some(halves) = right(rng, &placed.piece, placed.spot) {
                coded.write(placed.offset, &halves);
            }
        }
        coded
    }

    /// All instructions by rising offset.
    pub fn all(&self) -> Vec<Placed> {
        self.stretches.concat()
    }

    pub fn write(&mut self, offset: u32, halves: &[u16]) {
        let bytes: Vec<u8> = halves.iter().flat_map(|half| half.to_le_bytes()).collect();
        self.code[offset as usize..][..bytes.len()].copy_from_slice(&bytes);
    }

    /// The halfwords of an instruction.
    pub fn halves(&self, placed: &Placed) -> Halfwords {
        let bytes = &self.code[placed.offset as usize..][..placed.piece.size() as usize];
        bytes.chunks_exact(2).map(|half| u16::from_le_bytes([half[0], half[1]])).collect()
    }

    /// The file, with more behind the code now and then.
    pub fn file(mut self, rng: &mut Rng) -> FitFile {
        if rng.percent(25) {
            let more = rng.pick(&[1, 2, 3, 4, 10]);
            self.code.extend(rng.bytes(more));
        }
        file_of(rng, &self.function, self.code)
    }
}

fn body(rng: &mut Rng, length: usize) -> Vec<u8> {
    let nops = rng.percent(40);
    let mut code = Vec::new();
    while code.len() < length {
        let half = if nops { 0xbf00 } else { rng.word() as u16 };
        code.extend(half.to_le_bytes());
    }
    code
}

/// A function's record, among other .xdata, and this code.
pub fn file_of(rng: &mut Rng, function: &Function, code: Vec<u8>) -> FitFile {
    let before = 4 * rng.pick(&[0, 0, 0, 1, 2]);
    let mut xdata = rng.bytes(before);
    if let Record::Full(record) = &function.record {
        xdata.extend(record.bytes());
    }
    let after = rng.pick(&[0, 0, 0, 1, 4, 9]);
    xdata.extend(rng.bytes(after));
    let xdata_rva = random_rva(rng, xdata.len() as u32);
    let word = match &function.record {
        Record::Packed(fields) => fields.word(),
        Record::Full(_) => xdata_rva + before as u32,
    };
    FitFile { word, xdata_rva, xdata, code }
}

/// A multiple of 4 with room for the bytes up to 2^32, often just so.
fn random_rva(rng: &mut Rng, bytes: u32) -> u32 {
    let highest = 0u32.wrapping_sub(bytes.next_multiple_of(4));
    let any = 4 * rng.within(0..=0x4000);
    rng.pick(&[0, any, any, any, highest])
}
