//! Functions put together into the tables of one image.

use crate::draft::Draft;
use crate::functions::{Function, Record};
use crate::rng::Rng;
use crate::tables::{Surroundings, Table};

#[derive(Clone, Debug)]
pub struct Module {
    /// The tables are written; stack and registers are not.
    pub draft: Draft,
    pub functions: Vec<Function>,
    /// RVA of each function.
    pub starts: Vec<u32>,
}

impl Module {
    pub fn assemble(rng: &mut Rng, functions: Vec<Function>) -> Module {
        let starts = random_starts(rng, &functions);
        Module::assemble_at(rng, functions, starts)
    }

    /// The functions with these start RVAs.
    pub fn assemble_at(rng: &mut Rng, functions: Vec<Function>, starts: Vec<u32>) -> Module {
        let mut draft = Draft::empty();
        draft.image_base = random_image_base(rng, &starts);
        let (xdata, offsets) = write_xdata(rng, &functions, &starts);
        draft.xdata_rva = random_xdata_rva(rng, &xdata);
        draft.xdata = xdata;
        for ((function, start), offset) in functions.iter().zip(&starts).zip(offsets) {
            let word = match &function.record {
                Record::Packed(fields) => fields.word(),
                Record::Full(_) => draft.xdata_rva.wrapping_add(offset),
            };
            draft.pdata.push([start | u32::from(rng.flag()), word]);
        }
        Module { draft, functions, starts }
    }

    /// The address of a byte of a function. Near the top of memory it may wrap: the report says so too.
    pub fn address(&self, function: usize, offset: u32) -> u32 {
        self.draft.image_base.wrapping_add(self.starts[function]).wrapping_add(offset)
    }

    /// Whether a pc at that offset is sure to be found there: nothing wraps and all is even.
    pub fn reaches(&self, function: usize, offset: u32) -> bool {
        let rva = self.starts[function].checked_add(offset);
        let address = rva.and_then(|rva| rva.checked_add(self.draft.image_base));
        address.is_some_and(|address| address % 2 == 0)
    }

    /// A return address in the body of any function, with or without the Thumb mark; now and then in
    /// its prologue or an epilogue instead.
    pub fn return_address(&self, rng: &mut Rng) -> u32 {
        let number = rng.below(self.functions.len());
        let function = &self.functions[number];
        let offset = if rng.percent(94) {
            function.offset_in_body(rng)
        } else {
            function.offset_in_stretch(rng)
        };
        self.address(number, offset) | u32::from(rng.percent(80))
    }
}

/// Ascending even starts from `first` on, with or without gaps.
pub fn starts_from(rng: &mut Rng, functions: &[Function], first: u32) -> Vec<u32> {
    let mut at = first;
    let mut starts = Vec::new();
    for function in functions {
        starts.push(at);
        let gap = if rng.percent(40) { 0 } else { 2 * rng.within(0..=40) };
        at += function.length.max(2) + gap;
    }
    starts
}

/// Starts anywhere, now and then at the very top of the 32 bits.
fn random_starts(rng: &mut Rng, functions: &[Function]) -> Vec<u32> {
    let first = 2 * rng.within(0..=0x1000);
    let mut starts = starts_from(rng, functions, first);
    let last = functions.last().map_or(0, |function| function.length);
    if rng.percent(3) {
        let highest = starts.last().copied().unwrap_or(0);
        let shift = (0u32.wrapping_sub(2 * rng.within(1..=last / 2 + 4))).wrapping_sub(highest);
        starts.iter_mut().for_each(|start| *start += shift);
    }
    starts
}

fn random_image_base(rng: &mut Rng, starts: &[u32]) -> u32 {
    let high = starts.last().is_some_and(|start| *start > 0x8000_0000);
    match rng.within(0..=99) {
        _ if high => 0,
        0..=3 => 0,
        4..=7 => 0x0040_0001,
        8..=50 => 0x0040_0000,
        51..=80 => 0x1000_0000,
        _ => rng.word() & 0x7fff_f000,
    }
}

/// The .xdata bytes, and where in them each full record stands.
fn write_xdata(rng: &mut Rng, functions: &[Function], starts: &[u32]) -> (Vec<u8>, Vec<u32>) {
    let mut xdata = Vec::new();
    let mut offsets = Vec::new();
    for (function, start) in functions.iter().zip(starts) {
        let filler = 4 * rng.below(3);
        xdata.extend(rng.bytes(filler));
        offsets.push(xdata.len() as u32);
        if let Record::Full(record) = &function.record {
            xdata.extend(record.bytes());
            if record.handler.is_some() && rng.percent(70) {
                let around = Surroundings { start: *start, length: function.length, pcs: vec![] };
                xdata.extend(Table::any(rng, &around, false).bytes());
            }
        }
    }
    if rng.percent(30) {
        let trailer = rng.below(9);
        xdata.extend(rng.bytes(trailer));
    }
    (xdata, offsets)
}

fn random_xdata_rva(rng: &mut Rng, xdata: &[u8]) -> u32 {
    let length = (xdata.len() as u32).next_multiple_of(4);
    match rng.within(0..=99) {
        0..=1 => 0,
        2..=3 => 0u32.wrapping_sub(length),
        _ => 4 * rng.within(0..=0x4000),
    }
}
