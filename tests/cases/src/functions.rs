//! Functions with sound records: their instructions are known, so a pc can be aimed at them.

use crate::records::{FullRecord, PackedFields};
use crate::rng::Rng;
use crate::steps::{List, Step};

#[derive(Clone, Debug)]
pub enum Record {
    Packed(PackedFields),
    Full(FullRecord),
}

#[derive(Clone, Debug)]
pub struct Epilogue {
    pub start: u32,
    pub list: List,
}

#[derive(Clone, Debug)]
pub struct Function {
    pub length: u32,
    pub record: Record,
    /// What the body undoes: the prologue from its last instruction back.
    pub body: List,
    /// The record describes no prologue instructions of its own.
    pub fragment: bool,
    pub epilogues: Vec<Epilogue>,
}

impl Function {
    pub fn prologue_size(&self) -> u32 {
        if self.fragment {
            0
        } else {
            self.body.prologue_size()
        }
    }

    /// A pc in the prologue or in an epilogue: at an instruction mostly, sometimes 2 bytes further.
    pub fn offset_in_stretch(&self, rng: &mut Rng) -> u32 {
        let which = rng.below(self.epilogues.len() + 1);
        let mark = match self.epilogues.get(which) {
            Some(epilogue) => epilogue.start + boundary(rng, epilogue.list.steps.iter()),
            None => boundary(rng, self.body.steps.iter().rev()),
        };
        mark + if rng.percent(15) { 2 } else { 0 }
    }

    /// A pc in the body, if a few tries find one.
    pub fn offset_in_body(&self, rng: &mut Rng) -> u32 {
        let halfwords = (self.length / 2).max(1);
        let mut offset = 0;
        for _ in 0..8 {
            offset = 2 * rng.within(0..=halfwords - 1);
            if self.is_body(offset) {
                break;
            }
        }
        offset
    }

    pub fn is_body(&self, offset: u32) -> bool {
        let in_epilogue = self.epilogues.iter().any(|epilogue| {
            let end = epilogue.start + epilogue.list.epilogue_size();
            (epilogue.start..end).contains(&offset)
        });
        offset >= self.prologue_size() && offset < self.length && !in_epilogue
    }
}

/// Where a random one of the instructions starts, or where they all end.
fn boundary<'a>(rng: &mut Rng, steps: impl ExactSizeIterator<Item = &'a Step>) -> u32 {
    let count = rng.below(steps.len() + 1);
    steps.take(count).map(|step| step.size).sum()
}
