//! A function as its record describes it: where its prologue and epilogues stand, and what is left to
//! undo at a given byte.

use std::ops::Range;
use std::rc::Rc;

use crate::codes::Sequence;
use crate::machine::Instruction;
use crate::refusal::Refusal;

/// The condition of an epilogue that is always executed.
const ALWAYS: u32 = 0xe;

#[derive(Clone, Copy, Debug, PartialEq, Eq)]
pub enum Place {
    Leaf,
    Prologue,
    Body,
    Epilogue,
}

#[derive(Clone, Debug)]
pub struct Epilogue {
    pub start: u64,
    pub condition: u32,
    pub list: Rc<Sequence>,
}

impl Epilogue {
    /// The unconditional epilogue that ends where a function of `length` ends.
    pub fn at_end(length: u64, list: Rc<Sequence>) -> Result<Epilogue, Refusal> {
        let size = total(&list.instructions) + list.leave;
        let start = length.checked_sub(size).ok_or(Refusal::Layout)?;
        Ok(Epilogue { start, condition: ALWAYS, list })
    }

    fn extent(&self) -> Range<u64> {
        self.start..self.start + total(&self.list.instructions) + self.list.leave
    }

    fn left_at(&self, offset: u64) -> Result<&[Instruction], Refusal> {
        let all = &self.list.instructions;
        let done = count_done(all.iter(), offset - self.start)?;
        if self.condition != ALWAYS {
            return Err(Refusal::Conditional);
        }
        Ok(&all[done..])
    }
}

#[derive(Clone, Debug)]
pub struct Function {
    pub length: u64,
    /// What the body has to undo, which is the whole prologue from its last instruction back.
    pub body: Rc<Sequence>,
    /// A fragment has the body's list but no prologue instructions of its own.
    pub fragment: bool,
    pub epilogues: Vec<Epilogue>,
    /// RVA, or 0.
    pub handler: u32,
}

impl Function {
    fn prologue_extent(&self) -> Range<u64> {
        if self.fragment {
            0..0
        } else {
            0..total(&self.body.instructions)
        }
    }

    /// Everything inside the function, scopes in order, and no halfword used twice.
    pub fn check_layout(&self) -> Result<(), Refusal> {
        let ascending = self.epilogues.windows(2).all(|pair| pair[0].start < pair[1].start);
        let mut extents = vec![self.prologue_extent()];
        extents.extend(self.epilogues.iter().map(Epilogue::extent));
        let inside = extents.iter().all(|extent| extent.end <= self.length);
        // An empty extent shares nothing. The others ascend, so only neighbours can meet first.
        extents.retain(|extent| !extent.is_empty());
        let apart = extents.windows(2).all(|pair| pair[0].end <= pair[1].start);
        if ascending && inside && apart {
            Ok(())
        } else {
            Err(Refusal::Layout)
        }
    }

    /// The place of the byte at `offset`, and what has to be undone there, in order.
    pub fn locate(&self, offset: u64) -> Result<(Place, &[Instruction]), Refusal> {
        if self.prologue_extent().contains(&offset) {
            return Ok((Place::Prologue, self.done_in_prologue(offset)?));
        }
        let epilogue = self.epilogues.iter().find(|epilogue| epilogue.extent().contains(&offset));
        match epilogue {
            Some(epilogue) => Ok((Place::Epilogue, epilogue.left_at(offset)?)),
            None => Ok((Place::Body, &self.body.instructions)),
        }
    }

    fn done_in_prologue(&self, offset: u64) -> Result<&[Instruction], Refusal> {
        let all = &self.body.instructions;
        let done = count_done(all.iter().rev(), offset)?;
        Ok(&all[all.len() - done..])
    }
}

fn total(instructions: &[Instruction]) -> u64 {
    instructions.iter().map(|instruction| instruction.size).sum()
}

/// How many instructions, laid end to end in the order they execute, end exactly at `distance`.
fn count_done<'a>(
    instructions: impl Iterator<Item = &'a Instruction>,
    distance: u64,
) -> Result<usize, Refusal> {
    let mut at = 0;
    let mut done = 0;
    for instruction in instructions {
        if at >= distance {
            break;
        }
        at += instruction.size;
        done += 1;
    }
    if at == distance {
        Ok(done)
    } else {
        Err(Refusal::InsideInstruction)
    }
}
