//! Packed records: the second .pdata word tells the whole canonical function.
//!
//! The instructions are made from the fields, as the compiler writes them, and their sizes from what
//! Thumb can encode in 16 bits. Code bytes, if they are asked for, are made from the instructions.

use std::rc::Rc;

use crate::bits::{bit, field};
use crate::codes::Sequence;
use crate::encode::encode;
use crate::function::{Epilogue, Function};
use crate::machine::{Instruction, Undo, LR};
use crate::refusal::Refusal;

#[derive(Clone, Copy, Debug)]
pub struct Packed {
    /// Flag 2: the record describes a part of a function that has no prologue of its own.
    pub fragment: bool,
    /// In bytes.
    pub length: u64,
    pub ret: u32,
    pub h: bool,
    pub reg: u32,
    pub r: bool,
    pub l: bool,
    pub c: bool,
    pub stack_adjust: u32,
}

/// Bits of the fields from bit 0 up: Flag, length/2, Ret, H, Reg, R, L, C, Stack Adjust.
const WIDTHS: [u32; 9] = [2, 11, 2, 1, 3, 1, 1, 1, 10];

impl Packed {
    /// Refuses what the format reserves. `word` has a Flag other than 0.
    pub fn read(word: u32) -> Result<Packed, Refusal> {
        let packed = Packed {
            fragment: field(word, 0, 1) == 2,
            length: 2 * u64::from(field(word, 2, 12)),
            ret: field(word, 13, 14),
            h: bit(word, 15),
            reg: field(word, 16, 18),
            r: bit(word, 19),
            l: bit(word, 20),
            c: bit(word, 21),
            stack_adjust: field(word, 22, 31),
        };
        let reserved = field(word, 0, 1) == 3
            || packed.ret == 0 && !packed.l
            || packed.c && !packed.l
            || packed.c && !packed.r && packed.reg == 7;
        if reserved {
            return Err(Refusal::Reserved);
        }
        Ok(packed)
    }

    /// A word that has to be a packed one: Flag 0, which tells of a full record, is refused too.
    pub fn only(word: u32) -> Result<Packed, Refusal> {
        if field(word, 0, 1) == 0 {
            return Err(Refusal::Reserved);
        }
        Packed::read(word)
    }

    /// The word of fields in the order of their bits, lowest first.
    pub fn write(fields: [u32; 9]) -> Result<u32, Refusal> {
        let mut word = 0;
        let mut low = 0;
        for (value, width) in fields.into_iter().zip(WIDTHS) {
            if value >> width != 0 {
                return Err(Refusal::Reserved);
            }
            word |= value << low;
            low += width;
        }
        Packed::only(word)?;
        Ok(word)
    }

    /// The codes of the prologue, the last instruction's first, and of the epilogue, if any.
    pub fn codes(&self) -> [Vec<u8>; 2] {
        let second = if self.ret == 3 { Vec::new() } else { encode(&self.epilogue()) };
        [encode(&self.undo_prologue()), second]
    }

    fn undo_prologue(&self) -> Sequence {
        let mut instructions = self.prologue();
        instructions.reverse();
        Sequence { instructions, leave: 0 }
    }

    pub fn function(&self) -> Result<Function, Refusal> {
        Ok(Function {
            length: self.length,
            body: Rc::new(self.undo_prologue()),
            fragment: self.fragment,
            epilogues: self.epilogue_at_end()?,
            handler: 0,
        })
    }

    fn epilogue_at_end(&self) -> Result<Vec<Epilogue>, Refusal> {
        if self.ret == 3 {
            return Ok(Vec::new());
        }
        Ok(vec![Epilogue::at_end(self.length, Rc::new(self.epilogue()))?])
    }

    fn folds(&self) -> bool {
        self.stack_adjust >= 0x3f4
    }

    /// PF: the push of the prologue also makes the room.
    pub fn prologue_folds(&self) -> bool {
        self.folds() && bit(self.stack_adjust, 2)
    }

    /// EF: the pop of the epilogue also gives the room back.
    pub fn epilogue_folds(&self) -> bool {
        self.folds() && bit(self.stack_adjust, 3)
    }

    /// Words the function sets aside.
    fn room(&self) -> u32 {
        if self.folds() {
            field(self.stack_adjust, 0, 1) + 1
        } else {
            self.stack_adjust
        }
    }

    /// The saved integer registers other than LR, with the low registers that a folded push or pop
    /// moves to make or give back the room.
    fn integer_list(&self, folded: bool) -> u32 {
        let mut list = 0;
        if !self.r {
            list |= registers(4, 4 + self.reg);
        }
        if folded {
            list |= registers(4 - self.room(), 3);
        }
        if self.c {
            list |= 1 << 11;
        }
        list
    }

    fn link_bit(&self) -> u32 {
        u32::from(self.l) << LR
    }

    fn vector(&self) -> Option<Instruction> {
        let saved = self.r && self.reg != 7;
        saved.then(|| wide(Undo::VectorPop(8, 8 + self.reg as usize)))
    }

    fn room_unless(&self, folded: bool) -> Option<Instruction> {
        let words = self.room();
        let make = if words <= 127 { narrow } else { wide };
        (words != 0 && !folded).then(|| make(Undo::Raise(words)))
    }

    /// The prologue's instructions in the order they execute.
    fn prologue(&self) -> Vec<Instruction> {
        let folded = self.prologue_folds();
        let list = self.integer_list(folded) | self.link_bit();
        let home = self.h.then(|| narrow(Undo::Raise(4)));
        // mov r11,sp where only r11 and LR were pushed; add r11,sp,#.. to pass over what lies below r11.
        let set_chain = if list == 1 << 11 | 1 << LR { narrow } else { wide };
        let chain = self.c.then(|| set_chain(Undo::Nothing));
        let steps = [home, transfer(list, 1 << LR), chain, self.vector(), self.room_unless(folded)];
        steps.into_iter().flatten().collect()
    }

    /// The epilogue's instructions in the order they execute, without an explicit branch at the end.
    fn epilogue(&self) -> Sequence {
        let folded = self.epilogue_folds();
        let list = self.integer_list(folded);
        let (pop, after, leave) = if self.h && self.l {
            // ldr pc,[sp],#0x14: returns and drops the homed arguments at once.
            (transfer(list, 0), Some(wide(Undo::LoadLink(5))), 0)
        } else if self.ret == 0 {
            // pop {..., pc}: a 16-bit pop can name pc, and undoing it gives LR.
            (transfer(list | self.link_bit(), 1 << LR), None, 0)
        } else {
            // A 16-bit pop cannot name LR.
            let branch = if self.ret == 1 { 2 } else { 4 };
            (transfer(list | self.link_bit(), 0), self.h.then(|| narrow(Undo::Raise(4))), branch)
        };
        let steps = [self.room_unless(folded), self.vector(), pop, after];
        Sequence { instructions: steps.into_iter().flatten().collect(), leave }
    }
}

/// A push or pop of `list`, if there is anything in it. It fits 16 bits if it names only r0-r7 and
/// the `extra` register that the 16-bit form of this very instruction can name.
fn transfer(list: u32, extra: u32) -> Option<Instruction> {
    let fits = list & !(0xff | extra) == 0;
    let make = if fits { narrow } else { wide };
    (list != 0).then(|| make(Undo::Pop(list)))
}

/// The list rS-rE.
fn registers(first: u32, last: u32) -> u32 {
    (first..=last).fold(0, |list, number| list | 1 << number)
}

fn narrow(undo: Undo) -> Instruction {
    Instruction { undo, size: 2, code: None }
}

fn wide(undo: Undo) -> Instruction {
    Instruction { undo, size: 4, code: None }
}
