//! Unwind codes: from bytes to the instructions they stand for.

use crate::machine::{Instruction, Undo, LR};
use crate::refusal::Refusal;

/// A code list up to its end code, in undo order.
#[derive(Clone, Debug)]
pub struct Sequence {
    pub instructions: Vec<Instruction>,
    /// Bytes of the instruction that the end code itself stands for. Only an epilogue has it.
    pub leave: u64,
}

/// The codes from `index` up to the first end code. What stands after that code is never looked at.
pub fn sequence(codes: &[u8], index: usize) -> Result<Sequence, Refusal> {
    let mut rest = codes.get(index..).ok_or(Refusal::Codes)?;
    let mut instructions = Vec::new();
    loop {
        let code = read(rest)?;
        match code.meaning {
            Meaning::End => return Ok(Sequence { instructions, leave: code.size }),
            Meaning::Undo(undo) => {
                instructions.push(Instruction { undo, size: code.size, code: Some(rest[0]) });
            }
        }
        rest = &rest[code.length..];
    }
}

enum Meaning {
    Undo(Undo),
    End,
}

struct Code {
    meaning: Meaning,
    /// Bytes the code takes in the list.
    length: usize,
    /// Bytes its instruction takes in the function.
    size: u64,
}

fn read(rest: &[u8]) -> Result<Code, Refusal> {
    let code = decode(window(rest)).ok_or(Refusal::Codes)?;
    if code.length > rest.len() {
        return Err(Refusal::Codes);
    }
    Ok(code)
}

/// The next four bytes, the first one highest, so that a code's later bytes are its lower bits.
/// Bytes that are not there are taken for 0 here; `read` refuses a code that would need them.
fn window(rest: &[u8]) -> u32 {
    (0..4).fold(0, |bits, at| bits << 8 | u32::from(rest.get(at).copied().unwrap_or(0)))
}

/// The code that starts `window`, or none if it is undefined.
fn decode(window: u32) -> Option<Code> {
    let is = |mask: u32, value: u32| window & mask == value;
    let one = window >> 24;
    let two = window >> 16;
    let three = window >> 8;
    let undo = |length, size, undo| Some(Code { meaning: Meaning::Undo(undo), length, size });
    let end = |size| Some(Code { meaning: Meaning::End, length: 1, size });

    if is(0x8000_0000, 0x0000_0000) {
        undo(1, 2, Undo::Raise(one & 0x7f))
    } else if is(0xc000_0000, 0x8000_0000) {
        undo(2, 4, Undo::Pop(two & 0x1fff | link_if(two & 0x2000)))
    } else if is(0xfd00_0000, 0xcd00_0000) {
        // SP and pc themselves, CD and CF, restore nothing.
        None
    } else if is(0xf000_0000, 0xc000_0000) {
        undo(1, 2, Undo::Restore((one & 0xf) as usize))
    } else if is(0xf800_0000, 0xd000_0000) {
        undo(1, 2, Undo::Pop(r4_to(4 + (one & 3)) | link_if(one & 4)))
    } else if is(0xf800_0000, 0xd800_0000) {
        undo(1, 4, Undo::Pop(r4_to(8 + (one & 3)) | link_if(one & 4)))
    } else if is(0xf800_0000, 0xe000_0000) {
        undo(1, 4, Undo::VectorPop(8, 8 + (one & 7) as usize))
    } else if is(0xfc00_0000, 0xe800_0000) {
        undo(2, 4, Undo::Raise(two & 0x3ff))
    } else if is(0xfe00_0000, 0xec00_0000) {
        undo(2, 2, Undo::Pop(two & 0xff | link_if(two & 0x100)))
    } else if is(0xfff0_0000, 0xef00_0000) {
        undo(2, 4, Undo::LoadLink(two & 0xf))
    } else if is(0xff00_0000, 0xf500_0000) {
        undo(2, 4, vector_range(two, 0)?)
    } else if is(0xff00_0000, 0xf600_0000) {
        undo(2, 4, vector_range(two, 16)?)
    } else if is(0xff00_0000, 0xf700_0000) {
        undo(3, 2, Undo::Raise(three & 0xffff))
    } else if is(0xff00_0000, 0xf800_0000) {
        undo(4, 2, Undo::Raise(window & 0xff_ffff))
    } else if is(0xff00_0000, 0xf900_0000) {
        undo(3, 4, Undo::Raise(three & 0xffff))
    } else if is(0xff00_0000, 0xfa00_0000) {
        undo(4, 4, Undo::Raise(window & 0xff_ffff))
    } else if is(0xff00_0000, 0xfb00_0000) {
        undo(1, 2, Undo::Nothing)
    } else if is(0xff00_0000, 0xfc00_0000) {
        undo(1, 4, Undo::Nothing)
    } else if is(0xff00_0000, 0xfd00_0000) {
        end(2)
    } else if is(0xff00_0000, 0xfe00_0000) {
        end(4)
    } else if is(0xff00_0000, 0xff00_0000) {
        end(0)
    } else {
        None
    }
}

fn link_if(flag: u32) -> u32 {
    if flag != 0 {
        1 << LR
    } else {
        0
    }
}

/// The list r4-rX.
fn r4_to(last: u32) -> u32 {
    (4..=last).fold(0, |list, number| list | 1 << number)
}

/// dS-dE with S in the high and E in the low four bits of the last byte; S above E is undefined.
fn vector_range(code: u32, from: usize) -> Option<Undo> {
    let first = (code >> 4 & 0xf) as usize;
    let last = (code & 0xf) as usize;
    (first <= last).then_some(Undo::VectorPop(from + first, from + last))
}
