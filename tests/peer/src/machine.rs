//! Registers, the lent stack, and what undoing one instruction does to them.

use crate::bits::word_at;
use crate::refusal::Refusal;

pub const SP: usize = 13;
pub const LR: usize = 14;
pub const PC: usize = 15;

#[derive(Clone, Debug, PartialEq, Eq)]
pub struct Registers {
    /// r0-r12, SP, LR, pc.
    pub r: [u32; 16],
    pub d: [u64; 32],
}

#[derive(Clone, Copy, Debug)]
pub struct Stack<'a> {
    pub base: u32,
    pub bytes: &'a [u8],
}

impl Stack<'_> {
    pub fn end(&self) -> u64 {
        u64::from(self.base) + self.bytes.len() as u64
    }

    /// `address` as a stack pointer. The end is allowed: an empty stack has a pointer too.
    pub fn pointer(&self, address: u64) -> Result<u32, Refusal> {
        let inside = u64::from(self.base) <= address && address <= self.end();
        if !inside || !address.is_multiple_of(4) {
            return Err(Refusal::Stack);
        }
        u32::try_from(address).map_err(|_| Refusal::Stack)
    }

    fn word(&self, address: u64) -> Result<u32, Refusal> {
        address
            .checked_sub(u64::from(self.base))
            .and_then(|offset| usize::try_from(offset).ok())
            .and_then(|offset| word_at(self.bytes, offset))
            .ok_or(Refusal::Stack)
    }
}

/// The effect of undoing one instruction of a prologue, which is also that of an epilogue's.
#[derive(Clone, Copy, Debug, PartialEq, Eq)]
pub enum Undo {
    Nothing,
    /// SP rises by this many words.
    Raise(u32),
    /// The registers whose bits are set, bit n for rn; bit 14 is LR.
    Pop(u32),
    /// dS to dE, both included.
    VectorPop(usize, usize),
    /// SP takes the value of a register.
    Restore(usize),
    /// LR is loaded at SP, then SP rises by this many words.
    LoadLink(u32),
}

#[derive(Clone, Copy, Debug, PartialEq, Eq)]
pub struct Instruction {
    pub undo: Undo,
    /// Bytes it takes in the function.
    pub size: u64,
    /// First byte of the code that told of it. A packed record tells without codes.
    pub code: Option<u8>,
}

impl Instruction {
    /// Refused on the way, the registers are half changed: the caller of this keeps the given ones.
    pub fn undo(&self, registers: &mut Registers, stack: &Stack) -> Result<(), Refusal> {
        let sp = u64::from(registers.r[SP]);
        let after = match self.undo {
            Undo::Nothing => sp,
            Undo::Raise(words) => sp + 4 * u64::from(words),
            Undo::Pop(list) => pop(list, sp, registers, stack)?,
            Undo::VectorPop(first, last) => vector_pop(first, last, sp, registers, stack)?,
            Undo::Restore(register) => u64::from(registers.r[register]),
            Undo::LoadLink(words) => {
                registers.r[LR] = stack.word(sp)?;
                sp + 4 * u64::from(words)
            }
        };
        registers.r[SP] = stack.pointer(after)?;
        Ok(())
    }
}

/// Loads the listed registers from `at` upwards, the lowest first, and gives the address after them.
fn pop(list: u32, mut at: u64, registers: &mut Registers, stack: &Stack) -> Result<u64, Refusal> {
    for number in 0..16 {
        if list >> number & 1 == 1 {
            registers.r[number] = stack.word(at)?;
            at += 4;
        }
    }
    Ok(at)
}

fn vector_pop(
    first: usize,
    last: usize,
    mut at: u64,
    registers: &mut Registers,
    stack: &Stack,
) -> Result<u64, Refusal> {
    for number in first..=last {
        let low = u64::from(stack.word(at)?);
        let high = u64::from(stack.word(at + 4)?);
        registers.d[number] = high << 32 | low;
        at += 8;
    }
    Ok(at)
}
