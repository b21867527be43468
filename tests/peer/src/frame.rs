//! One frame: from the registers in a function to those of its caller.

use crate::full::Xdata;
use crate::function::Place;
use crate::machine::{Instruction, Registers, Stack, LR, PC, SP};
use crate::pdata;
use crate::record::Record;
use crate::refusal::Refusal;

/// What a frame reads besides the registers.
#[derive(Clone, Copy, Debug)]
pub struct Surroundings<'a> {
    pub image_base: u32,
    pub pdata: &'a [u8],
    pub xdata: Xdata<'a>,
    pub stack: Stack<'a>,
}

#[derive(Clone, Debug)]
pub struct Caller<'a> {
    pub registers: Registers,
    pub place: Place,
    /// RVA, or 0.
    pub handler: u32,
    /// The undone instructions in order, one for each code run.
    pub ran: Vec<Instruction>,
    /// The lent bytes that the region table of the covering record begins, if it has a handler.
    pub table: Option<&'a [u8]>,
}

/// The caller of the frame that `given` stands in. The order of the checks is document 01's.
pub fn unwind<'a>(around: &Surroundings<'a>, given: &Registers) -> Result<Caller<'a>, Refusal> {
    check_parts(around)?;
    let rva = offset_in_image(around, given)?;
    pdata::check_ascending(around.pdata)?;
    around.stack.pointer(u64::from(given.r[SP]))?;
    let Some(entry) = pdata::find(around.pdata, rva) else {
        return Ok(leave(given.clone(), Place::Leaf, 0, &[]));
    };
    let record = Record::read(entry.word, &around.xdata)?;
    let offset = u64::from(rva - entry.start);
    if offset >= record.length() {
        return Ok(leave(given.clone(), Place::Leaf, 0, &[]));
    }
    let function = record.function()?;
    function.check_layout()?;
    let (place, left) = function.locate(offset)?;
    let registers = undo_all(left, given, &around.stack)?;
    if registers.r[SP] < given.r[SP] {
        return Err(Refusal::Falling);
    }
    let caller = leave(registers, place, function.handler, left);
    Ok(Caller { table: record.table(), ..caller })
}

/// The caller once everything is undone: it goes on at the return address, LR itself stays.
fn leave(
    mut registers: Registers,
    place: Place,
    handler: u32,
    ran: &[Instruction],
) -> Caller<'static> {
    registers.r[PC] = registers.r[LR] & !1;
    Caller { registers, place, handler, ran: ran.to_vec(), table: None }
}

fn undo_all(left: &[Instruction], given: &Registers, stack: &Stack) -> Result<Registers, Refusal> {
    let mut registers = given.clone();
    for instruction in left {
        instruction.undo(&mut registers, stack)?;
    }
    Ok(registers)
}

fn check_parts(around: &Surroundings) -> Result<(), Refusal> {
    const TOP: u64 = 1 << 32;
    let fit = around.pdata.len().is_multiple_of(8)
        && around.stack.base.is_multiple_of(4)
        && around.stack.bytes.len().is_multiple_of(4)
        && around.stack.end() <= TOP - 4
        && around.xdata.fits();
    if fit {
        Ok(())
    } else {
        Err(Refusal::Parts)
    }
}

/// The pc as an RVA; its bit 0, the Thumb mark, is cleared before it is compared.
fn offset_in_image(around: &Surroundings, given: &Registers) -> Result<u32, Refusal> {
    let pc = given.r[PC] & !1;
    pc.checked_sub(around.image_base).ok_or(Refusal::BelowImage)
}
