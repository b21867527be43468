//! The report file: mark, numbers, registers, then .pdata, .xdata and the stack.

use crate::cursor::Cursor;
use crate::frame::Surroundings;
use crate::full::Xdata;
use crate::machine::{Registers, Stack};
use crate::refusal::Refusal;

/// The longest report, in bytes.
pub const LONGEST: usize = 65_536;

/// "WLK", version 1 in two bytes, three zero bytes.
const MARK: [u8; 8] = [b'W', b'L', b'K', 1, 0, 0, 0, 0];

pub struct Report<'a> {
    pub around: Surroundings<'a>,
    pub registers: Registers,
}

impl<'a> Report<'a> {
    pub fn read(bytes: &'a [u8]) -> Result<Report<'a>, Refusal> {
        if bytes.len() > LONGEST {
            return Err(Refusal::Unfit);
        }
        let mut cursor = Cursor { rest: bytes };
        if cursor.take(8)? != MARK {
            return Err(Refusal::Unfit);
        }
        let image_base = cursor.word()?;
        let pdata_records = u64::from(cursor.word()?);
        let xdata_rva = cursor.word()?;
        let xdata_bytes = u64::from(cursor.word()?);
        let stack_base = cursor.word()?;
        let stack_bytes = u64::from(cursor.word()?);
        let registers = read_registers(&mut cursor)?;
        let around = Surroundings {
            image_base,
            pdata: cursor.take(8 * pdata_records)?,
            xdata: Xdata { rva: xdata_rva, bytes: cursor.take(xdata_bytes)? },
            stack: Stack { base: stack_base, bytes: cursor.take(stack_bytes)? },
        };
        if !cursor.rest.is_empty() {
            return Err(Refusal::Unfit);
        }
        Ok(Report { around, registers })
    }
}

fn read_registers(cursor: &mut Cursor) -> Result<Registers, Refusal> {
    let mut registers = Registers { r: [0; 16], d: [0; 32] };
    for register in &mut registers.r {
        *register = cursor.word()?;
    }
    for register in &mut registers.d {
        let low = u64::from(cursor.word()?);
        let high = u64::from(cursor.word()?);
        *register = high << 32 | low;
    }
    Ok(registers)
}
