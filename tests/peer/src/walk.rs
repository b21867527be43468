//! The walk: frame after frame up to the outermost one.

use crate::frame::{unwind, Caller, Surroundings};
use crate::function::Place;
use crate::machine::{Registers, PC, SP};
use crate::refusal::Refusal;

#[derive(Clone, Copy, Debug)]
pub struct Frame<'a> {
    pub pc: u32,
    pub sp: u32,
    pub place: Place,
    /// The lent bytes that the region table of the covering record begins, if it has a handler.
    pub table: Option<&'a [u8]>,
}

#[derive(Clone, Copy, Debug, PartialEq, Eq)]
pub enum Stop {
    End,
    Full,
    Refused { refusal: Refusal, pc: u32 },
}

#[derive(Clone, Debug)]
pub struct Walk<'a> {
    pub frames: Vec<Frame<'a>>,
    /// Codes run in those frames.
    pub codes: usize,
    pub stop: Stop,
}

/// Unwinds from `given` until the outermost frame, a refusal, or `room` frames.
pub fn walk<'a>(around: &Surroundings<'a>, given: &Registers, room: usize) -> Walk<'a> {
    let mut registers = given.clone();
    let mut frames = Vec::new();
    let mut codes = 0;
    let stop = loop {
        if frames.len() == room {
            break Stop::Full;
        }
        let pc = registers.r[PC] & !1;
        let caller = match next(around, &registers, frames.is_empty()) {
            Ok(caller) => caller,
            Err(refusal) => break Stop::Refused { refusal, pc },
        };
        let Caller { place, table, .. } = caller;
        frames.push(Frame { pc, sp: registers.r[SP], place, table });
        codes += caller.ran.len();
        registers = caller.registers;
        if registers.r[PC] == 0 {
            break Stop::End;
        }
    };
    Walk { frames, codes, stop }
}

/// Only the innermost frame may be a leaf or leave SP where it was; otherwise a walk could go round
/// in circles.
fn next<'a>(
    around: &Surroundings<'a>,
    given: &Registers,
    innermost: bool,
) -> Result<Caller<'a>, Refusal> {
    let caller = unwind(around, given)?;
    if !innermost && caller.place == Place::Leaf {
        return Err(Refusal::Uncovered);
    }
    if !innermost && caller.registers.r[SP] == given.r[SP] {
        return Err(Refusal::Standstill);
    }
    Ok(caller)
}
