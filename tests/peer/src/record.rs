//! What word 1 of a .pdata record leads to.

use crate::full::{Full, Xdata};
use crate::function::Function;
use crate::packed::Packed;
use crate::refusal::Refusal;

pub enum Record<'a> {
    Packed(Packed),
    Full(Full<'a>),
}

impl<'a> Record<'a> {
    pub fn read(word: u32, xdata: &Xdata<'a>) -> Result<Record<'a>, Refusal> {
        if word & 3 == 0 {
            Ok(Record::Full(Full::read(xdata, word)?))
        } else {
            Ok(Record::Packed(Packed::read(word)?))
        }
    }

    pub fn length(&self) -> u64 {
        match self {
            Record::Packed(packed) => packed.length,
            Record::Full(full) => full.length(),
        }
    }

    pub fn table(&self) -> Option<&'a [u8]> {
        match self {
            Record::Packed(_) => None,
            Record::Full(full) => full.table(),
        }
    }

    pub fn function(&self) -> Result<Function, Refusal> {
        match self {
            Record::Packed(packed) => packed.function(),
            Record::Full(full) => full.function(),
        }
    }
}
