//! A file read from its front.

use crate::bits::word_at;
use crate::refusal::Refusal;

pub struct Cursor<'a> {
    pub rest: &'a [u8],
}

impl<'a> Cursor<'a> {
    pub fn take(&mut self, count: u64) -> Result<&'a [u8], Refusal> {
        let count = usize::try_from(count).map_err(|_| Refusal::Unfit)?;
        let (taken, rest) = self.rest.split_at_checked(count).ok_or(Refusal::Unfit)?;
        self.rest = rest;
        Ok(taken)
    }

    pub fn word(&mut self) -> Result<u32, Refusal> {
        word_at(self.take(4)?, 0).ok_or(Refusal::Unfit)
    }
}
