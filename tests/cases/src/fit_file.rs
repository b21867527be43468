//! A FIT file before it is written: every part can still be changed.

use crate::draft::put_words;

/// The longest file there may be.
pub const LONGEST: usize = 1_048_576;

/// Bytes before .xdata: mark and numbers.
pub const HEAD: usize = 24;

#[derive(Clone, Debug)]
pub struct FitFile {
    /// Word 1 of the .pdata record.
    pub word: u32,
    pub xdata_rva: u32,
    pub xdata: Vec<u8>,
    pub code: Vec<u8>,
}

impl FitFile {
    pub fn bytes(&self) -> Vec<u8> {
        let mut out = b"FIT\x01\x00\x00\x00\x00".to_vec();
        let lengths = [self.xdata.len() as u32, self.code.len() as u32];
        put_words(&mut out, &[self.word, self.xdata_rva]);
        put_words(&mut out, &lengths);
        out.extend(&self.xdata);
        out.extend(&self.code);
        out
    }
}
