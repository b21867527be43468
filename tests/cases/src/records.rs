//! Records as they are written into .pdata and .xdata.

use crate::draft::put_words;

#[derive(Clone, Copy, Debug)]
pub struct PackedFields {
    pub flag: u32,
    /// Bytes of the function.
    pub length: u32,
    pub ret: u32,
    pub h: bool,
    pub reg: u32,
    pub r: bool,
    pub l: bool,
    pub c: bool,
    pub stack_adjust: u32,
}

impl PackedFields {
    /// `push {lr}` and `pop {pc}`: the smallest function that can call another.
    pub const CALLING: PackedFields = PackedFields {
        flag: 1,
        length: 40,
        ret: 0,
        h: false,
        reg: 7,
        r: true,
        l: true,
        c: false,
        stack_adjust: 0,
    };

    pub fn word(&self) -> u32 {
        self.flag
            | (self.length / 2) << 2
            | self.ret << 13
            | u32::from(self.h) << 15
            | self.reg << 16
            | u32::from(self.r) << 19
            | u32::from(self.l) << 20
            | u32::from(self.c) << 21
            | self.stack_adjust << 22
    }

    /// Whether the fields go together.
    pub fn sound(&self) -> bool {
        let needs_link = self.ret == 0 || self.c;
        let r11_twice = self.c && !self.r && self.reg == 7;
        (self.l || !needs_link) && !r11_twice
    }
}

#[derive(Clone, Copy, Debug)]
pub struct Scope {
    /// Bytes from the function's start.
    pub start: u32,
    pub reserved: u32,
    pub condition: u32,
    pub index: u32,
}

impl Scope {
    pub fn always(start: u32, index: u32) -> Scope {
        Scope { start, reserved: 0, condition: 0xe, index }
    }

    fn word(&self) -> u32 {
        (self.start / 2) | self.reserved << 18 | self.condition << 20 | self.index << 24
    }
}

#[derive(Clone, Debug)]
pub enum Scopes {
    Listed(Vec<Scope>),
    /// E=1: one epilogue at the function's end, with this code index.
    AtEnd(u32),
}

#[derive(Clone, Debug)]
pub struct FullRecord {
    /// Bytes of the function.
    pub length: u32,
    pub version: u32,
    pub fragment: bool,
    pub scopes: Scopes,
    /// Whole words.
    pub codes: Vec<u8>,
    pub handler: Option<u32>,
    /// Take the extension word though the numbers may fit without.
    pub extended: bool,
    /// The extension word's highest byte.
    pub reserved: u32,
}

impl FullRecord {
    pub fn header_bytes(&self) -> usize {
        if self.has_extension() {
            8
        } else {
            4
        }
    }

    fn has_extension(&self) -> bool {
        let (count, words) = (self.count(), self.code_words());
        self.extended || count > 31 || words > 15 || count == 0 && words == 0
    }

    fn count(&self) -> u32 {
        match &self.scopes {
            Scopes::Listed(scopes) => scopes.len() as u32,
            Scopes::AtEnd(index) => *index,
        }
    }

    fn code_words(&self) -> u32 {
        self.codes.len() as u32 / 4
    }

    pub fn bytes(&self) -> Vec<u8> {
        let mut out = Vec::new();
        let first = (self.length / 2)
            | self.version << 18
            | u32::from(self.handler.is_some()) << 20
            | u32::from(matches!(self.scopes, Scopes::AtEnd(_))) << 21
            | u32::from(self.fragment) << 22;
        if self.has_extension() {
            let second = self.count() | self.code_words() << 16 | self.reserved << 24;
            put_words(&mut out, &[first, second]);
        } else {
            put_words(&mut out, &[first | self.count() << 23 | self.code_words() << 28]);
        }
        if let Scopes::Listed(scopes) = &self.scopes {
            let words: Vec<u32> = scopes.iter().map(Scope::word).collect();
            put_words(&mut out, &words);
        }
        out.extend(&self.codes);
        put_words(&mut out, self.handler.as_slice());
        out
    }
}
