//! A report before it is written: every part can still be changed.

pub const SP: usize = 13;
pub const LR: usize = 14;
pub const PC: usize = 15;

/// The longest report there may be.
pub const LONGEST: usize = 65_536;

#[derive(Clone, Debug)]
pub struct Draft {
    pub image_base: u32,
    /// Start RVA and second word of each record.
    pub pdata: Vec<[u32; 2]>,
    pub xdata_rva: u32,
    pub xdata: Vec<u8>,
    pub stack_base: u32,
    pub stack: Vec<u8>,
    /// r0-r12, SP, LR, pc.
    pub r: [u32; 16],
    pub d: [u64; 32],
}

impl Draft {
    pub fn empty() -> Draft {
        Draft {
            image_base: 0,
            pdata: Vec::new(),
            xdata_rva: 0,
            xdata: Vec::new(),
            stack_base: 0,
            stack: Vec::new(),
            r: [0; 16],
            d: [0; 32],
        }
    }

    pub fn bytes(&self) -> Vec<u8> {
        let mut out = b"WLK\x01\x00\x00\x00\x00".to_vec();
        let lengths = [
            self.image_base,
            self.pdata.len() as u32,
            self.xdata_rva,
            self.xdata.len() as u32,
            self.stack_base,
            self.stack.len() as u32,
        ];
        put_words(&mut out, &lengths);
        put_words(&mut out, &self.r);
        for value in self.d {
            out.extend(value.to_le_bytes());
        }
        put_words(&mut out, self.pdata.as_flattened());
        out.extend(&self.xdata);
        out.extend(&self.stack);
        out
    }

    pub fn set_stack(&mut self, words: &[u32]) {
        self.stack.clear();
        put_words(&mut self.stack, words);
    }
}

pub fn put_words(out: &mut Vec<u8>, words: &[u32]) {
    for word in words {
        out.extend(word.to_le_bytes());
    }
}
