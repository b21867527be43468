//! A thread that calls its way down a module's functions, executed forwards until it is stopped and
//! reported. What it did is what an unwinder has to find again.

use std::fmt::Write;

use crate::draft::{Draft, LR, PC, SP};
use crate::examples::{caller_text, Example, Record, Said};
use crate::processor::Processor;
use crate::rng::Rng;
use crate::steps::Effect;

pub const IMAGE_BASE: u32 = 0x0040_0000;
const XDATA_RVA: u32 = 0x0010_0000;
const STACK_BASE: u32 = 0x0008_0000;
const STACK_WORDS: u32 = 1_024;
/// Words of the report's stack above the outermost frame, and below SP.
const SPARE_WORDS: u32 = 2;

pub struct Frame {
    pub pc: u32,
    pub sp: u32,
    place: &'static str,
    codes: usize,
}

pub struct Thread {
    rng: Rng,
    processor: Processor,
    /// As it was when the function was entered that the thread is in.
    entry: Processor,
    /// The outermost first.
    frames: Vec<Frame>,
}

impl Thread {
    /// At the entry of its outermost function, which will return to this address.
    pub fn returning_to(address: u32) -> Thread {
        let mut rng = Rng::new(0, 0);
        let mut processor = Processor::new(&mut rng, STACK_BASE, STACK_WORDS, SPARE_WORDS);
        processor.r[LR] = address;
        Thread { rng, entry: processor.clone(), processor, frames: Vec::new() }
    }

    /// The function runs its prologue and its body up to a call, which will return to this offset.
    pub fn calls_from(mut self, function: &Example, offset: u32) -> Thread {
        self.enter(function);
        self.list(function.start + offset, &function.says("body", &function.prologue));
        self.processor.r[LR] = (IMAGE_BASE + function.start + offset) | 1;
        self.entry = self.processor.clone();
        self
    }

    pub fn stops_in_body(self, function: &Example, offset: u32) -> Stopped {
        self.stops_lower(function, offset, 0)
    }

    /// Stops in a body that has taken some words more from the stack.
    pub fn stops_lower(mut self, function: &Example, offset: u32, words: u32) -> Stopped {
        self.enter(function);
        self.processor.execute(Effect::Room(words));
        self.stop(function.start + offset, function.says("body", &function.prologue))
    }

    /// Stops when some instructions of the prologue are done.
    pub fn stops_in_prologue(mut self, function: &Example, done: usize) -> Stopped {
        let before = &function.prologue[..done];
        before.iter().for_each(|(effect, _)| self.processor.execute(*effect));
        let offset: u32 = before.iter().map(|(_, size)| size).sum();
        self.stop(function.start + offset, function.says("prologue", before))
    }

    /// Stops when some instructions of the first epilogue are done.
    pub fn stops_in_epilogue(mut self, function: &Example, done: usize) -> Stopped {
        self.enter(function);
        let (before, after) = function.epilogue.split_at(done);
        before.iter().for_each(|(effect, _)| self.processor.reverse(*effect));
        let offset: u32 = before.iter().map(|(_, size)| size).sum();
        let rva = function.start + function.epilogue_starts[0] + offset;
        self.stop(rva, function.says("epilogue", after))
    }

    /// Stops where no record covers the pc; nothing was pushed.
    pub fn stops_in_leaf(self, rva: u32) -> Stopped {
        self.stop(rva, Said::LEAF)
    }

    fn enter(&mut self, function: &Example) {
        let effects: Vec<Effect> = function.prologue.iter().map(|(effect, _)| *effect).collect();
        effects.iter().for_each(|effect| self.processor.execute(*effect));
        self.processor.run_body(&mut self.rng, &effects);
    }

    fn list(&mut self, rva: u32, said: &Said) {
        self.frames.push(Frame {
            pc: IMAGE_BASE + rva,
            sp: self.processor.r[SP],
            place: said.place,
            codes: said.codes,
        });
    }

    fn stop(mut self, rva: u32, said: Said) -> Stopped {
        self.list(rva, &said);
        self.frames.reverse();
        let mut draft = Draft::empty();
        let (stack_base, stack) = self.processor.stack(SPARE_WORDS);
        draft.stack_base = stack_base;
        draft.set_stack(stack);
        (draft.r, draft.d) = (self.processor.r, self.processor.d);
        draft.r[PC] = IMAGE_BASE + rva;
        let caller = caller_text(&draft, &self.entry, &said);
        Stopped { draft, frames: self.frames, caller }
    }
}

/// A report of a stopped thread, with what is known of the answers.
pub struct Stopped {
    pub draft: Draft,
    /// The innermost first.
    pub frames: Vec<Frame>,
    /// What the caller program says.
    pub caller: String,
}

impl Stopped {
    /// The same with the tables of these functions, which ascend.
    pub fn within(mut self, functions: &[Example]) -> Stopped {
        self.draft.image_base = IMAGE_BASE;
        self.draft.xdata_rva = XDATA_RVA;
        for function in functions {
            let word = match &function.record {
                Record::Packed(word) => *word,
                Record::Full { bytes, .. } => {
                    let rva = XDATA_RVA + self.draft.xdata.len() as u32;
                    self.draft.xdata.extend(bytes);
                    rva
                }
            };
            self.draft.pdata.push([function.start, word]);
        }
        self
    }

    /// The listing of this many frames, with the beginning of the last line.
    pub fn listing(&self, count: usize, stop: &str) -> String {
        let frames = &self.frames[..count];
        let mut text = "frame pc sp place\n".to_string();
        for (number, Frame { pc, sp, place, .. }) in frames.iter().enumerate() {
            writeln!(text, "{number} {pc:08x} {sp:08x} {place}")
                .expect("a String takes every write");
        }
        let codes: usize = frames.iter().map(|frame| frame.codes).sum();
        text + &format!("{stop} frames {count} codes {codes}\n")
    }
}
