//! Instructions of prologues and epilogues, each with the unwind code that stands for it. This is the
//! writer's side: a code is made from what the instruction does, never read back from bytes.

use crate::draft::LR;
use crate::rng::Rng;

/// What an instruction of a prologue does. An epilogue's does the reverse.
#[derive(Clone, Copy, Debug, PartialEq, Eq)]
pub enum Effect {
    Nothing,
    /// sub sp,sp,#4*words.
    Room(u32),
    /// push of the registers whose bits are set, bit n for rn, bit 14 for LR.
    Push(u32),
    /// vpush {dS-dE}.
    VectorPush(u32, u32),
    /// mov rX,sp.
    Anchor(u32),
    /// str lr,[sp,#-4*words]!
    StoreLink(u32),
}

impl Effect {
    /// Words by which SP falls, as far as the instruction alone says.
    pub fn words(self) -> u32 {
        match self {
            Effect::Nothing | Effect::Anchor(_) => 0,
            Effect::Room(words) | Effect::StoreLink(words) => words,
            Effect::Push(list) => list.count_ones(),
            Effect::VectorPush(first, last) => 2 * (last - first + 1),
        }
    }

    pub fn saves_link(self) -> bool {
        match self {
            Effect::Push(list) => list >> LR & 1 == 1,
            Effect::StoreLink(words) => words > 0,
            _ => false,
        }
    }
}

#[derive(Clone, Debug)]
pub struct Step {
    pub effect: Effect,
    pub code: Vec<u8>,
    /// Bytes the instruction takes in the function.
    pub size: u32,
}

fn step(effect: Effect, code: &[u32], size: u32) -> Step {
    Step { effect, code: code.iter().map(|&byte| byte as u8).collect(), size }
}

/// One maker for each row of document 01's code table, end codes aside.
pub const ROWS: [fn(&mut Rng) -> Step; 17] = [
    |rng| narrow_room(amount(rng, 0x7f)),
    |rng| wide_push(list(rng) & 0x1fff, rng.flag()),
    |rng| anchor(any_anchor(rng)),
    |rng| low_push(rng.within(0..=3), rng.flag()),
    |rng| high_push(rng.within(0..=3), rng.flag()),
    |rng| vector_push_from_d8(rng.within(0..=7)),
    |rng| wide_room(amount(rng, 0x3ff)),
    |rng| narrow_push(list(rng) & 0xff, rng.flag()),
    |rng| store_link(rng.within(0..=15)),
    |rng| vector_push(rng, 0xf5, 0),
    |rng| vector_push(rng, 0xf6, 16),
    |rng| long_room(0xf7, amount(rng, 0xffff), 2),
    |rng| longer_room(0xf8, amount(rng, 0xff_ffff), 2),
    |rng| long_room(0xf9, amount(rng, 0xffff), 4),
    |rng| longer_room(0xfa, amount(rng, 0xff_ffff), 4),
    |_| step(Effect::Nothing, &[0xfb], 2),
    |_| step(Effect::Nothing, &[0xfc], 4),
];

/// The instruction of any row.
pub fn any(rng: &mut Rng) -> Step {
    ROWS[rng.below(ROWS.len())](rng)
}

/// An instruction with a code of one byte that takes next to nothing off the stack.
pub fn one_byte(rng: &mut Rng) -> Step {
    let nop = step(Effect::Nothing, &[0xfb], 2);
    let wide_nop = step(Effect::Nothing, &[0xfc], 4);
    match rng.within(0..=2) {
        0 => nop,
        1 => wide_nop,
        _ => narrow_room(rng.within(0..=1)),
    }
}

/// Small amounts mostly, so that the stack can hold them.
fn amount(rng: &mut Rng, most: u32) -> u32 {
    match rng.within(0..=99) {
        0..=72 => rng.within(0..=8),
        73..=89 => rng.within(0..=most.min(64)),
        90..=97 => rng.within(0..=most.min(1_100)),
        _ => rng.within(0..=most),
    }
}

/// Any list of registers, the empty one often enough.
fn list(rng: &mut Rng) -> u32 {
    if rng.percent(10) {
        0
    } else {
        rng.word()
    }
}

fn any_anchor(rng: &mut Rng) -> u32 {
    rng.pick(&[0, 1, 2, 3, 4, 5, 6, 7, 8, 9, 10, 11, 12, 14])
}

fn link(saved: bool) -> u32 {
    u32::from(saved) << LR
}

pub fn registers(first: u32, last: u32) -> u32 {
    (first..=last).map(|number| 1 << number).sum()
}

pub fn narrow_room(words: u32) -> Step {
    step(Effect::Room(words), &[words], 2)
}

pub fn wide_room(words: u32) -> Step {
    step(Effect::Room(words), &[0xe8 | words >> 8, words & 0xff], 4)
}

pub fn long_room(first: u32, words: u32, size: u32) -> Step {
    step(Effect::Room(words), &[first, words >> 8, words & 0xff], size)
}

pub fn longer_room(first: u32, words: u32, size: u32) -> Step {
    let code = [first, words >> 16, words >> 8 & 0xff, words & 0xff];
    step(Effect::Room(words), &code, size)
}

pub fn anchor(register: u32) -> Step {
    step(Effect::Anchor(register), &[0xc0 | register], 2)
}

/// push {r4-rX} with X at most 7.
pub fn low_push(above_r4: u32, lr: bool) -> Step {
    let list = registers(4, 4 + above_r4) | link(lr);
    step(Effect::Push(list), &[0xd0 | u32::from(lr) << 2 | above_r4], 2)
}

/// push {r4-rX} with X from 8 to 11.
pub fn high_push(above_r8: u32, lr: bool) -> Step {
    let list = registers(4, 8 + above_r8) | link(lr);
    step(Effect::Push(list), &[0xd8 | u32::from(lr) << 2 | above_r8], 4)
}

pub fn narrow_push(list: u32, lr: bool) -> Step {
    step(Effect::Push(list | link(lr)), &[0xec | u32::from(lr), list], 2)
}

pub fn wide_push(list: u32, lr: bool) -> Step {
    let code = [0x80 | u32::from(lr) << 5 | list >> 8, list & 0xff];
    step(Effect::Push(list | link(lr)), &code, 4)
}

fn vector_push_from_d8(above_d8: u32) -> Step {
    step(Effect::VectorPush(8, 8 + above_d8), &[0xe0 | above_d8], 4)
}

fn vector_push(rng: &mut Rng, first_byte: u32, from: u32) -> Step {
    let start = rng.within(0..=15);
    let end = rng.within(start..=15);
    vector_range(first_byte, from, start, end)
}

/// vpush of a range whose first and last register are told from `from` on.
pub fn vector_range(first_byte: u32, from: u32, start: u32, end: u32) -> Step {
    step(Effect::VectorPush(from + start, from + end), &[first_byte, start << 4 | end], 4)
}

pub fn store_link(words: u32) -> Step {
    step(Effect::StoreLink(words), &[0xef, words], 4)
}

#[derive(Clone, Copy, Debug, PartialEq, Eq)]
pub struct End {
    pub code: u8,
    /// Bytes of its instruction, which only an epilogue has.
    pub size: u32,
}

pub const ENDS: [End; 3] =
    [End { code: 0xfd, size: 2 }, End { code: 0xfe, size: 4 }, End { code: 0xff, size: 0 }];

/// The end code without an instruction.
pub const PLAIN_END: End = ENDS[2];

/// Instructions in undo order, and the end code after them.
#[derive(Clone, Debug)]
pub struct List {
    pub steps: Vec<Step>,
    pub end: End,
}

impl List {
    pub fn prologue_size(&self) -> u32 {
        self.steps.iter().map(|step| step.size).sum()
    }

    pub fn epilogue_size(&self) -> u32 {
        self.prologue_size() + self.end.size
    }

    pub fn words(&self) -> u32 {
        self.steps.iter().map(|step| step.effect.words()).sum()
    }

    pub fn code_bytes(&self) -> Vec<u8> {
        let mut bytes: Vec<u8> = self.steps.iter().flat_map(|step| step.code.clone()).collect();
        bytes.push(self.end.code);
        bytes
    }

    /// The list without its first `count` instructions, and the code index where it starts.
    pub fn without(&self, count: usize) -> (List, usize) {
        let index = self.steps[..count].iter().map(|step| step.code.len()).sum();
        (List { steps: self.steps[count..].to_vec(), end: self.end }, index)
    }
}
