//! Stack and registers for a module: values that unwinding can follow, mixed with noise.

use crate::draft::{Draft, LR, PC, SP};
use crate::module::Module;
use crate::rng::Rng;

/// What a stack is made of, in percent; the rest is noise.
pub struct Mix {
    pub return_addresses: u32,
    pub stack_addresses: u32,
    pub zeros: u32,
}

/// Words of stack around SP.
pub struct Room {
    pub below: u32,
    pub above: u32,
    /// A register that restores SP may point this many words above it.
    pub slack: u32,
    /// How often, in percent, the stack stands at the very top of memory.
    pub top: u32,
}

impl Room {
    /// Room for a list that takes `words`: often exactly enough, sometimes one word short.
    pub fn around(rng: &mut Rng, words: u32) -> Room {
        let slack = if rng.percent(30) { 0 } else { rng.within(1..=20) };
        let short = u32::from(slack == 0 && rng.percent(25));
        let above = (words + slack).min(14_000).saturating_sub(short);
        Room { below: rng.within(0..=8), above, slack, top: 3 }
    }

    fn words(&self) -> u32 {
        self.below + self.above
    }
}

/// Fills in a stack and registers for a pc.
pub fn furnish(rng: &mut Rng, module: &Module, pc: u32, room: Room, mix: Mix) -> Draft {
    let mut draft = module.draft.clone();
    draft.stack_base = random_stack_base(rng, &room);
    let sp = draft.stack_base + 4 * room.below;
    let words: Vec<u32> =
        (0..room.words()).map(|_| stack_word(rng, module, &mix, sp, room.above)).collect();
    draft.set_stack(&words);
    for number in 0..13 {
        draft.r[number] = register(rng, sp, &room);
    }
    draft.r[SP] = sp;
    draft.r[LR] = match rng.within(0..=99) {
        0..=59 => module.return_address(rng),
        60..=84 => register(rng, sp, &room),
        85..=94 => rng.within(0..=1),
        _ => rng.word(),
    };
    draft.r[PC] = pc;
    draft.d.iter_mut().for_each(|value| *value = rng.next());
    draft
}

fn random_stack_base(rng: &mut Rng, room: &Room) -> u32 {
    if rng.percent(room.top) {
        0u32.wrapping_sub(4 + 4 * room.words())
    } else if rng.percent(2) {
        0
    } else {
        0x0010_0000 + 4 * rng.within(0..=0x8000)
    }
}

fn stack_word(rng: &mut Rng, module: &Module, mix: &Mix, sp: u32, above: u32) -> u32 {
    let borders = [
        mix.return_addresses,
        mix.return_addresses + mix.stack_addresses,
        mix.return_addresses + mix.stack_addresses + mix.zeros,
    ];
    match rng.within(0..=99) {
        draw if draw < borders[0] => module.return_address(rng),
        draw if draw < borders[1] => sp + 4 * rng.within(0..=above),
        draw if draw < borders[2] => 0,
        _ => rng.word(),
    }
}

/// Mostly an address that SP may take and still find all the words it needs above.
fn register(rng: &mut Rng, sp: u32, room: &Room) -> u32 {
    match rng.within(0..=99) {
        0..=75 => sp + 4 * rng.within(0..=room.slack),
        76..=87 => sp.wrapping_sub(4 * rng.within(0..=room.below)),
        88..=91 => (sp + 4 * rng.within(0..=room.slack)) | rng.within(1..=3),
        _ => rng.word(),
    }
}
