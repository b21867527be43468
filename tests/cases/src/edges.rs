//! Sound reports at the borders of what a frame may read, and records with one undefined code.

use crate::case::{Case, Known};
use crate::draft::LONGEST;
use crate::families::neighbour;
use crate::full;
use crate::functions::Function;
use crate::module::{starts_from, Module};
use crate::packed;
use crate::rng::Rng;
use crate::scene::{furnish, Mix, Room};
use crate::steps::{store_link, Effect, List, Step, ENDS};

const MIX: Mix = Mix { return_addresses: 50, stack_addresses: 25, zeros: 8 };

/// A function at the image base itself, which may be 0: the first pc is 0 then.
pub fn image_base(rng: &mut Rng) -> Case {
    let functions: Vec<Function> = (0..rng.within(1..=3)).map(|_| neighbour(rng)).collect();
    let first = rng.pick(&[0, 0, 0, 2]);
    let starts = starts_from(rng, &functions, first);
    let mut module = Module::assemble_at(rng, functions, starts);
    if rng.percent(70) {
        module.draft.image_base = 0;
    }
    let pc = module.draft.image_base + rng.pick(&[0, 0, 1, 2]);
    let room = Room::around(rng, module.functions[0].body.words());
    Case::open("pc at the image base", furnish(rng, &module, pc, room, MIX).bytes())
}

/// A list that ends in a load of LR, over a stack that has just enough words or one fewer. EF 00 reads
/// a word though SP does not pass it.
pub fn last_word(rng: &mut Rng) -> Case {
    let mut steps: Vec<Step> = (0..rng.below(3)).map(|_| full::harmless_step(rng)).collect();
    steps.push(store_link(rng.pick(&[0, 0, 0, 1, 2, 15])));
    let body = List { steps, end: rng.pick(&ENDS) };
    let words = body.words();
    let functions = vec![full::with_body(rng, body, 8)];
    let module = Module::assemble(rng, functions);
    let offset = module.functions[0].offset_in_body(rng);
    let above = (words + rng.pick(&[0, 0, 1])).saturating_sub(u32::from(rng.percent(30)));
    let room = Room { below: rng.within(0..=2), above, slack: 0, top: 30 };
    let pc = module.address(0, offset);
    Case::open("last word of the stack", furnish(rng, &module, pc, room, MIX).bytes())
}

/// Tables long enough for a search, with the pc at the edges of any function.
pub fn many_records(rng: &mut Rng) -> Case {
    let count = if rng.flag() { rng.within(1..=9) } else { rng.within(10..=900) };
    let functions: Vec<Function> = (0..count).map(|_| packed::any(rng)).collect();
    let module = Module::assemble(rng, functions);
    let last = module.functions.len() - 1;
    let anywhere = rng.below(last + 1);
    let focus = rng.pick(&[0, last / 2, last, anywhere]);
    let function = &module.functions[focus];
    let (end, before) = (function.length, 0u32.wrapping_sub(2));
    let offset = rng.pick(&[0, 2, end, end.wrapping_sub(2), before]);
    let room = Room::around(rng, function.body.words());
    let pc = module.address(focus, offset);
    Case::open("many records", furnish(rng, &module, pc, room, MIX).bytes())
}

/// An otherwise sound record with an undefined code in the body's list.
pub fn undefined_code(rng: &mut Rng) -> Case {
    let (kind, code) = undefined(rng);
    let mut body = full::random_list(rng);
    let at = rng.below(body.steps.len() + 1);
    body.steps.insert(at, Step { effect: Effect::Nothing, code, size: 2 });
    let words = body.words();
    let functions = vec![neighbour(rng), full::with_body(rng, body, 8), neighbour(rng)];
    let module = Module::assemble(rng, functions);
    let function = &module.functions[1];
    let offset = if rng.flag() {
        function.offset_in_body(rng)
    } else {
        function.offset_in_stretch(rng).min(function.length - 2)
    };
    let pc = module.address(1, offset);
    let room = Room::around(rng, words);
    let report = furnish(rng, &module, pc, room, MIX).bytes();
    // Very many epilogues over a very large stack are too long.
    let reached = module.reaches(1, offset) && report.len() <= LONGEST;
    let known = if reached { Known::FirstRefused(6) } else { Known::Nothing };
    Case::new(kind, report, known)
}

/// A code that is defined nowhere, and the name of its kind.
pub fn undefined(rng: &mut Rng) -> (&'static str, Vec<u8>) {
    match rng.within(0..=4) {
        0 => ("undefined CD, CF", vec![rng.pick(&[0xcd, 0xcf])]),
        1 => ("undefined EE", vec![0xee, rng.byte()]),
        2 => ("undefined EF", vec![0xef, rng.within(0x10..=0xff) as u8]),
        3 => ("undefined F0-F4", vec![rng.within(0xf0..=0xf4) as u8]),
        _ => {
            let last = rng.within(0..=14);
            let first = rng.within(last + 1..=15);
            ("undefined F5, F6", vec![rng.pick(&[0xf5, 0xf6]), (first << 4 | last) as u8])
        }
    }
}
