//! Chains of calls that a processor really made: prologues are executed forwards and the walk has to
//! find the way back.

use crate::case::{Case, Chain, Known};
use crate::draft::{Draft, LR, PC, SP};
use crate::full;
use crate::functions::Function;
use crate::module::Module;
use crate::packed;
use crate::processor::Processor;
use crate::rng::Rng;
use crate::steps::{Effect, List};

const STACK_BASE: u32 = 0x0020_0000;
/// More than the deepest chain of the largest prologues takes.
const STACK_WORDS: u32 = 8_192;
const DEEPEST: usize = 12;

/// Where the innermost function stopped.
pub struct Stand {
    /// Bytes from the function's start.
    pub offset: u32,
    pub place: &'static str,
    /// Instructions to be undone.
    pub codes: usize,
}

pub fn chain(rng: &mut Rng) -> Case {
    let functions: Vec<Function> = (0..rng.within(1..=5))
        .map(|_| if rng.flag() { packed::in_chain(rng) } else { full::in_chain(rng) })
        .collect();
    let module = assemble(rng, functions);
    let mut processor = new_thread(rng);
    let mut frames = Vec::new();
    for _ in 0..rng.below(DEEPEST) {
        frames.push(call(rng, &module, &mut processor));
    }
    let entry = processor.clone();
    let number = rng.below(module.functions.len());
    let stand = stand_somewhere(rng, &module.functions[number], &mut processor);
    processor.r[PC] = module.address(number, stand.offset);
    frames.push((processor.r[PC], processor.r[SP]));
    frames.reverse();
    let known = Known::Chain(Box::new(truth(&entry, frames, &stand)));
    Case::new("chain", write(rng, &module, &processor), known)
}

/// A processor before the first call.
pub fn new_thread(rng: &mut Rng) -> Processor {
    let above = rng.within(0..=6);
    let mut processor = Processor::new(rng, STACK_BASE, STACK_WORDS, above);
    // The outermost return address ends the walk, with or without the Thumb mark.
    processor.r[LR] = rng.within(0..=1);
    processor
}

pub fn assemble(rng: &mut Rng, functions: Vec<Function>) -> Module {
    loop {
        let module = Module::assemble(rng, functions.clone());
        // A chain needs real addresses: not those that wrap, nor odd ones of an odd image base.
        let top = module.address(functions.len() - 1, functions[functions.len() - 1].length);
        let even = module.draft.image_base.is_multiple_of(2);
        if even && top > module.address(0, 0) && module.address(0, 0) > 0 {
            return module;
        }
    }
}

/// The instructions of a list in the order a prologue executes them.
fn forwards(list: &List) -> Vec<Effect> {
    list.steps.iter().rev().map(|step| step.effect).collect()
}

/// A function runs its prologue, works, and calls the next one. Gives its frame as the walk sees it.
fn call(rng: &mut Rng, module: &Module, processor: &mut Processor) -> (u32, u32) {
    let number = rng.below(module.functions.len());
    let function = &module.functions[number];
    enter_body(rng, function, processor);
    let return_address = module.address(number, offset_after_prologue(rng, function));
    processor.r[LR] = return_address | u32::from(rng.percent(90));
    (return_address, processor.r[SP])
}

/// The whole prologue, and whatever a body may do after it.
pub fn enter_body(rng: &mut Rng, function: &Function, processor: &mut Processor) {
    let prologue = forwards(&function.body);
    prologue.iter().for_each(|effect| processor.execute(*effect));
    processor.run_body(rng, &prologue);
}

pub fn offset_after_prologue(rng: &mut Rng, function: &Function) -> u32 {
    loop {
        let offset = function.offset_in_body(rng);
        if function.is_body(offset) {
            return offset;
        }
    }
}

/// The innermost function stops in its prologue, its body or an epilogue.
fn stand_somewhere(rng: &mut Rng, function: &Function, processor: &mut Processor) -> Stand {
    match rng.within(0..=2) {
        0 => stop_in_prologue(rng, function, processor),
        1 if !function.epilogues.is_empty() => {
            enter_body(rng, function, processor);
            stop_in_epilogue(rng, function, processor)
        }
        _ => {
            enter_body(rng, function, processor);
            let offset = offset_after_prologue(rng, function);
            Stand { offset, place: "body", codes: function.body.steps.len() }
        }
    }
}

fn stop_in_prologue(rng: &mut Rng, function: &Function, processor: &mut Processor) -> Stand {
    let done = rng.below(function.body.steps.len());
    let steps = function.body.steps.iter().rev().take(done);
    let offset = steps
        .map(|step| {
            processor.execute(step.effect);
            step.size
        })
        .sum();
    Stand { offset, place: "prologue", codes: done }
}

fn stop_in_epilogue(rng: &mut Rng, function: &Function, processor: &mut Processor) -> Stand {
    let epilogue = &function.epilogues[rng.below(function.epilogues.len())];
    let list = &epilogue.list;
    // The last instruction leaves the function: after it the pc is elsewhere.
    let last = list.steps.len() - usize::from(list.end.size == 0);
    let done = rng.below(last + 1);
    let steps = list.steps.iter().take(done);
    let distance: u32 = steps
        .map(|step| {
            processor.reverse(step.effect);
            step.size
        })
        .sum();
    let offset = epilogue.start + distance;
    Stand { offset, place: "epilogue", codes: list.steps.len() - done }
}

pub fn truth(entry: &Processor, frames: Vec<(u32, u32)>, stand: &Stand) -> Chain {
    let &Stand { place, codes, .. } = stand;
    let (sp, pc) = (entry.r[SP], entry.r[LR] & !1);
    let mut chain = Chain { frames, place, codes, sp, pc, r: [0; 8], d: [0; 8] };
    chain.r.copy_from_slice(&entry.r[4..12]);
    chain.d.copy_from_slice(&entry.d[8..16]);
    chain
}

pub fn write(rng: &mut Rng, module: &Module, processor: &Processor) -> Vec<u8> {
    let (stack_base, stack) = processor.stack(rng.within(0..=5));
    let mut draft = Draft { stack_base, r: processor.r, d: processor.d, ..module.draft.clone() };
    draft.set_stack(stack);
    draft.r[PC] |= u32::from(rng.flag());
    draft.bytes()
}
