//! Functions with guarded regions that call each other. Each pushes LR and nothing else, and the tables
//! are made from their outlines, so that the whole text is known.

use std::fmt::Write;

use crate::case::{Case, Known};
use crate::draft::{Draft, LR, PC, SP};
use crate::records::{FullRecord, Scopes};
use crate::rng::Rng;
use crate::tables::{Surroundings, Table};

const XDATA_RVA: u32 = 0x9000;
const STACK_BASE: u32 = 0x0005_0000;
/// `push {lr}` is the prologue, `pop {pc}` at the function's end the epilogue, 2 bytes each.
const CODES: [u8; 4] = [0xed, 0x00, 0xff, 0x00];

struct Guarded {
    start: u32,
    length: u32,
    handler: Option<u32>,
    table: Table,
}

struct Frame {
    /// Which function it is in, or behind.
    function: usize,
    rva: u32,
    place: &'static str,
}

impl Frame {
    /// Whether LR is on the stack, and one code brings it back.
    fn has_pushed(&self) -> bool {
        matches!(self.place, "body" | "epilogue")
    }
}

pub fn guarded(rng: &mut Rng) -> Case {
    let extents = random_extents(rng);
    let frames = random_frames(rng, &extents);
    let functions = random_functions(rng, &extents, &frames);
    let mut draft = Draft::empty();
    draft.image_base = rng.pick(&[0, 0x0040_0000, 0x0040_0000, 0x1000_0000]);
    write_tables(rng, &mut draft, &functions);
    write_thread(rng, &mut draft, &frames);
    let known = Known::Outline(text(&draft, &functions, &frames));
    Case::new("regions", draft.bytes(), known)
}

/// Starts and lengths, with something between.
fn random_extents(rng: &mut Rng) -> Vec<(u32, u32)> {
    let mut at = 2 * rng.within(1..=0x800);
    let mut extents = Vec::new();
    for _ in 0..rng.within(1..=3) {
        let length = 2 * rng.within(4..=60);
        extents.push((at, length));
        at += length + 2 * rng.within(1..=20);
    }
    extents
}

/// The innermost first, which may have pushed nothing.
fn random_frames(rng: &mut Rng, extents: &[(u32, u32)]) -> Vec<Frame> {
    let innermost = rng.pick(&["prologue", "leaf", "body", "body", "epilogue"]);
    let mut frames = vec![random_frame(rng, extents, innermost)];
    for _ in 0..rng.below(5) {
        let place = rng.pick(&["body", "body", "epilogue"]);
        frames.push(random_frame(rng, extents, place));
    }
    frames
}

fn random_frame(rng: &mut Rng, extents: &[(u32, u32)], place: &'static str) -> Frame {
    let function = rng.below(extents.len());
    let (start, length) = extents[function];
    let offset = match place {
        "prologue" => 0,
        "body" => 2 * rng.within(1..=length / 2 - 2),
        "epilogue" => length - 2,
        _ => length,
    };
    Frame { function, rva: start + offset, place }
}

/// The functions with tables for the frames' pcs.
fn random_functions(rng: &mut Rng, extents: &[(u32, u32)], frames: &[Frame]) -> Vec<Guarded> {
    let mut functions = Vec::new();
    for (number, &(start, length)) in extents.iter().enumerate() {
        let inside = frames.iter().filter(|frame| frame.function == number);
        let around = Surroundings { start, length, pcs: inside.map(|frame| frame.rva).collect() };
        let table = Table::any(rng, &around, number + 1 == extents.len());
        let handler = rng.percent(90).then(|| rng.word());
        functions.push(Guarded { start, length, handler, table });
    }
    functions
}

fn write_tables(rng: &mut Rng, draft: &mut Draft, functions: &[Guarded]) {
    draft.xdata_rva = XDATA_RVA;
    for function in functions {
        let filler = 4 * rng.below(3);
        draft.xdata.extend(rng.bytes(filler));
        let rva = XDATA_RVA + draft.xdata.len() as u32;
        let record = FullRecord {
            length: function.length,
            version: 0,
            fragment: false,
            scopes: Scopes::AtEnd(0),
            codes: CODES.to_vec(),
            handler: function.handler,
            extended: rng.percent(20),
            reserved: 0,
        };
        draft.xdata.extend(record.bytes());
        draft.xdata.extend(function.table.bytes());
        draft.pdata.push([function.start | u32::from(rng.flag()), rva]);
    }
}

/// The registers and the stack: each frame goes back to the next one, the last to 0.
fn write_thread(rng: &mut Rng, draft: &mut Draft, frames: &[Frame]) {
    draft.r.iter_mut().for_each(|register| *register = rng.word());
    draft.r[PC] = draft.image_base + frames[0].rva + u32::from(rng.flag());
    draft.stack_base = STACK_BASE;
    draft.r[SP] = STACK_BASE;
    let mut words = Vec::new();
    for (number, frame) in frames.iter().enumerate() {
        let next = frames.get(number + 1).map_or(0, |next| draft.image_base + next.rva);
        let return_address = next | u32::from(rng.percent(80));
        if frame.has_pushed() {
            words.push(return_address);
        } else {
            draft.r[LR] = return_address;
        }
    }
    draft.set_stack(&words);
}

fn text(draft: &Draft, functions: &[Guarded], frames: &[Frame]) -> String {
    let mut text = "frame pc sp place\n".to_string();
    let mut codes = 0;
    for (number, frame) in frames.iter().enumerate() {
        let (pc, sp) = (draft.image_base + frame.rva, STACK_BASE + 4 * codes);
        writeln!(text, "{number} {pc:08x} {sp:08x} {}", frame.place)
            .expect("a String takes every write");
        let function = &functions[frame.function];
        if frame.place != "leaf" && function.handler.is_some() {
            text += &function.table.text(frame.rva);
        }
        codes += u32::from(frame.has_pushed());
    }
    text + &format!("end frames {} codes {codes}\n", frames.len())
}
