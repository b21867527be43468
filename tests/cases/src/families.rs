//! The kinds of reports, and how often each is made.

use crate::aims;
use crate::case::{Case, Known};
use crate::chain::chain;
use crate::damage::damaged;
use crate::draft::{Draft, LR, PC, SP};
use crate::edges;
use crate::frame_chain::frame_chain;
use crate::full;
use crate::functions::Function;
use crate::guarded::guarded;
use crate::module::Module;
use crate::packed;
use crate::records::PackedFields;
use crate::rng::Rng;
use crate::scene::{furnish, Mix, Room};
use crate::unfit;

/// The names of the kinds.
pub const KINDS: [&str; 23] = [
    "packed",
    "full",
    "chain",
    "walk",
    "deep",
    "pc at the image base",
    "last word of the stack",
    "many records",
    "undefined CD, CF",
    "undefined EE",
    "undefined EF",
    "undefined F0-F4",
    "undefined F5, F6",
    "bits flipped",
    "cut or longer",
    "tables spliced",
    "part cut",
    "aimed, first frame",
    "aimed, second frame",
    "aimed, file",
    "garbage",
    "regions",
    "frame chain",
];

/// Case `number` of the run with this seed.
pub fn case(seed: u64, number: u64) -> Case {
    let rng = &mut Rng::new(seed, number);
    match rng.within(0..=1_199) {
        0..=229 => one_frame(rng, "packed", packed::any),
        230..=439 => one_frame(rng, "full", full::any),
        440..=509 => chain(rng),
        510..=569 => crowded_walk(rng),
        570..=584 => deep_walk(rng),
        585..=594 => edges::image_base(rng),
        595..=604 => edges::last_word(rng),
        605..=614 => edges::many_records(rng),
        615..=639 => edges::undefined_code(rng),
        640..=739 => damaged(rng),
        740..=859 => aims::first_frame(rng),
        860..=949 => aims::second_frame(rng),
        950..=981 => unfit::file(rng),
        982..=999 => garbage(rng),
        1_000..=1_099 => guarded(rng),
        _ => frame_chain(rng),
    }
}

/// A sound report, to be spoiled.
pub fn sound(rng: &mut Rng) -> Draft {
    let make = if rng.flag() { packed::any } else { full::any };
    one_frame_draft(rng, make)
}

fn one_frame(rng: &mut Rng, kind: &'static str, make: fn(&mut Rng) -> Function) -> Case {
    Case::open(kind, one_frame_draft(rng, make).bytes())
}

/// A pc anywhere in or around one function, with neighbours of any kind.
fn one_frame_draft(rng: &mut Rng, make: fn(&mut Rng) -> Function) -> Draft {
    let focus = rng.below(3);
    let functions = (0..focus + 1 + rng.below(3))
        .map(|number| if number == focus { make(rng) } else { neighbour(rng) })
        .collect();
    let module = Module::assemble(rng, functions);
    let function = &module.functions[focus];
    let offset = random_offset(rng, function);
    let pc = module.address(focus, offset).wrapping_add(u32::from(rng.flag()));
    let room = Room::around(rng, function.body.words());
    let mix = Mix { return_addresses: 50, stack_addresses: 25, zeros: 8 };
    furnish(rng, &module, pc, room, mix)
}

/// Any function at all.
pub fn neighbour(rng: &mut Rng) -> Function {
    if rng.flag() {
        packed::any(rng)
    } else {
        full::any(rng)
    }
}

fn random_offset(rng: &mut Rng, function: &Function) -> u32 {
    match rng.within(0..=99) {
        0..=64 => function.offset_in_stretch(rng),
        65..=87 => function.offset_in_body(rng),
        88..=90 => 0,
        91..=93 => function.length.wrapping_sub(2),
        94..=96 => function.length,
        97..=98 => function.length.wrapping_add(2 * rng.within(1..=30)),
        // Before the function: the one before it, a gap, or no record at all.
        _ => 0u32.wrapping_sub(2 * rng.within(1..=40)),
    }
}

/// Functions that save LR, over a stack of return addresses: the walk goes on until something stops it.
fn crowded_walk(rng: &mut Rng) -> Case {
    let functions = (0..rng.within(2..=6))
        .map(|_| match rng.within(0..=3) {
            0 => full::in_chain(rng),
            1 => neighbour(rng),
            _ => packed::in_chain(rng),
        })
        .collect();
    let module = Module::assemble(rng, functions);
    let above = rng.within(20..=400);
    let room = Room { below: rng.within(0..=3), above, slack: above / 2, top: 3 };
    let pure = rng.flag();
    let mix = if pure {
        Mix { return_addresses: 100, stack_addresses: 0, zeros: 0 }
    } else {
        Mix { return_addresses: 80, stack_addresses: 15, zeros: 1 }
    };
    let pc = module.return_address(rng);
    let mut draft = furnish(rng, &module, pc, room, mix);
    if rng.flag() {
        end_in_zeros(&mut draft);
    }
    Case::open("walk", draft.bytes())
}

/// The topmost words end the walk wherever LR is among them.
fn end_in_zeros(draft: &mut Draft) {
    let from = draft.stack.len().saturating_sub(4 * 16);
    draft.stack[from..].fill(0);
}

/// Walks about as long as the list of 256 frames: each frame takes one word.
fn deep_walk(rng: &mut Rng) -> Case {
    let fields = PackedFields::CALLING;
    let frames = rng.pick(&[1, 2, 200, 254, 255, 255, 256, 256, 256, 257, 257, 258, 300]);
    let mut draft = Draft::empty();
    draft.image_base = 0x0040_0000;
    draft.pdata.push([0x1000, fields.word()]);
    draft.stack_base = 0x0003_0000;
    draft.r[SP] = draft.stack_base;
    draft.r[LR] = rng.word();
    let body = |rng: &mut Rng| 0x0040_1001 + 2 * rng.within(1..=fields.length / 2 - 4);
    draft.r[PC] = body(rng);
    let mut words: Vec<u32> = (1..frames).map(|_| body(rng)).collect();
    words.push(rng.within(0..=1));
    draft.set_stack(&words);
    let full = frames > 256;
    let known = Known::Stops { frames: if full { 256 } else { frames }, full };
    Case::new("deep", draft.bytes(), known)
}

/// Bytes without meaning, with more and more of a report around them.
fn garbage(rng: &mut Rng) -> Case {
    let count = 8 * rng.below(200);
    let report = match rng.within(0..=3) {
        0 => rng.bytes(count + count % 7),
        1 => [b"WLK\x01\x00\x00\x00\x00".as_slice(), &rng.bytes(count)].concat(),
        2 => random_tables(rng).bytes(),
        _ => random_xdata(rng).bytes(),
    };
    Case::open("garbage", report)
}

/// Ascending starts, everything else random.
fn random_tables(rng: &mut Rng) -> Draft {
    let mut draft = random_registers(rng);
    let mut start = 0;
    for _ in 0..rng.below(20) {
        start += rng.within(1..=200);
        draft.pdata.push([start, rng.word()]);
    }
    draft.r[PC] = draft.image_base + rng.within(0..=start + 20);
    draft
}

/// One function over random .xdata, whose header at least is often sound.
fn random_xdata(rng: &mut Rng) -> Draft {
    let mut draft = random_registers(rng);
    draft.xdata_rva = 0x8000;
    let count = rng.below(200);
    draft.xdata = rng.bytes(count + 8);
    if rng.percent(80) {
        draft.xdata[2] &= 0xf3;
        draft.xdata[3] &= 0x31;
    }
    draft.pdata.push([0x1000, 0x8000]);
    draft.r[PC] = draft.image_base + 0x1000 + 2 * rng.within(0..=60);
    draft
}

fn random_registers(rng: &mut Rng) -> Draft {
    let mut draft = Draft::empty();
    draft.image_base = 0x0040_0000;
    draft.stack_base = 0x0003_0000;
    let count = 4 * rng.below(100);
    draft.stack = rng.bytes(count);
    for register in &mut draft.r {
        *register = draft.stack_base + 4 * rng.within(0..=100);
    }
    draft.r[SP] = draft.stack_base + 4 * rng.within(0..=(count / 8) as u32);
    draft
}
