//! Functions to write code for: every code has an instruction where it stands, and one that is asked for
//! stands where it is asked for.

use crate::full::{self, Plan, Pool};
use crate::functions::Function;
use crate::rng::Rng;
use crate::stands::{has_instruction, Piece, Spot};
use crate::steps::{self, Effect, End, List, Step, ENDS, PLAIN_END};

/// An instruction of a prologue or epilogue.
#[derive(Clone, Debug)]
pub struct Placed {
    /// Bytes from the function's start.
    pub offset: u32,
    pub piece: Piece,
    pub spot: Spot,
}

/// The instructions of the prologue, if there is one, and of each epilogue, as they execute.
pub fn stretches(function: &Function) -> Vec<Vec<Placed>> {
    let prologue = function.body.steps.iter().rev().filter(|_| !function.fragment);
    let prologue = prologue.map(|step| (Piece::Code(step.clone()), Spot::Prologue));
    let mut all = vec![lay(0, prologue)];
    for epilogue in &function.epilogues {
        all.push(lay(epilogue.start, pieces(&epilogue.list)));
    }
    all
}

fn lay(start: u32, pieces: impl IntoIterator<Item = (Piece, Spot)>) -> Vec<Placed> {
    let mut offset = start;
    let mut placed = Vec::new();
    for (piece, spot) in pieces {
        let size = piece.size();
        placed.push(Placed { offset, piece, spot });
        offset += size;
    }
    placed
}

/// What an epilogue's list has instructions for.
fn pieces(list: &List) -> Vec<(Piece, Spot)> {
    let code = |step: &Step| (Piece::Code(step.clone()), Spot::Epilogue);
    let mut pieces: Vec<(Piece, Spot)> = list.steps.iter().map(code).collect();
    if list.end != PLAIN_END {
        pieces.push((Piece::End(list.end), Spot::Epilogue));
    } else if let Some((_, spot)) = pieces.last_mut() {
        *spot = Spot::Last;
    }
    pieces
}

/// A full record's function; with a target, this piece stands in it.
pub fn full(rng: &mut Rng, target: Option<&(Piece, Spot)>) -> Function {
    let in_prologue = target.filter(|(_, spot)| *spot == Spot::Prologue);
    let in_epilogue = target.filter(|(_, spot)| *spot != Spot::Prologue);
    let fragment = in_prologue.is_none() && rng.percent(20);
    let body = prologue_list(rng, in_prologue);
    let mut pool = Pool::new(&body);
    let mut epilogues: Vec<(List, usize)> = Vec::new();
    for _ in 0..random_count(rng) {
        epilogues.push(random_epilogue(rng, &body, &mut pool));
    }
    if in_epilogue.is_some() {
        let list = epilogue_list(rng, in_epilogue);
        let index = pool.add(&list);
        epilogues.insert(rng.below(epilogues.len() + 1), (list, index));
    }
    full::lay_out(rng, Plan { body, pool, epilogues, fragment, conditions: true, room: 0, gap })
}

fn random_count(rng: &mut Rng) -> usize {
    match rng.within(0..=99) {
        0..=19 => 0,
        20..=54 => 1,
        55..=94 => rng.below(3) + 2,
        // More than the head's first word can count.
        _ => rng.below(5) + 32,
    }
}

fn gap(rng: &mut Rng) -> u32 {
    match rng.within(0..=99) {
        0..=1 => 2 * rng.within(0x600..=0x1000),
        2..=29 => 0,
        _ => 2 * rng.within(0..=12),
    }
}

/// A function of no bytes, whose record says nothing.
pub fn empty(rng: &mut Rng) -> Function {
    let body = List { steps: Vec::new(), end: rng.pick(&ENDS) };
    let pool = Pool::new(&body);
    let fragment = rng.flag();
    let (epilogues, conditions, gap) = (Vec::new(), false, no_gap);
    full::lay_out(rng, Plan { body, pool, epilogues, fragment, conditions, room: 0, gap })
}

fn no_gap(_: &mut Rng) -> u32 {
    0
}

/// The body's list or the end of it, if it has an instruction everywhere in an epilogue, or another.
fn random_epilogue(rng: &mut Rng, body: &List, pool: &mut Pool) -> (List, usize) {
    let skipped = if rng.flag() { 0 } else { rng.below(body.steps.len() + 1) };
    let (shared, index) = body.without(skipped);
    let fits = pieces(&shared).iter().all(|(piece, spot)| has_instruction(piece, *spot));
    if fits && rng.percent(60) || pool.bytes.len() > 200 {
        return if fits { (shared, index) } else { nothing(body) };
    }
    let list = epilogue_list(rng, None);
    let index = pool.add(&list);
    (list, index)
}

/// The body's end code alone.
fn nothing(body: &List) -> (List, usize) {
    body.without(body.steps.len())
}

fn prologue_list(rng: &mut Rng, target: Option<&(Piece, Spot)>) -> List {
    let count = rng.pick(&[0, 1, 3, 4, 5, 6, 8, 12]);
    let mut steps: Vec<Step> = (0..count).map(|_| fitting(rng, Spot::Prologue)).collect();
    if let Some((Piece::Code(step), _)) = target {
        steps.insert(rng.below(steps.len() + 1), step.clone());
    }
    List { steps, end: rng.pick(&ENDS) }
}

fn epilogue_list(rng: &mut Rng, target: Option<&(Piece, Spot)>) -> List {
    let count = rng.pick(&[0, 1, 2, 3, 4, 6]);
    let mut steps: Vec<Step> = (0..count).map(|_| fitting(rng, Spot::Epilogue)).collect();
    let mut end = random_end(rng);
    match target {
        Some((Piece::End(wanted), _)) => return List { steps, end: *wanted },
        Some((Piece::Code(step), Spot::Last)) => {
            steps.push(step.clone());
            return List { steps, end: PLAIN_END };
        }
        Some((Piece::Code(step), _)) => steps.insert(rng.below(steps.len() + 1), step.clone()),
        None if steps.is_empty() && rng.flag() => end = PLAIN_END,
        None => {}
    }
    if end == PLAIN_END && !steps.is_empty() {
        steps.push(leaving(rng));
    }
    List { steps, end }
}

fn random_end(rng: &mut Rng) -> End {
    rng.pick(&[ENDS[0], ENDS[1], PLAIN_END, PLAIN_END])
}

/// A code that has an instruction there.
fn fitting(rng: &mut Rng, spot: Spot) -> Step {
    loop {
        let step = any_step(rng);
        if has_instruction(&Piece::Code(step.clone()), spot) {
            return step;
        }
    }
}

/// The last code before FF: mostly one that loads the return address.
fn leaving(rng: &mut Rng) -> Step {
    if rng.percent(8) {
        return steps::anchor(14);
    }
    let any = rng.percent(35);
    loop {
        let step = fitting(rng, Spot::Last);
        if any || step.effect.saves_link() || step.effect == Effect::StoreLink(0) {
            return step;
        }
    }
}

/// Any code, those at the borders of what instructions can say more often.
pub fn any_step(rng: &mut Rng) -> Step {
    if rng.percent(60) {
        return steps::any(rng);
    }
    match rng.within(0..=19) {
        0 => steps::narrow_room(rng.pick(&[0, 4, 4, 126, 127])),
        1 => steps::long_room(0xf7, rng.pick(&[0, 4, 127, 128, 129, 256]), 2),
        2 => steps::longer_room(0xf8, rng.pick(&[0, 4, 127, 128, 0x100, 0x80_0000]), 2),
        3 => steps::wide_room(rng.pick(&[0, 63, 64, 65, 127, 128, 129, 255, 256, 1022, 1023])),
        4 => steps::long_room(0xf9, border_of_12_bits(rng), 4),
        5 => steps::longer_room(0xfa, border_of_12_bits(rng), 4),
        6 => steps::long_room(0xf9, rotated(rng, 0xffff), 4),
        7 => steps::longer_room(0xfa, rotated(rng, 0xff_ffff), 4),
        8 => steps::longer_room(0xfa, repeated(rng), 4),
        9..=10 => steps::wide_push(1 << rng.within(0..=12), false),
        11 => steps::wide_push(rng.pick(&[0, 0, 1 << 4, 1 << 12]), true),
        12..=13 => any_range(rng),
        14 => steps::store_link(rng.pick(&[0, 0, 0, 1, 15])),
        15 => steps::anchor(rng.pick(&[7, 8, 11, 14, 14])),
        16 => steps::wide_push(0, false),
        17 => steps::narrow_push(0, false),
        // An odd number of words from 4,096 bytes on is no constant.
        _ => steps::long_room(0xf9, rng.within(0x400..=0xffff) | 1, 4),
    }
}

/// Any number of d registers from 1 to 16, all as often.
fn any_range(rng: &mut Rng) -> Step {
    let more = rng.within(0..=15);
    let start = rng.within(0..=15 - more);
    let (first_byte, from) = rng.pick(&[(0xf5, 0), (0xf6, 16)]);
    steps::vector_range(first_byte, from, start, start + more)
}

fn border_of_12_bits(rng: &mut Rng) -> u32 {
    rng.pick(&[0, 1, 63, 64, 1022, 1023, 1024, 1025, 1027, 2048])
}

/// Words whose number of bytes is eight bits, moved.
fn rotated(rng: &mut Rng, most: u32) -> u32 {
    loop {
        let words = rng.within(0x80..=0xff) << rng.within(0..=16);
        if words <= most {
            return words;
        }
    }
}

/// Words whose number of bytes is a byte twice, 00XY00XY or XY00XY00; or nearly that.
fn repeated(rng: &mut Rng) -> u32 {
    let low = rng.within(1..=0x3f) * 0x0001_0001;
    let high = rng.within(1..=3) * 0x0040_0040;
    rng.pick(&[low, low, low, high, high, high, low + 1, high + 1])
}
