//! Random packed records and the instructions they stand for.

use crate::functions::{Epilogue, Function, Record};
use crate::records::PackedFields;
use crate::rng::Rng;
use crate::steps::{registers, Effect, List, Step, ENDS, PLAIN_END};

/// Any sound packed record.
pub fn any(rng: &mut Rng) -> Function {
    loop {
        let fields = PackedFields { length: random_length(rng), ..random_fields(rng) };
        if fields.sound() {
            return lay_out(fields);
        }
    }
}

/// A packed record of a function that can be in a chain of calls: its caller can be found from its
/// body, and its prologue and epilogue agree.
pub fn in_chain(rng: &mut Rng) -> Function {
    loop {
        let fields = PackedFields { length: 2 * rng.within(30..=90), ..random_fields(rng) };
        let small = Adjust::of(fields.stack_adjust).words < 64;
        if fields.sound() && fields.l && fields.flag == 1 && ends_agree(&fields) && small {
            return lay_out(fields);
        }
    }
}

/// Whether the epilogue undoes what the prologue did: an amount that only one of them folds is on the other
/// side of the d registers for the other.
pub fn ends_agree(fields: &PackedFields) -> bool {
    let adjust = Adjust::of(fields.stack_adjust);
    let saves_vectors = fields.r && fields.reg != 7;
    !saves_vectors || adjust.prologue_folds == adjust.epilogue_folds
}

/// Any sound packed record with this many bytes of body.
pub fn with_body(rng: &mut Rng, room: u32) -> Function {
    loop {
        let fields = random_fields(rng);
        if fields.sound() {
            return lay_out(PackedFields { length: least_length(&fields) + room, ..fields });
        }
    }
}

/// Bytes of a function that is nothing but what these fields tell of.
pub fn least_length(fields: &PackedFields) -> u32 {
    let prologue = if fields.flag == 1 { prologue(fields).prologue_size() } else { 0 };
    prologue + epilogue(fields).map_or(0, |list| list.epilogue_size())
}

fn random_length(rng: &mut Rng) -> u32 {
    match rng.within(0..=99) {
        0..=9 => 2 * rng.within(1..=20),
        10..=97 => 2 * rng.within(19..=90),
        _ => 2 * rng.within(0..=0x7ff),
    }
}

pub fn lay_out(fields: PackedFields) -> Function {
    let at_end = epilogue(&fields)
        .map(|list| Epilogue { start: fields.length.saturating_sub(list.epilogue_size()), list });
    Function {
        length: fields.length,
        record: Record::Packed(fields),
        body: prologue(&fields),
        fragment: fields.flag == 2,
        epilogues: at_end.into_iter().collect(),
    }
}

fn random_fields(rng: &mut Rng) -> PackedFields {
    PackedFields {
        flag: if rng.percent(75) { 1 } else { 2 },
        length: 0,
        ret: rng.within(0..=3),
        h: rng.flag(),
        reg: rng.within(0..=7),
        r: rng.flag(),
        l: rng.percent(56),
        c: rng.percent(45),
        stack_adjust: random_adjust(rng),
    }
}

/// Every kind of amount, with the values on both sides of each border.
fn random_adjust(rng: &mut Rng) -> u32 {
    match rng.within(0..=99) {
        0..=17 => 0,
        18..=44 => rng.within(1..=20),
        45..=54 => rng.pick(&[126, 127, 127, 128, 128, 129]),
        55..=61 => rng.within(0x3f1..=0x3f3),
        62..=67 => rng.within(128..=0x3f3),
        _ => rng.within(0x3f4..=0x3ff),
    }
}

struct Adjust {
    words: u32,
    prologue_folds: bool,
    epilogue_folds: bool,
}

impl Adjust {
    fn of(stack_adjust: u32) -> Adjust {
        match stack_adjust.checked_sub(0x3f0) {
            Some(low @ 4..) => Adjust {
                words: low % 4 + 1,
                prologue_folds: low & 4 != 0,
                epilogue_folds: low & 8 != 0,
            },
            _ => Adjust { words: stack_adjust, prologue_folds: false, epilogue_folds: false },
        }
    }
}

/// The registers pushed besides LR. A fold pushes as many of r0-r3 as there are words.
fn integer_list(fields: &PackedFields, fold: Option<u32>) -> u32 {
    let saved = if fields.r { 0 } else { registers(4, 4 + fields.reg) };
    let folded = fold.map_or(0, |words| registers(4 - words, 3));
    saved | folded | u32::from(fields.c) << 11
}

fn bare(effect: Effect, size: u32) -> Step {
    Step { effect, code: Vec::new(), size }
}

/// The push or pop of a list; LR costs a pop 32 bits, but not a push nor a pop of pc.
fn transfer(list: u32, link_is_narrow: bool) -> Option<Step> {
    let narrow = if link_is_narrow { 0x40ff } else { 0xff };
    let size = if list & !narrow == 0 { 2 } else { 4 };
    (list != 0).then(|| bare(Effect::Push(list), size))
}

fn room(adjust: &Adjust, folded: bool) -> Option<Step> {
    let size = if adjust.words < 128 { 2 } else { 4 };
    (adjust.words > 0 && !folded).then(|| bare(Effect::Room(adjust.words), size))
}

fn vectors(fields: &PackedFields) -> Option<Step> {
    (fields.r && fields.reg < 7).then(|| bare(Effect::VectorPush(8, 8 + fields.reg), 4))
}

fn link(fields: &PackedFields) -> u32 {
    u32::from(fields.l) << 14
}

/// What makes r11 point at its saved value: `mov r11,sp` if that is the lowest and LR the only other one,
/// `add r11,sp,#n`, which has no 16-bit form, if r4-rX or a fold were pushed with them.
fn set_r11(fields: &PackedFields, adjust: &Adjust) -> Step {
    let alone = fields.r && !adjust.prologue_folds;
    bare(Effect::Nothing, if alone { 2 } else { 4 })
}

fn prologue(fields: &PackedFields) -> List {
    let adjust = Adjust::of(fields.stack_adjust);
    let fold = adjust.prologue_folds.then_some(adjust.words);
    let steps = [
        room(&adjust, adjust.prologue_folds),
        vectors(fields),
        fields.c.then(|| set_r11(fields, &adjust)),
        transfer(integer_list(fields, fold) | link(fields), true),
        fields.h.then(|| bare(Effect::Room(4), 2)),
    ];
    List { steps: steps.into_iter().flatten().collect(), end: PLAIN_END }
}

fn epilogue(fields: &PackedFields) -> Option<List> {
    let adjust = Adjust::of(fields.stack_adjust);
    let list = integer_list(fields, adjust.epilogue_folds.then_some(adjust.words));
    let mut steps = vec![room(&adjust, adjust.epilogue_folds), vectors(fields)];
    let end = match (fields.ret, fields.h && fields.l) {
        (3, _) => return None,
        (_, true) => {
            steps.extend([transfer(list, false), Some(bare(Effect::StoreLink(5), 4))]);
            PLAIN_END
        }
        (0, false) => {
            steps.push(transfer(list | link(fields), true));
            PLAIN_END
        }
        (ret, false) => {
            let home = fields.h.then(|| bare(Effect::Room(4), 2));
            steps.extend([transfer(list | link(fields), false), home]);
            ENDS[ret as usize - 1]
        }
    };
    Some(List { steps: steps.into_iter().flatten().collect(), end })
}
