//! Requests for packed words and for their code bytes.

use peer::codes::{sequence, Sequence};
use peer::operations::{CODES, WORD};
use peer::packed::Packed;

use crate::records::PackedFields;
use crate::requests::Request;
use crate::rng::Rng;

pub const WORD_KINDS: [&str; 7] =
    ["any fields", "at the limit", "too large", "Flag 0 or 3", "Ret=0 L=0", "C=1 L=0", "r11 twice"];

pub const CODES_KINDS: [&str; 3] = ["any word", "Flag 1 or 2", "every combination"];

/// What the bits of each field hold, less 1.
const LIMITS: [u32; 9] = [3, 0x7ff, 3, 1, 7, 1, 1, 1, 0x3ff];

const FLAG: usize = 0;
const RET: usize = 2;
const REG: usize = 4;
const R: usize = 5;
const L: usize = 6;
const C: usize = 7;

pub fn word_request(rng: &mut Rng) -> Request {
    let mut fields = LIMITS.map(|limit| rng.within(0..=limit));
    fields[FLAG] = rng.within(1..=2);
    let kind = WORD_KINDS[rng.below(WORD_KINDS.len())];
    let field = rng.below(LIMITS.len());
    match kind {
        "at the limit" => fields[field] = LIMITS[field],
        "too large" => {
            let far = LIMITS[field] + 1 << rng.below(20);
            fields[field] = rng.pick(&[LIMITS[field] + 1, far, u32::MAX]);
        }
        "Flag 0 or 3" => fields[FLAG] = rng.pick(&[0, 3]),
        "Ret=0 L=0" => (fields[RET], fields[L]) = (0, 0),
        "C=1 L=0" => (fields[C], fields[L]) = (1, 0),
        "r11 twice" => (fields[C], fields[R], fields[REG], fields[L]) = (1, 0, 7, 1),
        _ => {}
    }
    word_of(kind, fields)
}

fn word_of(kind: &'static str, fields: [u32; 9]) -> Request {
    let known = match known_word(fields) {
        Some(word) => format!("word 0 {word:08x}"),
        None => "word 4 00000000".to_string(),
    };
    Request::new(kind, WORD, &fields, &[], Some(known))
}

fn known_word(fields: [u32; 9]) -> Option<u32> {
    let fit = fields.iter().zip(LIMITS).all(|(field, limit)| *field <= limit);
    let [flag, length, ret, h, reg, r, l, c, stack_adjust] = fields;
    let bit = |field| field == 1;
    let (h, r, l, c) = (bit(h), bit(r), bit(l), bit(c));
    let length = length.wrapping_mul(2);
    let packed = PackedFields { flag, length, ret, h, reg, r, l, c, stack_adjust };
    (fit && (flag == 1 || flag == 2) && packed.sound()).then(|| packed.word())
}

pub fn codes_request(rng: &mut Rng) -> Request {
    let (any, other) = (rng.word(), rng.word());
    if rng.percent(20) {
        return codes_of("any word", any);
    }
    let adjust = rng.pick(&[0, 1, 126, 127, 128, 129, 255, 256, 0x3f2, 0x3f3, other]);
    let flag = rng.within(1..=2);
    // L=1 more often than not: without it much is refused.
    let link = u32::from(rng.percent(50)) << 20;
    codes_of("Flag 1 or 2", any & 0x003f_fffc | adjust << 22 | flag | link)
}

/// Every Ret, H, Reg, R, L and C with each kind of Stack Adjust.
pub fn every_combination() -> impl Iterator<Item = Request> {
    let adjusts = [0, 1, 127, 128, 0x3f3].into_iter().chain(0x3f4..=0x3ff);
    adjusts.flat_map(|adjust| {
        (0..1 << 9).map(move |fields| {
            codes_of("every combination", 1 | 0x40 << 2 | fields << 13 | adjust << 22)
        })
    })
}

/// Words with the code bytes that document 01 gives, or that its rules were followed to by hand.
pub fn examples() -> impl Iterator<Item = Request> {
    plain_examples().into_iter().chain(chain_examples())
}

fn plain_examples() -> Vec<Request> {
    let plain = PackedFields::CALLING;
    vec![
        example(0x0091_0041, "codes 0 3 3 02d5ff02d5ff00000000000000000000"),
        // 1,011 words, not folded: sub and add of 32 bits around push {lr} and pop {pc}.
        example(
            PackedFields { stack_adjust: 0x3f3, ..plain }.word(),
            "codes 0 5 5 ebf3ed00ffebf3ed00ff000000000000",
        ),
        // One word, pushed with LR as r3, given back by an add.
        example(
            PackedFields { stack_adjust: 0x3f4, ..plain }.word(),
            "codes 0 3 4 ed08ff01ed00ff000000000000000000",
        ),
        // H: the home area is given back with the return address.
        example(
            PackedFields { h: true, ..plain }.word(),
            "codes 0 4 3 ed0004ffef05ff000000000000000000",
        ),
        // pop {r4-r7,lr} before a branch is 32 bits, so the D form for 16 does not stand for it.
        example(
            PackedFields { ret: 1, r: false, reg: 3, ..plain }.word(),
            "codes 0 2 3 d7ffa0f0fd0000000000000000000000",
        ),
        example(0, "codes 4 0 0 00000000000000000000000000000000"),
    ]
}

/// Words with C=1, with r11 and LR alone in the prologue's list or not.
fn chain_examples() -> Vec<Request> {
    let plain = PackedFields { c: true, ..PackedFields::CALLING };
    vec![
        // push.w {r11,lr} and mov r11,sp.
        example(
            PackedFields { length: 32, ..plain }.word(),
            "codes 0 4 3 fba800ffa800ff000000000000000000",
        ),
        // The same between push {r0-r3} and vpush {d8,d9}.
        example(
            PackedFields { h: true, reg: 1, stack_adjust: 2, ..plain }.word(),
            "codes 0 7 7 02e1fba80004ff02e18800ef05ff0000",
        ),
        // push.w {r3,r11,lr} and add.w r11,sp,#4; one word is given back by an add.
        example(
            PackedFields { stack_adjust: 0x3f4, ..plain }.word(),
            "codes 0 4 4 fca808ff01a800ff0000000000000000",
        ),
        // The word is given back by the pop alone, as r3.
        example(
            PackedFields { stack_adjust: 0x3f8, ..plain }.word(),
            "codes 0 5 3 01fba800ffa808ff0000000000000000",
        ),
        // r4-r10 with r11 of the frame chain is r4-r11.
        example(
            PackedFields { r: false, reg: 6, ..plain }.word(),
            "codes 0 3 2 fcdfffdfff0000000000000000000000",
        ),
    ]
}

fn example(word: u32, known: &str) -> Request {
    Request { known: Some(known.to_string()), ..codes_of("any word", word) }
}

fn codes_of(kind: &'static str, word: u32) -> Request {
    let refused = "codes 4 0 0 00000000000000000000000000000000";
    let known = Packed::only(word).is_err().then(|| refused.to_string());
    Request::new(kind, CODES, &[word], &[], known)
}

/// The code lists that the peer writes for a word, read again: the prologue's, and the epilogue's if
/// there is one. None if it refuses the word or does not read what it wrote.
pub fn read_again(word: u32) -> Option<Vec<Sequence>> {
    // The longest function, so that there is room for the instructions.
    let packed = Packed::only(word | 0x7ff << 2).ok()?;
    let function = packed.function().ok()?;
    let lists = packed.codes();
    let bytes = lists.concat();
    let mut written = vec![function.body.clone()];
    written.extend(function.epilogues.iter().map(|epilogue| epilogue.list.clone()));
    let starts = [0, lists[0].len()];
    written.iter().zip(starts).map(|(list, at)| same(sequence(&bytes, at).ok()?, list)).collect()
}

/// What was read, if it is the list that was written.
fn same(read: Sequence, written: &Sequence) -> Option<Sequence> {
    let alike = read.instructions.len() == written.instructions.len()
        && read.leave == written.leave
        && read
            .instructions
            .iter()
            .zip(&written.instructions)
            .all(|(one, other)| one.undo == other.undo && one.size == other.size);
    alike.then_some(read)
}
