//! The kinds of FIT files, and how often each is made.

use crate::fit_aims::aimed;
use crate::fit_code::{file_of, Coded};
use crate::fit_file::{FitFile, HEAD};
use crate::fit_functions::{any_step, empty, full, Placed};
use crate::functions::{Function, Record};
use crate::misses::{self, Miss};
use crate::packed;
use crate::records::Scopes;
use crate::rng::Rng;
use crate::stands::{is_right, Piece, Spot};
use crate::steps::{Effect, Step, ENDS};

pub struct FitCase {
    pub kind: &'static str,
    pub file: Vec<u8>,
    /// The answer, if whoever made the file knows it.
    pub known: Option<String>,
    /// The near miss that the answer tells of.
    pub miss: Option<&'static str>,
    /// The flaw that the answer tells of.
    pub aim: Option<&'static str>,
}

impl FitCase {
    fn open(kind: &'static str, file: Vec<u8>) -> FitCase {
        FitCase { kind, file, known: None, miss: None, aim: None }
    }

    pub fn known(kind: &'static str, file: Vec<u8>, answer: String) -> FitCase {
        FitCase { known: Some(answer), ..FitCase::open(kind, file) }
    }
}

pub const KINDS: [&str; 16] = [
    "full",
    "packed",
    "near miss",
    "near misses",
    "forgotten",
    "doubled",
    "swapped",
    "in code order",
    MOV_R11,
    ADD_R11,
    "short",
    "cramped",
    "no bytes",
    "aimed",
    "bits flipped",
    "garbage",
];

/// What sets r11 where the other one should.
const MOV_R11: &str = "mov r11,sp";
const ADD_R11: &str = "add.w r11,sp";

/// FIT file `number` of the run with this seed. The kinds and the near misses take turns.
pub fn case(seed: u64, number: u64) -> FitCase {
    const NEAR: u64 = 60;
    // Other numbers than the reports and requests of this seed have.
    let rng = &mut Rng::new(seed, 1 << 62 | number);
    let (round, turn) = (number / 100, number % 100);
    match turn {
        0..NEAR => near_miss(rng, round * NEAR + turn),
        60..=67 => fitting(rng, false),
        68..=81 => fitting(rng, true),
        82 => with_other_nop(rng),
        83..=85 => moved(rng),
        86..=87 => short(rng),
        88 => cramped(rng),
        89..=96 => aimed(rng),
        97..=98 => flipped(rng),
        _ => garbage(rng),
    }
}

/// A function and its code.
fn coded(rng: &mut Rng, is_packed: bool) -> Coded {
    let function = if is_packed {
        let room = 2 * rng.within(0..=20);
        packed::with_body(rng, room)
    } else if rng.percent(4) {
        empty(rng)
    } else {
        full(rng, None)
    };
    Coded::new(rng, function)
}

fn fitting(rng: &mut Rng, is_packed: bool) -> FitCase {
    let file = coded(rng, is_packed).file(rng);
    let kind = if is_packed { "packed" } else { "full" };
    FitCase::known(kind, file.bytes(), "fits\n".to_string())
}

fn near_miss(rng: &mut Rng, turn: u64) -> FitCase {
    let all: Vec<&Miss> = misses::all().collect();
    let miss = all[turn as usize % all.len()];
    let (mut coded, target, halves) = with_miss(rng, miss);
    coded.write(target.offset, &halves);
    let mut first = target.offset;
    let several = rng.percent(30);
    if several {
        first = first.min(spoil_others(rng, &mut coded, first));
    }
    let kind = if several { "near misses" } else { "near miss" };
    let file = coded.file(rng).bytes();
    let case = FitCase::known(kind, file, format!("refused 17 at {first:08x}\n"));
    FitCase { miss: (first == target.offset).then_some(miss.name), ..case }
}

/// A function that can be missed in this way: where, and what stands there then.
fn with_miss(rng: &mut Rng, miss: &Miss) -> (Coded, Placed, Vec<u16>) {
    for _ in 0..if rng.percent(33) { 20 } else { 0 } {
        let coded = coded(rng, true);
        let targets = coded.all();
        let spoiled = targets.into_iter().filter_map(|target| {
            let halves = miss.spoil(rng, &target.piece, target.spot)?;
            Some((target, halves))
        });
        let spoiled: Vec<(Placed, Vec<u16>)> = spoiled.collect();
        if !spoiled.is_empty() {
            let (target, halves) = spoiled[rng.below(spoiled.len())].clone();
            return (coded, target, halves);
        }
    }
    let (piece, spot, halves) = any_missed(rng, miss);
    let function = full(rng, Some(&(piece.clone(), spot)));
    let coded = Coded::new(rng, function);
    let is_target = |placed: &Placed| placed.spot == spot && same(&placed.piece, &piece);
    let target = coded.all().into_iter().find(is_target).expect("the target is in the function");
    (coded, target, halves)
}

fn same(one: &Piece, other: &Piece) -> bool {
    match (one, other) {
        (Piece::Code(one), Piece::Code(other)) => one.code == other.code,
        (Piece::End(one), Piece::End(other)) => one == other,
        _ => false,
    }
}

/// Prologues and epilogues alike.
const SPOTS: [Spot; 4] = [Spot::Prologue, Spot::Prologue, Spot::Epilogue, Spot::Last];

/// A code, where it stands, and what misses it in this way.
fn any_missed(rng: &mut Rng, miss: &Miss) -> (Piece, Spot, Vec<u16>) {
    loop {
        let spot = rng.pick(&SPOTS);
        let piece = if spot == Spot::Epilogue && rng.percent(20) {
            Piece::End(rng.pick(&ENDS[..2]))
        } else {
            Piece::Code(any_step(rng))
        };
        if let Some(halves) = miss.spoil(rng, &piece, spot) {
            return (piece, spot, halves);
        }
    }
}

/// Puts something else in the place of one or two instructions more, later ones mostly; the lowest offset.
fn spoil_others(rng: &mut Rng, coded: &mut Coded, target: u32) -> u32 {
    let from = if rng.percent(70) { target + 1 } else { 0 };
    let mut others = coded.all();
    others.retain(|placed| placed.offset >= from && placed.offset != target);
    let mut lowest = u32::MAX;
    for _ in 0..rng.within(1..=2).min(others.len() as u32) {
        let other = &others[rng.below(others.len())];
        let halves: Vec<u16> = (0..other.piece.size() / 2).map(|_| rng.word() as u16).collect();
        if !is_right(&other.piece, other.spot, &halves) {
            coded.write(other.offset, &halves);
            lowest = lowest.min(other.offset);
        }
    }
    lowest
}

/// Instructions that are all there but for one, or not in their places.
fn moved(rng: &mut Rng) -> FitCase {
    loop {
        let is_packed = rng.percent(30);
        let mut coded = coded(rng, is_packed);
        let stretch = coded.stretches[rng.below(coded.stretches.len())].clone();
        if stretch.len() < 2 {
            continue;
        }
        let mut order: Vec<usize> = (0..stretch.len()).collect();
        let at = rng.below(stretch.len() - 1);
        let kind = rng.pick(&["forgotten", "doubled", "swapped", "in code order"]);
        match kind {
            "forgotten" => _ = order.remove(at),
            "doubled" => order.insert(at, at),
            "swapped" => order.swap(at, at + 1),
            _ => order.reverse(),
        }
        let halves: Vec<u16> = order.iter().flat_map(|at| coded.halves(&stretch[*at])).collect();
        let room = stretch.iter().map(|placed| placed.piece.size() as usize / 2).sum();
        coded.write(stretch[0].offset, &halves[..halves.len().min(room)]);
        return FitCase::open(kind, coded.file(rng).bytes());
    }
}

/// A packed record's function that sets r11 in the other size, with the rest of its prologue moved up or
/// down by that.
fn with_other_nop(rng: &mut Rng) -> FitCase {
    loop {
        let mut coded = coded(rng, true);
        let stretch = coded.stretches[0].clone();
        let Some(at) = stretch.iter().position(|placed| is_nop(&placed.piece)) else {
            continue;
        };
        let offset = stretch[at].offset;
        let (kind, mut halves) = match stretch[at].piece.size() {
            2 => (ADD_R11, vec![0xf10d, 0x0b00 | 4 * rng.within(0..=10) as u16]),
            _ => (MOV_R11, vec![0x46eb]),
        };
        halves.extend(stretch[at + 1..].iter().flat_map(|placed| coded.halves(placed)));
        halves.truncate((coded.code.len() - offset as usize) / 2);
        coded.write(offset, &halves);
        let answer = format!("refused 17 at {offset:08x}\n");
        return FitCase::known(kind, coded.file(rng).bytes(), answer);
    }
}

fn is_nop(piece: &Piece) -> bool {
    matches!(piece, Piece::Code(Step { effect: Effect::Nothing, .. }))
}

/// Right code that ends early.
fn short(rng: &mut Rng) -> FitCase {
    loop {
        let is_packed = rng.flag();
        let Coded { function, mut code, .. } = coded(rng, is_packed);
        if code.is_empty() {
            continue;
        }
        let cut = rng.pick(&[1, 1, 2, 4, code.len()]).min(code.len());
        code.truncate(code.len() - cut);
        let file = file_of(rng, &function, code);
        return FitCase::known("short", file.bytes(), "refused 18\n".to_string());
    }
}

/// A record whose length has no room for its instructions, or is 0.
fn cramped(rng: &mut Rng) -> FitCase {
    loop {
        let is_packed = rng.flag();
        let Coded { mut function, stretches, code } = coded(rng, is_packed);
        let needed = needed(&function, &stretches);
        if needed == 0 {
            continue;
        }
        let any = 2 * rng.within(0..=needed / 2 - 1);
        let length = rng.pick(&[0, needed - 2, any]);
        match &mut function.record {
            Record::Packed(fields) => fields.length = length,
            Record::Full(record) => record.length = length,
        }
        let kind = if length == 0 { "no bytes" } else { "cramped" };
        let file = file_of(rng, &function, code);
        return FitCase::known(kind, file.bytes(), "refused 7\n".to_string());
    }
}

/// The least length that prologue and epilogues have room in. An epilogue at the end moves with the length.
fn needed(function: &Function, stretches: &[Vec<Placed>]) -> u32 {
    let at_end = match &function.record {
        Record::Packed(_) => true,
        Record::Full(record) => matches!(record.scopes, Scopes::AtEnd(_)),
    };
    let all = || stretches.iter().flatten();
    if at_end {
        all().map(|placed| placed.piece.size()).sum()
    } else {
        all().map(|placed| placed.offset + placed.piece.size()).max().unwrap_or(0)
    }
}

/// A fitting file with one to three bits flipped, anywhere but in the mark.
fn flipped(rng: &mut Rng) -> FitCase {
    let is_packed = rng.flag();
    let mut bytes = coded(rng, is_packed).file(rng).bytes();
    for _ in 0..rng.within(1..=3) {
        let at =
            if rng.percent(20) { 8 + rng.below(HEAD - 8) } else { 8 + rng.below(bytes.len() - 8) };
        bytes[at] ^= 1 << rng.below(8);
    }
    FitCase::open("bits flipped", bytes)
}

/// Bytes without meaning, with more and more of a file around them.
fn garbage(rng: &mut Rng) -> FitCase {
    let count = rng.below(120);
    let bytes = match rng.within(0..=3) {
        0 => rng.bytes(count),
        1 => [b"FIT\x01\x00\x00\x00\x00".as_slice(), &rng.bytes(count)].concat(),
        2 => {
            let code = rng.bytes(2 * count);
            FitFile { word: rng.word(), xdata_rva: 0, xdata: Vec::new(), code }.bytes()
        }
        _ => random_record(rng),
    };
    FitCase::open("garbage", bytes)
}

/// Any record of a short function, over zeros.
fn random_record(rng: &mut Rng) -> Vec<u8> {
    let count = 8 + rng.below(60);
    let mut xdata = rng.bytes(count);
    // A few halfwords of length, Vers 0, few scopes and codes.
    (xdata[1], xdata[2], xdata[3]) = (0, xdata[2] & 0x70, xdata[3] & 0x31);
    FitFile { word: 0x4000, xdata_rva: 0x4000, xdata, code: vec![0; 512] }.bytes()
}
