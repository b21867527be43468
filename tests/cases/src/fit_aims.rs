//! FIT files aimed at the refusals, one defect or several at once: the first in the order decides, so
//! that the answer is known.

use crate::aims::Defect;
use crate::fit_cases::FitCase;
use crate::fit_file::{FitFile, HEAD};
use crate::rng::Rng;
use crate::victims::Victim;

/// What can be wrong with a FIT file, in the order in which it is refused.
const ALL: [(Flaw, &str); 12] = [
    (Flaw::File, "14 file"),
    (Flaw::Parts, "1 .xdata"),
    (Flaw::Record(Defect::FirstWordOutside), "5 first word"),
    (Flaw::Record(Defect::HeaderReserved), "4 head"),
    (Flaw::Record(Defect::ExtensionOutside), "5 extension"),
    (Flaw::Record(Defect::ExtensionReserved), "4 extension"),
    (Flaw::Record(Defect::RecordOutside), "5 record"),
    (Flaw::Record(Defect::ScopeReserved), "4 scope"),
    (Flaw::Record(Defect::Codes), "6 codes"),
    (Flaw::Record(Defect::Layout), "7 layout"),
    (Flaw::Short, "18 short"),
    (Flaw::Differs, "17 differs"),
];

#[derive(Clone, Copy, Debug, PartialEq, Eq)]
enum Flaw {
    File,
    Parts,
    Record(Defect),
    Short,
    Differs,
}

impl Flaw {
    /// Whether a file with a packed record can have it.
    fn in_packed(self) -> bool {
        match self {
            Flaw::Record(defect) => matches!(defect, Defect::HeaderReserved | Defect::Layout),
            _ => true,
        }
    }
}

/// The names, which begin with the refusal's number.
pub fn names() -> impl Iterator<Item = &'static str> {
    ALL.into_iter().map(|(_, name)| name)
}

/// A few flaws, as places in their order, the first of them first; two are neighbours more often than not.
fn choose(rng: &mut Rng, packed: bool) -> Vec<usize> {
    let possible: Vec<usize> =
        (0..ALL.len()).filter(|at| !packed || ALL[*at].0.in_packed()).collect();
    let first = rng.below(possible.len());
    let mut chosen = vec![possible[first]];
    match rng.within(0..=9) {
        0..=3 => {}
        4..=6 => chosen.extend(possible.get(first + 1)),
        7..=8 => chosen.push(rng.pick(&possible)),
        _ => chosen.extend([rng.pick(&possible), rng.pick(&possible)]),
    }
    chosen.sort();
    chosen.dedup();
    chosen
}

pub fn aimed(rng: &mut Rng) -> FitCase {
    let packed = rng.percent(25);
    let chosen = choose(rng, packed);
    let has = |flaw| chosen.iter().any(|at| ALL[*at].0 == flaw);
    let defects: Vec<Defect> = chosen
        .iter()
        .filter_map(|at| match ALL[*at].0 {
            Flaw::Record(defect) => Some(defect),
            _ => None,
        })
        .collect();
    let victim = Victim::new(rng, packed, &defects);
    let mut file = FitFile {
        word: victim.word,
        xdata_rva: Victim::XDATA_RVA,
        xdata: victim.xdata.clone(),
        code: code(rng, victim.length, has(Flaw::Short)),
    };
    if has(Flaw::Parts) {
        spoil_parts(rng, &mut file);
    }
    let mut bytes = file.bytes();
    if has(Flaw::File) {
        spoil_file(rng, &mut bytes);
    }
    let name = ALL[chosen[0]].1;
    FitCase { aim: Some(name), ..FitCase::known("aimed", bytes, answer(name)) }
}

/// Zeros, which no victim's prologue begins with.
fn code(rng: &mut Rng, length: u32, short: bool) -> Vec<u8> {
    let length = length as usize;
    if short {
        return vec![0; rng.pick(&[0, length / 2, length - 2, length - 1, length - 1])];
    }
    vec![0; length + rng.pick(&[0, 0, 0, 1, 2, 30])]
}

fn answer(name: &str) -> String {
    match name.split_once(' ') {
        Some(("17", _)) => "refused 17 at 00000000\n".to_string(),
        Some((number, _)) => format!("refused {number}\n"),
        None => String::new(),
    }
}

/// An RVA that is no multiple of 4, or an end past 2^32.
fn spoil_parts(rng: &mut Rng, file: &mut FitFile) {
    let length = file.xdata.len().next_multiple_of(4) + 8;
    let highest = 0u32.wrapping_sub(length as u32);
    match rng.within(0..=3) {
        0 | 1 => file.xdata_rva += rng.within(1..=3),
        2 => {
            file.xdata.resize(length, 0);
            file.xdata_rva = highest + 4;
        }
        _ => {
            file.xdata.resize(length + 1, 0);
            file.xdata_rva = highest;
        }
    }
}

/// A mark, version, zero or number that is not right, or bytes missing or left over.
fn spoil_file(rng: &mut Rng, bytes: &mut Vec<u8>) {
    match rng.within(0..=9) {
        0..=2 => bytes[rng.below(8)] ^= 1 << rng.below(8),
        3 => bytes.truncate(bytes.len() - rng.pick(&[1, 2, 4])),
        4 => bytes.extend(vec![0; rng.pick(&[1, 2, 4])]),
        5 => bytes.truncate(rng.pick(&[0, 1, 3, 7, 8, 11, 12, 20, 23])),
        6 => {
            let length = rng.below(bytes.len().min(HEAD));
            bytes.truncate(length);
        }
        _ => spoil_numbers(rng, bytes),
    }
}

/// Numbers of .xdata and code bytes that do not add up, also those that would if they wrapped.
fn spoil_numbers(rng: &mut Rng, bytes: &mut [u8]) {
    let at = rng.pick(&[16, 20]);
    let mut number = [0; 4];
    number.copy_from_slice(&bytes[at..at + 4]);
    let value = u32::from_le_bytes(number);
    let other = match rng.within(0..=3) {
        0 => value.wrapping_add(1),
        1 => value.wrapping_sub(1),
        2 => value ^ 0x8000_0000,
        _ => value.wrapping_sub(rng.within(1..=0x100)),
    };
    bytes[at..at + 4].copy_from_slice(&other.to_le_bytes());
}
