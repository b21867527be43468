//! Whether the peer gives the answers that are known beforehand.

use peer::frame::{unwind, Caller};
use peer::function::Place;
use peer::machine::{PC, SP};
use peer::refusal::Refusal;
use peer::report::Report;
use peer::text::{outline, place_name, ROOM};
use peer::walk::{walk, Stop, Walk};

use crate::case::{Case, Chain, Known};

/// The answers of the peer to one report.
pub struct Answers<'a> {
    pub caller: Result<Caller<'a>, Refusal>,
    pub walk: Walk<'a>,
}

impl<'a> Answers<'a> {
    pub fn to(report: &Report<'a>) -> Answers<'a> {
        Answers {
            caller: unwind(&report.around, &report.registers),
            walk: walk(&report.around, &report.registers, ROOM),
        }
    }
}

/// Whether anything is known of the case's answer and, if so, whether it is what the peer answers.
pub fn confirm(case: &Case, answers: Option<&Answers>) -> Option<bool> {
    let Some(answers) = answers else {
        return unfit_is_known(&case.known);
    };
    match &case.known {
        Known::Nothing => None,
        Known::FirstRefused(number) => Some(refused_after(answers, 0, *number)),
        Known::FirstLeaf => {
            Some(answers.caller.as_ref().is_ok_and(|caller| caller.place == Place::Leaf))
        }
        Known::SecondRefused(number) => Some(refused_after(answers, 1, *number)),
        Known::Stops { frames, full } => {
            let stop = if *full { Stop::Full } else { Stop::End };
            Some(answers.walk.stop == stop && answers.walk.frames.len() == *frames)
        }
        Known::Chain(chain) => Some(is_chain(answers, chain)),
        Known::Outline(text) => Some(outline(&case.report) == *text),
    }
}

fn unfit_is_known(known: &Known) -> Option<bool> {
    match known {
        Known::Nothing => None,
        Known::FirstRefused(number) => Some(*number == Refusal::Unfit.number()),
        _ => Some(false),
    }
}

fn refused_after(answers: &Answers, frames: usize, number: u32) -> bool {
    let walk_refuses = match answers.walk.stop {
        Stop::Refused { refusal, .. } => refusal.number() == number,
        _ => false,
    };
    let caller_agrees = match &answers.caller {
        Ok(_) => frames > 0,
        Err(refusal) => frames == 0 && refusal.number() == number,
    };
    walk_refuses && caller_agrees && answers.walk.frames.len() == frames
}

fn is_chain(answers: &Answers, chain: &Chain) -> bool {
    let frames = answers.walk.frames.iter().map(|frame| (frame.pc, frame.sp));
    let walked = answers.walk.stop == Stop::End && frames.eq(chain.frames.iter().copied());
    let found = answers.caller.as_ref().is_ok_and(|caller| {
        let registers = &caller.registers;
        place_name(caller.place) == chain.place
            && caller.ran.len() == chain.codes
            && registers.r[SP] == chain.sp
            && registers.r[PC] == chain.pc
            && registers.r[4..12] == chain.r
            && registers.d[8..16] == chain.d
    });
    walked && found
}
