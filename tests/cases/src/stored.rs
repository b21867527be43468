//! The inputs that are stored with the programs (`crates/NAME/stdin`).

use std::collections::BTreeSet;

use peer::text::{caller, listing, outline};

use crate::draft::{put_words, Draft, LONGEST, PC, SP};
use crate::examples::listing_draft;
use crate::families::case;
use crate::fit_examples::fitting_file;
use crate::framing::{frame, framed};
use crate::{fit_cases, fit_classes, fit_file};

/// What `classes` can say: refusals 1-11 and 14 and the four places of the one frame; refusals 1-14, "end" and "full" of the walk;
/// refusals 15 and 16 and the two marks, outermost and further in, of the outline.
const CLASSES: usize = 12 + 4 + 14 + 2 + 2 + 4;

/// Of the real reports, one in so many.
const REAL_STEP: usize = 18;

/// Document 01's report, at offset 4 of its first function: the whole prologue is undone.
pub fn offset_four() -> Draft {
    let mut draft = listing_draft();
    draft.r[PC] += 2;
    draft.r[SP] -= 8;
    draft
}

/// Document 01's report, the first generated ones that are answered in a new way, one that is too long, a sample of the real ones, and one
/// that is cut short.
pub fn stream(seed: u64, cases: u64, real: &[u8]) -> Result<Vec<u8>, String> {
    let mut out = Vec::new();
    frame(&mut out, &listing_draft().bytes());
    for report in every_class(seed, cases)? {
        frame(&mut out, &report);
    }
    frame(&mut out, &vec![0; LONGEST + 1]);
    for report in framed(real).step_by(REAL_STEP) {
        frame(&mut out, report);
    }
    frame(&mut out, &listing_draft().bytes());
    out.pop();
    Ok(out)
}

fn every_class(seed: u64, cases: u64) -> Result<Vec<Vec<u8>>, String> {
    let mut met = BTreeSet::new();
    let mut reports = Vec::new();
    for number in 0..cases {
        let report = case(seed, number).report;
        let before = met.len();
        met.extend(classes(&report));
        if met.len() > before {
            reports.push(report);
        }
        if met.len() == CLASSES {
            return Ok(reports);
        }
    }
    Err(format!("only {} of {CLASSES} ways to answer are met", met.len()))
}

/// Document 01's packed record with its code, the first generated FIT files that are answered in a new way or for a new reason, and the head
/// of one that is too long.
pub fn fit_stream(seed: u64, cases: u64) -> Vec<u8> {
    let mut out = Vec::new();
    frame(&mut out, &fitting_file().bytes());
    let mut met = BTreeSet::new();
    for number in 0..cases {
        let case = fit_cases::case(seed, number);
        let before = met.len();
        met.extend(fit_classes::ways(&case));
        if met.len() > before {
            frame(&mut out, &case.file);
        }
    }
    put_words(&mut out, &[fit_file::LONGEST as u32 + 1]);
    out.extend([0; 3]);
    out
}

/// How a report is answered: the caller's place or refusal, the walk's stop or refusal, and the lines that only an outline has.
fn classes(report: &[u8]) -> Vec<String> {
    let (caller, listing) = (caller(report), listing(report));
    let first_line = caller.lines().next().unwrap_or_default();
    let last_line = listing.lines().last().unwrap_or_default();
    let words = |line: &str, count| line.split(' ').take(count).collect::<Vec<_>>().join(" ");
    let caller = if first_line.starts_with("refused") { 2 } else { 3 };
    let walk = if last_line.starts_with("refused") { 2 } else { 1 };
    let mut classes = vec![
        format!("caller: {}", words(first_line, caller)),
        format!("walk: {}", words(last_line, walk)),
    ];
    classes.extend(outline(report).lines().filter(|line| line.starts_with(' ')).map(region_class));
    classes
}

/// A refusal, or a region's mark and whether it is an outermost one.
fn region_class(line: &str) -> String {
    let (indent, rest) = line.split_at(line.find(['*', '-', 'r']).unwrap_or(0));
    match rest.split_once(' ') {
        Some(("refused", number)) => format!("regions: refused {number}"),
        _ => format!("regions: {}, outermost {}", &rest[..1], indent.len() == 2),
    }
}
