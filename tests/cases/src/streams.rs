//! Inputs of the batch programs that are not simply one whole file after the other.

use crate::draft::{put_words, LONGEST};
use crate::examples::{listing_caller, listing_draft, Vectors, LISTING};
use crate::fit_examples::fitting_file;
use crate::fit_file;
use crate::framing::frame;

const UNFIT: &str = "refused 14\n\n";

/// Each input with the whole output of the programs that read reports.
pub fn streams() -> Vec<Vectors> {
    let inputs = inputs(&listing_draft().bytes(), LONGEST);
    inputs.into_iter().map(|(reports, answers)| vectors(reports, &answers)).collect()
}

/// Each input with the output of the program that reads FIT files.
pub fn fit_streams() -> Vec<(Vec<u8>, String)> {
    let inputs = inputs(&fitting_file().bytes(), fit_file::LONGEST);
    inputs.into_iter().map(|(files, answers)| (files, text(&answers, "fits\n"))).collect()
}

/// The answer to one item of an input.
enum Answer {
    Good,
    Unfit,
}

use Answer::{Good, Unfit};

/// Inputs made of one good file and of what can stand in its place.
fn inputs(good: &[u8], longest: usize) -> Vec<(Vec<u8>, Vec<Answer>)> {
    let mut whole = Vec::new();
    frame(&mut whole, good);
    let mut too_long = Vec::new();
    frame(&mut too_long, &vec![0; longest + 1]);
    let mut as_long = Vec::new();
    frame(&mut as_long, &vec![0; longest]);
    // A whole file whose length promises three bytes more.
    let mut promised = Vec::new();
    put_words(&mut promised, &[good.len() as u32 + 3]);
    promised.extend(good);
    let mut endless = Vec::new();
    put_words(&mut endless, &[u32::MAX]);
    endless.extend([1, 2, 3]);
    let nothing = [0; 4];

    let input = |parts: &[&[u8]]| parts.concat();
    vec![
        (input(&[]), vec![]),
        (input(&[&whole, &whole]), vec![Good, Good]),
        // A length cut short.
        (input(&[&whole, &[0]]), vec![Good, Unfit]),
        (input(&[&[0x60, 1]]), vec![Unfit]),
        (input(&[&[0x60, 1, 0]]), vec![Unfit]),
        // A file cut short, also before its first byte.
        (input(&[&whole, &whole[..4]]), vec![Good, Unfit]),
        (input(&[&whole[..whole.len() - 1]]), vec![Unfit]),
        (input(&[&promised]), vec![Unfit]),
        // A file of no bytes.
        (input(&[&nothing, &whole]), vec![Unfit, Good]),
        // Too long: its bytes are passed over as far as there are any.
        (input(&[&too_long, &whole]), vec![Unfit, Good]),
        (input(&[&whole, &endless]), vec![Good, Unfit]),
        (input(&[&too_long[..4]]), vec![Unfit]),
        // As long as may be.
        (input(&[&as_long, &whole]), vec![Unfit, Good]),
    ]
}

fn text(answers: &[Answer], good: &str) -> String {
    let answer = |answer: &Answer| match answer {
        Good => format!("{good}\n"),
        Unfit => UNFIT.to_string(),
    };
    answers.iter().map(answer).collect()
}

fn vectors(reports: Vec<u8>, answers: &[Answer]) -> Vectors {
    let listings = text(answers, LISTING);
    Vectors {
        reports,
        outlines: listings.clone(),
        walks: listings,
        callers: text(answers, &listing_caller()),
    }
}
