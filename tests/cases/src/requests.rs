//! Requests to the operations on tables, and what is known of their answers.

use peer::bits::word_at;
use peer::codes::Sequence;
use peer::operations::{answer, CALLER, WALK};

use crate::draft::put_words;
use crate::families;
use crate::histogram::{row, Group, Histogram};
use crate::rng::Rng;
use crate::{ask_find, ask_packed, ask_size};

pub struct Request {
    /// What it aims at, for the histogram.
    pub kind: &'static str,
    pub bytes: Vec<u8>,
    /// The answer, if whoever made the request knows it.
    pub known: Option<String>,
}

impl Request {
    pub fn new(
        kind: &'static str,
        operation: u32,
        numbers: &[u32],
        rest: &[u8],
        known: Option<String>,
    ) -> Request {
        let mut bytes = Vec::new();
        put_words(&mut bytes, &[operation]);
        put_words(&mut bytes, numbers);
        bytes.extend(rest);
        Request { kind, bytes, known }
    }
}

/// As many random requests as asked for, those that every run has, and a few reports.
pub fn all(seed: u64, count: u64) -> impl Iterator<Item = Request> {
    (0..count)
        .map(move |number| random(seed, number))
        .chain(ask_packed::examples())
        .chain(ask_packed::every_combination())
        .chain((0..count / 200).flat_map(move |number| texts(seed, number)))
}

fn random(seed: u64, number: u64) -> Request {
    // Other numbers than the reports of this seed have.
    let rng = &mut Rng::new(seed, !number);
    match number % 4 {
        0 => ask_find::request(rng),
        1 => ask_size::request(rng),
        2 => ask_packed::word_request(rng),
        _ => ask_packed::codes_request(rng),
    }
}

/// Both texts of a report, into a buffer that may be too short.
fn texts(seed: u64, number: u64) -> [Request; 2] {
    let rng = &mut Rng::new(seed, !number);
    let report = families::case(seed, number).report;
    let room = rng.pick(&[8192, 1024, 500, 60, 1, 0]);
    [WALK, CALLER].map(|text| Request::new("a report", text, &[room], &report, None))
}

const ANSWERED: &str = "operations, answered";
const FIND: &str = "find, what was asked";
const SIZE: &str = "size, what was asked";
const WORD: &str = "word, what was asked";
const CODES_ASKED: &str = "codes, what was asked";
const WRITTEN: &str = "codes written";
const TEXTS: &str = "texts";

const ANSWERS: [&str; 14] = [
    "find 0 0", "find 0 1", "find 1", "find 2", "find 3", "size 0", "size 1", "size 4", "size 5",
    "word 0", "word 4", "codes 0", "codes 4", "text",
];

const ROWS: [&str; 10] =
    ["00-7F", "80-BF", "D0-D7", "D8-DF", "E0-E7", "E8-EB", "EC-ED", "EF", "FB", "FC"];

/// What the requests meet, and those that the peer does not answer as is known.
pub fn count(seed: u64, cases: u64) -> (Histogram, u64, Vec<String>) {
    let mut histogram = Histogram::of(vec![
        Group::new(ANSWERED, ANSWERS),
        Group::new(FIND, ask_find::KINDS),
        Group::new(SIZE, ask_size::KINDS),
        Group::new(WORD, ask_packed::WORD_KINDS),
        Group::new(CODES_ASKED, ask_packed::CODES_KINDS),
        Group::new(WRITTEN, ROWS.into_iter().chain(["end FD", "end FE", "end FF", "no epilogue"])),
        Group::new(TEXTS, ["a report"]),
    ]);
    let mut known = 0;
    let mut wrong = Vec::new();
    for (number, request) in all(seed, cases).enumerate() {
        let answer = answer(&request.bytes).expect("every request is one");
        histogram.count(ANSWERED, class(&answer));
        histogram.count(group(&answer), request.kind);
        match &request.known {
            Some(right) if *right == answer => known += 1,
            Some(right) => wrong.push(format!("request {number}: known is {right}, not {answer}")),
            None => {}
        }
        if answer.starts_with("codes 0") {
            let word = word_at(&request.bytes, 4).unwrap_or_default();
            match ask_packed::read_again(word) {
                Some(lists) => take_written(&mut histogram, &lists),
                None => wrong.push(format!("request {number}: not read again: {answer}")),
            }
        }
    }
    (histogram, known, wrong)
}

fn class(answer: &str) -> &'static str {
    let found = ANSWERS.into_iter().find(|class| answer.starts_with(class));
    found.unwrap_or("text")
}

fn group(answer: &str) -> &'static str {
    match answer.split(' ').next() {
        Some("find") => FIND,
        Some("size") => SIZE,
        Some("word") => WORD,
        Some("codes") => CODES_ASKED,
        _ => TEXTS,
    }
}

fn take_written(histogram: &mut Histogram, lists: &[Sequence]) {
    for list in lists {
        for code in list.instructions.iter().filter_map(|instruction| instruction.code) {
            histogram.count(WRITTEN, row(code));
        }
        let end = match list.leave {
            2 => "end FD",
            4 => "end FE",
            _ => "end FF",
        };
        histogram.count(WRITTEN, end);
    }
    if lists.len() == 1 {
        histogram.count(WRITTEN, "no epilogue");
    }
}
