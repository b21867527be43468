//! The texts that the batch programs print, taken apart and compared.

use std::iter;

/// The answers of a batch program: each is followed by an empty line.
pub fn split(text: &str) -> Vec<&str> {
    let mut answers: Vec<&str> = text.split("\n\n").collect();
    // A complete text ends in an empty line; anything behind it is an answer cut short.
    if answers.last() == Some(&"") {
        answers.pop();
    }
    answers
}

pub struct Difference<'a> {
    pub number: usize,
    expected: Option<&'a str>,
    answered: Option<&'a str>,
}

pub fn differences<'a>(expected: &'a str, answered: &'a str) -> Vec<Difference<'a>> {
    let expected = split(expected);
    let answered = split(answered);
    (0..expected.len().max(answered.len()))
        .map(|number| Difference {
            number,
            expected: expected.get(number).copied(),
            answered: answered.get(number).copied(),
        })
        .filter(|difference| difference.expected != difference.answered)
        .collect()
}

impl Difference<'_> {
    /// Both answers beside each other, with a mark at the lines that differ.
    pub fn show(&self) -> String {
        let mut text = row(' ', "expected", "answered");
        let expected = self.expected.unwrap_or("(no such file)").lines().map(Some);
        let answered = self.answered.unwrap_or("(no answer)").lines().map(Some);
        let longest = expected.clone().count().max(answered.clone().count());
        let expected = expected.chain(iter::repeat(None));
        let answered = answered.chain(iter::repeat(None));
        for (left, right) in expected.zip(answered).take(longest) {
            let mark = if left == right { ' ' } else { '*' };
            text += &row(mark, left.unwrap_or(""), right.unwrap_or(""));
        }
        text
    }
}

fn row(mark: char, left: &str, right: &str) -> String {
    format!("  {mark} {left:<50} {right}\n")
}
