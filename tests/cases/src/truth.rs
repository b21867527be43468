//! Reports of real programs: what the processor did against what a program answers.

use std::collections::BTreeMap;

use crate::answers::split;

/// What a line of the truth says of its report.
struct Truth {
    function: String,
    /// pc and SP of each frame.
    frames: Vec<u64>,
    /// Name of a register in the caller's answer, and its value.
    caller: Vec<(String, u64)>,
}

impl Truth {
    fn read(line: &str) -> Option<Truth> {
        let (_, caller) = line.split_once("\"caller\"")?;
        let mut registers = vec![
            ("sp".to_string(), numbers(caller, "sp")?[0]),
            ("pc".to_string(), numbers(caller, "pc")?[0]),
        ];
        let r = numbers(caller, "r4-r11")?;
        let d = numbers(caller, "d8-d15")?;
        registers.extend((4..).zip(r).map(|(number, value)| (format!("r{number}"), value)));
        registers.extend((8..).zip(d).map(|(number, value)| (format!("d{number}"), value)));
        let (_, name) = line.split_once("\"function\": \"")?;
        Some(Truth {
            function: name.split('"').next()?.to_string(),
            frames: numbers(line, "frames")?,
            caller: registers,
        })
    }

    fn is_walk(&self, answer: &str) -> bool {
        let lines: Vec<&str> = answer.lines().collect();
        let [_, frames @ .., last] = lines.as_slice() else {
            return false;
        };
        let found: Vec<u64> = frames.iter().flat_map(|line| hex_fields(line, 1..3)).collect();
        found == self.frames && last.starts_with(&format!("end frames {} ", self.frames.len() / 2))
    }

    fn is_caller(&self, answer: &str) -> bool {
        let found: BTreeMap<&str, u64> = answer
            .lines()
            .skip(1)
            .filter_map(|line| line.split_once(' '))
            .filter_map(|(name, value)| Some((name, u64::from_str_radix(value, 16).ok()?)))
            .collect();
        self.caller.iter().all(|(name, value)| found.get(name.as_str()) == Some(value))
    }
}

/// The decimal numbers of the value that follows `key` in a line of JSON, however they are bracketed.
fn numbers(line: &str, key: &str) -> Option<Vec<u64>> {
    let (_, value) = line.split_once(&format!("\"{key}\": "))?;
    let end = value.find(['"', '}']).unwrap_or(value.len());
    let digits = value[..end].split(|c: char| !c.is_ascii_digit());
    let numbers: Vec<u64> = digits.filter_map(|digits| digits.parse().ok()).collect();
    (!numbers.is_empty()).then_some(numbers)
}

fn hex_fields(line: &str, fields: std::ops::Range<usize>) -> Vec<u64> {
    let words = line.split(' ').skip(fields.start).take(fields.len());
    words.filter_map(|word| u64::from_str_radix(word, 16).ok()).collect()
}

/// Compares the answers of both batch programs with the truth; gives the number of reports and what is
/// wrong with which.
pub fn check(truth: &str, walks: &str, callers: &str) -> (usize, Vec<String>) {
    let (walks, callers) = (split(walks), split(callers));
    let mut wrong = Vec::new();
    for (number, line) in truth.lines().enumerate() {
        let Some(truth) = Truth::read(line) else {
            wrong.push(format!("report {number}: the truth cannot be read"));
            continue;
        };
        if !walks.get(number).is_some_and(|answer| truth.is_walk(answer)) {
            wrong.push(format!("report {number} ({}): wrong chain", truth.function));
        }
        if !callers.get(number).is_some_and(|answer| truth.is_caller(answer)) {
            wrong.push(format!("report {number} ({}): wrong caller", truth.function));
        }
    }
    let count = truth.lines().count();
    if walks.len() != count || callers.len() != count {
        wrong.push(format!("{} walks and {} callers of {count}", walks.len(), callers.len()));
    }
    (count, wrong)
}
