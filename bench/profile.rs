//! `profile NM BASE < LOG`: the functions of a program by the instructions executed in them, and in the C library on their behalf, most of
//! it copying. NM is what `nm` prints of the program, BASE is where it was loaded, LOG is the emulator's log of every instruction.

use std::collections::HashMap;
use std::io::{self, BufRead};
use std::{env, fs};

const SHOWN: usize = 12;

/// The code symbols of a program in the order of their addresses, from a file that `nm` wrote.
fn symbols(text: &str) -> Vec<(u64, &str)> {
    let mut symbols: Vec<(u64, &str)> = text
        .lines()
        .filter_map(|line| {
            let (address, rest) = line.split_once(' ')?;
            let name = rest.strip_prefix("t ").or(rest.strip_prefix("T "))?;
            Some((u64::from_str_radix(address, 16).ok()?, name))
        })
        .collect();
    symbols.sort();
    symbols
}

/// The symbol that an offset into the program belongs to. What follows the last one, `_fini`, are jumps into the C library.
fn owner<'a>(symbols: &[(u64, &'a str)], offset: u64) -> Option<&'a str> {
    let after = symbols.partition_point(|(start, _)| *start <= offset);
    (0 < after && after < symbols.len()).then(|| symbols[after - 1].1)
}

/// The guest's pc of a line of the log: `Trace 0: HOST [FLAGS/PC/..]`.
fn pc(line: &str) -> Option<u64> {
    u64::from_str_radix(line.split('/').nth(1)?, 16).ok()
}

fn main() -> io::Result<()> {
    let arguments: Vec<String> = env::args().collect();
    let [_, nm, base] = arguments.as_slice() else { panic!("usage: profile NM BASE < LOG") };
    let text = fs::read_to_string(nm)?;
    let symbols = symbols(&text);
    let base = u64::from_str_radix(base.trim_start_matches("0x"), 16).expect("BASE is a hexadecimal number");
    // For each function its own instructions, and the C library's on its behalf.
    let mut spent: HashMap<&str, [u64; 2]> = HashMap::new();
    let mut caller = "_start";
    for line in io::stdin().lock().lines() {
        let Some(pc) = pc(&line?) else { continue };
        let here = pc.checked_sub(base).and_then(|offset| owner(&symbols, offset));
        caller = here.unwrap_or(caller);
        spent.entry(caller).or_default()[usize::from(here.is_none())] += 1;
    }
    // Loading the program and leaving it.
    spent.retain(|name, _| !name.starts_with('_'));
    let total: u64 = spent.values().flatten().sum();
    let mut rows: Vec<_> = spent.into_iter().collect();
    rows.sort_by_key(|(_, [own, library])| u64::MAX - own - library);
    println!("{:>11} {:>11} {:>6}", "own", "C library", "share");
    for (name, [own, library]) in rows.into_iter().take(SHOWN) {
        println!("{own:>11} {library:>11} {:>5.1}% {name}", 100.0 * (own + library) as f64 / total as f64);
    }
    println!("{total:>11} instructions in all");
    Ok(())
}
