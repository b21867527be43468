//! The programs of the comparison, chosen by the first argument.

use std::io::{self, BufReader, BufWriter, Read, Write};
use std::process::ExitCode;

use peer::batch::answer_all;
use peer::text::{caller, fits, listing, outline};
use peer::{operations, report};

const USAGE: &str = "\
usage: peer walk|caller|outline < REPORT
       peer walk_many|caller_many|outline_many < REPORTS
       peer fits < FILE
       peer fits_many < FILES
       peer operations < REQUESTS";

fn main() -> ExitCode {
    let program = std::env::args().nth(1).unwrap_or_default();
    let result = match program.as_str() {
        "walk" => answer_one(report::LONGEST, listing),
        "caller" => answer_one(report::LONGEST, caller),
        "outline" => answer_one(report::LONGEST, outline),
        "fits" => answer_one(peer::fits::LONGEST, fits),
        "walk_many" => answer_many(report::LONGEST, listing),
        "caller_many" => answer_many(report::LONGEST, caller),
        "outline_many" => answer_many(report::LONGEST, outline),
        "fits_many" => answer_many(peer::fits::LONGEST, fits),
        "operations" => answer_operations(),
        _ => Err(io::Error::new(io::ErrorKind::InvalidInput, USAGE)),
    };
    match result {
        Ok(()) => ExitCode::SUCCESS,
        Err(error) => {
            eprintln!("peer: {error}");
            ExitCode::FAILURE
        }
    }
}

/// One byte more than the longest file is enough to see that a file is too long.
fn answer_one(longest: usize, answer: fn(&[u8]) -> String) -> io::Result<()> {
    let mut file = Vec::new();
    io::stdin().lock().take(longest as u64 + 1).read_to_end(&mut file)?;
    io::stdout().write_all(answer(&file).as_bytes())
}

fn answer_many(longest: usize, answer: fn(&[u8]) -> String) -> io::Result<()> {
    let input = BufReader::new(io::stdin().lock());
    answer_all(input, BufWriter::new(io::stdout().lock()), longest, answer)
}

fn answer_operations() -> io::Result<()> {
    let mut requests = Vec::new();
    io::stdin().lock().read_to_end(&mut requests)?;
    operations::answer_all(&requests, BufWriter::new(io::stdout().lock()))
}
