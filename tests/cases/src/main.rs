//! Reports to compare unwinders with: made, counted, taken apart and compared. `tests/run` calls this.

mod aims;
mod answers;
mod ask_find;
mod ask_packed;
mod ask_size;
mod assembly;
mod case;
mod chain;
mod damage;
mod draft;
mod edges;
mod examples;
mod families;
mod fit_aims;
mod fit_cases;
mod fit_classes;
mod fit_code;
mod fit_examples;
mod fit_file;
mod fit_functions;
mod fit_instructions;
mod fit_samples;
mod frame_chain;
mod framing;
mod full;
mod functions;
mod guarded;
mod histogram;
mod known;
mod miss_amounts;
mod miss_ends;
mod miss_lists;
mod miss_moves;
mod misses;
mod module;
mod mutants;
mod options;
mod outlines;
mod packed;
mod processor;
mod records;
mod region_examples;
mod requests;
mod rng;
mod samples;
mod scene;
mod stands;
mod steps;
mod stored;
mod streams;
mod tables;
mod thread;
mod truth;
mod unfit;
mod victims;

use std::fs;
use std::io::{self, BufWriter, Write};
use std::path::Path;
use std::process::ExitCode;

use peer::report::Report;
use peer::text;

use crate::examples::Vectors;
use crate::histogram::{least, Histogram};
use crate::known::{confirm, Answers};
use crate::options::Options;

const USAGE: &str = "\
usage: cases generate --seed S --cases N        reports, each preceded by its length
       cases one --seed S --number K            one report of those
       cases histogram --seed S --cases N       what they meet, and whether known answers are given
       cases requests --seed S --cases N        requests to the operations, each preceded by its length
       cases request --seed S --cases N --number K
                                                one of those, as text
       cases requested --seed S --cases N       what they meet, and whether known answers are given
       cases fits --seed S --cases N            FIT files, each preceded by its length
       cases fit --seed S --number K            one FIT file of those
       cases fitted --seed S --cases N          what they meet, and whether known answers are given
       cases examples DIR                       reports with their answers, also odd inputs
       cases fit_examples DIR                   FIT files with their answers, also odd inputs
       cases truth JSONL WALKS CALLERS          real reports: the answers against the truth
       cases stored REAL CRATES --seed S        the inputs stored with the programs
       cases pick FILE --number K               one report or FIT file of a file of them
       cases frame FILE                         a report or FIT file preceded by its length
       cases compare WHAT EXPECTED ANSWERED [AGAIN]
                                                the answers that differ; AGAIN and the file's number
                                                is the command to see one again
       cases count EXPECTED ANSWERED            how many answers differ
       cases mutants FILE                       the names of the planted mistakes
       cases plant FILE NAME DIR                plants one in the sources in DIR
       cases samples DIR                        the reports of samples/ with the peer's answers, which
                                                must be those known beforehand";

/// Differences shown in full.
const SHOWN: usize = 3;

fn main() -> ExitCode {
    match run() {
        Ok(true) => ExitCode::SUCCESS,
        Ok(false) => ExitCode::FAILURE,
        Err(message) => {
            eprintln!("cases: {message}");
            ExitCode::from(2)
        }
    }
}

/// Whether all is well with what was asked.
fn run() -> Result<bool, String> {
    let options = Options::read(std::env::args().skip(1))?;
    let words: Vec<&str> = options.words.iter().map(String::as_str).collect();
    match words.as_slice() {
        ["generate"] => generate(&options),
        ["one"] => print_bytes(&families::case(options.seed, options.number).report),
        ["histogram"] => count_classes(&options),
        ["requests"] => write_requests(&options),
        ["fits"] => write_fits(&options),
        ["fit"] => print_bytes(&fit_cases::case(options.seed, options.number).file),
        ["fitted"] => count_fits(&options),
        ["request"] => show_request(&options),
        ["requested"] => count_requests(&options),
        ["examples", folder] => write_examples(Path::new(folder)),
        ["fit_examples", folder] => write_fit_examples(Path::new(folder)),
        ["truth", truth, walks, callers] => check_truth(truth, walks, callers),
        ["stored", real, crates] => write_stored(&options, real, Path::new(crates)),
        ["pick", file] => pick(file, options.number),
        ["frame", file] => print_framed(&bytes_of(file)?),
        ["compare", what, expected, answered] => compare(what, expected, answered, None),
        ["compare", what, expected, answered, again] => {
            compare(what, expected, answered, Some(again))
        }
        ["count", expected, answered] => count_differences(expected, answered),
        ["mutants", file] => list_mutants(file),
        ["plant", file, name, folder] => plant(file, name, Path::new(folder)),
        ["samples", folder] => write_samples(Path::new(folder)),
        _ => Err(USAGE.to_string()),
    }
}

fn text_of(path: impl AsRef<Path>) -> Result<String, String> {
    let path = path.as_ref();
    fs::read_to_string(path).map_err(|error| format!("{}: {error}", path.display()))
}

fn bytes_of(file: &str) -> Result<Vec<u8>, String> {
    fs::read(file).map_err(|error| format!("{file}: {error}"))
}

fn write_file(path: &Path, bytes: &[u8]) -> Result<(), String> {
    fs::write(path, bytes).map_err(|error| format!("{}: {error}", path.display()))
}

fn print_bytes(bytes: &[u8]) -> Result<bool, String> {
    io::stdout().write_all(bytes).map_err(|error| error.to_string())?;
    Ok(true)
}

fn print_framed(report: &[u8]) -> Result<bool, String> {
    let mut framed = Vec::new();
    framing::frame(&mut framed, report);
    print_bytes(&framed)
}

fn generate(options: &Options) -> Result<bool, String> {
    let mut out = BufWriter::new(io::stdout().lock());
    for number in 0..options.cases {
        let mut framed = Vec::new();
        framing::frame(&mut framed, &families::case(options.seed, number).report);
        out.write_all(&framed).map_err(|error| error.to_string())?;
    }
    out.flush().map_err(|error| error.to_string())?;
    Ok(true)
}

fn count_classes(options: &Options) -> Result<bool, String> {
    let mut histogram = Histogram::new();
    let mut confirmed = 0;
    let mut wrong = Vec::new();
    for number in 0..options.cases {
        let case = families::case(options.seed, number);
        let report = Report::read(&case.report).ok();
        let answers = report.as_ref().map(Answers::to);
        histogram.take(&case, report.as_ref(), answers.as_ref());
        match confirm(&case, answers.as_ref()) {
            Some(true) => confirmed += 1,
            Some(false) => wrong.push(format!("report {number}: known is {:?}", case.known)),
            None => {}
        }
    }
    Ok(show_classes(options, &histogram, confirmed, &wrong))
}

/// Whether every class was met often enough and no known answer was missed.
fn show_classes(options: &Options, histogram: &Histogram, known: u64, wrong: &[String]) -> bool {
    print!("{histogram}");
    println!("answers known beforehand: {known} given, {} not", wrong.len());
    wrong.iter().take(SHOWN).for_each(|line| println!("{line}"));
    let rare = histogram.rare(least(options.cases));
    rare.iter().for_each(|class| println!("met too seldom: {class}"));
    wrong.is_empty() && rare.is_empty()
}

fn write_requests(options: &Options) -> Result<bool, String> {
    let mut framed = Vec::new();
    for request in requests::all(options.seed, options.cases) {
        framing::frame(&mut framed, &request.bytes);
    }
    print_bytes(&framed)
}

fn show_request(options: &Options) -> Result<bool, String> {
    let request = requests::all(options.seed, options.cases).nth(options.number as usize);
    let request = request.ok_or_else(|| format!("no request {}", options.number))?;
    println!("{}, words and what is left of the last:", request.kind);
    request.bytes.chunks(4).for_each(|word| {
        let bytes: String = word.iter().rev().map(|byte| format!("{byte:02x}")).collect();
        print!(" {bytes}");
    });
    println!("\nthe peer answers {}", peer::operations::answer(&request.bytes).unwrap_or_default());
    Ok(true)
}

fn count_requests(options: &Options) -> Result<bool, String> {
    let (histogram, known, wrong) = requests::count(options.seed, options.cases);
    Ok(show_classes(options, &histogram, known, &wrong))
}

fn write_fits(options: &Options) -> Result<bool, String> {
    let mut framed = Vec::new();
    for number in 0..options.cases {
        framing::frame(&mut framed, &fit_cases::case(options.seed, number).file);
    }
    print_bytes(&framed)
}

fn count_fits(options: &Options) -> Result<bool, String> {
    let mut histogram = fit_classes::histogram();
    let mut confirmed = 0;
    let mut wrong = Vec::new();
    for number in 0..options.cases {
        let case = fit_cases::case(options.seed, number);
        match fit_classes::take(&mut histogram, &case) {
            Some(true) => confirmed += 1,
            Some(false) => wrong.push(format!("FIT file {number}: known is {:?}", case.known)),
            None => {}
        }
    }
    Ok(show_classes(options, &histogram, confirmed, &wrong))
}

fn write_vectors(folder: &Path, name: &str, vectors: &Vectors) -> Result<(), String> {
    write_file(&folder.join(format!("{name}.bin")), &vectors.reports)?;
    write_file(&folder.join(format!("{name}.walk")), vectors.walks.as_bytes())?;
    write_file(&folder.join(format!("{name}.outline")), vectors.outlines.as_bytes())?;
    write_file(&folder.join(format!("{name}.caller")), vectors.callers.as_bytes())
}

fn write_examples(folder: &Path) -> Result<bool, String> {
    write_vectors(folder, "examples", &examples::vectors())?;
    write_file(&folder.join("longest.report"), &region_examples::longest_report())?;
    for (number, stream) in streams::streams().iter().enumerate() {
        write_vectors(folder, &format!("stream-{number:02}"), stream)?;
    }
    Ok(true)
}

fn write_fit_examples(folder: &Path) -> Result<bool, String> {
    let write = |name: &str, files: &[u8], answers: &str| {
        write_file(&folder.join(format!("{name}.bin")), files)?;
        write_file(&folder.join(format!("{name}.fits")), answers.as_bytes())
    };
    let (files, answers) = fit_examples::vectors();
    write("examples", &files, &answers)?;
    write_file(&folder.join("longest.fit"), &fit_examples::longest(0).bytes())?;
    write_file(&folder.join("too-long.fit"), &fit_examples::longest(1).bytes())?;
    for (number, (files, answers)) in streams::fit_streams().iter().enumerate() {
        write(&format!("stream-{number:02}"), files, answers)?;
    }
    Ok(true)
}

fn write_stored(options: &Options, real: &str, crates: &Path) -> Result<bool, String> {
    let stream = stored::stream(options.seed, options.cases, &bytes_of(real)?)?;
    write_file(&crates.join("walk/stdin"), &examples::listing_draft().bytes())?;
    write_file(&crates.join("caller/stdin"), &stored::offset_four().bytes())?;
    write_file(&crates.join("outline/stdin"), &samples::nested_regions().report)?;
    for program in ["walk_many", "caller_many", "outline_many"] {
        write_file(&crates.join(program).join("stdin"), &stream)?;
    }
    write_file(&crates.join("fits/stdin"), &fit_examples::fitting_file().bytes())?;
    let fits = stored::fit_stream(options.seed, options.cases);
    write_file(&crates.join("fits_many/stdin"), &fits)?;
    Ok(true)
}

fn check_truth(truth: &str, walks: &str, callers: &str) -> Result<bool, String> {
    let (count, wrong) = truth::check(&text_of(truth)?, &text_of(walks)?, &text_of(callers)?);
    wrong.iter().for_each(|line| println!("{line}"));
    println!("{count} real reports, {} answers wrong", wrong.len());
    Ok(wrong.is_empty())
}

fn pick(file: &str, number: u64) -> Result<bool, String> {
    let bytes = bytes_of(file)?;
    let report = framing::framed(&bytes).nth(number as usize);
    print_bytes(report.ok_or_else(|| format!("{file} has no report {number}"))?)
}

fn compare(
    what: &str,
    expected: &str,
    answered: &str,
    again: Option<&str>,
) -> Result<bool, String> {
    let (expected, answered) = (text_of(expected)?, text_of(answered)?);
    let differences = answers::differences(&expected, &answered);
    for difference in differences.iter().take(SHOWN) {
        println!("{what}, number {} differs:", difference.number);
        print!("{}", difference.show());
        if let Some(again) = again {
            println!("    again: {again} {}", difference.number);
        }
    }
    let count = answers::split(&expected).len();
    println!("{what}: {count} answers, {} differ", differences.len());
    // Byte for byte, whatever stands between the answers included.
    Ok(expected == answered)
}

fn count_differences(expected: &str, answered: &str) -> Result<bool, String> {
    let (expected, answered) = (text_of(expected)?, text_of(answered)?);
    println!("{}", answers::differences(&expected, &answered).len());
    Ok(true)
}

fn list_mutants(file: &str) -> Result<bool, String> {
    for mutant in mutants::read(&text_of(file)?)? {
        println!("{} {}", mutant.name, mutant.what);
    }
    Ok(true)
}

fn plant(file: &str, name: &str, folder: &Path) -> Result<bool, String> {
    let text = text_of(file)?;
    let mutants = mutants::read(&text)?;
    let mutant = mutants.iter().find(|mutant| mutant.name == name);
    let mutant = mutant.ok_or_else(|| format!("no mutant {name}"))?;
    mutant.plant(
        |source| text_of(folder.join(source)),
        |source, new| write_file(&folder.join(source), new.as_bytes()),
    )?;
    println!("{}", mutant.what);
    Ok(true)
}

fn write_samples(folder: &Path) -> Result<bool, String> {
    for sample in samples::samples() {
        let file = |kind: &str| folder.join(format!("{}.{kind}", sample.name));
        write_file(&file("report"), &sample.report)?;
        let listing = text::listing(&sample.report);
        write_known(&file("listing"), &listing, &sample.listing)?;
        if let Some(known) = &sample.caller {
            write_known(&file("caller"), &text::caller(&sample.report), known)?;
        }
        if let Some(known) = &sample.outline {
            write_known(&file("outline"), &text::outline(&sample.report), known)?;
        }
    }
    for sample in fit_samples::samples() {
        let file = |kind: &str| folder.join(format!("{}.{kind}", sample.name));
        let bytes = sample.file.bytes();
        write_file(&file("fit"), &bytes)?;
        write_known(&file("fits"), &text::fits(&bytes), sample.answer)?;
    }
    Ok(true)
}

/// An answer of the peer, if it is the one that is known.
fn write_known(path: &Path, answer: &str, known: &str) -> Result<(), String> {
    if answer != known {
        return Err(format!("{}: known is\n{known}and the peer says\n{answer}", path.display()));
    }
    write_file(path, answer.as_bytes())
}
