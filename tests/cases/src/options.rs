//! The command line.

#[derive(Debug)]
pub struct Options {
    pub seed: u64,
    pub cases: u64,
    pub number: u64,
    /// Everything else, in order.
    pub words: Vec<String>,
}

impl Options {
    pub fn read(mut arguments: impl Iterator<Item = String>) -> Result<Options, String> {
        let mut options = Options { seed: 1, cases: 20_000, number: 0, words: Vec::new() };
        while let Some(argument) = arguments.next() {
            let number = match argument.as_str() {
                "--seed" => &mut options.seed,
                "--cases" => &mut options.cases,
                "--number" => &mut options.number,
                _ => {
                    options.words.push(argument);
                    continue;
                }
            };
            let value = arguments.next().ok_or_else(|| format!("{argument} needs a number"))?;
            *number = value.parse().map_err(|_| format!("{argument} {value} is not a number"))?;
        }
        Ok(options)
    }
}
