//! What `compare` is asked for.

use crate::faults;

pub const HELP: &str = "compare: holds the library against the oracle

  --seed N      the seed of the random cases (1)
  --cases N     the least number of cases in all (14,000,000); fixed families are always done whole, and at least half as many random cases are added
  --seeds N     for a night: this seed and the N - 1 after it, a line each; the fixed families with the first, so many random cases with each other
  --threads N   (2)
  --no-huge     lend no memory of 2^31 bytes and more, and leave out the faults that only it shows: for an emulator, which keeps tables of every page
  --slips       turn on each deliberate slip of the oracle, and each fault of the library, in turn; fails unless every one is found
  HG_SLIP=k     in the environment: turn on the k-th, which must make the run fail

Status 1 on a difference, or where something that must be met was not met; 2 where it was asked for something that it does not know.";

pub struct Options {
    pub seed: u64,
    pub seeds: u64,
    pub cases: u64,
    pub threads: usize,
    pub slips: bool,
    pub huge: bool,
    pub help: bool,
    /// The slip or fault that is on, or 0.
    pub slip: u32,
}

impl Options {
    pub fn given() -> Result<Options, String> {
        let mut options = Options { seed: 1, seeds: 1, cases: 14_000_000, threads: 2, slips: false, huge: true, help: false, slip: 0 };
        let mut words = std::env::args().skip(1);
        while let Some(word) = words.next() {
            let mut number = || number(&word, &words.next().ok_or(format!("{word} lacks a number"))?);
            match word.as_str() {
                "--seed" => options.seed = number()?,
                "--seeds" => options.seeds = number()?,
                "--cases" => options.cases = number()?,
                "--threads" => options.threads = number()? as usize,
                "--slips" => options.slips = true,
                "--no-huge" => options.huge = false,
                "--help" => options.help = true,
                _ => return Err(format!("unknown word {word}")),
            }
        }
        if let Some(given) = std::env::var_os("HG_SLIP") {
            let given = given.to_string_lossy();
            options.slip = number("HG_SLIP", &given)? as u32;
            if options.slip > faults::count() || options.slips {
                return Err(format!("HG_SLIP={given}: slips are 1 to {}, and go with no --slips", faults::count()));
            }
        }
        Ok(options)
    }
}

/// A number from 1 to 2^32 less one.
fn number(word: &str, given: &str) -> Result<u64, String> {
    match given.parse::<u32>() {
        Ok(number) if number > 0 => Ok(u64::from(number)),
        _ => Err(format!("{word} {given}: not a number from 1 to {}", u32::MAX)),
    }
}
