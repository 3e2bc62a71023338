//! What the small program should print: standard input in, answers out.
//!
//! lines_oracle < input                      the expected answers
//! lines_oracle --input SEED LINES > input   an input to try

use hailgully_tests::cases::{program_input, Random};
use hailgully_tests::lines::answers;
use std::io::{self, Read, Write};
use std::process::ExitCode;

fn main() -> ExitCode {
    let words: Vec<String> = std::env::args().skip(1).collect();
    let output = match &words[..] {
        [] => {
            let mut input = Vec::new();
            if io::stdin().lock().read_to_end(&mut input).is_err() {
                return ExitCode::FAILURE;
            }
            answers(&input)
        }
        [word, seed, lines] if word == "--input" => {
            let (Ok(seed), Ok(lines)) = (seed.parse(), lines.parse()) else {
                return ExitCode::from(2);
            };
            program_input(&mut Random::new(seed), lines)
        }
        _ => return ExitCode::from(2),
    };
    match io::stdout().lock().write_all(&output) {
        Ok(()) => ExitCode::SUCCESS,
        Err(_) => ExitCode::FAILURE,
    }
}
