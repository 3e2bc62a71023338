//! Times each public call of the library beside the plain Rust function that does the same work, in one run, on the same inputs.
//!
//! bench [--rounds N] [--only PART] [--strict]   a table of nanoseconds a call, ratios and bars. Each figure is the least of N rounds
//!                                               (default 150). PART keeps the rows with it in their name. With --strict the exit code
//!                                               is 1 if a row is over its bar.
//! bench --names                                 the rows' names, a line each, with what they are held against and the calls of a pass.
//! bench --instructions NAME ours|other PASSES   one side of one row, so many passes, untimed: instructions.sh counts them.

mod arcseconds;
mod book;
mod book_inputs;
mod inputs;
mod places;
mod plain;
mod plane;
mod reference;
mod space;
mod table;

use inputs::Dice;
use table::Row;

fn rows() -> Vec<Row> {
    let mut dice = Dice(1);
    let mut rows = plane::rows(&mut dice);
    rows.extend(space::rows(&mut dice));
    rows.extend(reference::rows(&mut dice));
    rows.extend(arcseconds::rows(&mut dice));
    rows.extend(book::rows(&mut dice));
    rows.extend(places::rows(&mut dice));
    rows
}

/// The words after a flag.
fn after<'a>(words: &'a [String], flag: &str) -> Option<&'a [String]> {
    words.iter().position(|w| w == flag).map(|i| &words[i + 1..])
}

fn instructions(rows: &mut [Row], words: &[String]) {
    let [name, side, passes] = words else { panic!("--instructions NAME ours|other PASSES") };
    let row = rows.iter_mut().find(|row| row.name == *name).expect("a row's name");
    assert!(side == "ours" || side == "other", "ours or other");
    row.run(side == "ours", passes.parse().expect("a number of passes"));
}

fn main() {
    let words: Vec<String> = std::env::args().skip(1).collect();
    let mut rows = rows();
    if let Some(rest) = after(&words, "--instructions") {
        return instructions(&mut rows, rest);
    }
    if let Some([part, ..]) = after(&words, "--only") {
        rows.retain(|row| row.name.contains(part.as_str()));
    }
    if words.iter().any(|w| w == "--names") {
        return rows.iter().for_each(|row| println!("{}\t{}\t{}", row.name, row.against, row.calls));
    }
    let rounds = match after(&words, "--rounds") {
        Some([n, ..]) => n.parse().expect("a number of rounds"),
        _ => 150,
    };
    let within = table::show(&mut rows, rounds);
    if !within && words.iter().any(|w| w == "--strict") {
        std::process::exit(1);
    }
}
