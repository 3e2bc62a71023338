//! A row of the table is two pieces of work timed in turn on the same inputs, and a bar on the ratio of their times.

use crate::inputs::MANY;
use std::time::Instant;

/// One pass makes the row's number of calls.
pub type Pass = Box<dyn FnMut()>;

pub const PLAIN: &str = "plain Rust";

pub struct Row {
    pub name: String,
    pub ours: Pass,
    /// The times of these are added up.
    pub others: Vec<Pass>,
    pub against: &'static str,
    /// The greatest ratio allowed, if there is one.
    pub bar: Option<f64>,
    /// How many calls a pass makes.
    pub calls: usize,
    /// The least times so far, in nanoseconds a call: ours, and each of the others'.
    least: (f64, Vec<f64>),
}

impl Row {
    pub fn new(name: impl Into<String>, ours: Pass, others: Vec<Pass>, against: &'static str, bar: Option<f64>) -> Row {
        let least = (f64::INFINITY, vec![f64::INFINITY; others.len()]);
        Row { name: name.into(), ours, others, against, bar, calls: MANY, least }
    }

    pub fn plain(name: impl Into<String>, ours: Pass, plain: Pass, bar: Option<f64>) -> Row {
        Row::new(name, ours, vec![plain], PLAIN, bar)
    }

    /// The same row with passes of so many calls: where a call takes microseconds, MANY would take too long.
    pub fn of(self, calls: usize) -> Row {
        Row { calls, ..self }
    }

    /// Some rounds more, of which the least times are kept. The sides take turns, so that both meet the same disturbances.
    fn time(&mut self, rounds: usize) {
        for _ in 0..rounds {
            self.least.0 = self.least.0.min(nanoseconds(&mut self.ours, self.calls));
            for (least, pass) in self.least.1.iter_mut().zip(&mut self.others) {
                *least = least.min(nanoseconds(pass, self.calls));
            }
        }
    }

    /// Prints the row; whether it is within its bar.
    fn show(&self) -> bool {
        let (ours, other) = (self.least.0, self.least.1.iter().sum::<f64>());
        let ratio = ours / other;
        let bar = self.bar.map_or("-".to_string(), |bar| format!("{bar:.2}"));
        println!("{:<34} {ours:>8.1} ns {other:>8.1} ns {ratio:>7.2} {bar:>6}  {}", self.name, self.against);
        self.bar.is_none_or(|bar| ratio <= bar)
    }

    /// Runs one side, untimed, so that its instructions can be counted from outside.
    pub fn run(&mut self, ours: bool, passes: usize) {
        for _ in 0..passes {
            if ours {
                (self.ours)();
            } else {
                self.others.iter_mut().for_each(|pass| pass());
            }
        }
    }
}

/// A round is short, so that some rounds fall between the disturbances of a busy machine.
fn nanoseconds(pass: &mut Pass, calls: usize) -> f64 {
    const PASSES: usize = 4;
    let from = Instant::now();
    for _ in 0..PASSES {
        pass();
    }
    from.elapsed().as_nanos() as f64 / (PASSES * calls) as f64
}

/// Times every row, prints the table and its verdict; whether every row is within its bar. The rows are gone through in laps, so that a machine
/// that is busy for a second does not spoil all the rounds of one row.
pub fn show(rows: &mut [Row], rounds: usize) -> bool {
    const LAPS: usize = 15;
    for _ in 0..LAPS {
        rows.iter_mut().for_each(|row| row.time(rounds.div_ceil(LAPS)));
    }
    println!("{:<34} {:>11} {:>11} {:>7} {:>6}  against", "call", "ours", "other", "ratio", "bar");
    let over: Vec<&str> = rows.iter().filter(|row| !row.show()).map(|row| row.name.as_str()).collect();
    if over.is_empty() {
        println!("bench: all within their bars");
    } else {
        println!("bench: over their bars: {}", over.join("; "));
    }
    over.is_empty()
}
