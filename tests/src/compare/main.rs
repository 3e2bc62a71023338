//! `compare`: holds the library against the oracle. `--help` says what it can be asked for.
//!
//! Fails on a difference, and where a refusal, a pair of refusals or a region that must be met was not met.

#[macro_use]
mod calls;
mod checks;
mod families;
mod faults;
mod lent;
mod library;
mod options;
mod regions;
mod tally;
mod work;

use families::Family;
use hailgully_tests::slips;
use options::Options;
use std::process::ExitCode;
use std::time::Instant;
use tally::Tally;
use work::do_all;

/// Turns each slip and each fault on in turn; hands back whether all were found. One only counts as found if the piece of work that shows it shows no
/// difference without it.
fn all_slips(families: &[Family], options: &Options) -> bool {
    let (fixed, random) = (work::fixed(families), work::random(families, 300_000));
    let ask = |slip, pieces: &[work::Piece]| {
        slips::set(slip);
        let tally = do_all(families, pieces, options, options.seed, true);
        slips::set(0);
        tally
    };
    let asked = |slip: &u32| options.huge || !faults::huge(*slip);
    let mut unfound = 0;
    for slip in (1..=faults::count()).filter(asked) {
        let [first, second] = if faults::fixed_first(slip) { [&fixed, &random] } else { [&random, &fixed] };
        let mut tally = ask(slip, first);
        if tally.differences == 0 {
            tally.add(ask(slip, second));
        }
        let without = ask(0, tally.found_in.as_slice());
        if let Some(told) = without.told.first() {
            println!("DIFFERENCE without a slip: {told}");
        }
        let well = tally.differences > 0 && without.differences == 0;
        unfound += u32::from(!well);
        println!("slip {slip}: {} {} cases: {}", if well { "found within" } else { "NOT FOUND in" }, tally.cases, faults::words(slip));
    }
    println!("slips: {} in all, {unfound} not found", (1..=faults::count()).filter(asked).count());
    unfound == 0
}

/// One seed: the oracle against the lists, the fixed families with the first seed, random cases.
fn one_seed(families: &[Family], options: &Options, seed: u64) -> Tally {
    let mut tally = Tally::default();
    let mut add = |pieces: Vec<work::Piece>| {
        tally.add(do_all(families, &pieces, options, seed, false));
        tally.cases
    };
    if slips::current() == 0 {
        add(work::own(families));
    }
    if seed == options.seed {
        let fixed = add(work::fixed(families));
        add(work::random(families, options.cases.saturating_sub(fixed).max(options.cases / 2)));
    } else {
        add(work::random(families, options.cases));
    }
    tally
}

/// The whole comparison; hands back whether all is well.
fn compare(families: &[Family], options: &Options) -> bool {
    let mut whole = Tally::default();
    for seed in options.seed..options.seed + options.seeds {
        let began = Instant::now();
        let tally = one_seed(families, options, seed);
        let (cases, differences) = (tally.cases, tally.differences);
        println!("seed {seed}: {cases} cases, {differences} differences, {} s", began.elapsed().as_secs());
        whole.add(tally);
    }
    whole.report()
}

fn main() -> ExitCode {
    let options = match Options::given() {
        Ok(options) => options,
        Err(words) => {
            eprintln!("compare: {words}");
            return ExitCode::from(2);
        }
    };
    if options.help {
        println!("{}", options::HELP);
        return ExitCode::SUCCESS;
    }
    let wrong = calls::wrong();
    if !wrong.is_empty() {
        eprintln!("compare: {}", wrong.join("\ncompare: "));
        return ExitCode::FAILURE;
    }
    let families = families::all(options.huge);
    let well = if options.slips {
        all_slips(&families, &options)
    } else {
        if options.slip > 0 {
            println!("slip {} is on: {}", options.slip, faults::words(options.slip));
        }
        slips::set(options.slip);
        compare(&families, &options)
    };
    ExitCode::from(u8::from(!well))
}
