//! What was met: cases, refusals, pairs of refusals that apply together, and regions by level.

use crate::calls::{words, Call, Row};
use crate::regions::{self, SLOTS};
use crate::work::Piece;
use hailgully_tests::slips;
use std::collections::BTreeMap;

/// Counts of one row: answers given, refusals by their place in the order, pairs of those places, accepted codes by region and level.
#[derive(Clone)]
pub struct Counts {
    cases: u64,
    given: u64,
    refused: Vec<u64>,
    pairs: Vec<Vec<u64>>,
    regions: Vec<u64>,
}

impl Counts {
    fn none(call: Call) -> Counts {
        let refused = vec![0; call.count()];
        Counts { cases: 0, given: 0, pairs: vec![refused.clone(); call.count()], refused, regions: vec![0; SLOTS] }
    }

    /// One more case; `apply` has a bit for each refusal of the order that applies, also those that an earlier one hides.
    pub fn count(&mut self, apply: u32) {
        self.cases += 1;
        if apply == 0 {
            self.given += 1;
            return;
        }
        let first = apply.trailing_zeros() as usize;
        self.refused[first] += 1;
        let mut later = apply & (apply - 1);
        while later != 0 {
            self.pairs[first][later.trailing_zeros() as usize] += 1;
            later &= later - 1;
        }
    }

    pub fn accepted(&mut self, slot: usize) {
        self.regions[slot] += 1;
    }

    fn add(&mut self, other: &Counts) {
        self.cases += other.cases;
        self.given += other.given;
        let sums = self.refused.iter_mut().chain(self.pairs.iter_mut().flatten()).chain(&mut self.regions);
        let parts = other.refused.iter().chain(other.pairs.iter().flatten()).chain(&other.regions);
        sums.zip(parts).for_each(|(sum, part)| *sum += part);
    }

    /// Prints one row's counts; hands back what should have been met and was not.
    fn report(&self, name: Row) -> Vec<String> {
        let call = name.call;
        let mut missing = Vec::new();
        let mut met = |what: String, count: u64| {
            if count == 0 {
                missing.push(format!("{name}: {what} was not met"));
            }
            format!(", {what} x{count}")
        };
        let mut line = met("given".to_string(), self.given);
        for place in 0..call.count() {
            line += &met(words(call.refusal(place)), self.refused[place]);
        }
        println!("{name}: {} cases{line}", self.cases);
        let pairs = call.pairs();
        let mut line = String::new();
        for &(first, second) in &pairs {
            let (one, other) = (words(call.refusal(first)), words(call.refusal(second)));
            line += &met(format!("{one}/{other}"), self.pairs[first][second]);
        }
        println!("{name}: {} pairs{line}", pairs.len());
        let wanted = regions::wanted(call);
        let least = wanted.iter().map(|&(slot, _)| self.regions[slot]).min();
        if let Some(least) = least {
            println!("{name}: {} regions by level, each met at least {least} times", wanted.len());
        }
        for (slot, region) in wanted {
            met(region, self.regions[slot]);
        }
        missing
    }
}

/// All that one thread, or the whole run, has met.
#[derive(Default)]
pub struct Tally {
    pub cases: u64,
    rows: BTreeMap<Row, Counts>,
    /// Cases of each family, by its place in the list and its name.
    pub families: BTreeMap<(usize, &'static str), u64>,
    pub own_checks: u64,
    pub differences: u64,
    /// A piece of work in which there were some.
    pub found_in: Option<Piece>,
    /// The first few differences in words.
    pub told: Vec<String>,
}

const MOST_TOLD: usize = 10;

impl Tally {
    pub fn row(&mut self, row: Row) -> &mut Counts {
        self.rows.entry(row).or_insert_with(|| Counts::none(row.call))
    }

    pub fn difference(&mut self, told: impl FnOnce() -> String) {
        self.differences += 1;
        if self.told.len() < MOST_TOLD {
            self.told.push(told());
        }
    }

    pub fn add(&mut self, other: Tally) {
        self.cases += other.cases;
        for (row, part) in &other.rows {
            self.row(*row).add(part);
        }
        for (family, cases) in other.families {
            *self.families.entry(family).or_default() += cases;
        }
        self.own_checks += other.own_checks;
        self.differences += other.differences;
        self.found_in = self.found_in.or(other.found_in);
        self.told.extend(other.told);
        self.told.truncate(MOST_TOLD);
    }

    /// Prints the counts, the differences and what was not met; hands back whether all is well.
    pub fn report(&self) -> bool {
        for ((_, family), cases) in &self.families {
            println!("family {family}: {cases} cases");
        }
        let counts = |row: Row| self.rows.get(&row).cloned().unwrap_or_else(|| Counts::none(row.call));
        let mut missing: Vec<String> = Row::all().flat_map(|row| counts(row).report(row)).collect();
        if slips::current() != 0 {
            // With a slip on a difference alone says that it was found, and regions are not counted.
            missing.clear();
        }
        for told in &self.told {
            println!("DIFFERENCE: {told}");
        }
        for one in &missing {
            println!("MISSING: {one}");
        }
        println!("own checks: {}", self.own_checks);
        println!("compare: {} cases, {} differences, {} missing", self.cases, self.differences, missing.len());
        self.differences == 0 && missing.is_empty()
    }
}
