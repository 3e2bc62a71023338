//! The work in pieces, and the threads that do it. What a piece does depends on the seed, the family and the piece alone, not on the threads.

use crate::checks::Run;
use crate::families::{Family, Kind};
use crate::options::Options;
use crate::tally::Tally;
use std::sync::atomic::{AtomicBool, AtomicUsize, Ordering};
use std::sync::{Arc, Mutex};

/// Cases of one piece of a random family; ten times the rounds of a piece of an own check.
const PIECE: u64 = 2_000;

/// A piece of work: a family, and which of its pieces.
pub type Piece = (usize, u64);

fn pieces(families: &[Family], count: impl Fn(&Family) -> u64) -> Vec<Piece> {
    let each = families.iter().enumerate();
    each.flat_map(|(at, family)| (0..count(family)).map(move |piece| (at, piece))).collect()
}

/// The pieces of the fixed families.
pub fn fixed(families: &[Family]) -> Vec<Piece> {
    pieces(families, |family| if let Kind::Fixed(count, _) = family.kind { count } else { 0 })
}

/// The pieces of the own checks.
pub fn own(families: &[Family]) -> Vec<Piece> {
    pieces(families, |family| if let Kind::Own(rounds, _) = family.kind { rounds.div_ceil(PIECE / 10) } else { 0 })
}

/// The pieces of the random families: so many cases in all, by their shares. The families take turns, so that each is met soon.
pub fn random(families: &[Family], cases: u64) -> Vec<Piece> {
    let share = |family: &Family| if let Kind::Random(share, _) = family.kind { share } else { 0 };
    let all: u64 = families.iter().map(share).sum();
    let mut list = pieces(families, |family| (cases * share(family)).div_ceil(all * PIECE));
    list.sort_by_key(|&(_, piece)| piece);
    list
}

fn do_piece(family: &Family, (at, piece): Piece, seed: u64, found: Option<Arc<AtomicBool>>) -> Tally {
    let mixed = seed ^ ((at as u64 + 1) << 48) ^ ((piece + 1) << 20);
    let mut run = Run::new(mixed.wrapping_mul(0xd134_2543_de82_ef95), found);
    match family.kind {
        Kind::Fixed(_, each) => each(&mut run, piece),
        Kind::Random(_, round) => {
            while run.tally.cases < PIECE && !run.over() {
                round(&mut run);
            }
        }
        Kind::Own(_, round) => (0..PIECE / 10).for_each(|_| round(&mut run)),
    }
    let met = run.tally.cases + run.tally.own_checks;
    run.tally.families.insert((at, family.name), met);
    run.tally.found_in = (run.tally.differences > 0).then_some((at, piece));
    run.tally
}

/// Does all pieces on the threads; with `first_only` up to a difference.
pub fn do_all(families: &[Family], pieces: &[Piece], options: &Options, seed: u64, first_only: bool) -> Tally {
    let next = AtomicUsize::new(0);
    let found = Arc::new(AtomicBool::new(false));
    let whole = Mutex::new(Tally::default());
    let work = || {
        while !found.load(Ordering::Relaxed) {
            let Some(&piece) = pieces.get(next.fetch_add(1, Ordering::Relaxed)) else { return };
            let tally = do_piece(&families[piece.0], piece, seed, first_only.then(|| found.clone()));
            if first_only && tally.differences > 0 {
                found.store(true, Ordering::Relaxed);
            }
            whole.lock().expect("no thread fails").add(tally);
        }
    };
    std::thread::scope(|scope| (0..options.threads).for_each(|_| drop(scope.spawn(work))));
    whole.into_inner().expect("no thread fails")
}
