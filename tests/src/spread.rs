//! Comparisons spread over the processors. What they try, give and count is the same whatever the
//! number of these: the work is cut into pieces, each with random numbers of its own.

use crate::comparison::{Checked, Comparison};
use crate::tally::Tally;
use std::num::NonZero;
use std::ops::Range;
use std::panic::resume_unwind;
use std::sync::atomic::{AtomicBool, AtomicUsize, Ordering};
use std::thread;

/// The work is cut into so many pieces, or one a turn where that is fewer.
const MOST_PIECES: usize = 64;

/// Turns that follow one another, with the seed of their random numbers.
struct Piece {
    turns: Range<usize>,
    seed: u64,
}

/// What came of the piece at a place: what its turns gave and what was seen.
struct Done<Given> {
    place: usize,
    given: Checked<Vec<Given>>,
    tally: Tally,
}

impl Comparison {
    /// Takes so many turns, numbered from 0, and gives what they gave, in order. Where turns fail, it
    /// fails as the first piece with such a turn does; a panic goes on in the caller.
    pub fn spread<Given: Send>(
        &mut self,
        turns: usize,
        turn: impl Fn(usize, &mut Comparison) -> Checked<Given> + Sync,
    ) -> Checked<Vec<Given>> {
        let count = turns.min(MOST_PIECES);
        let piece = |place| Piece {
            turns: place * turns / count..(place + 1) * turns / count,
            seed: self.random.bits(),
        };
        let pieces: Vec<Piece> = (0..count).map(piece).collect();
        let mut all = Vec::new();
        for done in done_at_once(&pieces, &turn) {
            self.tally.add(&done.tally);
            all.extend(done.given?);
        }
        Ok(all)
    }
}

/// The pieces that were done, in order: all, or up to one that failed and perhaps some after it.
fn done_at_once<Given: Send>(
    pieces: &[Piece],
    turn: &(impl Fn(usize, &mut Comparison) -> Checked<Given> + Sync),
) -> Vec<Done<Given>> {
    let threads = thread::available_parallelism().map_or(1, NonZero::get);
    let (next, failed) = (AtomicUsize::new(0), AtomicBool::new(false));
    let work = || do_some(pieces, turn, &next, &failed);
    let mut all: Vec<Done<Given>> = thread::scope(|scope| {
        // All are begun before the first one is waited for.
        let threads: Vec<_> = (0..threads).map(|_| scope.spawn(work)).collect();
        let joined = threads.into_iter().map(|thread| thread.join());
        joined
            .flat_map(|done| done.unwrap_or_else(|panic| resume_unwind(panic)))
            .collect()
    });
    all.sort_by_key(|done| done.place);
    all
}

/// Does the next piece that no thread has taken, again and again, until none is left or one failed.
fn do_some<Given>(
    pieces: &[Piece],
    turn: &impl Fn(usize, &mut Comparison) -> Checked<Given>,
    next: &AtomicUsize,
    failed: &AtomicBool,
) -> Vec<Done<Given>> {
    let mut all = Vec::new();
    while !failed.load(Ordering::Relaxed) {
        let place = next.fetch_add(1, Ordering::Relaxed);
        let Some(piece) = pieces.get(place) else {
            break;
        };
        let mut comparison = Comparison::new(piece.seed);
        let turns = piece.turns.clone();
        let given: Checked<Vec<Given>> =
            turns.map(|number| turn(number, &mut comparison)).collect();
        failed.fetch_or(given.is_err(), Ordering::Relaxed);
        all.push(Done {
            place,
            given,
            tally: comparison.tally,
        });
    }
    all
}
