//! Compares the engine with the second implementation: `cargo run --release -p compare [SEED..]`. The same seeds make the same cases; without any, the seed is 1.
//! It stops at the first difference with the whole input, and otherwise prints how many cases of each kind it compared; a kind that did not come up is
//! an error.

mod calls;
mod corrections;
mod counts;
mod demand_3;
mod documents;
mod extensions;
mod finding;
mod formulas;
mod keys;
mod lengths;
mod listings;
mod numbers;
mod old_layout;
mod origin;
mod pairs;
mod polynomials;
mod quotients;
mod random;
mod reading;
mod report;
mod rows;
mod series;
mod sheets;
mod simple;
mod typed;

use random::Random;
use report::Report;
use std::num::NonZero;
use std::process::exit;
use std::sync::atomic::{AtomicUsize, Ordering};
use std::thread::{available_parallelism, scope, Builder};

type Section = fn(&mut Random, &mut Report);

const SECTIONS: [Section; 20] = [
    documents::run,
    numbers::run,
    series::run,
    rows::run,
    pairs::run,
    sheets::run,
    extensions::run,
    old_layout::run,
    listings::run,
    demand_3::run,
    reading::run,
    quotients::run,
    lengths::run,
    finding::run,
    corrections::run,
    counts::run,
    typed::run,
    keys::run,
    simple::run,
    origin::run,
];

/// As much as a main thread has: brackets in a typed text are read by calls within calls.
const STACK: usize = 8 << 20;

fn seeds() -> Vec<u64> {
    let given: Vec<u64> = std::env::args().skip(1).map(|word| word.parse().expect("a seed is a number")).collect();
    if given.is_empty() {
        vec![1]
    } else {
        given
    }
}

/// Runs the sections of all seeds, as many at a time as there are processors: each case has its own random numbers, so none depends on another.
fn compared(seeds: &[u64]) -> Report {
    let jobs = seeds.len() * SECTIONS.len();
    let next = AtomicUsize::new(0);
    let work = || {
        let mut report = Report::default();
        loop {
            let job = next.fetch_add(1, Ordering::Relaxed);
            if job >= jobs {
                return report;
            }
            let (seed, i) = (seeds[job / SECTIONS.len()], job % SECTIONS.len());
            SECTIONS[i](&mut Random::new(seed * 1000 + i as u64), &mut report);
        }
    };
    let workers = available_parallelism().map_or(1, NonZero::get);
    scope(|scope| {
        let start = |_| Builder::new().stack_size(STACK).spawn_scoped(scope, work).expect("a thread can be started");
        let running: Vec<_> = (0..workers).map(start).collect();
        running.into_iter().fold(Report::default(), |all, worker| all.with(worker.join().expect("a section does not panic")))
    })
}

fn main() {
    if !compared(&seeds()).print() {
        println!("A kind of case did not come up.");
        exit(1);
    }
}
