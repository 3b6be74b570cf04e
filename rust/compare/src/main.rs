//! Holds every operation of the static library against the second implementation, by the rules of
//! the first paper and of the second paper's requests that have landed.
//!
//!     compare [CASES [SEED [FIRST]]]
//!
//! A case is one call, or one network and plan held against every choice, or a run of calls of the
//! desks. Case number i of a seed is always the same, whatever CASES is, so that `compare 1 SEED i`
//! repeats it. The last line is 'N passed, M failed', in kinds of cases: a kind passes if none of
//! its cases differs, and if of many cases some reached each answer that the operation can give.

#![forbid(unsafe_code)]

mod call;
mod choices;
mod desks;
mod kinds;

use kinds::{kind_of, Tally, KINDS};
use second::gen::Rng;
use std::sync::atomic::{AtomicU64, Ordering};
use std::time::Instant;

/// How many cases and which seed, where none are given.
const CASES: u64 = 200_000;
const SEED: u64 = 20_131_008;

/// From so many cases on, each kind has to reach all of its answers.
const MANY: u64 = 100_000;

/// So many failures are printed.
const SHOWN: u64 = 20;

/// Each thread takes so many cases at a time.
const BATCH: u64 = 64;

/// What a case came to: what it reached, or what differs.
pub type Outcome = Result<Reached, String>;

/// What a case that does not differ reached: the answers, as the kinds name them, and what is
/// counted in the account.
#[derive(Debug, PartialEq, Eq)]
pub struct Reached {
    pub answers: Vec<String>,
    pub account: String,
}

impl Reached {
    /// One answer, and how it came about.
    pub fn one(name: &str, answer: &str, how: &str) -> Reached {
        Reached {
            answers: vec![answer.to_string()],
            account: format!("{name}: {answer}{how}"),
        }
    }
}

/// One case of a kind.
fn case(kind: usize, seed: u64, number: u64) -> Outcome {
    let mut rng = Rng::new(Rng::new(seed).any() ^ number.wrapping_mul(0xd134_2543_de82_ef95));
    (KINDS[kind].case)(&mut rng)
}

fn main() {
    let numbers: Vec<u64> = std::env::args()
        .skip(1)
        .map(|word| word.parse().expect("compare [CASES [SEED [FIRST]]]"))
        .collect();
    let given = |i: usize, other: u64| numbers.get(i).copied().unwrap_or(other);
    let (cases, seed, first) = (given(0, CASES), given(1, SEED), given(2, 0));
    let start = Instant::now();
    let next = AtomicU64::new(0);
    let shown = AtomicU64::new(0);
    let threads = std::thread::available_parallelism().map_or(1, |n| n.get());
    let mut tallies = vec![Tally::default(); KINDS.len()];
    std::thread::scope(|scope| {
        let work = || {
            let mut tallies = vec![Tally::default(); KINDS.len()];
            loop {
                let from = next.fetch_add(BATCH, Ordering::Relaxed);
                if from >= cases {
                    return tallies;
                }
                for number in from..(from + BATCH).min(cases) {
                    let number = first.wrapping_add(number);
                    let kind = kind_of(number);
                    let outcome = case(kind, seed, number);
                    if let Err(why) = &outcome {
                        if shown.fetch_add(1, Ordering::Relaxed) < SHOWN {
                            println!("FAILED: case {number} of seed {seed}: {why}");
                        }
                    }
                    tallies[kind].count(outcome);
                }
            }
        };
        let running: Vec<_> = (0..threads).map(|_| scope.spawn(work)).collect();
        for thread in running {
            let more = thread.join().expect("no case panics");
            for (all, more) in tallies.iter_mut().zip(more) {
                all.add(more);
            }
        }
    });
    let (mut passed, mut failed) = (0, 0);
    for (kind, tally) in KINDS.iter().zip(&tallies) {
        for (what, count) in &tally.account {
            println!("{count:>9}  {what}");
        }
        let faults = kind.faults(tally, cases >= MANY);
        for fault in &faults {
            println!("FAILED: {}: {fault}", kind.name);
        }
        if !faults.is_empty() {
            failed += 1;
        } else if tally.cases > 0 {
            passed += 1;
        }
    }
    println!(
        "{cases} cases of seed {seed} in {:.1} s, of which {} differ",
        start.elapsed().as_secs_f64(),
        shown.into_inner()
    );
    if cases < MANY {
        println!("fewer than {MANY} cases: not asserted that each answer is reached");
    }
    println!("{passed} passed, {failed} failed");
    std::process::exit(i32::from(failed > 0 || passed == 0));
}
