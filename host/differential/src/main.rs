//! Runs the verified archive and the independent model on the same inputs and compares every number and every byte.
//!
//!     differential [SEED [SCALE]]
//!
//! The same seed gives the same inputs. SCALE multiplies their number. The first difference is printed with its input in hex, and the exit
//! status is 1. It is 1 as well if some answer or some kind of accepted event was never met: then the inputs have become too tame.

#![forbid(unsafe_code)]

mod choose;
mod compare;
mod damage;
mod event_parts;
mod hex;
mod image_parts;
mod random;
mod tables;

use compare::Comparer;
use random::Random;
use std::process::ExitCode;
use std::time::Instant;

const DEFAULT_SEED: u64 = 1;

type Part = fn(&mut Comparer, &mut Random, usize);

const PARTS: [(&str, Part); 14] = [
    ("stored calls", image_parts::stored),
    ("fresh images", image_parts::fresh_images),
    ("long runs", event_parts::long_runs),
    ("every event", event_parts::every_event),
    ("torn tables", event_parts::torn_tables),
    ("hostile events", event_parts::hostile_events),
    ("event records", event_parts::event_records),
    ("depths", event_parts::depths),
    ("cut images", image_parts::cut_images),
    ("changed bytes", image_parts::changed_bytes),
    ("edge numbers", image_parts::edge_numbers),
    ("moved records", image_parts::moved_records),
    ("random bytes", image_parts::random_bytes),
    ("buffers", image_parts::buffers),
];

fn main() -> ExitCode {
    let mut numbers = std::env::args().skip(1).map(|argument| argument.parse::<u64>());
    let (Ok(seed), Ok(scale), None) = (numbers.next().unwrap_or(Ok(DEFAULT_SEED)), numbers.next().unwrap_or(Ok(1)), numbers.next()) else {
        eprintln!("usage: differential [SEED [SCALE]], both of them numbers");
        return ExitCode::from(2);
    };
    let begun = Instant::now();
    let mut comparer = Comparer::new(seed);
    for (index, (name, part)) in PARTS.into_iter().enumerate() {
        // Each part has numbers of its own, so that a change in one leaves the inputs of the others alone.
        let mut random = Random::new(seed.wrapping_mul(1000).wrapping_add(index as u64));
        let before = comparer.comparisons;
        comparer.part = name;
        part(&mut comparer, &mut random, scale as usize);
        println!("{name}: {} comparisons", comparer.comparisons - before);
    }
    let seconds = begun.elapsed().as_secs_f64();
    println!("{} comparisons agree (seed {seed}, {seconds:.1} s)", comparer.comparisons);
    if everything_met(&comparer) {
        ExitCode::SUCCESS
    } else {
        ExitCode::FAILURE
    }
}

/// Whether every answer that a step can give was given, and every kind of event accepted. 1 is never given: no image breaks the shape.
fn everything_met(comparer: &Comparer) -> bool {
    let answers = [0].into_iter().chain(2..=13).chain(20..=26);
    let missed: Vec<usize> = answers.filter(|answer| comparer.steps_by_answer[*answer] == 0).collect();
    let never_accepted: Vec<usize> = (1..=10).filter(|kind| comparer.accepted_by_kind[*kind] == 0).collect();
    if !missed.is_empty() || !never_accepted.is_empty() {
        println!("answers never met: {missed:?}; kinds never accepted: {never_accepted:?}");
    }
    missed.is_empty() && never_accepted.is_empty()
}
