//! The table of times.

use crate::engines::{Bench, ENGINES};
use crate::inputs::{Named, INPUTS};
use std::time::{Duration, Instant};

/// Short enough that some repetition runs through undisturbed on a busy machine.
const CALLS: usize = 100;
const REPETITIONS: usize = 200;

/// Calls before the clock starts, since the engine before has left its own bytes in the caches.
const WARMING_CALLS: usize = 5;

/// The least time that each engine took for its calls: whatever else the machine does can only add to it.
type LeastTimes = [Duration; ENGINES.len()];

pub fn print() {
    let mut benches: Vec<Bench> = INPUTS.iter().map(|named| Bench::new((named.make)(), named.answer)).collect();
    let mut least = vec![[Duration::MAX; ENGINES.len()]; benches.len()];
    // Inputs and engines take turns, so that a slow minute is a slow minute for all of them.
    for _ in 0..REPETITIONS {
        for (bench, least) in benches.iter_mut().zip(&mut least) {
            time_once(bench, least);
        }
    }
    println!("{:16} {:>6} {:>6} {:>7} {:>10} {:>10} {:>7} {:>8}", "input", "in", "out", "answer", "archive", "model", "ratio", "copy");
    for ((named, bench), least) in INPUTS.iter().zip(&benches).zip(least) {
        print_row(named, bench, least);
    }
}

fn time_once(bench: &mut Bench, least: &mut LeastTimes) {
    for (engine, least) in ENGINES.into_iter().zip(least) {
        bench.call(engine, WARMING_CALLS);
        let begun = Instant::now();
        bench.call(engine, CALLS);
        *least = begun.elapsed().min(*least);
    }
}

fn print_row(named: &Named, bench: &Bench, least: LeastTimes) {
    let [archive, model, copy] = least.map(|time| time.as_nanos() as f64 / CALLS as f64);
    println!(
        "{:16} {:6} {:6} {:7} {archive:10.0} {model:10.0} {:7.2} {copy:8.0}",
        named.name,
        bench.input.image.len(),
        bench.bytes_out(),
        named.answer,
        archive / model
    );
}
