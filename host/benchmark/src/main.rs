//! Measures one call on named inputs.
//!
//!     benchmark                           nanoseconds for one call of each engine on every input, beside each other
//!     benchmark --names                   the names of the inputs
//!     benchmark --only NAME ENGINE CALLS  nothing but so many calls of archive, model or copy on one input: for a tool that counts

#![forbid(unsafe_code)]

mod damage;
mod engines;
mod fields;
mod inputs;
mod times;

use engines::{Bench, Engine};
use inputs::INPUTS;
use std::process::ExitCode;

const USAGE: &str = "usage: benchmark [--names | --only NAME archive|model|copy CALLS]";

fn main() -> ExitCode {
    let arguments: Vec<String> = std::env::args().skip(1).collect();
    let words: Vec<&str> = arguments.iter().map(String::as_str).collect();
    let understood = match words[..] {
        [] => {
            times::print();
            true
        }
        ["--names"] => {
            print_names();
            true
        }
        ["--only", name, engine, calls] => only(name, engine, calls).is_some(),
        _ => false,
    };
    if understood {
        ExitCode::SUCCESS
    } else {
        eprintln!("{USAGE}");
        ExitCode::from(2)
    }
}

fn print_names() {
    for named in &INPUTS {
        println!("{}", named.name);
    }
}

/// `None` if there is no such input or engine.
fn only(name: &str, engine: &str, calls: &str) -> Option<()> {
    let named = INPUTS.iter().find(|named| named.name == name)?;
    let engine = Engine::named(engine)?;
    let calls = calls.parse().ok()?;
    Bench::new((named.make)(), named.answer).call(engine, calls);
    Some(())
}
