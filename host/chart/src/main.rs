//! Turns event records from standard input into a picture of the run, an SVG message chart, or into the same numbers as text.
//!
//!     chart [--text] TITLE
//!
//! The events are stepped by the verified archive, from the fresh field. Bytes that aren't event records give a message and exit status 1.

#![forbid(unsafe_code)]

mod arrow_labels;
mod changes;
mod description;
mod flights;
mod geometry;
mod labels;
mod layout;
mod legend;
mod measures;
mod picture;
mod run;
mod signs;
mod svg;
mod text;
mod words;

use std::io::{self, Read, Write};
use std::process::ExitCode;

fn main() -> ExitCode {
    let arguments: Vec<String> = std::env::args().skip(1).collect();
    let arguments: Vec<&str> = arguments.iter().map(String::as_str).collect();
    let (form, title): (Form, &str) = match arguments[..] {
        ["--text", title] => (text::text, title),
        [title] if !title.starts_with("--") => (picture::picture, title),
        _ => {
            eprintln!("usage: chart [--text] TITLE, with event records on standard input");
            return ExitCode::from(2);
        }
    };
    match tell(form, title) {
        Ok(()) => ExitCode::SUCCESS,
        Err(message) => {
            eprintln!("chart: {message}");
            ExitCode::FAILURE
        }
    }
}

/// What a run becomes, given its title.
type Form = fn(&str, &[run::Step]) -> String;

fn tell(form: Form, title: &str) -> Result<(), String> {
    let mut records = Vec::new();
    io::stdin().read_to_end(&mut records).map_err(|error| error.to_string())?;
    let told = form(title, &run::run(&records)?);
    io::stdout().write_all(told.as_bytes()).map_err(|error| error.to_string())
}
