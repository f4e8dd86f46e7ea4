//! The stored runs of `tests/runs-data`: the model prints what is stored for each of them, so that its events, values and counts agree
//! with the outside vectors line by line.

use field_model::events::{step, DROP, RECEIVE};
use field_model::host::{event_of_record, EVENT_BYTES};
use field_model::limits::{owner_of, NOTHING};
use field_model::table::Table;
use std::fmt::Write;
use std::fs;
use std::path::{Path, PathBuf};

const MOST_RECORDS: usize = 4096;

/// What the summary counts beside the table itself.
#[derive(Default)]
struct Tally {
    sent: u32,
    saved: u32,
}

#[test]
fn every_stored_run_is_printed_as_stored() {
    let mut runs = 0;
    for input in stored_inputs() {
        let expected = fs::read(input.with_extension("out")).expect("an output beside the input");
        let printed = printed_run(&fs::read(&input).expect("a readable input"));
        assert!(printed.as_bytes() == expected, "{}", input.display());
        runs += 1;
    }
    assert_eq!(runs, 92);
}

fn stored_inputs() -> impl Iterator<Item = PathBuf> {
    let folder = Path::new(env!("CARGO_MANIFEST_DIR")).join("../../tests/runs-data");
    let files = fs::read_dir(folder).expect("the stored runs").map(|file| file.expect("a file").path());
    files.filter(|path| path.extension().is_some_and(|extension| extension == "in"))
}

fn printed_run(input: &[u8]) -> String {
    let mut table = Table::fresh();
    let mut tally = Tally::default();
    let mut text = String::new();
    for (index, record) in input.chunks(EVENT_BYTES).enumerate() {
        let Some(event) = event_of_record(record).filter(|_| index < MOST_RECORDS) else {
            text.push_str("stop\n");
            break;
        };
        let before = table.clone();
        let (answer, value) = match step(&mut table, event) {
            Ok(value) => (0, value),
            Err(refusal) => (refusal.number(), 0),
        };
        if answer == 0 {
            tally.note(&before, event.kind, event.operands, value);
        }
        let [a, b, c, d] = event.operands;
        writeln!(text, "{}: {} {a} {b} {c} {d} = {answer} {value}", index + 1, event.kind).expect("room in a string");
    }
    text + &summary(&table, &tally)
}

impl Tally {
    /// Notes an accepted event, seen from the table before it.
    fn note(&mut self, before: &Table, kind: u16, operands: [u8; 4], value: u8) {
        if kind == RECEIVE {
            let message = &before.messages[&operands[0]];
            let had_entry = before.remotes.contains_key(&(message.to, message.object));
            self.saved += u32::from(value == NOTHING && had_entry && owner_of(message.object) != message.to);
        }
        self.sent += u32::from((kind == RECEIVE || kind == DROP) && value != NOTHING);
    }
}

fn summary(table: &Table, tally: &Tally) -> String {
    format!(
        "end events={} live={} entries={} messages={} sent={} saved={}\n",
        table.count,
        table.live.len(),
        table.directories.len() + table.remotes.len(),
        table.messages.len(),
        tally.sent,
        tally.saved
    )
}
