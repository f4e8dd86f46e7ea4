//! A run from the fresh field. The verified archive takes the events one by one; what came of each is read out of the image that it wrote.

use field_model::events::{Event, COLLECT, DROP, NEW, RECEIVE, SEND, SETTLE};
use field_model::host::{event_of_record, EVENT_BYTES};
use field_model::limits::NODES;
use field_model::reader::read;
use field_model::table::Table;

/// The room that every image fits in.
const LARGEST_IMAGE: usize = 11_508;

/// One event of a run and the field on either side of it.
pub struct Step {
    /// Counted from 1, refused events too.
    pub number: usize,
    pub event: Event,
    /// 0 if the event was accepted, else the number of the refusal.
    pub answer: u8,
    pub value: u8,
    pub before: Table,
    pub after: Table,
}

impl Step {
    pub fn is_refused(&self) -> bool {
        self.answer != 0
    }

    /// The node where the event happens: for an arrival the one that the message goes to. Some refused events have none.
    pub fn node(&self) -> Option<u8> {
        let first = self.event.operands[0];
        match self.event.kind {
            RECEIVE | SETTLE => self.before.messages.get(&first).map(|message| message.to),
            NEW..=SEND | COLLECT | DROP => Some(first).filter(|node| *node < NODES),
            _ => None,
        }
    }
}

/// Runs event records, each of 8 bytes. A record that is cut or states another length than 4 is an error: then nothing is told of the run.
pub fn run(records: &[u8]) -> Result<Vec<Step>, String> {
    let mut image = fresh_image();
    let mut steps = Vec::new();
    for (index, record) in records.chunks(EVENT_BYTES).enumerate() {
        let number = index + 1;
        let event = event_of_record(record).ok_or_else(|| format!("event record {number} is cut or states another length than 4"))?;
        let before = table_in(&image);
        let (answer, value) = step(&mut image, record);
        steps.push(Step { number, event, answer, value, before, after: table_in(&image) });
    }
    Ok(steps)
}

fn fresh_image() -> Vec<u8> {
    let mut image = vec![0; LARGEST_IMAGE];
    let result = archive::fresh(&mut image);
    image.truncate(length_in(result));
    image
}

/// Steps the image, if the event is accepted, and gives answer and value.
fn step(image: &mut Vec<u8>, record: &[u8]) -> (u8, u8) {
    let mut next = vec![0; LARGEST_IMAGE];
    let result = archive::step(image, record, &mut next);
    let [answer, value, ..] = result.to_le_bytes();
    if answer == 0 {
        next.truncate(length_in(result));
        *image = next;
    }
    (answer, value)
}

fn length_in(result: u64) -> usize {
    (result >> 24) as usize
}

fn table_in(image: &[u8]) -> Table {
    read(image).expect("the archive writes images that can be read")
}
