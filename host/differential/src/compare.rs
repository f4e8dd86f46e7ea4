//! One comparison: the model and the archive on the same input, every byte of both buffers looked at. A difference ends the program.

use crate::hex::hex;
use field_model::host;
use std::hint::black_box;

/// Bytes on either side of the lent buffer, which nobody may write.
const GUARD: usize = 16;

pub const LARGEST: usize = 11_508;
const ANSWERS: usize = 27;
const KINDS: usize = 11;

pub struct Comparer {
    pub seed: u64,
    /// Which part of the comparison is at work, for the message about a difference.
    pub part: &'static str,
    pub comparisons: u64,
    /// How often each answer of a step was met.
    pub steps_by_answer: [u64; ANSWERS],
    /// How often each kind of event was accepted.
    pub accepted_by_kind: [u64; KINDS],
}

/// The result of a step on which both agree.
pub struct Stepped {
    pub number: u64,
    /// The new image, if the event was accepted.
    pub image: Option<Vec<u8>>,
    /// The whole lent buffer.
    pub buffer: Vec<u8>,
}

impl Comparer {
    pub fn new(seed: u64) -> Comparer {
        Comparer { seed, part: "", comparisons: 0, steps_by_answer: [0; ANSWERS], accepted_by_kind: [0; KINDS] }
    }

    /// A step into a buffer that holds a pattern before.
    pub fn step(&mut self, image: &[u8], event: &[u8], room: usize) -> Stepped {
        let pattern: Vec<u8> = (0..room).map(|at| (at % 251) as u8 ^ 0xA5).collect();
        self.step_into(image, event, &pattern)
    }

    pub fn step_into(&mut self, image: &[u8], event: &[u8], before: &[u8]) -> Stepped {
        let (mut lent_image, mut lent_event) = (image.to_vec(), event.to_vec());
        let (expected, expected_buffer) = with_guard(before, |out| host::step(image, event, out));
        let (got, got_buffer) = with_guard(before, |out| archive::step(&lent_image, &lent_event, out));
        // The compiler takes it for granted that lent bytes stay, so it has to be told to look again.
        let inputs_stay = *black_box(&mut lent_image) == image && *black_box(&mut lent_event) == event;
        if !inputs_stay || (expected, &expected_buffer) != (got, &got_buffer) {
            let call = if inputs_stay { "step" } else { "step, and the archive wrote to its inputs" };
            let input = format!("{call}\nimage   {}\nevent   {}\nbefore  {}", hex(image), hex(event), hex(before));
            self.differ(&input, (expected, &expected_buffer), (got, &got_buffer));
        }
        self.comparisons += 1;
        self.note(expected, event);
        let buffer = got_buffer[GUARD..GUARD + before.len()].to_vec();
        let image = (expected & 0xFF == 0).then(|| buffer[..(expected >> 24) as usize].to_vec());
        Stepped { number: expected, image, buffer }
    }

    pub fn fresh(&mut self, room: usize) {
        let before = vec![0xA5; room];
        let (expected, expected_buffer) = with_guard(&before, host::fresh);
        let (got, got_buffer) = with_guard(&before, archive::fresh);
        if (expected, &expected_buffer) != (got, &got_buffer) {
            self.differ(&format!("fresh\nroom    {room}"), (expected, &expected_buffer), (got, &got_buffer));
        }
        self.comparisons += 1;
    }

    pub fn depth(&mut self, image: &[u8], node: u8, object: u8) {
        let (expected, got) = (host::depth(image, node, object), archive::depth(image, node, object));
        if expected != got {
            let input = format!("depth\nimage   {}\nnode    {node}\nobject  {object}", hex(image));
            self.differ(&input, (expected, &[]), (got, &[]));
        }
        self.comparisons += 1;
    }

    pub fn check(&mut self, image: &[u8]) {
        let (expected, got) = (host::check(image), archive::check(image));
        if expected != got {
            self.differ(&format!("check\nimage   {}", hex(image)), (expected, &[]), (got, &[]));
        }
        self.comparisons += 1;
    }

    fn note(&mut self, number: u64, event: &[u8]) {
        let answer = (number & 0xFF) as usize;
        self.steps_by_answer[answer] += 1;
        if answer == 0 {
            self.accepted_by_kind[usize::from(event[2])] += 1;
        }
    }

    /// Tells all that is needed to see the difference again, and ends the program.
    pub fn differ(&self, input: &str, expected: (u64, &[u8]), got: (u64, &[u8])) -> ! {
        println!("DIFFERENCE in {}, seed {}, after {} comparisons that agreed", self.part, self.seed, self.comparisons);
        println!("call    {input}");
        println!("model   {} {}", in_parts(expected.0), hex(expected.1));
        println!("archive {} {}", in_parts(got.0), hex(got.1));
        if let Some(at) = expected.1.iter().zip(got.1).position(|(one, other)| one != other) {
            println!("the buffers, shown with {GUARD} guard bytes on either side, differ first at byte {at}");
        }
        std::process::exit(1);
    }
}

/// The parts of a call's number.
fn in_parts(number: u64) -> String {
    format!("answer {} value {} length {}", number & 0xFF, number >> 8 & 0xFFFF, number >> 24)
}

/// The number of a call, and its buffer after it with the guard bytes around.
fn with_guard(before: &[u8], call: impl FnOnce(&mut [u8]) -> u64) -> (u64, Vec<u8>) {
    let guard = [0x5A; GUARD];
    let mut whole = [&guard[..], before, &guard[..]].concat();
    let number = call(&mut whole[GUARD..GUARD + before.len()]);
    (number, whole)
}
