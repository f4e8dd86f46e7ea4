//! What is measured on an input: the verified archive, the independent model, and as the limit of both a plain copy of the bytes.

use crate::inputs::Input;
use std::hint::black_box;

#[derive(Clone, Copy, Debug, PartialEq, Eq)]
pub enum Engine {
    Archive,
    Model,
    Copy,
}

pub const ENGINES: [Engine; 3] = [Engine::Archive, Engine::Model, Engine::Copy];

/// An input with all the memory that calls on it need, so that no call has to ask for any.
pub struct Bench {
    pub input: Input,
    /// The bytes that a call gives: the new image, or none.
    given: Vec<u8>,
    /// Where the copy puts the bytes that a call takes.
    taken: Vec<u8>,
    out: Vec<u8>,
}

impl Engine {
    pub fn named(name: &str) -> Option<Engine> {
        match name {
            "archive" => Some(Engine::Archive),
            "model" => Some(Engine::Model),
            "copy" => Some(Engine::Copy),
            _ => None,
        }
    }
}

impl Bench {
    /// Measuring what goes wrong would be worth nothing, so the engines have to agree and the answer has to be the one expected.
    pub fn new(input: Input, answer: u8) -> Bench {
        let (mut out, mut by_model) = (vec![0; input.room], vec![0; input.room]);
        let number = archive::step(&input.image, &input.event, &mut out);
        assert_eq!(number, field_model::host::step(&input.image, &input.event, &mut by_model), "the numbers of archive and model");
        assert!(out == by_model, "archive and model write different bytes");
        assert_eq!(number & 0xFF, u64::from(answer), "the answer");
        let given = out[..(number >> 24) as usize].to_vec();
        let taken = vec![0; input.image.len()];
        Bench { input, given, taken, out }
    }

    pub fn bytes_out(&self) -> usize {
        self.given.len()
    }

    pub fn call(&mut self, engine: Engine, calls: usize) {
        match engine {
            Engine::Archive => self.repeat(calls, archive::step),
            Engine::Model => self.repeat(calls, field_model::host::step),
            Engine::Copy => self.copy(calls),
        }
    }

    // What goes into a call and what comes out of it passes through `black_box`, so that no call can be left out or done once for all.

    fn repeat(&mut self, calls: usize, step: impl Fn(&[u8], &[u8], &mut [u8]) -> u64) {
        for _ in 0..calls {
            black_box(step(black_box(&self.input.image), black_box(&self.input.event), black_box(&mut self.out)));
        }
    }

    fn copy(&mut self, calls: usize) {
        for _ in 0..calls {
            black_box(&mut self.taken).copy_from_slice(black_box(&self.input.image));
            black_box(&mut self.out)[..self.given.len()].copy_from_slice(black_box(&self.given));
        }
    }
}
