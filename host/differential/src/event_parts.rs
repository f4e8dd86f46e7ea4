//! The parts of the comparison in which the images are good and the events vary.

use crate::choose::{likely_event, record, wild_event, Weights, EDGE_BYTES, KINDS};
use crate::compare::{Comparer, LARGEST};
use crate::random::Random;
use crate::tables::{chained, grown, image_of, made_by_hand};
use field_model::limits::{NODES, OBJECTS};
use field_model::reader::read;
use field_model::table::Table;

/// Clears root 0 of node 0: an event that every sound image accepts.
pub const CLEAR_0_0: [u8; 8] = [4, 0, 3, 0, 0, 0, 0, 0];

/// Operands of each kind: how many numbers each of the four can be.
const RANGES: [(u16, [u8; 4]); 10] = [
    (1, [8, 8, 1, 1]),
    (2, [8, 8, 8, 1]),
    (3, [8, 8, 1, 1]),
    (4, [8, 8, 8, 4]),
    (5, [8, 8, 4, 8]),
    (6, [8, 8, 8, 1]),
    (7, [64, 8, 1, 1]),
    (8, [64, 1, 1, 1]),
    (9, [8, 1, 1, 1]),
    (10, [8, 64, 1, 1]),
];

/// Long runs from the fresh state, each image fed into the next call; now and then with a buffer that is exact or too short.
pub fn long_runs(comparer: &mut Comparer, random: &mut Random, scale: usize) {
    for _ in 0..60 * scale {
        let weights = Weights::drawn(random);
        let mut table = Table::fresh();
        let mut image = image_of(&table);
        for _ in 0..1000 {
            let kind = weights.kind(random);
            let event = if random.chance(92) { likely_event(random, &table, kind) } else { wild_event(random) };
            let room = if random.chance(90) { LARGEST } else { image.len() - 20 + random.below(40) };
            if let Some(next) = comparer.step(&image, &event, room).image {
                image = next;
                table = read(&image).expect("the writer's image");
            }
            if random.chance(10) {
                comparer.check(&image);
                comparer.depth(&image, random.byte_below(NODES), random.byte_below(OBJECTS));
            }
        }
    }
}

/// Every event with operands in range, on the fresh table, on grown ones and on ones made by hand.
pub fn every_event(comparer: &mut Comparer, random: &mut Random, scale: usize) {
    let mut tables = vec![Table::fresh()];
    for index in 0..4 * scale {
        tables.push(grown(random, 150 + 100 * index));
        tables.push(made_by_hand(random, [4, 8, 15, 30][index % 4]));
    }
    for table in tables {
        let image = image_of(&table);
        for (kind, counts) in RANGES {
            let [a, b, c, d] = counts.map(usize::from);
            for number in 0..a * b * c * d {
                let operands = [number / (b * c * d), number / (c * d) % b, number / d % c, number % d];
                comparer.step(&image, &record(kind, operands.map(|operand| operand as u8)), LARGEST);
            }
        }
    }
}

/// Events that fit on tables whose parts contradict each other.
pub fn torn_tables(comparer: &mut Comparer, random: &mut Random, scale: usize) {
    for index in 0..600 * scale {
        let table = made_by_hand(random, [2, 5, 10, 20, 40][index % 5]);
        let image = image_of(&table);
        for _ in 0..40 {
            let kind = Weights::even().kind(random);
            comparer.step(&image, &likely_event(random, &table, kind), LARGEST);
        }
    }
}

/// Operands at and past their limits, in every position and in any combination; every one of the 65,536 kinds.
pub fn hostile_events(comparer: &mut Comparer, random: &mut Random, scale: usize) {
    let image = image_of(&grown(random, 60));
    for kind in KINDS {
        for position in 0..4 {
            for byte in 0..=u8::MAX {
                let mut operands = [0; 4];
                operands[position] = byte;
                comparer.step(&image, &record(kind, operands), LARGEST);
            }
        }
        for _ in 0..1000 * scale {
            let operands = [(); 4].map(|()| random.pick(&EDGE_BYTES));
            comparer.step(&image, &record(kind, operands), LARGEST);
        }
    }
    let fresh = image_of(&Table::fresh());
    for kind in 0..=u16::MAX {
        comparer.step(&fresh, &record(kind, [0; 4]), LARGEST);
    }
}

/// Slices that aren't one event record: too short, too long, with another length in them, also beside a damaged image.
pub fn event_records(comparer: &mut Comparer, random: &mut Random, _scale: usize) {
    let image = image_of(&grown(random, 60));
    let cut_image = &image[..image.len() - 1];
    for kind in KINDS {
        let good = record(kind, [0; 4]);
        let long = [good, good, good].concat();
        for length in 0..=long.len() {
            comparer.step(&image, &long[..length], LARGEST);
            comparer.step(cut_image, &long[..length], LARGEST);
        }
        for position in 0..4 {
            for byte in 0..=u8::MAX {
                let mut changed = good;
                changed[position] = byte;
                comparer.step(&image, &changed, LARGEST);
            }
        }
    }
    for length in 0..300 {
        comparer.step(&image, &random.bytes(length), LARGEST);
    }
}

/// Depths of all nodes and objects, and of numbers outside.
pub fn depths(comparer: &mut Comparer, random: &mut Random, scale: usize) {
    for index in 0..14 * scale {
        let table = match index % 3 {
            0 => grown(random, 300),
            1 => made_by_hand(random, [10, 30, 60, 95][index / 3 % 4]),
            _ => chained(random),
        };
        let image = image_of(&table);
        for node in 0..=NODES {
            for object in 0..=OBJECTS {
                comparer.depth(&image, node, object);
            }
        }
        for _ in 0..20 {
            comparer.depth(&image, random.pick(&EDGE_BYTES), random.pick(&EDGE_BYTES));
            comparer.depth(&image[..random.below(image.len())], random.byte(), random.byte());
        }
    }
}
