//! The parts of the comparison in which images are damaged or buffers too short, and the stored calls.

use crate::choose::{likely_event, wild_event, Weights};
use crate::compare::{Comparer, LARGEST};
use crate::damage::{records_of, some_record, some_records, swapped, with_record, without_record};
use crate::event_parts::CLEAR_0_0;
use crate::random::Random;
use crate::tables::{grown, image_of, largest, made_by_hand};
use field_model::limits::LIMIT;
use field_model::table::Table;
use host_cases::stored_cases;

/// Images of all sorts that are small enough to be damaged everywhere.
fn small_images(random: &mut Random) -> Vec<Vec<u8>> {
    let tables = [Table::fresh(), grown(random, 25), grown(random, 80), made_by_hand(random, 3), made_by_hand(random, 6)];
    tables.iter().map(image_of).collect()
}

/// Every stored call, compared with what is stored as well.
pub fn stored(comparer: &mut Comparer, _random: &mut Random, _scale: usize) {
    for case in stored_cases() {
        let stepped = comparer.step_into(&case.image, &case.event, &case.buffer_before);
        if (stepped.number, &stepped.buffer) != (case.number, &case.buffer_after) {
            comparer.differ("a stored case: both differ from it", (case.number, &case.buffer_after), (stepped.number, &stepped.buffer));
        }
    }
}

/// The fresh image into buffers of all small lengths and some large ones.
pub fn fresh_images(comparer: &mut Comparer, _random: &mut Random, _scale: usize) {
    for room in (0..400).chain([LARGEST - 1, LARGEST, LARGEST + 1, 65_535, 65_536, 1_000_000]) {
        comparer.fresh(room);
    }
}

/// Images cut after every byte, and with bytes after their end.
pub fn cut_images(comparer: &mut Comparer, random: &mut Random, scale: usize) {
    for _ in 0..scale {
        for image in small_images(random) {
            for length in 0..=image.len() {
                comparer.check(&image[..length]);
                comparer.step(&image[..length], &wild_event(random), LARGEST);
                comparer.depth(&image[..length], 0, 0);
            }
            for extra in 1..40 {
                comparer.step(&[&image[..], &random.bytes(extra)].concat(), &CLEAR_0_0, LARGEST);
                comparer.check(&[&image[..], &vec![0; extra]].concat());
            }
        }
    }
    let image = image_of(&largest(random));
    for length in 0..=image.len() {
        comparer.check(&image[..length]);
    }
}

/// Images with one byte changed, at every byte.
pub fn changed_bytes(comparer: &mut Comparer, random: &mut Random, scale: usize) {
    for _ in 0..scale {
        for mut image in small_images(random) {
            for at in 0..image.len() {
                let was = image[at];
                let near = [was ^ 1, was ^ 0x80, was.wrapping_add(1), was.wrapping_sub(1)];
                for byte in near.into_iter().chain([0, 1, 8, 64, 255, random.byte(), random.byte()]) {
                    image[at] = byte;
                    comparer.step(&image, &CLEAR_0_0, LARGEST);
                }
                image[at] = was;
            }
        }
    }
    let mut image = image_of(&largest(random));
    for at in 0..image.len() {
        let was = image[at];
        image[at] = random.byte();
        comparer.check(&image);
        image[at] = was;
    }
}

/// Images with numbers at and past the limits written over any four bytes, so that every count of every record is met.
pub fn edge_numbers(comparer: &mut Comparer, random: &mut Random, scale: usize) {
    let limit = LIMIT as i32;
    for _ in 0..scale {
        for image in small_images(random) {
            for at in 4..=image.len() - 4 {
                for number in [-1, limit - 1, limit, limit + 1, -limit, -limit - 1, i32::MIN, i32::MAX] {
                    let mut changed = image.clone();
                    changed[at..at + 4].copy_from_slice(&number.to_le_bytes());
                    comparer.step(&changed, &CLEAR_0_0, LARGEST);
                }
            }
        }
    }
}

/// Images with records in each other's place, twice, missing, or with a strange record among them.
pub fn moved_records(comparer: &mut Comparer, random: &mut Random, scale: usize) {
    for _ in 0..scale {
        for image in small_images(random) {
            let records = records_of(&image);
            for one in 0..records.len() {
                comparer.step(&without_record(&records, one), &CLEAR_0_0, LARGEST);
                for other in 0..records.len() {
                    comparer.step(&swapped(&records, one, other), &CLEAR_0_0, LARGEST);
                    comparer.step(&with_record(&records, one, &records[other]), &CLEAR_0_0, LARGEST);
                }
                for _ in 0..40 {
                    comparer.step(&with_record(&records, one, &some_record(random)), &CLEAR_0_0, LARGEST);
                }
            }
        }
    }
}

/// Bytes that were never an image.
pub fn random_bytes(comparer: &mut Comparer, random: &mut Random, scale: usize) {
    for _ in 0..8000 * scale {
        let length = random.below(200);
        let bytes = random.bytes(length);
        comparer.check(&bytes);
        comparer.step(&some_records(random), &wild_event(random), LARGEST);
        comparer.check(&some_records(random));
    }
}

/// Buffers of every length around what the new image needs, and of every length below for small images.
pub fn buffers(comparer: &mut Comparer, random: &mut Random, scale: usize) {
    for _ in 0..scale {
        for image in small_images(random) {
            for room in 0..image.len() + 40 {
                comparer.step(&image, &CLEAR_0_0, room);
            }
        }
    }
    for index in 0..40 * scale {
        let table = if index % 2 == 0 { grown(random, 200) } else { made_by_hand(random, [10, 50, 90, 100][index / 2 % 4]) };
        let image = image_of(&table);
        for _ in 0..10 {
            let kind = Weights::even().kind(random);
            let event = likely_event(random, &table, kind);
            for room in image.len() - 25..=image.len() + 25 {
                comparer.step(&image, &event, room);
            }
        }
    }
}
