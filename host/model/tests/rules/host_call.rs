//! The host call: the order of its refusals, its number, and its buffer.

use field_model::host::{check, depth, fresh, step};

const NEW_0_0: [u8; 8] = [4, 0, 1, 0, 0, 0, 0, 0];
const LENGTH_UNIT: u64 = 16_777_216;

fn fresh_image() -> Vec<u8> {
    let mut image = vec![0; 116];
    assert_eq!(fresh(&mut image), 116 * LENGTH_UNIT);
    image
}

#[test]
fn fresh_needs_116_bytes_and_touches_no_more() {
    let mut short = [7; 115];
    assert_eq!(fresh(&mut short), 26);
    assert_eq!(short, [7; 115]);
    let mut long = [7; 117];
    assert_eq!(fresh(&mut long), 116 * LENGTH_UNIT);
    assert_eq!((long[0], long[116]), (4, 7));
}

#[test]
fn the_number_holds_answer_value_and_length() {
    let mut out = [0; 200];
    let new_on_node_3 = [4, 0, 1, 0, 3, 0, 0, 0];
    assert_eq!(step(&fresh_image(), &new_on_node_3, &mut out), 256 * 24 + 125 * LENGTH_UNIT);
    assert_eq!(check(&out[..125]), 0);
    assert_eq!(check(&out), 25);
}

#[test]
fn the_reader_comes_first_the_event_next_and_the_buffer_last() {
    let image = fresh_image();
    let unknown_kind = [4, 0, 77, 0, 0, 0, 0, 0];
    let send_of_nothing = [4, 0, 6, 0, 0, 0, 1, 0];
    assert_eq!(step(&image[..115], &unknown_kind, &mut []), 20);
    assert_eq!(step(&image, &unknown_kind, &mut []), 2);
    assert_eq!(step(&image, &send_of_nothing, &mut []), 6);
    assert_eq!(step(&image, &NEW_0_0, &mut []), 26);
    let mut short = [7; 124];
    assert_eq!(step(&image, &NEW_0_0, &mut short), 26);
    assert_eq!(short, [7; 124]);
    assert_eq!(step(&image, &NEW_0_0, &mut [7; 125]), 125 * LENGTH_UNIT);
}

#[test]
fn an_event_record_is_eight_bytes_that_state_length_four() {
    let image = fresh_image();
    let mut out = [0; 200];
    for cut in 0..8 {
        assert_eq!(step(&image, &NEW_0_0[..cut], &mut out), 2);
    }
    assert_eq!(step(&image, &[NEW_0_0, NEW_0_0].concat(), &mut out), 2);
    for (at, byte) in [(0, 3), (0, 5), (1, 1), (3, 1)] {
        let mut record = NEW_0_0;
        record[at] = byte;
        assert_eq!(step(&image, &record, &mut out), 2);
    }
    assert_eq!(out, [0; 200]);
}

#[test]
fn depth_tells_the_readers_refusal_or_the_report() {
    let mut image = fresh_image();
    assert_eq!(depth(&image, 0, 0), 256 * 255);
    for event in [NEW_0_0, [4, 0, 6, 0, 0, 0, 3, 0], [4, 0, 7, 0, 0, 0, 0, 0]] {
        let mut out = vec![0; 200];
        let length = step(&image, &event, &mut out) / LENGTH_UNIT;
        out.truncate(length as usize);
        image = out;
    }
    assert_eq!([depth(&image, 0, 0), depth(&image, 3, 0), depth(&image, 4, 0)], [0, 256, 256 * 255]);
    assert_eq!(depth(&image[1..], 0, 0), 21);
}
