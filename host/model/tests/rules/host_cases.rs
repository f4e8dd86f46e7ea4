//! Every stored host call gives the stored number and leaves the stored buffer.

use field_model::host;
use host_cases::stored_cases;

#[test]
fn every_stored_call_gives_the_stored_number_and_buffer() {
    let cases = stored_cases();
    for (index, case) in cases.iter().enumerate() {
        let mut buffer = case.buffer_before.clone();
        assert_eq!(host::step(&case.image, &case.event, &mut buffer), case.number, "the number of case {index}");
        assert_eq!(buffer, case.buffer_after, "the buffer of case {index}");
    }
    assert_eq!(cases.len(), 5583);
}
