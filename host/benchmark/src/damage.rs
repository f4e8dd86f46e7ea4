//! Images that the reader refuses, one for each of its reasons. Damage inside an image is at its middle remote entry: of the typical image
//! two thirds have been read by then.

const HEADER_BYTES: usize = 4;
const REMOTE_ENTRY: [u8; HEADER_BYTES] = [16, 0, 0x04, 0x01];
const REMOTE_ENTRY_BYTES: usize = 20;

/// Node, object and RC stand before Parent.
const PARENT_AT: usize = HEADER_BYTES + 6;

pub fn nothing_left(_image: &[u8]) -> Vec<u8> {
    Vec::new()
}

pub fn last_byte_gone(image: &[u8]) -> Vec<u8> {
    image[..image.len() - 1].to_vec()
}

pub fn one_byte_more(image: &[u8]) -> Vec<u8> {
    [image, &[0]].concat()
}

pub fn unknown_kind(image: &[u8]) -> Vec<u8> {
    let mut changed = image.to_vec();
    changed[middle_entry(image) + 3] = 0x02;
    changed
}

pub fn another_length(image: &[u8]) -> Vec<u8> {
    let mut changed = image.to_vec();
    changed[middle_entry(image)] += 1;
    changed
}

/// The entry stands there a second time, so its key doesn't rise.
pub fn record_twice(image: &[u8]) -> Vec<u8> {
    let after = middle_entry(image) + REMOTE_ENTRY_BYTES;
    [&image[..after], &image[after - REMOTE_ENTRY_BYTES..]].concat()
}

/// The entry's node has itself for a Parent.
pub fn own_parent(image: &[u8]) -> Vec<u8> {
    let entry = middle_entry(image);
    let mut changed = image.to_vec();
    changed[entry + PARENT_AT] = image[entry + HEADER_BYTES];
    changed
}

/// Where the middle one of the remote entries begins.
fn middle_entry(image: &[u8]) -> usize {
    let mut entries = Vec::new();
    let mut at = 0;
    while at < image.len() {
        if image[at..].starts_with(&REMOTE_ENTRY) {
            entries.push(at);
        }
        at += HEADER_BYTES + usize::from(image[at]);
    }
    entries[entries.len() / 2]
}
