//! The saved image's writer.

use crate::limits::NOTHING;
use crate::record::Kind;
use crate::refusal::Refusal;
use crate::shape::in_shape;
use crate::table::{Directory, Load, Message, Remote, Slot, Table};

/// Writes the image at the start of `out` and gives its length. Refused, nothing is written; accepted, bytes past the image stay.
pub fn write(table: &Table, out: &mut [u8]) -> Result<usize, Refusal> {
    if !in_shape(table) {
        return Err(Refusal::Shape);
    }
    let image = image_of(table);
    let lent = out.get_mut(..image.len()).ok_or(Refusal::Room)?;
    lent.copy_from_slice(&image);
    Ok(image.len())
}

/// The image of a table in shape.
fn image_of(table: &Table) -> Vec<u8> {
    let mut image = Vec::new();
    put_record(&mut image, Kind::Count, &number(table.count));
    for (object, fields) in &table.live {
        put_record(&mut image, Kind::Live, &slots_payload(*object, fields));
    }
    for (node, roots) in (0..).zip(&table.roots) {
        put_record(&mut image, Kind::Roots, &slots_payload(node, roots));
    }
    for (object, directory) in &table.directories {
        put_record(&mut image, Kind::Directory, &directory_payload(*object, directory));
    }
    for ((node, object), remote) in &table.remotes {
        put_record(&mut image, Kind::Remote, &remote_payload(*node, *object, remote));
    }
    for (place, message) in &table.messages {
        let (kind, payload) = message_record(*place, message);
        put_record(&mut image, kind, &payload);
    }
    put_record(&mut image, Kind::End, &[]);
    image
}

fn put_record(image: &mut Vec<u8>, kind: Kind, payload: &[u8]) {
    assert_eq!(payload.len(), kind.payload_bytes(), "the payload of {kind:?}");
    let length = payload.len() as u16;
    image.extend(length.to_le_bytes());
    image.extend(kind.number().to_le_bytes());
    image.extend(payload);
}

fn slots_payload(key: u8, slots: &[Slot]) -> Vec<u8> {
    let mut payload = vec![key];
    payload.extend(slots.iter().map(|slot| slot.unwrap_or(NOTHING)));
    payload
}

fn directory_payload(object: u8, directory: &Directory) -> Vec<u8> {
    [vec![object], number(directory.rc), number(directory.msg_ctr)].concat()
}

fn remote_payload(node: u8, object: u8, remote: &Remote) -> Vec<u8> {
    [
        vec![node, object],
        number(remote.rc),
        vec![remote.parent, u8::from(remote.presence)],
        number(remote.msg_ctr),
        number(remote.ref_weight),
    ]
    .concat()
}

fn message_record(place: u8, message: &Message) -> (Kind, Vec<u8>) {
    let head = vec![place, message.from, message.to, message.object];
    match message.load {
        Load::Reference => (Kind::Reference, head),
        Load::Decrement { returns, weight } => (Kind::Decrement, [head, number(returns), number(weight)].concat()),
    }
}

/// Four bytes, little-endian, two's complement: in shape every number fits into them.
fn number(value: i64) -> Vec<u8> {
    (value as i32).to_le_bytes().to_vec()
}
