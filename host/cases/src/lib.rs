//! The stored host calls of `tests/host-data/host.cases.gz`, each with the number and the buffer that it must give.
//!
//! The file was made outside this project. Unpacked: the magic `FHC1`, the number of cases, then for each, little-endian: image length,
//! event length, buffer length and the byte that fills the buffer before the call (4 bytes each), the expected number (8), the image, the
//! event, and the buffer after the call.
#![forbid(unsafe_code)]

use std::path::Path;
use std::process::Command;

pub struct HostCase {
    pub image: Vec<u8>,
    pub event: Vec<u8>,
    pub buffer_before: Vec<u8>,
    pub number: u64,
    pub buffer_after: Vec<u8>,
}

/// All stored cases. They are part of the repository, so a file that is missing or cut is an error worth a panic.
pub fn stored_cases() -> Vec<HostCase> {
    let unpacked = unpack(&Path::new(env!("CARGO_MANIFEST_DIR")).join("../../tests/host-data/host.cases.gz"));
    let mut bytes = Bytes { left: &unpacked };
    assert_eq!(bytes.take(4), b"FHC1", "the magic of the stored cases");
    let cases: Vec<HostCase> = (0..bytes.number()).map(|_| bytes.case()).collect();
    assert!(bytes.left.is_empty(), "bytes after the last stored case");
    cases
}

/// The standard library has no reader for gzip, every machine that builds this has the program.
fn unpack(packed: &Path) -> Vec<u8> {
    let output = Command::new("gzip").arg("-dc").arg(packed).output().expect("gzip runs");
    assert!(output.status.success(), "gzip: {}", String::from_utf8_lossy(&output.stderr));
    output.stdout
}

struct Bytes<'a> {
    left: &'a [u8],
}

impl<'a> Bytes<'a> {
    fn take(&mut self, count: usize) -> &'a [u8] {
        assert!(count <= self.left.len(), "the stored cases are cut");
        let (taken, left) = self.left.split_at(count);
        self.left = left;
        taken
    }

    fn number(&mut self) -> usize {
        self.take(4).iter().rev().fold(0, |number, byte| number * 256 + usize::from(*byte))
    }

    fn case(&mut self) -> HostCase {
        let image_length = self.number();
        let event_length = self.number();
        let buffer_length = self.number();
        let fill = u8::try_from(self.number()).expect("a fill byte");
        let number = self.take(8).iter().rev().fold(0, |number, byte| number * 256 + u64::from(*byte));
        HostCase {
            image: self.take(image_length).to_vec(),
            event: self.take(event_length).to_vec(),
            buffer_before: vec![fill; buffer_length],
            number,
            buffer_after: self.take(buffer_length).to_vec(),
        }
    }
}
