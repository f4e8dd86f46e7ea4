//! An independent model of the field table, its events, its saved image and the host call.
//!
//! It was written from document 01 and the project's readings of it alone, without looking into `crates/`: it shares no type, no file and
//! no order of work with the verified code. Where the two agree, it is because both follow the document.
//!
//! It is meant to be read beside document 01 and is kept simple rather than fast.
#![forbid(unsafe_code)]

pub mod collect;
pub mod depth;
pub mod events;
pub mod heap_events;
pub mod host;
pub mod limits;
pub mod message_events;
pub mod reader;
pub mod record;
pub mod refusal;
pub mod shape;
pub mod table;
pub mod writer;
