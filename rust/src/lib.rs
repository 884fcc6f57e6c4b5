#![doc = include_str!("../README.md")]

mod arw;
mod decode;
mod digest;
mod error;
mod ffi;
mod lengths;
mod record;
mod recovery;
mod refusal;
mod sha256;
mod tiles;
mod write;

pub use arw::{find_raw_image, is_tiff, ArwError, RawImage};
pub use decode::{decode_stream, decode_stream_into, Buffers, Decoded, DecodedTile, Plane, TilePlanes};
pub use digest::digest;
pub use error::Error;
pub use lengths::Lengths;
pub use record::{inspect_record, inspect_record_into, records, Record, RecordState};
pub use recovery::{Cause, Colour, Fault, Span};
pub use refusal::{meaning, Refusal};
pub use tiles::{find_streams, TileStream};
pub use write::{find_fault, longest_stream, write_stream, write_stream_into};
