//! The H.264 byte-stream layer, proved: escaping, bits, Annex B framing and slice groups, behind the names of h264-reader.
//!
//! The work is done by a static library that is written in Rattle and proved against its contracts; this crate lends it slices and turns its
//! numbers into Rust's types. Nothing here panics on any input, and a refusal leaves the reader or writer as it was.
//!
//! A recorder that wants the units of a stream, and their payloads:
//!
//! ```
//! use dampfeather::{decode_nal, units};
//!
//! let stream = b"\x00\x00\x00\x01\x68\x12\x34\x00\x00\x03\x00\x86\x00\x00\x01\x09\x10";
//! let units: Vec<Vec<u8>> = units(&stream[..]).collect::<Result<_, _>>().unwrap();
//! assert_eq!(units, [&b"\x68\x12\x34\x00\x00\x03\x00\x86"[..], b"\x09\x10"]);
//! assert_eq!(decode_nal(&units[0]).unwrap(), &b"\x12\x34\x00\x00\x00\x86"[..]);
//! ```
//!
//! * Of a stream: [`units()`] and [`Units::next_unit`], [`UnescapingReader`], [`EscapingWriter`]. An error of what stands behind them loses nothing.
//! * Of slices, a push at a time: [`AnnexBReader`], [`ByteReader`], [`ByteWriter`]; at once: [`decode_nal`].
//! * Of fields: [`BitReader`], [`BitWriter`], [`SliceGroup`].
//!
//! Readers and writers of slices are plain data, which can be kept and taken up again. [`raw`] has the exported functions themselves.
#![warn(missing_docs)]

mod bits;
mod error;
mod escaping;
mod escaping_writer;
mod framing;
mod groups;
pub mod raw;
mod unescaping_reader;
mod units;

pub use bits::{golomb_to_signed, BitReader, BitWriter, BitWriterState};
pub use error::Error;
pub use escaping::{decode_nal, decode_nal_into, ByteReader, ByteWriter, ParseState, Pushed};
pub use escaping_writer::EscapingWriter;
pub use framing::{AnnexBReader, Framed};
pub use groups::{read_num_ref_idx, Geometry, SliceGroup, SliceGroupChangeType, SliceRect};
pub use unescaping_reader::UnescapingReader;
pub use units::{units, Units};

/// The most elements of a slice that is handed to the library: one of more is [`Error::TooLong`]. Streams may be of any length.
pub const MOST: usize = 16_777_216;

/// The example of README.md, to be run with the others.
#[cfg(doctest)]
#[doc = include_str!("../README.md")]
struct Readme;
