//! Capgauze: a proved reader and writer of Bilrost messages.
//!
//! Every function here calls entries of the static library that `tools/build.sh library` proves and writes (x86-64
//! Linux); the types only put names on its numbers. No wrapper refuses anything itself. A refused call leaves all that
//! it was lent as it was. Over an archive of this version nothing panics. The crate needs neither `std` nor, without the
//! feature `alloc`, an allocator.
//!
//! With `alloc`, which is there by default, a message is read by one call. [`Message`] owns the table of its records, and
//! payloads are parts of the bytes, not copies:
//!
//! ```
//! use capgauze::{Message, Value};
//!
//! let bytes = [0x04, 0xFF, 0xFE, 0xFE, 0xFE, 0xFE, 0xFE, 0xFE, 0xFE, 0xFE, 0x09, 0x02, 0xC0, 0xDE];
//! let message = Message::read(&bytes)?;
//! let tags: Vec<u32> = message.fields().map(|field| field.tag).collect();
//! assert_eq!(tags, [1, 3]);
//! assert_eq!(message.field(0).unwrap().value, Value::Varint(u64::MAX));
//! assert_eq!(message.payload(1), Some(&[0xC0, 0xDE][..]));
//! # Ok::<(), capgauze::RefusedRead>(())
//! ```
//!
//! [`soundings`] reads lines of hexadecimal, a balloon sounding a line, and [`graded_soundings`] those of the second edition. A value that no
//! sensor measured is `None`, and a line that is refused is an `Err` in its place. [`Index`] looks tags up in a stored message, [`corrected`]
//! applies a correction, [`pack_varints`] and its like make packed runs, [`WorkingCopy`] is edited for hours.
//!
//! Without `alloc` all is lent. A message is read into a table, five words a record ([`Record`]); records are written from
//! one. Half as many records as a message has bytes always suffice; of the longest message that is a table of 21 MB, which
//! does not belong onto a thread's stack. A table of no words is refused as NoRoom with the number of records that are needed.
//!
//! ```
//! use capgauze::{payload_of, read_message, Record};
//!
//! let message = [0x04, 0x05, 0x09, 0x02, 0xC0, 0xDE];
//! let mut table = [0; 5 * 3];
//! let read = read_message(&message, 0, message.len(), &mut table)?;
//! assert_eq!(read.count, 2);
//! let level = Record::at(&table, 1).unwrap();
//! assert_eq!((level.tag, payload_of(&message, level)), (3, &[0xC0, 0xDE][..]));
//! # Ok::<(), capgauze::RefusedRead>(())
//! ```
#![no_std]
#![deny(missing_docs)]

// Why each `unsafe` call is right: a pointer and a length come from one slice, so they are never null and span live
// memory; what is lent to be written is a `&mut` slice, so it overlaps nothing else. The library asks nothing else.

#[cfg(not(target_pointer_width = "64"))]
compile_error!("capgauze is for 64-bit lengths");

#[cfg(feature = "alloc")]
extern crate alloc;

mod ffi;
mod words;

mod correct;
mod edit;
mod index;
mod message;
mod numbers;
#[cfg(feature = "alloc")]
mod owned;
mod part;
mod refusal;
mod run;
mod sounding;
mod types;
mod write;

pub use correct::*;
pub use edit::*;
pub use index::*;
pub use message::*;
pub use numbers::*;
#[cfg(feature = "alloc")]
pub use owned::*;
pub use part::*;
pub use refusal::*;
pub use run::*;
pub use sounding::*;
pub use types::*;
pub use write::*;

/// The longest slice that is read, and the longest message that is written.
pub const LIMIT: usize = 1_048_575;

/// The examples of README.md, which are run as the others are.
#[cfg(doctest)]
#[doc = include_str!("../README.md")]
struct Readme;
