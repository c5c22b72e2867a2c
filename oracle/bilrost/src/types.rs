//! Stand-in for the missing `src/types.rs`: a name only. Its associated functions, in
//! `encoding/underived.rs`, are the way out of the crate.

pub struct Blob;
