//! What owns its words or its bytes: the part of the crate that needs an allocator.

mod copy;
mod index;
mod message;
mod runs;
mod soundings;
mod written;

pub use copy::WorkingCopy;
pub use index::Index;
pub use message::Message;
pub use runs::*;
pub use soundings::*;
pub use written::*;
