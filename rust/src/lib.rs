#![doc = include_str!("../README.md")]
#![warn(missing_docs)]
#![deny(unsafe_code)]

mod calls;
mod limits;
mod mesh;
// Not for apps: the bare calls, for whoever measures them.
#[allow(unsafe_code)]
#[doc(hidden)]
pub mod raw;
mod refusal;
mod room;

pub use calls::{
    index_entries_at_most, read_frames, read_index, split, undo_one, undo_several, write_frames, write_index, Asked, Counts,
    ReadingCounts, SplitCounts, TextCounts, UndoneCounts,
};
pub use limits::Limits;
pub use mesh::{Mesh, Reading, Split, Undone};
#[doc(inline)]
pub use raw::OneOutputs;
pub use refusal::Refusal;
pub use room::Room;

// The examples of the page on the calls are documentation tests too.
#[cfg(doctest)]
#[doc = include_str!("../../docs/CALLS.md")]
struct CallsPage;
