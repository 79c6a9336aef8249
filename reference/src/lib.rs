//! An independent implementation of Flatcarol: a plain rendering of document 01, and of the requests 101 to 105 of document 02, to be
//! checked against them sentence by sentence. It shares no code with the proved library, and is compared with it.

pub mod calls;
pub mod exhaustive;
pub mod frames;
pub mod index;
pub mod mesh;
pub mod program;
pub mod reading;
pub mod splitting;
pub mod spreading;

pub use calls::{proper, reading_in, split, undo_one, undo_several, Answer, FramesAnswer, One, OneRoom, Reading, Search, Several};
pub use frames::{read_frames, write_frames};
pub use index::{read_index, write_index};
pub use program::program;
pub use reading::Rule;
