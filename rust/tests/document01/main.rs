//! The crate on document 01's meshes and rules. What is expected stands in document 01, or follows from it by hand.

mod buffers;
mod frames;
mod limits;
mod meshes;
mod refusals;
mod shapes;
