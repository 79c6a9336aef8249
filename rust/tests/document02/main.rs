//! The crate on document 02's requests. What is expected stands in a request, or follows from it by hand.

mod edge_counts;
mod figure;
mod index_read;
mod index_written;
mod inside_out;
#[path = "../document01/shapes.rs"]
mod shapes;
mod spellings;
