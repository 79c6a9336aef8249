/// The sizes that documents 01 and 02 name. A mesh above them is refused with [`Refusal::TooLarge`](crate::Refusal::TooLarge).
#[derive(Clone, Copy, Debug)]
pub struct Limits;

impl Limits {
    /// The most triangles of a mesh.
    pub const TRIANGLES: usize = 16_384;
    /// The most triangles of a mesh that is split.
    pub const SPLIT_TRIANGLES: usize = 4_096;
    /// The most vertices of a mesh.
    pub const VERTICES: usize = 32_767;
    /// The most levels that are undone in one call.
    pub const LEVELS: usize = 7;
    /// The most bytes that the program `unsplit` reads.
    pub const PROGRAM_BYTES: usize = 16_396;
    /// The largest corner that an index text may name. One above it is refused with
    /// [`Refusal::TextNotAsRequired`](crate::Refusal::TextNotAsRequired).
    pub const CORNER: usize = 65_535;
}
