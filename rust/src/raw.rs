//! The library's calls as C functions, and each behind a safe function on slices. How long the buffers must be is said in
//! docs/ROOM.md; a shorter one is refused.

/// What split answers: the refusal's number and place, or 0, 0 and what is counted of the resulting mesh.
#[repr(C)]
#[derive(Clone, Copy, Debug, Default, PartialEq, Eq)]
pub struct Answer {
    pub refusal: u64,
    pub place: u64,
    pub vertices: u64,
    pub triangles: u64,
    pub edges: u64,
    pub boundary_edges: u64,
}

/// What undo one answers: the same, and the role that triangle 0 has.
#[repr(C)]
#[derive(Clone, Copy, Debug, Default, PartialEq, Eq)]
pub struct OneAnswer {
    pub refusal: u64,
    pub place: u64,
    pub vertices: u64,
    pub triangles: u64,
    pub edges: u64,
    pub boundary_edges: u64,
    pub role: u64,
}

/// What undo several answers: the same as split, how many levels were undone, and the role of each, with 0 in the places behind.
#[repr(C)]
#[derive(Clone, Copy, Debug, Default, PartialEq, Eq)]
pub struct SeveralAnswer {
    pub refusal: u64,
    pub place: u64,
    pub vertices: u64,
    pub triangles: u64,
    pub edges: u64,
    pub boundary_edges: u64,
    pub levels: u64,
    pub roles: [u8; 7],
}

/// What read frames, write frames and read index answer: the refusal's number and place, or 0, 0 and the counts of the mesh that was
/// read or written.
#[repr(C)]
#[derive(Clone, Copy, Debug, Default, PartialEq, Eq)]
pub struct FramesAnswer {
    pub refusal: u64,
    pub place: u64,
    pub vertices: u64,
    pub triangles: u64,
}

/// What write index answers: the same as write frames, and how many bytes were written.
#[repr(C)]
#[derive(Clone, Copy, Debug, Default, PartialEq, Eq)]
pub struct TextAnswer {
    pub refusal: u64,
    pub place: u64,
    pub vertices: u64,
    pub triangles: u64,
    pub bytes: u64,
}

/// The output buffers of undo one.
pub struct OneOutputs<'a> {
    /// For the coarse mesh's list.
    pub mesh: &'a mut [u16],
    /// For the number of each vertex in the splitting of the coarse mesh.
    pub vertex_map: &'a mut [u16],
    /// For the number of each triangle in it.
    pub triangle_map: &'a mut [u16],
}

/// The work buffers of a call.
pub type Work<'a, const N: usize> = [&'a mut [u16]; N];

pub const SPLIT_WORK: usize = 5;
pub const ONE_WORK: usize = 9;
pub const SEVERAL_WORK: usize = 10;

// Declares C functions. After the other arguments of each stand the buffers that it writes and the type of their entries: each is
// an address and a length in entries.
macro_rules! declare {
    ($($call:ident($($argument:ident: $type:ty),*; $entry:ty: $($buffer:ident),*) -> $answer:ty;)*) => {
        extern "C" {
            $(fn $call($($argument: $type,)* $($buffer: *mut $entry, _: usize),*) -> $answer;)*
        }
    };
}

// Calls such a function, where each of the buffers is a slice.
macro_rules! lend {
    ($call:ident($($argument:expr),*; $($buffer:expr),*)) => {
        $call($($argument,)* $($buffer.as_mut_ptr(), $buffer.len()),*)
    };
}

declare! {
    flatcarol_split(vertices: u64, list: *const u16, list_len: usize;
        u16: out, work1, work2, work3, work4, work5) -> Answer;
    flatcarol_undo_one(vertices: u64, list: *const u16, list_len: usize, asked: u64;
        u16: mesh, vertex_map, triangle_map, work1, work2, work3, work4, work5, work6, work7, work8, work9) -> OneAnswer;
    flatcarol_undo_several(vertices: u64, list: *const u16, list_len: usize, asked: u64;
        u16: out, work1, work2, work3, work4, work5, work6, work7, work8, work9, work10) -> SeveralAnswer;
    flatcarol_read_frames(bytes: *const u8, bytes_len: usize; u16: out) -> FramesAnswer;
    flatcarol_write_frames(vertices: u64, list: *const u16, list_len: usize; u8: out) -> FramesAnswer;
    flatcarol_read_index(vertices: u64, text: *const u8, text_len: usize; u16: out) -> FramesAnswer;
    flatcarol_write_index(vertices: u64, list: *const u16, list_len: usize; u8: out) -> TextAnswer;
}

/// Splits a mesh of `vertices` vertices, whose triangles are `list`.
pub fn split(vertices: u64, list: &[u16], out: &mut [u16], work: Work<SPLIT_WORK>) -> Answer {
    let [w1, w2, w3, w4, w5] = work;
    // SAFETY: each pointer and length are those of a slice, and the slices that are written overlap no other, since they are
    // borrowed mutably. The call asks for nothing else: it takes every input.
    unsafe { lend!(flatcarol_split(vertices, list.as_ptr(), list.len(); out, w1, w2, w3, w4, w5)) }
}

/// Undoes one split, in the role asked (0 to 3) or in the least that has a reading (4).
pub fn undo_one(vertices: u64, list: &[u16], asked: u64, out: OneOutputs, work: Work<ONE_WORK>) -> OneAnswer {
    let OneOutputs { mesh, vertex_map, triangle_map } = out;
    let [w1, w2, w3, w4, w5, w6, w7, w8, w9] = work;
    // SAFETY: as in `split`.
    unsafe {
        lend!(flatcarol_undo_one(vertices, list.as_ptr(), list.len(), asked;
            mesh, vertex_map, triangle_map, w1, w2, w3, w4, w5, w6, w7, w8, w9))
    }
}

/// Undoes up to `asked` splits, each in the least role that has a reading.
pub fn undo_several(vertices: u64, list: &[u16], asked: u64, out: &mut [u16], work: Work<SEVERAL_WORK>) -> SeveralAnswer {
    let [w1, w2, w3, w4, w5, w6, w7, w8, w9, w10] = work;
    // SAFETY: as in `split`.
    unsafe {
        lend!(flatcarol_undo_several(vertices, list.as_ptr(), list.len(), asked;
            out, w1, w2, w3, w4, w5, w6, w7, w8, w9, w10))
    }
}

/// Reads a mesh from its frames.
pub fn read_frames(bytes: &[u8], out: &mut [u16]) -> FramesAnswer {
    // SAFETY: as in `split`.
    unsafe { lend!(flatcarol_read_frames(bytes.as_ptr(), bytes.len(); out)) }
}

/// Writes a mesh as frames.
pub fn write_frames(vertices: u64, list: &[u16], out: &mut [u8]) -> FramesAnswer {
    // SAFETY: as in `split`.
    unsafe { lend!(flatcarol_write_frames(vertices, list.as_ptr(), list.len(); out)) }
}

/// Reads a mesh of `vertices` vertices from its index text.
pub fn read_index(vertices: u64, text: &[u8], out: &mut [u16]) -> FramesAnswer {
    // SAFETY: as in `split`.
    unsafe { lend!(flatcarol_read_index(vertices, text.as_ptr(), text.len(); out)) }
}

/// Writes a mesh as an index text.
pub fn write_index(vertices: u64, list: &[u16], out: &mut [u8]) -> TextAnswer {
    // SAFETY: as in `split`.
    unsafe { lend!(flatcarol_write_index(vertices, list.as_ptr(), list.len(); out)) }
}

#[cfg(test)]
mod tests {
    use super::{Answer, FramesAnswer, OneAnswer, SeveralAnswer, TextAnswer};
    use std::mem::{offset_of, size_of};

    // The size and where the last field is, as include/flatcarol.h has them: the fields before it are all of 64 bits.
    #[test]
    fn answers_have_the_layout_of_the_header() {
        assert_eq!((size_of::<Answer>(), offset_of!(Answer, boundary_edges)), (48, 40));
        assert_eq!((size_of::<OneAnswer>(), offset_of!(OneAnswer, role)), (56, 48));
        assert_eq!((size_of::<SeveralAnswer>(), offset_of!(SeveralAnswer, roles)), (64, 56));
        assert_eq!((size_of::<FramesAnswer>(), offset_of!(FramesAnswer, triangles)), (32, 24));
        assert_eq!((size_of::<TextAnswer>(), offset_of!(TextAnswer, bytes)), (40, 32));
    }
}
