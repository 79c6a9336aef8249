// The library's calls on buffers that are vectors, which all versions are given.
use flatcarol::raw::{self, ONE_WORK, SEVERAL_WORK, SPLIT_WORK};
pub use flatcarol::raw::{read_frames, read_index, write_frames, write_index};
pub use flatcarol::raw::{Answer, FramesAnswer, OneAnswer, SeveralAnswer, TextAnswer};

// The work buffers that a caller lends, V + 3F entries each.
pub type SplitWork = [Vec<u16>; SPLIT_WORK];
pub type OneWork = [Vec<u16>; ONE_WORK];
pub type SeveralWork = [Vec<u16>; SEVERAL_WORK];

// The output buffers of undo one.
#[derive(Clone, Debug, PartialEq, Eq)]
pub struct OneOutputs {
    pub mesh: Vec<u16>,
    pub vertex_map: Vec<u16>,
    pub triangle_map: Vec<u16>,
}

pub fn split(vertices: u64, list: &[u16], out: &mut [u16], work: &mut SplitWork) -> Answer {
    raw::split(vertices, list, out, slices(work))
}

pub fn undo_one(vertices: u64, list: &[u16], asked: u64, out: &mut OneOutputs, work: &mut OneWork) -> OneAnswer {
    let OneOutputs { mesh, vertex_map, triangle_map } = out;
    raw::undo_one(vertices, list, asked, raw::OneOutputs { mesh, vertex_map, triangle_map }, slices(work))
}

pub fn undo_several(vertices: u64, list: &[u16], asked: u64, out: &mut [u16], work: &mut SeveralWork) -> SeveralAnswer {
    raw::undo_several(vertices, list, asked, out, slices(work))
}

fn slices<const N: usize>(work: &mut [Vec<u16>; N]) -> raw::Work<'_, N> {
    work.each_mut().map(Vec::as_mut_slice)
}
