// Split.
use super::{clear, count_boundary, judge, number_edges, room, write_fours};
use crate::library::{Answer, SplitWork};
use crate::refusals::{answer, judge_split, split_counts, MeshCounts, Refusal};

// Never inlined, since the library's call is not either.
#[inline(never)]
pub fn split(vertices: u64, list: &[u16], out: &mut [u16], work: &mut SplitWork) -> Answer {
    let sizes = judge_split(vertices, list.len(), out.len(), room(work));
    let counts = sizes.and_then(|()| split_mesh(vertices as usize, list, out, work));
    clear(work);
    answer(counts)
}

// Refusals 6 to 10, and the split.
fn split_mesh(vertices: usize, list: &[u16], out: &mut [u16], work: &mut SplitWork) -> Result<MeshCounts, Refusal> {
    let halves = list.len();
    let [ring, work1, work2, work3, work4] = work;
    judge(vertices, list, ring, [&mut *work1, work2, work3, work4])?;
    let numbers = &mut work1[..halves];
    let edges = number_edges(vertices, &ring[..halves], numbers);
    write_fours(list, numbers, out);
    let boundary_edges = count_boundary(&ring[..halves]);
    Ok(split_counts(MeshCounts { vertices, triangles: halves / 3, edges, boundary_edges }))
}
