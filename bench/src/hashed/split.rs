// Split.
use super::judge;
use crate::library::{Answer, SplitWork};
use crate::refusals::{answer, judge_split, split_counts, MeshCounts, Refusal};

// Never inlined, since the library's call is not either.
#[inline(never)]
pub fn split(vertices: u64, list: &[u16], out: &mut [u16], _: &mut SplitWork) -> Answer {
    let sizes = judge_split(vertices, list.len(), out.len(), usize::MAX);
    answer(sizes.and_then(|()| split_mesh(vertices as usize, list, out)))
}

// Refusals 6 to 10, and the split.
fn split_mesh(vertices: usize, list: &[u16], out: &mut [u16]) -> Result<MeshCounts, Refusal> {
    let triangles = list.as_chunks().0;
    let edges = judge(vertices, triangles)?;
    let fours = out.as_chunks_mut::<12>().0;
    for ((four, &[v1, v2, v3]), numbers) in fours.iter_mut().zip(triangles).zip(edges.numbers()) {
        let [e12, e23, e31] = numbers.map(|number| (vertices + number) as u16);
        *four = [e12, e23, e31, v1, e12, e31, v2, e23, e12, v3, e31, e23];
    }
    let (edges, boundary_edges) = (edges.count(), edges.boundary());
    Ok(split_counts(MeshCounts { vertices, triangles: triangles.len(), edges, boundary_edges }))
}
