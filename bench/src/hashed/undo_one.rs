// Undo one.
use super::cover::Cover;
use super::judge;
use crate::library::{OneAnswer, OneOutputs, OneWork};
use crate::refusals::{coarse_counts, judge_undo_one, one_answer, MeshCounts, Refusal, ANY_ROLE};

// Never inlined, since the library's call is not either.
#[inline(never)]
pub fn undo_one(vertices: u64, list: &[u16], asked: u64, out: &mut OneOutputs, _: &mut OneWork) -> OneAnswer {
    let sizes = judge_undo_one(vertices, list.len(), asked, out, usize::MAX);
    one_answer(sizes.and_then(|()| undo_mesh(vertices as usize, list, asked, out)))
}

// Refusals 6 to 11 and 15, and the reading.
fn undo_mesh(vertices: usize, list: &[u16], asked: u64, out: &mut OneOutputs) -> Result<(usize, MeshCounts), Refusal> {
    let triangles = list.as_chunks().0;
    let edges = judge(vertices, triangles)?;
    let cover = Cover::new(vertices, triangles, &edges);
    let roles = if asked == ANY_ROLE { 0..4 } else { asked as usize..asked as usize + 1 };
    let reading = cover.first_reading(roles)?;

    let mesh = reading.mesh.as_flattened();
    out.mesh[..mesh.len()].copy_from_slice(mesh);
    write_map(&reading.vertex_map, &mut out.vertex_map);
    write_map(&reading.triangle_map, &mut out.triangle_map);
    Ok((reading.role, coarse_counts(vertices, edges.boundary(), reading.vertices, reading.mesh.len())))
}

// Each entry has a number, since there are as many numbers as entries.
fn write_map(map: &[Option<u16>], out: &mut [u16]) {
    for (out, number) in out.iter_mut().zip(map.iter().flatten()) {
        *out = *number;
    }
}
