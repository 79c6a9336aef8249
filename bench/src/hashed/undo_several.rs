// Undo several.
use super::cover::Cover;
use super::edges::Edges;
use super::judge;
use crate::library::{SeveralAnswer, SeveralWork};
use crate::refusals::{judge_undo_several, several_answer, Levels, MeshCounts, Refusal};

// Never inlined, since the library's call is not either.
#[inline(never)]
pub fn undo_several(vertices: u64, list: &[u16], asked: u64, out: &mut [u16], _: &mut SeveralWork) -> SeveralAnswer {
    let sizes = judge_undo_several(vertices, list.len(), asked, out.len(), usize::MAX);
    several_answer(sizes.and_then(|()| undo_levels(vertices as usize, list, asked, out)))
}

// Refusals 6 to 10, and the levels. The mesh is judged once. The edges of the mesh that is left are there to be counted.
fn undo_levels(mut vertices: usize, list: &[u16], asked: u64, out: &mut [u16]) -> Result<Levels, Refusal> {
    let mut triangles = list.as_chunks().0.to_vec();
    let mut edges = judge(vertices, &triangles)?;
    let (mut levels, mut roles) = (0, [0; 7]);
    while levels < asked {
        let cover = Cover::new(vertices, &triangles, &edges);
        let Ok(reading) = cover.first_reading(0..4) else {
            break;
        };
        roles[levels as usize] = reading.role as u8;
        levels += 1;
        (vertices, triangles) = (reading.vertices, reading.mesh);
        edges = Edges::new(&triangles);
    }
    out[..3 * triangles.len()].copy_from_slice(triangles.as_flattened());
    let (edges, boundary_edges) = (edges.count(), edges.boundary());
    Ok(Levels { left: MeshCounts { vertices, triangles: triangles.len(), edges, boundary_edges }, levels, roles })
}
