// The calls after Taubin's paper, as one would write them without lent buffers: std's HashMap, with its usual hasher, finds the
// edges, union-find the components, and every table is allocated where it is needed. They judge as the others do and give the same
// answers, but have no work buffers to ask for and to clear. Half-edge h runs from corner h to the next corner of its triangle.
mod components;
mod cover;
mod edges;
pub mod split;
pub mod undo_one;
pub mod undo_several;

use std::collections::HashSet;

use crate::refusals::Refusal;
use components::components;
use edges::Edges;

type Triangle = [u16; 3];

// Refusals 6 to 10. Where none is given, answers the edges.
fn judge(vertices: usize, triangles: &[Triangle]) -> Result<Edges, Refusal> {
    if let Some(k) = triangles.iter().position(|t| t.iter().any(|&corner| corner as usize >= vertices)) {
        return Err(Refusal(6, k));
    }
    if let Some(k) = triangles.iter().position(has_equal) {
        return Err(Refusal(7, k));
    }
    let mut known = HashSet::with_capacity(triangles.len());
    if let Some(k) = triangles.iter().position(|&t| !known.insert(sorted(t))) {
        return Err(Refusal(8, k));
    }
    let mut used = vec![false; vertices];
    for &corner in triangles.as_flattened() {
        used[corner as usize] = true;
    }
    if let Some(vertex) = used.iter().position(|&used| !used) {
        return Err(Refusal(9, vertex));
    }
    let edges = Edges::new(triangles);
    let components = components(&edges);
    match components.iter().position(|&component| component != components[0]) {
        Some(k) => Err(Refusal(10, k)),
        None => Ok(edges),
    }
}

fn has_equal(&[a, b, c]: &Triangle) -> bool {
    a == b || b == c || c == a
}

fn sorted(mut triangle: Triangle) -> Triangle {
    triangle.sort();
    triangle
}
