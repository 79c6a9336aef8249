//! Document 01, "Splitting".

use crate::mesh::{edges, Edge, Mesh};
use std::collections::BTreeMap;

/// "Coarse vertices keep their numbers. Each coarse edge gets one new vertex, numbered V, V+1, ... in order of first appearance:
/// triangles in order, and in (v1, v2, v3) the edges v1v2, v2v3, v3v1. Triangle j becomes, with e12, e23, e31 its edge vertices":
///
/// | fine number | corners |
/// |---|---|
/// | 4j | e12, e23, e31 |
/// | 4j+1 | v1, e12, e31 |
/// | 4j+2 | v2, e23, e12 |
/// | 4j+3 | v3, e31, e23 |
pub fn splitting(coarse: &Mesh) -> Mesh {
    let mut edge_vertices: BTreeMap<Edge, usize> = BTreeMap::new();
    for e in coarse.triangles.iter().flat_map(edges) {
        let next = coarse.vertices as usize + edge_vertices.len();
        edge_vertices.entry(e).or_insert(next);
    }
    let mut triangles = Vec::with_capacity(4 * coarse.triangles.len());
    for t in &coarse.triangles {
        let [v1, v2, v3] = *t;
        let [e12, e23, e31] = edges(t).map(|e| edge_vertices[&e]);
        triangles.push([e12, e23, e31]);
        triangles.push([v1, e12, e31]);
        triangles.push([v2, e23, e12]);
        triangles.push([v3, e31, e23]);
    }
    Mesh { vertices: coarse.vertices + edge_vertices.len() as u64, triangles }
}
