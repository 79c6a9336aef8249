//! The sample file with a figure, and what the example `split_wrl` is to make of it.

use flatcarol::{Asked, Mesh, Room};

const FIGURE: &str = include_str!("../../../samples/figure.wrl");
const SPLIT_FIGURE: &str = include_str!("../../examples/split_wrl.out");

// The mesh of a file, which has so many vertices.
fn mesh(file: &str, vertices: usize) -> Mesh {
    let (_, after) = file.split_once("coordIndex [").unwrap();
    let (text, _) = after.split_once(']').unwrap();
    Mesh::from_index(vertices, text).unwrap()
}

// The corners of each edge that comes in a triangle, in its direction.
fn directed_edges(mesh: &Mesh) -> Vec<[u16; 2]> {
    mesh.list.chunks(3).flat_map(|t| [[t[0], t[1]], [t[1], t[2]], [t[2], t[0]]]).collect()
}

#[test]
fn the_figure_is_a_closed_mesh() {
    let figure = mesh(FIGURE, 14);
    assert_eq!(figure.list.len(), 3 * 24);
    let edges = directed_edges(&figure);
    for &[a, b] in &edges {
        assert_eq!(edges.iter().filter(|&&edge| edge == [b, a]).count(), 1, "the other triangle at {a}, {b}");
    }
    // So each edge comes twice in the 24 triangles, and none is a boundary edge.
    let counted = figure.undo_several(0, &mut Room::new()).unwrap();
    assert_eq!((counted.edges, counted.boundary_edges), (36, 0));
}

#[test]
fn a_face_less_is_a_hole_of_three_edges() {
    let mut figure = mesh(FIGURE, 14);
    figure.list.drain(..3);
    let counted = figure.undo_several(0, &mut Room::new()).unwrap();
    assert_eq!((counted.edges, counted.boundary_edges), (36, 3));
    // In the splitting each of them is two; and 2 * 36 + 3 * 23 edges.
    let split = figure.split(&mut Room::new()).unwrap();
    assert_eq!((split.edges, split.boundary_edges), (141, 6));
}

#[test]
fn the_split_figure_is_undone() {
    let figure = mesh(FIGURE, 14);
    // 14 vertices and 36 edges.
    let reading = mesh(SPLIT_FIGURE, 50).undo_one(Asked::Role(0), &mut Room::new()).unwrap();
    assert_eq!(reading.coarse, figure);
    assert!(reading.vertex_map.into_iter().eq(0..50) && reading.triangle_map.into_iter().eq(0..96));
}
