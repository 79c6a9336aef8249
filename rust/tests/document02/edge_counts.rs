//! Request 102: the edges and the boundary edges in the answers of split and of both undos.

use crate::shapes::{fin, octahedron, sample, split_times, strip, tetrahedron, torus, triangle};
use flatcarol::raw::{self, Answer, FramesAnswer, OneAnswer, OneOutputs, SeveralAnswer, TextAnswer, Work};
use flatcarol::{Asked, Mesh, Room};
use std::collections::BTreeMap;

// What the answers have to say of a mesh: edges, and boundary edges.
type Edges = (usize, usize);

fn split(mesh: &Mesh) -> (Mesh, Edges) {
    let split = mesh.split(&mut Room::new()).unwrap();
    (split.fine, (split.edges, split.boundary_edges))
}

fn undo_one(mesh: &Mesh, asked: Asked) -> (Mesh, Edges) {
    let reading = mesh.undo_one(asked, &mut Room::new()).unwrap();
    (reading.coarse, (reading.edges, reading.boundary_edges))
}

fn undo_several(mesh: &Mesh, levels: usize) -> (Mesh, Edges) {
    let undone = mesh.undo_several(levels, &mut Room::new()).unwrap();
    (undone.coarse, (undone.edges, undone.boundary_edges))
}

// By the definitions: each pair of corners with the number of triangles that have it.
fn counted(mesh: &Mesh) -> Edges {
    let mut triangles_at = BTreeMap::new();
    for t in mesh.list.chunks(3) {
        for (v, w) in [(t[0], t[1]), (t[1], t[2]), (t[2], t[0])] {
            *triangles_at.entry((v.min(w), v.max(w))).or_insert(0) += 1;
        }
    }
    (triangles_at.len(), triangles_at.values().filter(|&&triangles| triangles == 1).count())
}

#[test]
fn the_examples_of_the_request() {
    assert_eq!(split(&triangle()).1, (9, 6));
    assert_eq!(split(&fin()).1, (23, 12));
    assert_eq!(undo_one(&sample(), Asked::Least).1, (3, 3));
    assert_eq!(undo_one(&torus(6), Asked::Role(0)).1, (27, 0));
    assert_eq!(undo_several(&triangle(), 0), (triangle(), (3, 3)));
}

#[test]
fn meshes_as_they_are() {
    // The edge 0-1 of the fin has three triangles, and is no boundary edge.
    assert_eq!(undo_several(&fin(), 0).1, (7, 6));
    assert_eq!(undo_several(&tetrahedron(), 0).1, (6, 0));
    assert_eq!(undo_several(&octahedron(), 0).1, (12, 0));
    // Two tetrahedra, 0 1 2 3 and 0 1 2 4, with the triangle between them: its edges have three triangles, and there is no hole.
    let walled = Mesh::new(5, [0, 1, 2, 0, 1, 3, 1, 2, 3, 2, 0, 3, 0, 1, 4, 1, 2, 4, 2, 0, 4]);
    assert_eq!(undo_several(&walled, 0).1, (9, 0));
    assert_eq!(split(&walled).1, (2 * 9 + 3 * 7, 0));
    // The first triangle of a strip has three edges, and each other brings two, of which one is that to the next triangle. The 999
    // edges between two triangles are no boundary edges.
    assert_eq!(undo_several(&strip(1_000), 0).1, (2_001, 1_002));
}

#[test]
fn as_many_as_the_resulting_mesh_has() {
    for mesh in [triangle(), fin(), sample(), tetrahedron(), octahedron(), strip(7), torus(3), torus(4)] {
        let (edges, boundary_edges) = counted(&mesh);
        let (fine, of_fine) = split(&mesh);
        assert_eq!(of_fine, counted(&fine), "{mesh:?}");
        assert_eq!(of_fine, (2 * edges + mesh.list.len(), 2 * boundary_edges), "{mesh:?}");
        assert_eq!(undo_one(&fine, Asked::Role(0)), (mesh, (edges, boundary_edges)));

        let finest = split_times(fine, 2);
        for levels in 0..=7 {
            let (left, of_left) = undo_several(&finest, levels);
            assert_eq!(of_left, counted(&left), "{levels} levels");
        }
    }
}

#[test]
fn level_by_level() {
    let finest = split_times(triangle(), 7);
    // A triangle whose sides have n edges: n(n + 1)/2 of its triangles stand as it does, and each edge is on just one of these.
    for levels in 0..=7 {
        let n = 1 << (7 - levels);
        assert_eq!(undo_several(&finest, levels).1, (3 * n * (n + 1) / 2, 3 * n), "{levels} levels");
    }
}

// ---- the answers themselves, in which a refusal has numbers too

fn slices<const N: usize>(buffers: &mut [Vec<u16>; N]) -> Work<'_, N> {
    buffers.each_mut().map(Vec::as_mut_slice)
}

// Each buffer has so many entries.
fn answer_of_split((vertices, list): (u64, &[u16]), entries: usize) -> Answer {
    let mut work = std::array::from_fn(|_| vec![0; entries]);
    raw::split(vertices, list, &mut vec![0; entries], slices(&mut work))
}

fn answer_of_one((vertices, list): (u64, &[u16]), asked: u64, entries: usize) -> OneAnswer {
    let mut work = std::array::from_fn(|_| vec![0; entries]);
    let [mesh, vertex_map, triangle_map] = &mut std::array::from_fn(|_| vec![0; entries]);
    raw::undo_one(vertices, list, asked, OneOutputs { mesh, vertex_map, triangle_map }, slices(&mut work))
}

fn answer_of_several((vertices, list): (u64, &[u16]), asked: u64, entries: usize) -> SeveralAnswer {
    let mut work = std::array::from_fn(|_| vec![0; entries]);
    raw::undo_several(vertices, list, asked, &mut vec![0; entries], slices(&mut work))
}

const ENOUGH: usize = 100;
const TRIANGLE: (u64, &[u16]) = (3, &[0, 1, 2]);

// Document 01's splitting with its triangles in another order, in role 1.
const SAMPLE: (u64, &[u16]) = (6, &[5, 0, 3, 4, 1, 0, 3, 0, 1, 2, 3, 1]);

// What all three calls refuse: number, place, and the mesh.
const REFUSED: [(u64, u64, (u64, &[u16])); 8] = [
    (2, 0, (3, &[0, 1, 2, 0])),
    (3, 0, (3, &[])),
    (4, 0, (32_768, &[0, 1, 2])),
    (6, 0, (2, &[0, 1, 2])),
    (7, 0, (2, &[0, 0, 1])),
    (8, 1, (3, &[0, 1, 2, 0, 2, 1])),
    (9, 3, (4, &[0, 1, 2])),
    (10, 1, (5, &[0, 1, 2, 0, 3, 4])),
];

#[test]
fn each_number_has_its_own_field() {
    let fine = Answer { refusal: 0, place: 0, vertices: 15, triangles: 16, edges: 30, boundary_edges: 12 };
    assert_eq!(answer_of_split(SAMPLE, ENOUGH), fine);

    // The fin, split, with its triangle (2, 7, 6) at the front and rotated, so that the second corner is kept.
    let Mesh { vertices, mut list } = split_times(fin(), 1);
    list.drain(9..12);
    list.splice(0..0, [6, 2, 7]);
    let mesh = (vertices as u64, &list[..]);
    let one = OneAnswer { refusal: 0, place: 0, vertices: 5, triangles: 3, edges: 7, boundary_edges: 6, role: 2 };
    assert_eq!(answer_of_one(mesh, 4, ENOUGH), one);
    let roles = [2, 0, 0, 0, 0, 0, 0];
    let several = SeveralAnswer { refusal: 0, place: 0, vertices: 5, triangles: 3, edges: 7, boundary_edges: 6, levels: 1, roles };
    assert_eq!(answer_of_several(mesh, 7, ENOUGH), several);
}

#[test]
fn a_refusal_has_zeros() {
    for (refusal, place, mesh) in REFUSED {
        assert_eq!(answer_of_split(mesh, ENOUGH), Answer { refusal, place, ..Default::default() });
        assert_eq!(answer_of_one(mesh, 4, ENOUGH), OneAnswer { refusal, place, ..Default::default() });
        assert_eq!(answer_of_several(mesh, 7, ENOUGH), SeveralAnswer { refusal, place, ..Default::default() });
    }
    assert_eq!(answer_of_one(SAMPLE, 5, ENOUGH), OneAnswer { refusal: 1, ..Default::default() });
    assert_eq!(answer_of_several(SAMPLE, 8, ENOUGH), SeveralAnswer { refusal: 1, ..Default::default() });

    assert_eq!(answer_of_split(SAMPLE, 17), Answer { refusal: 5, ..Default::default() });
    assert_eq!(answer_of_one(SAMPLE, 4, 17), OneAnswer { refusal: 5, ..Default::default() });
    assert_eq!(answer_of_several(SAMPLE, 7, 17), SeveralAnswer { refusal: 5, ..Default::default() });

    // A proper mesh, whose edges are counted, and which has no reading.
    assert_eq!(answer_of_one(TRIANGLE, 4, ENOUGH), OneAnswer { refusal: 11, ..Default::default() });
    assert_eq!(answer_of_one(SAMPLE, 0, ENOUGH), OneAnswer { refusal: 11, ..Default::default() });
}

// Their corners are not judged, and nothing of the mesh is counted but what it is made of.
#[test]
fn texts_keep_their_own_answers() {
    let (vertices, list) = SAMPLE;
    let read = FramesAnswer { refusal: 0, place: 0, vertices: 6, triangles: 4 };
    let (mut frames, mut text, mut out) = ([0; 71], [0; 84], [0; 12]);
    assert_eq!(raw::write_frames(vertices, list, &mut frames), read);
    assert_eq!(raw::read_frames(&frames, &mut out), read);
    assert_eq!(raw::read_frames(&frames[..70], &mut out), FramesAnswer { refusal: 12, place: 4, vertices: 0, triangles: 0 });

    // Four faces like `5 0 3 -1`, and a blank between each two.
    let written = TextAnswer { refusal: 0, place: 0, vertices: 6, triangles: 4, bytes: 35 };
    assert_eq!(raw::write_index(vertices, list, &mut text), written);
    assert_eq!(raw::read_index(vertices, &text[..35], &mut out), read);
    assert_eq!(raw::read_index(vertices, b"0 1", &mut out), FramesAnswer { refusal: 14, place: 3, vertices: 0, triangles: 0 });
}
