//! Document 01, "Meshes to try".

use crate::shapes::{fin, octahedron, sample, split_times, tetrahedron, torus, triangle};
use flatcarol::{Asked, Mesh, Reading, Refusal, Room};

fn undo(mesh: &Mesh, asked: Asked) -> Result<Reading, Refusal> {
    mesh.undo_one(asked, &mut Room::new())
}

// Refused by split and by both undos.
fn refused(mesh: &Mesh) -> Refusal {
    let mut room = Room::new();
    let refusal = mesh.split(&mut room).unwrap_err();
    assert_eq!(mesh.undo_one(Asked::Least, &mut room).unwrap_err(), refusal);
    assert_eq!(mesh.undo_several(0, &mut room).unwrap_err(), refusal);
    refusal
}

// The corners of a triangle from the least one on: the same for triangles that agree up to rotation, as document 02 asks since its
// request 103.
fn corners(list: &[u16], triangle: usize) -> [u16; 3] {
    let mut corners = [list[3 * triangle], list[3 * triangle + 1], list[3 * triangle + 2]];
    while corners[0] > corners[1] || corners[0] > corners[2] {
        corners.rotate_left(1);
    }
    corners
}

// Each number below the length stands in the map.
fn one_to_one(map: &[u16]) -> bool {
    let mut sorted = map.to_vec();
    sorted.sort();
    sorted.into_iter().map(usize::from).eq(0..map.len())
}

// "A reading": the maps match the input with the splitting of the coarse mesh.
fn reads(mesh: &Mesh, reading: &Reading) {
    let fine = reading.coarse.split(&mut Room::new()).unwrap().fine;
    let renumbered: Vec<u16> = mesh.list.iter().map(|&corner| reading.vertex_map[usize::from(corner)]).collect();
    assert_eq!((reading.vertex_map.len(), reading.triangle_map.len()), (mesh.vertices, mesh.list.len() / 3));
    assert_eq!((fine.vertices, fine.list.len()), (mesh.vertices, mesh.list.len()));
    assert!(one_to_one(&reading.vertex_map) && one_to_one(&reading.triangle_map));
    for (k, &number) in reading.triangle_map.iter().enumerate() {
        assert_eq!(corners(&renumbered, k), corners(&fine.list, usize::from(number)), "triangle {k}");
    }
}

#[test]
fn one_triangle_splits() {
    let fine = triangle().split(&mut Room::new()).unwrap().fine;
    assert_eq!(fine, Mesh::new(6, [3, 4, 5, 0, 3, 5, 1, 4, 3, 2, 5, 4]));
}

#[test]
fn a_fin_splits_and_is_undone() {
    let fine = split_times(fin(), 1);
    assert_eq!((fine.vertices, fine.list.len()), (12, 36));
    let reading = undo(&fine, Asked::Least).unwrap();
    assert_eq!((reading.role, &reading.coarse), (0, &fin()));
    reads(&fine, &reading);
}

#[test]
fn the_sample_has_role_1() {
    let expected = Reading {
        coarse: Mesh::new(3, [0, 2, 1]),
        edges: 3,
        boundary_edges: 3,
        role: 1,
        vertex_map: vec![4, 5, 0, 3, 1, 2],
        triangle_map: vec![2, 3, 0, 1],
    };
    reads(&sample(), &expected);
    assert_eq!(undo(&sample(), Asked::Least), Ok(expected.clone()));
    assert_eq!(undo(&sample(), Asked::Role(1)), Ok(expected));
    for role in [0, 2, 3] {
        assert_eq!(undo(&sample(), Asked::Role(role)), Err(Refusal::NoReading), "role {role}");
    }
}

#[test]
fn improper_meshes_are_refused_at_their_place() {
    assert_eq!(refused(&Mesh::new(2, [0, 1, 2])), Refusal::CornerNotBelow { triangle: 0 });
    assert_eq!(refused(&Mesh::new(2, [0, 0, 1])), Refusal::EqualCorners { triangle: 0 });
    assert_eq!(refused(&Mesh::new(3, [0, 1, 2, 0, 2, 1])), Refusal::SameAsEarlier { triangle: 1 });
    assert_eq!(refused(&Mesh::new(4, [0, 1, 2])), Refusal::InNoTriangle { vertex: 3 });
    assert_eq!(refused(&Mesh::new(5, [0, 1, 2, 0, 3, 4])), Refusal::NotConnected { triangle: 1 });
}

#[test]
fn no_splittings_have_no_reading() {
    for mesh in [triangle(), tetrahedron(), octahedron()] {
        assert_eq!(undo(&mesh, Asked::Least), Err(Refusal::NoReading));
        let undone = mesh.undo_several(7, &mut Room::new()).unwrap();
        assert_eq!((undone.levels(), undone.coarse), (0, mesh));
    }
}

#[test]
fn splittings_have_a_reading() {
    for mesh in [triangle(), tetrahedron()] {
        let fine = split_times(mesh.clone(), 1);
        let reading = undo(&fine, Asked::Least).unwrap();
        assert_eq!((reading.role, &reading.coarse), (0, &mesh));
        reads(&fine, &reading);
    }
}

#[test]
fn a_torus_has_all_four_roles() {
    let torus = torus(6);
    assert_eq!(torus.list.len(), 3 * 72);
    for role in 0..4 {
        let reading = undo(&torus, Asked::Role(role)).unwrap();
        assert_eq!((reading.role, reading.coarse.vertices, reading.coarse.list.len()), (role, 9, 3 * 18));
        reads(&torus, &reading);
    }
    assert_eq!(undo(&torus, Asked::Least), undo(&torus, Asked::Role(0)));
}

#[test]
fn seven_splits_are_undone() {
    let mut room = Room::new();
    let fine = split_times(triangle(), 7);
    assert_eq!(fine.list.len(), 3 * 16_384);
    let undone = fine.undo_several(7, &mut room).unwrap();
    assert_eq!((undone.coarse, undone.roles), (triangle(), vec![0; 7]));
    assert_eq!(fine.undo_several(8, &mut room), Err(Refusal::AskedTooMuch));
    let undone = fine.undo_several(3, &mut room).unwrap();
    assert_eq!((undone.levels(), undone.coarse), (3, split_times(triangle(), 4)));
}
