//! Request 103: triangles that go round the other way than the splitting has them.

use crate::shapes::{fin, split_times, triangle};
use flatcarol::{Asked, Mesh, Reading, Refusal, Room};

fn undo(mesh: &Mesh, asked: Asked) -> Result<Reading, Refusal> {
    mesh.undo_one(asked, &mut Room::new())
}

// The role in which a mesh is accepted, or why it is not.
fn role(mesh: &Mesh, asked: Asked) -> Result<u8, Refusal> {
    undo(mesh, asked).map(|reading| reading.role)
}

// The mesh with these triangles turned.
fn turned(mut mesh: Mesh, triangles: impl IntoIterator<Item = usize>) -> Mesh {
    triangles.into_iter().for_each(|triangle| mesh.list.swap(3 * triangle + 1, 3 * triangle + 2));
    mesh
}

fn inside_out(triangle: usize) -> Refusal {
    Refusal::InsideOut { triangle }
}

#[test]
fn one_corner_triangle_turned() {
    let mesh = Mesh::new(6, [3, 4, 5, 0, 5, 3, 1, 4, 3, 2, 5, 4]);
    assert_eq!(undo(&mesh, Asked::Role(0)), Err(inside_out(1)));
    assert_eq!(undo(&mesh, Asked::Least), Err(inside_out(1)));
    // In the other roles there is no reading by either rule.
    for role in 1..4 {
        assert_eq!(undo(&mesh, Asked::Role(role)), Err(Refusal::NoReading), "role {role}");
    }
}

#[test]
fn a_turned_centre_shows_at_its_least_corner_triangle() {
    let mesh = Mesh::new(6, [3, 5, 4, 0, 3, 5, 1, 4, 3, 2, 5, 4]);
    assert_eq!(undo(&mesh, Asked::Role(0)), Err(inside_out(1)));
    // The centre in the last place. Triangle 0 is then at a corner, with its first vertex kept.
    let mesh = Mesh::new(6, [0, 3, 5, 1, 4, 3, 2, 5, 4, 3, 5, 4]);
    assert_eq!(undo(&mesh, Asked::Role(1)), Err(inside_out(0)));
    assert_eq!(undo(&mesh, Asked::Role(0)), Err(Refusal::NoReading));
}

#[test]
fn every_way_to_turn_four_triangles() {
    for turns in 0..16 {
        let is_turned = |triangle: &usize| turns >> triangle & 1 == 1;
        let mesh = turned(split_times(triangle(), 1), (0..4).filter(is_turned));
        // The coarse triangle goes round as the centre does, so that a corner triangle disagrees if it does not.
        let place = (1..4).find(|triangle| is_turned(triangle) != is_turned(&0));
        assert_eq!(role(&mesh, Asked::Role(0)), place.map_or(Ok(0), |place| Err(inside_out(place))), "{mesh:?}");
    }
}

#[test]
fn all_turned_is_the_splitting_of_the_turned_triangle() {
    // Each triangle rotated too: the centre is (5, 4, 3).
    let mesh = Mesh::new(6, [5, 4, 3, 5, 3, 0, 3, 4, 1, 4, 5, 2]);
    let reading = undo(&mesh, Asked::Least).unwrap();
    // Across 3-5, 5-4 and 4-3.
    assert_eq!((reading.role, reading.coarse), (0, Mesh::new(3, [0, 2, 1])));
}

// Undo several stops where undo one refuses 15, and that is no refusal.
#[test]
fn several_stop_at_it() {
    let mut room = Room::new();
    let inward = turned(split_times(triangle(), 1), [1]);
    for levels in 0..=7 {
        let undone = inward.undo_several(levels, &mut room).unwrap();
        assert_eq!((undone.levels(), &undone.coarse), (0, &inward), "{levels} levels");
    }
    // One level behind two that can be undone.
    let undone = split_times(inward.clone(), 2).undo_several(7, &mut room).unwrap();
    assert_eq!((undone.roles, undone.coarse), (vec![0, 0], inward));
    // And with the turned triangle in front of them.
    let outermost = turned(split_times(triangle(), 3), [63]);
    assert_eq!(undo(&outermost, Asked::Least), Err(inside_out(63)));
    assert_eq!(outermost.undo_several(7, &mut room).unwrap().levels(), 0);
}

// Between tiles nothing is asked: an edge may run the same way in two triangles, and on a singular edge some do.
#[test]
fn tiles_need_not_go_round_alike() {
    for coarse in [fin(), Mesh::new(4, [0, 1, 2, 0, 1, 3])] {
        let reading = undo(&split_times(coarse.clone(), 1), Asked::Least).unwrap();
        assert_eq!((reading.role, reading.coarse), (0, coarse));
    }
}

// A torus of 6 columns and 8 rows, cell by cell and row by row, each cell cut in two. The triangles of the last four rows are turned.
fn half_turned_torus() -> Mesh {
    let vertex = |column: u16, row: u16| row % 8 * 6 + column % 6;
    let cells = (0..8).flat_map(|row| (0..6).map(move |column| (column, row)));
    let halves = |(column, row)| {
        let (near, far) = (vertex(column, row), vertex(column + 1, row + 1));
        [near, vertex(column + 1, row), far, near, far, vertex(column, row + 1)]
    };
    turned(Mesh::new(48, cells.flat_map(halves).collect::<Vec<_>>()), 48..96)
}

// The windings change over the lines below row 0 and below row 4. With the even rows kept, roles 1 and 2, these are coarse edges.
// With the odd ones kept they go through tiles: of a tile on them, one corner triangle is on the other side than its centre.
#[test]
fn roles_of_a_half_turned_torus() {
    let torus = half_turned_torus();
    // Even columns and odd rows are kept: triangle 2, of column 1, is a corner triangle whose tile has its centre in row 7.
    assert_eq!(role(&torus, Asked::Role(0)), Err(inside_out(2)));
    assert_eq!(role(&torus, Asked::Role(1)), Ok(1));
    assert_eq!(role(&torus, Asked::Role(2)), Ok(2));
    // Odd columns and odd rows: so it is with triangle 0.
    assert_eq!(role(&torus, Asked::Role(3)), Err(inside_out(0)));
    // Role 0, which is less, has a reading by the old rule alone and does not hide it.
    assert_eq!(undo(&torus, Asked::Least), undo(&torus, Asked::Role(1)));
    let undone = torus.undo_several(1, &mut Room::new()).unwrap();
    assert_eq!(undone.roles, [1]);
}
