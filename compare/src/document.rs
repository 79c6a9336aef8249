// Document 01's meshes to try, and those on which document 02's request 103 turns.
use crate::meshes::{self, grid, split_times, splitting, turned, Closing, Mesh};

pub struct Named {
    pub name: &'static str,
    pub mesh: fn() -> Mesh,
}

// Those with a star, and what is said of them.
pub static STARRED: [Named; 8] = [
    Named { name: "one triangle", mesh: meshes::one_triangle },
    Named { name: "the program's input, in role 1", mesh: || Mesh::new(6, &[5, 0, 3, 4, 1, 0, 3, 0, 1, 2, 3, 1]) },
    Named { name: "the same triangle twice: 8, place 1", mesh: || Mesh::new(3, &[0, 1, 2, 0, 2, 1]) },
    Named { name: "two triangles that touch at a point: 10, place 1", mesh: || Mesh::new(5, &[0, 1, 2, 0, 3, 4]) },
    Named { name: "a vertex in no triangle: 9, place 3", mesh: || Mesh::new(4, &[0, 1, 2]) },
    Named { name: "a corner not below V: 6, place 0", mesh: || Mesh::new(2, &[0, 1, 2]) },
    Named { name: "two equal corners: 7, place 0", mesh: || Mesh::new(2, &[0, 0, 1]) },
    Named { name: "three triangles on an edge", mesh: || meshes::book(3) },
];

// The others, and a few of their like.
static OTHERS: [Named; 11] = [
    Named { name: "a tetrahedron", mesh: meshes::tetrahedron },
    Named { name: "an octahedron", mesh: meshes::octahedron },
    Named { name: "no triangle", mesh: Mesh::default },
    Named { name: "one triangle, split", mesh: || splitting(&meshes::one_triangle()) },
    Named { name: "a tetrahedron, split", mesh: || splitting(&meshes::tetrahedron()) },
    Named { name: "three triangles on an edge, split", mesh: || splitting(&meshes::book(3)) },
    Named { name: "three cones on one rim", mesh: three_cones },
    Named { name: "three cones on one rim, split", mesh: || splitting(&three_cones()) },
    Named { name: "a regular 6 by 6 torus", mesh: torus },
    Named { name: "seven splits of one triangle", mesh: || split_times(&meshes::one_triangle(), 7) },
    Named { name: "16,385 triangles", mesh: || meshes::strip(16_385) },
];

// Triangles that go the other way round than the splitting has them.
pub static INSIDE_OUT: [Named; 12] = [
    Named { name: "a corner triangle turned: 15, place 1", mesh: || split_triangle_turned(&[1]) },
    Named { name: "the last corner triangle turned: 15, place 3", mesh: || split_triangle_turned(&[3]) },
    Named { name: "the centre turned: 15, place 1", mesh: || split_triangle_turned(&[0]) },
    Named { name: "three corner triangles turned: 15, place 1", mesh: || split_triangle_turned(&[1, 2, 3]) },
    Named { name: "all four turned: accepted", mesh: || split_triangle_turned(&[0, 1, 2, 3]) },
    Named { name: "two tiles that face different sides: accepted", mesh: || splitting(&meshes::book(2)) },
    Named { name: "a split fin, one triangle of its last tile turned: 15, place 9", mesh: fin_turned },
    Named { name: "a torus of 6 by 8, half of its rows turned: roles 1 and 2, and 15 in 0 and 3", mesh: half_turned_torus },
    Named { name: "a split Moebius band, a centre of its second reading first: 15 in role 0, read in role 1", mesh: moebius_band },
    Named { name: "a split annulus whose triangles face one side: two readings", mesh: annulus },
    Named { name: "15 behind two levels", mesh: || split_times(&split_triangle_turned(&[1]), 2) },
    Named { name: "15 before a second level", mesh: || turned(split_times(&meshes::one_triangle(), 2), |triangle| triangle == 15) },
];

fn split_triangle_turned(triangles: &[usize]) -> Mesh {
    turned(splitting(&meshes::one_triangle()), |triangle| triangles.contains(&triangle))
}

fn fin_turned() -> Mesh {
    turned(splitting(&meshes::book(3)), |triangle| triangle == 9)
}

// Its squares stand column by column.
fn half_turned_torus() -> Mesh {
    turned(grid(6, 8, Closing::Torus), |triangle| triangle / 2 % 8 >= 4)
}

// Its triangle 2 first.
fn moebius_band() -> Mesh {
    let mut mesh = splitting(&meshes::band(5));
    mesh.list[..9].rotate_right(3);
    mesh
}

fn annulus() -> Mesh {
    splitting(&turned(meshes::band(6), |triangle| triangle % 2 == 1))
}

pub fn torus() -> Mesh {
    grid(6, 6, Closing::Torus)
}

pub fn three_cones() -> Mesh {
    meshes::cones(3, 3)
}

pub const MESHES: usize = STARRED.len() + OTHERS.len() + INSIDE_OUT.len();

pub fn named(number: usize) -> &'static Named {
    STARRED.iter().chain(&OTHERS).chain(&INSIDE_OUT).nth(number).expect("a mesh of the documents")
}
