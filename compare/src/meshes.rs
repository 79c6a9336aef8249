// Meshes of many shapes, and what is done to them.
use std::collections::{HashMap, HashSet};

use crate::random::Random;

// Any vertex count and any list: what a call may be given.
#[derive(Clone, Debug, Default, PartialEq, Eq)]
pub struct Mesh {
    pub vertices: u64,
    pub list: Vec<u16>,
}

impl Mesh {
    pub fn new(vertices: u64, list: &[u16]) -> Mesh {
        Mesh { vertices, list: list.to_vec() }
    }

    // Its vertices are those up to the greatest corner.
    fn of_triangles(triangles: impl IntoIterator<Item = [usize; 3]>) -> Mesh {
        let list: Vec<u16> = triangles.into_iter().flatten().map(|corner| corner as u16).collect();
        Mesh { vertices: list.iter().max().map_or(0, |&most| most as u64 + 1), list }
    }

    pub fn triangles(&self) -> usize {
        self.list.len() / 3
    }

    pub fn triangle(&self, number: usize) -> [u16; 3] {
        [self.list[3 * number], self.list[3 * number + 1], self.list[3 * number + 2]]
    }

    pub fn push(&mut self, triangle: [u16; 3]) {
        self.list.extend(triangle);
    }
}

// ---- splitting, as document 01 has it

pub fn splitting(mesh: &Mesh) -> Mesh {
    let mut between = HashMap::new();
    let mut fine = Mesh::default();
    for number in 0..mesh.triangles() {
        let [v1, v2, v3] = mesh.triangle(number);
        let [e12, e23, e31] = [(v1, v2), (v2, v3), (v3, v1)].map(|(v, w)| {
            let next = mesh.vertices as u16 + between.len() as u16;
            *between.entry((v.min(w), v.max(w))).or_insert(next)
        });
        [[e12, e23, e31], [v1, e12, e31], [v2, e23, e12], [v3, e31, e23]].into_iter().for_each(|t| fine.push(t));
    }
    fine.vertices = mesh.vertices + between.len() as u64;
    fine
}

pub fn split_times(mesh: &Mesh, times: usize) -> Mesh {
    (0..times).fold(mesh.clone(), |mesh, _| splitting(&mesh))
}

// ---- shapes

pub fn one_triangle() -> Mesh {
    Mesh::new(3, &[0, 1, 2])
}

pub fn tetrahedron() -> Mesh {
    Mesh::new(4, &[0, 1, 2, 0, 3, 1, 1, 3, 2, 2, 3, 0])
}

pub fn octahedron() -> Mesh {
    Mesh::of_triangles((0..4).flat_map(|side| [[0, 2 + side, 2 + (side + 1) % 4], [1, 2 + (side + 1) % 4, 2 + side]]))
}

// Each triangle shares an edge with the one before.
pub fn strip(triangles: usize) -> Mesh {
    Mesh::of_triangles((0..triangles).map(|number| [number, number + 1, number + 2]))
}

// All triangles on the edge 0-1: an edge of a fin, or of a book of many pages.
pub fn book(pages: usize) -> Mesh {
    Mesh::of_triangles((0..pages).map(|page| [0, 1, 2 + page]))
}

pub fn fan(triangles: usize) -> Mesh {
    Mesh::of_triangles((0..triangles).map(|number| [0, number + 1, number + 2]))
}

// A fan of at least three triangles, closed to a disk.
pub fn closed_fan(triangles: usize) -> Mesh {
    Mesh::of_triangles((0..triangles).map(|number| [0, number + 1, (number + 1) % triangles + 1]))
}

// A cone over the same rim of at least three edges for each apex. With three and more the edges of the rim are singular, and there is
// no boundary edge.
pub fn cones(rim: usize, apexes: usize) -> Mesh {
    Mesh::of_triangles((0..apexes).flat_map(|apex| (0..rim).map(move |side| [side, (side + 1) % rim, rim + apex])))
}

// A strip of at least five triangles whose ends are joined: a Moebius band if they are odd in number, and else an annulus.
pub fn band(triangles: usize) -> Mesh {
    Mesh::of_triangles((0..triangles).map(|number| [number, (number + 1) % triangles, (number + 2) % triangles]))
}

// How the last column of a grid is joined to the first.
#[derive(Clone, Copy, PartialEq)]
pub enum Closing {
    Torus,
    KleinBottle,
}

// A regular grid of squares, each of two triangles, closed both ways.
pub fn grid(columns: usize, rows: usize, closing: Closing) -> Mesh {
    let vertex = |column: usize, row: usize| {
        let turned = column == columns && closing == Closing::KleinBottle;
        (column % columns) * rows + if turned { 2 * rows - row } else { row } % rows
    };
    let squares = (0..columns).flat_map(|column| (0..rows).map(move |row| (column, row)));
    Mesh::of_triangles(squares.flat_map(|(column, row)| {
        let [here, right, up] = [vertex(column, row), vertex(column + 1, row), vertex(column, row + 1)];
        [[here, right, up], [right, vertex(column + 1, row + 1), up]]
    }))
}

// Grown triangle by triangle, each over an edge of an earlier one. `closure` of eight new corners are vertices that are there
// already, so that edges become regular or singular, and vertices too.
pub fn grown(random: &mut Random, triangles: usize, closure: usize) -> Mesh {
    let mut mesh = one_triangle();
    let mut seen = HashSet::from([[0, 1, 2]]);
    while mesh.triangles() < triangles {
        let number = if random.one_in(2) { random.below(mesh.triangles()) } else { mesh.triangles() - 1 };
        let over = mesh.triangle(number);
        let side = random.below(3);
        let (v, w) = (over[side], over[(side + 1) % 3]);
        let third = if random.below(8) < closure { random.below(mesh.vertices as usize) as u16 } else { mesh.vertices as u16 };
        let mut corners = [v, w, third];
        corners.sort();
        if third == v || third == w || !seen.insert(corners) {
            continue;
        }
        mesh.vertices = mesh.vertices.max(third as u64 + 1);
        mesh.push([w, v, third]);
    }
    mesh
}

pub struct Shape {
    pub name: &'static str,
    // The fewest triangles that it has.
    pub least: usize,
    // Of so many triangles, or of at most so many.
    pub make: fn(&mut Random, usize) -> Mesh,
}

pub const SHAPES: [Shape; 13] = [
    Shape { name: "strip", least: 1, make: |_, triangles| strip(triangles) },
    Shape { name: "fan", least: 1, make: |_, triangles| fan(triangles) },
    Shape { name: "closed fan", least: 3, make: |_, triangles| closed_fan(triangles) },
    Shape { name: "book", least: 1, make: |_, triangles| book(triangles) },
    Shape { name: "Moebius band", least: 5, make: |_, triangles| band((triangles - 1) | 1) },
    Shape { name: "annulus", least: 6, make: |_, triangles| band(triangles & !1) },
    Shape { name: "tetrahedron", least: 4, make: |_, _| tetrahedron() },
    Shape { name: "octahedron", least: 8, make: |_, _| octahedron() },
    Shape { name: "torus", least: 18, make: |random, most| closed_grid(random, most, Closing::Torus) },
    Shape { name: "Klein bottle", least: 18, make: |random, most| closed_grid(random, most, Closing::KleinBottle) },
    Shape { name: "grown to a tree", least: 1, make: |random, triangles| grown(random, triangles, 0) },
    Shape { name: "grown with closures", least: 1, make: |random, triangles| grown(random, triangles, 3) },
    Shape { name: "grown with many closures", least: 1, make: |random, triangles| grown(random, triangles, 6) },
];

// A shape of at most so many triangles, at least 1.
pub fn shape(random: &mut Random, most: usize) -> Mesh {
    let triangles = if random.one_in(2) { most } else { random.between(1, most) };
    let possible: Vec<&Shape> = SHAPES.iter().filter(|shape| shape.least <= triangles).collect();
    (random.pick(&possible).make)(random, triangles)
}

// Of at most so many triangles, at least 18.
pub fn closed_grid(random: &mut Random, most: usize, closing: Closing) -> Mesh {
    let columns = random.between(3, most / 6);
    let rows = random.between(3, most / 2 / columns);
    grid(columns, rows, closing)
}

// ---- the same mesh with other numbers

// Renumbers the vertices, reorders the triangles, rotates their corners and turns them all, or some of these.
pub fn disguised(random: &mut Random, mesh: Mesh) -> Mesh {
    let mut numbers: Vec<u16> = (0..mesh.vertices as u16).collect();
    if !random.one_in(5) {
        random.shuffle(&mut numbers);
    }
    let mut triangles: Vec<[u16; 3]> = (0..mesh.triangles()).map(|number| mesh.triangle(number)).collect();
    if !random.one_in(5) {
        random.shuffle(&mut triangles);
    }
    let (rotates, turns) = (random.below(3) > 0, random.one_in(3));
    let mut list = Vec::with_capacity(mesh.list.len());
    for mut triangle in triangles {
        triangle.rotate_left(if rotates { random.below(3) } else { 0 });
        list.extend(triangle.map(|corner| numbers.get(corner as usize).copied().unwrap_or(corner)));
    }
    turned(Mesh { list, ..mesh }, |_| turns)
}

// The triangles for which it is said go the other way round.
pub fn turned(mut mesh: Mesh, mut is_turned: impl FnMut(usize) -> bool) -> Mesh {
    for triangle in (0..mesh.triangles()).filter(|&triangle| is_turned(triangle)) {
        mesh.list.swap(3 * triangle + 1, 3 * triangle + 2);
    }
    mesh
}

// A vertex becomes another, and the last one takes its number.
pub fn merged(mesh: &Mesh, gone: u16, into: u16) -> Mesh {
    let last = mesh.vertices as u16 - 1;
    let step = |corner: u16| if corner == gone { into } else { corner };
    let filled = |corner: u16| if corner == last { gone } else { corner };
    let list = mesh.list.iter().map(|&corner| if gone == last { step(corner) } else { filled(step(corner)) }).collect();
    Mesh { vertices: mesh.vertices - 1, list }
}

// A vertex becomes two: the triangles for which it is said have the new one.
pub fn doubled(mesh: &Mesh, vertex: u16, mut has_new: impl FnMut(usize) -> bool) -> Mesh {
    let new = mesh.vertices as u16;
    let mut doubled = Mesh { vertices: mesh.vertices + 1, list: Vec::with_capacity(mesh.list.len()) };
    for number in 0..mesh.triangles() {
        let triangle = mesh.triangle(number);
        let changes = triangle.contains(&vertex) && has_new(number);
        doubled.push(triangle.map(|corner| if corner == vertex && changes { new } else { corner }));
    }
    doubled
}
