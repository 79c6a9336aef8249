//! The meshes that are tried, and what is asked of frames that are refused.

use flatcarol::{Mesh, Refusal, Room};

// The line of frames that is not as required.
pub fn refused_at(bytes: &[u8]) -> usize {
    match Mesh::from_frames(bytes) {
        Err(Refusal::FrameNotAsRequired { line }) => line,
        other => panic!("{other:?}"),
    }
}

pub fn triangle() -> Mesh {
    Mesh::new(3, [0, 1, 2])
}

pub fn tetrahedron() -> Mesh {
    Mesh::new(4, [0, 1, 2, 0, 3, 1, 1, 3, 2, 2, 3, 0])
}

// Two poles, 0 and 5, and the square 1 2 3 4.
pub fn octahedron() -> Mesh {
    Mesh::new(6, [0, 1, 2, 0, 2, 3, 0, 3, 4, 0, 4, 1, 5, 2, 1, 5, 3, 2, 5, 4, 3, 5, 1, 4])
}

// Three triangles on the edge 0-1.
pub fn fin() -> Mesh {
    Mesh::new(5, [0, 1, 2, 0, 1, 3, 0, 1, 4])
}

// Document 01's input.
pub fn sample() -> Mesh {
    Mesh::new(6, [5, 0, 3, 4, 1, 0, 3, 0, 1, 2, 3, 1])
}

// A square of so many vertices a side, closed over both sides, each cell cut in two.
pub fn torus(side: u16) -> Mesh {
    let vertex = |x: u16, y: u16| (y % side) * side + x % side;
    let cells = (0..side).flat_map(|y| (0..side).map(move |x| (x, y)));
    let halves = |(x, y)| {
        let (near, far) = (vertex(x, y), vertex(x + 1, y + 1));
        [near, vertex(x + 1, y), far, near, far, vertex(x, y + 1)]
    };
    Mesh::new(usize::from(side * side), cells.flat_map(halves).collect::<Vec<_>>())
}

// Triangle k has the corners k, k + 1 and k + 2.
pub fn strip(triangles: u16) -> Mesh {
    Mesh::new(usize::from(triangles) + 2, (0..triangles).flat_map(|k| [k, k + 1, k + 2]).collect::<Vec<_>>())
}

pub fn split_times(mesh: Mesh, times: usize) -> Mesh {
    let mut room = Room::new();
    (0..times).fold(mesh, |mesh, _| mesh.split(&mut room).unwrap().fine)
}
