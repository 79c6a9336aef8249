// The kinds of meshes that are compared, each made at random up to a size.
use crate::meshes::{self, disguised, doubled, merged, shape, split_times, splitting, turned, Closing, Mesh};
use crate::random::Random;

pub struct Kind {
    pub name: &'static str,
    make: fn(&mut Random, usize) -> Mesh,
}

impl Kind {
    // Of at most so many triangles, or a few more; at least 4 are asked.
    pub fn of_size(&self, random: &mut Random, most: usize) -> Mesh {
        (self.make)(random, most)
    }
}

pub const KINDS: &[Kind] = &[
    Kind { name: "any shape", make: any_shape },
    Kind { name: "a shape, split", make: split_shape },
    Kind { name: "a fin or book, split", make: split_book },
    Kind { name: "a closed surface, split", make: split_surface },
    Kind { name: "split several times", make: split_often },
    Kind { name: "a grid with several readings", make: even_grid },
    Kind { name: "a grid with several readings, rows of it turned", make: rows_turned },
    Kind { name: "a grid with several readings, tiles of one turned", make: tiles_of_grid_turned },
    Kind { name: "a band of tiles, with any windings", make: band_of_tiles },
    Kind { name: "split, whole tiles turned", make: tiles_turned },
    Kind { name: "split, one triangle turned", make: one_turned },
    Kind { name: "split, some triangles turned", make: some_turned },
    Kind { name: "split, triangles of a level behind it turned", make: turned_and_split },
    Kind { name: "split, one entry changed", make: one_entry_changed },
    Kind { name: "split, two vertices merged", make: two_merged },
    Kind { name: "split, a vertex doubled", make: one_doubled },
    Kind { name: "split, tiles that disagree on the vertex between, counts as they should be", make: counts_fit },
    Kind { name: "split, a triangle more or fewer", make: one_triangle_more_or_fewer },
    Kind { name: "split, a level behind it disturbed", make: disturbed_and_split },
    Kind { name: "improper", make: improper },
    Kind { name: "improper, split first", make: improper_split },
    Kind { name: "any triangles", make: any_triangles },
];

fn any_shape(random: &mut Random, most: usize) -> Mesh {
    let mesh = shape(random, most);
    disguised(random, mesh)
}

fn split_shape(random: &mut Random, most: usize) -> Mesh {
    let mesh = splitting(&shape(random, most / 4));
    disguised(random, mesh)
}

fn split_book(random: &mut Random, most: usize) -> Mesh {
    let pages = random.between(1, most / 4);
    let mut mesh = meshes::book(pages);
    if random.one_in(2) {
        // A fin on something larger: further triangles over an edge of the first page.
        let fins = random.below(most / 4 - pages + 1);
        (0..fins as u16).for_each(|fin| mesh.push([0, 2, pages as u16 + 2 + fin]));
        mesh.vertices += fins as u64;
    }
    disguised(random, splitting(&mesh))
}

fn split_surface(random: &mut Random, most: usize) -> Mesh {
    let mesh = surface(random, most / 4);
    disguised(random, splitting(&mesh))
}

// Closed, or nearly so, if so many triangles allow it.
fn surface(random: &mut Random, most: usize) -> Mesh {
    match random.below(6) {
        0 if most >= 18 => meshes::closed_grid(random, most, Closing::Torus),
        1 if most >= 18 => meshes::closed_grid(random, most, Closing::KleinBottle),
        2 if most >= 8 => meshes::octahedron(),
        3 if most >= 5 => meshes::band(random.between(5, most)),
        4 if most >= 4 => meshes::tetrahedron(),
        _ if most >= 3 => meshes::closed_fan(random.between(3, most)),
        _ => meshes::strip(most),
    }
}

// As often as so many triangles allow, or less often.
fn split_often(random: &mut Random, most: usize) -> Mesh {
    let deepest = most.ilog(4) as usize;
    let times = if random.one_in(2) { deepest } else { random.between(1, deepest) };
    let mesh = split_times(&shape(random, most >> (2 * times)), times);
    disguised(random, mesh)
}

// Columns and rows are even, so that every second vertex of every second column can be the kept ones, in four ways.
fn even_grid(random: &mut Random, most: usize) -> Mesh {
    let closing = random.pick(&[Closing::Torus, Closing::KleinBottle]);
    let [columns, rows] = even_sides(random, most);
    disguised(random, meshes::grid(columns, rows, closing))
}

fn even_sides(random: &mut Random, most: usize) -> [usize; 2] {
    let columns = random.between(2, (most / 16).max(3));
    let rows = random.between(2, (most / 8 / columns).max(3));
    [2 * columns, 2 * rows]
}

// An even torus or Klein bottle, of which some rows or columns that follow each other are turned. Along the two lines where these begin
// and end the windings change. They agree with a reading if both lines are coarse edges: on a torus with two of the four, or with none.
fn rows_turned(random: &mut Random, most: usize) -> Mesh {
    let [columns, rows] = even_sides(random, most);
    let closing = random.pick(&[Closing::Torus, Closing::Torus, Closing::KleinBottle]);
    let by_row = random.one_in(2);
    let all = if by_row { rows } else { columns };
    let (first, count) = (random.below(all), random.between(1, all - 1));
    let line = |triangle: usize| if by_row { triangle / 2 % rows } else { triangle / 2 / rows };
    let mesh = turned(meshes::grid(columns, rows, closing), |triangle| (line(triangle) + all - first) % all < count);
    disguised(random, mesh)
}

// Of the four readings one has the windings, and mostly no other.
fn tiles_of_grid_turned(random: &mut Random, most: usize) -> Mesh {
    let mesh = meshes::closed_grid(random, (most / 4).max(18), Closing::Torus);
    let mesh = turned(mesh, |_| random.one_in(2));
    disguised(random, splitting(&mesh))
}

// It has two readings but for windings. An annulus whose neighbours face the same side has both.
fn band_of_tiles(random: &mut Random, most: usize) -> Mesh {
    let mesh = meshes::band(random.between(5, (most / 4).max(6)));
    let mesh = match random.below(3) {
        0 => turned(mesh, |triangle| !triangle.is_multiple_of(2)),
        1 => turned(mesh, |_| random.one_in(2)),
        _ => mesh,
    };
    disguised(random, splitting(&mesh))
}

// As each tile goes round alike, the mesh keeps its reading.
fn tiles_turned(random: &mut Random, most: usize) -> Mesh {
    let coarse = shape(random, most / 4);
    let mesh = splitting(&turned(coarse, |_| random.one_in(2)));
    disguised(random, mesh)
}

fn one_turned(random: &mut Random, most: usize) -> Mesh {
    let mesh = split_shape(random, most);
    let only = random.below(mesh.triangles());
    turned(mesh, |triangle| triangle == only)
}

// Any of them, or of every tile the centre or the same corner triangle.
fn some_turned(random: &mut Random, most: usize) -> Mesh {
    let mesh = splitting(&shape(random, most / 4));
    let of_four = random.below(8);
    let is_turned = |triangle: usize| if of_four < 4 { triangle % 4 == of_four } else { random.one_in(of_four - 2) };
    let mesh = turned(mesh, is_turned);
    disguised(random, mesh)
}

// Undone once or more, and then inside out.
fn turned_and_split(random: &mut Random, most: usize) -> Mesh {
    let times = random.between(1, (most.ilog(4) as usize).saturating_sub(1).max(1));
    let coarse = random.pick(&[one_turned, some_turned])(random, (most >> (2 * times)).max(4));
    disguised(random, split_times(&coarse, times))
}

fn one_entry_changed(random: &mut Random, most: usize) -> Mesh {
    let mut mesh = split_shape(random, most);
    let place = random.below(mesh.list.len());
    mesh.list[place] = random.below(mesh.vertices as usize) as u16;
    mesh
}

fn two_merged(random: &mut Random, most: usize) -> Mesh {
    let mesh = split_shape(random, most);
    let [gone, into] = two_vertices(random, &mesh);
    merged(&mesh, gone, into)
}

fn two_vertices(random: &mut Random, mesh: &Mesh) -> [u16; 2] {
    let gone = random.below(mesh.vertices as usize);
    let into = (gone + random.between(1, mesh.vertices as usize - 1)) % mesh.vertices as usize;
    [gone as u16, into as u16]
}

fn one_doubled(random: &mut Random, most: usize) -> Mesh {
    let mesh = split_shape(random, most);
    let vertex = random.below(mesh.vertices as usize) as u16;
    doubled(&mesh, vertex, |_| random.one_in(2))
}

// Some of the tiles over a coarse edge get a vertex between of their own, and two vertices between become one, so that as many
// vertices are left as before. Tried until the mesh is proper, as nothing else is looked at in others.
fn counts_fit(random: &mut Random, most: usize) -> Mesh {
    let mut mesh = Mesh::default();
    for _ in 0..40 {
        let most = (most / 4).max(3);
        let coarse = if random.one_in(3) { shape(random, most) } else { surface(random, most) };
        let fine = splitting(&coarse);
        let mut between = || random.between(coarse.vertices as usize, fine.vertices as usize - 1) as u16;
        let [vertex, gone, into] = [between(), between(), between()];
        mesh = fine;
        if gone == into {
            continue;
        }
        let mut tiles: Vec<usize> = (0..coarse.triangles()).filter(|&tile| mesh.triangle(4 * tile).contains(&vertex)).collect();
        random.shuffle(&mut tiles);
        tiles.truncate(tiles.len() / 2);
        mesh = merged(&doubled(&mesh, vertex, |number| tiles.contains(&(number / 4))), gone, into);
        if reference::proper(mesh.vertices, &mesh.list) {
            break;
        }
    }
    disguised(random, mesh)
}

fn one_triangle_more_or_fewer(random: &mut Random, most: usize) -> Mesh {
    let mut mesh = split_shape(random, most);
    let place = 3 * random.below(mesh.triangles());
    if random.one_in(2) {
        mesh.list.drain(place..place + 3);
    } else {
        let over = mesh.triangle(place / 3);
        let third = random.between(0, mesh.vertices as usize) as u16;
        mesh.vertices = mesh.vertices.max(third as u64 + 1);
        mesh.push([over[0], over[1], third]);
    }
    mesh
}

// Undone once or more, and then not further, where a level is nearly a splitting.
fn disturbed_and_split(random: &mut Random, most: usize) -> Mesh {
    let kinds = [two_merged, one_doubled, counts_fit, one_triangle_more_or_fewer];
    let coarse = random.pick(&kinds)(random, (most / 4).max(8));
    disguised(random, splitting(&coarse))
}

fn improper(random: &mut Random, most: usize) -> Mesh {
    let mesh = any_shape(random, most);
    with_faults(random, mesh)
}

fn improper_split(random: &mut Random, most: usize) -> Mesh {
    let mesh = split_shape(random, most);
    with_faults(random, mesh)
}

// One fault that makes the mesh improper, or two.
fn with_faults(random: &mut Random, mut mesh: Mesh) -> Mesh {
    for _ in 0..random.between(1, 2) {
        let fault = random.pick(&[corner_not_below, equal_corners, same_triangle, unused_vertex, other_component]);
        mesh = fault(random, mesh);
    }
    mesh
}

fn corner_not_below(random: &mut Random, mut mesh: Mesh) -> Mesh {
    let place = random.below(mesh.list.len());
    mesh.list[place] = random.pick(&[mesh.vertices as u16, mesh.vertices as u16 + 1, 0x7fff, 0x8000, u16::MAX]);
    mesh
}

fn equal_corners(random: &mut Random, mut mesh: Mesh) -> Mesh {
    let triangle = 3 * random.below(mesh.triangles());
    let corner = random.below(3);
    mesh.list[triangle + corner] = mesh.list[triangle + (corner + random.between(1, 2)) % 3];
    mesh
}

fn same_triangle(random: &mut Random, mut mesh: Mesh) -> Mesh {
    let mut copy = mesh.triangle(random.below(mesh.triangles()));
    random.shuffle(&mut copy);
    let place = 3 * random.between(0, mesh.triangles());
    mesh.list.splice(place..place, copy);
    mesh
}

// Behind the others, or among them.
fn unused_vertex(random: &mut Random, mut mesh: Mesh) -> Mesh {
    let unused = random.between(0, mesh.vertices as usize) as u16;
    mesh.list.iter_mut().filter(|corner| **corner >= unused && **corner < u16::MAX).for_each(|corner| *corner += 1);
    mesh.vertices += 1;
    mesh
}

// Beside the mesh, or touching it at one vertex.
fn other_component(random: &mut Random, mut mesh: Mesh) -> Mesh {
    let other = shape(random, 6);
    let first = mesh.vertices as u16 - random.below(2) as u16;
    for number in 0..other.triangles() {
        let place = 3 * random.between(0, mesh.triangles());
        mesh.list.splice(place..place, other.triangle(number).map(|corner| corner + first));
    }
    mesh.vertices = first as u64 + other.vertices;
    mesh
}

// Corners at random among few vertices.
fn any_triangles(random: &mut Random, most: usize) -> Mesh {
    let triangles = random.between(1, if most < 100 { 12 } else { most });
    let vertices = random.between(3, (triangles + 2).min(8).max(triangles / 4)) as u16;
    let mut mesh = Mesh { vertices: vertices as u64, list: Vec::new() };
    for _ in 0..triangles {
        let first = random.below(vertices as usize) as u16;
        let second = (first + random.between(1, vertices as usize - 1) as u16) % vertices;
        let mut third = first;
        while third == first || third == second {
            third = random.below(vertices as usize) as u16;
        }
        mesh.push([first, second, third]);
    }
    mesh
}
