// The covering mesh, and the reading of a mesh in a role.
use super::components::components;
use super::edges::Edges;
use super::{has_equal, Triangle};
use crate::refusals::Refusal;
use std::ops::Range;

// A centre with the three triangles about it.
struct Tile {
    // The centre and, at each of its corners, the triangle across the edge that ends there.
    four: [usize; 4],
    // The corners of the centre, each between two vertices of the row: the first and second, the second and third, the third and
    // first.
    between: Triangle,
    // The least of the three triangles that goes the other way round than the centre, if one does.
    turned: Option<usize>,
}

pub struct Cover {
    vertices: usize,
    triangles: usize,
    tiles: Vec<Tile>,
    // The triangle that each tile is of the covering mesh.
    rows: Vec<Triangle>,
    edges: Edges,
    components: Vec<usize>,
    // For each role the tile that it starts at.
    starts: [Option<usize>; 4],
}

pub struct Reading {
    pub role: usize,
    pub vertices: usize,
    pub mesh: Vec<Triangle>,
    pub vertex_map: Vec<Option<u16>>,
    pub triangle_map: Vec<Option<u16>>,
    // The least triangle that goes the other way round than its centre, if one does.
    turned: Option<usize>,
}

impl Cover {
    pub fn new(vertices: usize, triangles: &[Triangle], edges: &Edges) -> Cover {
        let opposite = |half: usize| triangles[half / 3][(half + 2) % 3];
        let (mut tiles, mut rows) = (Vec::new(), Vec::new());
        for (k, &between) in triangles.iter().enumerate() {
            let [Some(ab), Some(bc), Some(ca)] = [0, 1, 2].map(|side| edges.mate(3 * k + side)) else {
                continue;
            };
            let row = [opposite(ca), opposite(ab), opposite(bc)];
            if !has_equal(&row) {
                // Over the edge that they share, both run from the same vertex.
                let begins = |half: usize| triangles[half / 3][half % 3];
                let turned = [(ca, 2), (ab, 0), (bc, 1)].into_iter().filter(|&(half, side)| begins(half) == between[side]);
                let turned = turned.map(|(half, _)| half / 3).min();
                tiles.push(Tile { four: [k, ca / 3, ab / 3, bc / 3], between, turned });
                rows.push(row);
            }
        }
        // Triangle 0, or the one across the side opposite a corner of it.
        let centres = [Some(0), edges.mate(1), edges.mate(2), edges.mate(0)].map(|half| half.map(|half| half / 3));
        let starts = centres.map(|centre| tiles.binary_search_by_key(&centre?, |tile| tile.four[0]).ok());
        let edges = Edges::new(&rows);
        let components = components(&edges);
        Cover { vertices, triangles: triangles.len(), tiles, rows, edges, components, starts }
    }

    // The reading in the first of the roles that has one; or refusal 15 where a role has one but for windings, and else 11.
    pub fn first_reading(&self, roles: Range<usize>) -> Result<Reading, Refusal> {
        let mut refusal = Refusal(11, 0);
        for reading in roles.filter_map(|role| self.read(role)) {
            match reading.turned {
                None => return Ok(reading),
                Some(place) if refusal.0 == 11 => refusal = Refusal(15, place),
                Some(_) => (),
            }
        }
        Err(refusal)
    }

    // Reads the mesh in a role, but for windings. Each vertex gets a number of the splitting, and each triangle; where one would get
    // two, or there are not as many numbers as vertices, there is no reading. No splitting is made: a tile's four triangles are matched
    // to those of its row's splitting as they are numbered.
    fn read(&self, role: usize) -> Option<Reading> {
        let component = self.components[self.starts[role]?];
        let chosen: Vec<usize> = (0..self.tiles.len()).filter(|&tile| self.components[tile] == component).collect();
        if 4 * chosen.len() != self.triangles {
            return None;
        }
        let (vertices, mut vertex_map) = self.number_kept(&chosen);
        let mut edge_vertices = vec![None; self.edges.count()];
        let mut next = vertices as u16;
        let mut triangle_map = vec![None; self.triangles];
        for (j, &tile) in chosen.iter().enumerate() {
            for (&edge, &vertex) in self.edges.numbers()[tile].iter().zip(&self.tiles[tile].between) {
                let number = *edge_vertices[edge].get_or_insert_with(|| {
                    next += 1;
                    next - 1
                });
                if *vertex_map[vertex as usize].get_or_insert(number) != number {
                    return None;
                }
            }
            for (place, &triangle) in self.tiles[tile].four.iter().enumerate() {
                if triangle_map[triangle].replace((4 * j + place) as u16).is_some() {
                    return None;
                }
            }
        }
        if next as usize != self.vertices {
            return None;
        }
        let number = |vertex: u16| vertex_map[vertex as usize].expect("a kept vertex has its number");
        let mesh = chosen.iter().map(|&tile| self.rows[tile].map(number)).collect();
        let turned = chosen.iter().filter_map(|&tile| self.tiles[tile].turned).min();
        Some(Reading { role, vertices, mesh, vertex_map, triangle_map, turned })
    }

    // Numbers the vertices of the chosen rows upward. Answers how many there are.
    fn number_kept(&self, chosen: &[usize]) -> (usize, Vec<Option<u16>>) {
        let mut numbers = vec![None; self.vertices];
        for &tile in chosen {
            for vertex in self.rows[tile] {
                numbers[vertex as usize] = Some(0);
            }
        }
        let mut count = 0;
        for number in numbers.iter_mut().flatten() {
            *number = count;
            count += 1;
        }
        (count as usize, numbers)
    }
}
