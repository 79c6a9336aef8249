// What undo one and undo several share: the roles of a mesh.
use super::{has_equal, mark_used, number_edges, reach, ring_table, third_vertices, write_fours};
use crate::refusals::Refusal;
use std::ops::Range;

pub const ROLES: Range<usize> = 0..4;

// What all roles share: the mesh, the other half-edge of each half-edge, the covering mesh and its rings. Each table has an entry
// for each half-edge.
struct Cover<'a> {
    vertices: usize,
    list: &'a [u16],
    other: &'a [u16],
    rows: &'a [u16],
    ring: &'a [u16],
}

// What each role uses anew. Where a role has a reading, the coarse mesh is left in `coarse` and the maps in `map` and `faces`.
pub struct Role<'a> {
    pub marks: &'a mut [u16],
    pub coarse: &'a mut [u16],
    pub numbers: &'a mut [u16],
    pub map: &'a mut [u16],
    pub faces: &'a mut [u16],
    pub table: &'a mut [u16],
}

// The tables of a cover before it is made, where `ring` holds the rings of the mesh.
pub struct Tables<'a> {
    pub other: &'a mut [u16],
    pub rows: &'a mut [u16],
    pub ring: &'a mut [u16],
}

// What a role comes to: a reading whose coarse mesh has so many vertices; or one but for windings, where this is the least triangle
// that is turned; or none.
enum Tried {
    Reading(usize),
    Turned(usize),
    Other,
}

// The least of the roles that has a reading, and how many vertices its coarse mesh has; or refusal 15 where that is due, and else 11. A
// mesh whose triangles are no multiple of four has none.
pub fn least_role(
    roles: Range<usize>,
    vertices: usize,
    list: &[u16],
    tables: &mut Tables,
    role: &mut Role,
) -> Result<(usize, usize), Refusal> {
    let mut refusal = Refusal(11, 0);
    if !(list.len() / 3).is_multiple_of(4) {
        return Err(refusal);
    }
    let cover = tables.cover(vertices, list, role);
    for number in roles {
        match role.try_role(number, &cover) {
            Tried::Reading(kept) => return Ok((number, kept)),
            // That of the least role is told, if no role has a reading.
            Tried::Turned(place) if refusal.0 == 11 => refusal = Refusal(15, place),
            _ => (),
        }
    }
    Err(refusal)
}

impl Tables<'_> {
    // Makes the cover, with what a role uses as work buffers.
    fn cover<'b>(&'b mut self, vertices: usize, list: &'b [u16], role: &mut Role) -> Cover<'b> {
        let halves = list.len();
        let (other, rows) = (&mut self.other[..halves], &mut self.rows[..halves]);
        let thirds = &mut role.marks[..halves];
        others(&self.ring[..halves], other);
        third_vertices(list, thirds);
        cover_rows(other, thirds, rows);
        let work = [&mut *role.marks, &mut *role.coarse, &mut *role.numbers, &mut *role.map];
        ring_table(vertices, rows, self.ring, work);
        Cover { vertices, list, other, rows, ring: &self.ring[..halves] }
    }
}

// The other half-edge on each half-edge's edge where there are two, itself where it is alone, and the number of half-edges where
// there are three and more.
fn others(ring: &[u16], other: &mut [u16]) {
    for (h, (other, &next)) in other.iter_mut().zip(ring).enumerate() {
        *other = if ring[next as usize] as usize == h { next } else { ring.len() as u16 };
    }
}

// The other half-edge on the edge of h where there are exactly two.
fn mate(h: usize, other: &[u16]) -> Option<usize> {
    let across = other[h] as usize;
    (across != h && across < other.len()).then_some(across)
}

// The covering mesh: for each triangle whose edges all have mates the vertices across them, at each corner that across the edge
// which ends there, if these are different; and 0 three times for any other triangle.
fn cover_rows(other: &[u16], thirds: &[u16], rows: &mut [u16]) {
    let thirds = &thirds[..other.len()];
    for (k, row) in rows.chunks_exact_mut(3).enumerate() {
        let mut tile = [0; 3];
        if let [Some(f), Some(g), Some(h)] = [mate(3 * k, other), mate(3 * k + 1, other), mate(3 * k + 2, other)] {
            let [a, b, c] = [thirds[h], thirds[f], thirds[g]];
            if !has_equal(a, b, c) {
                tile = [a, b, c];
            }
        }
        row.copy_from_slice(&tile);
    }
}

impl Cover<'_> {
    fn triangles(&self) -> usize {
        self.list.len() / 3
    }

    // The tile where the search for a role starts: triangle 0, or the one across the side opposite its corner.
    fn start(&self, role: usize) -> Option<usize> {
        let tile = if role == 0 { 0 } else { mate(role % 3, self.other)? / 3 };
        (self.rows[3 * tile] != self.rows[3 * tile + 1]).then_some(tile)
    }
}

impl Role<'_> {
    fn try_role(&mut self, role: usize, cover: &Cover) -> Tried {
        match self.make_maps(role, cover) {
            Some(kept) => self.compare(kept, cover),
            None => Tried::Other,
        }
    }

    // All but the last comparison. Answers how many vertices the coarse mesh has.
    fn make_maps(&mut self, role: usize, cover: &Cover) -> Option<usize> {
        self.find_tiles(role, cover)?;
        let kept = self.number_tiles(cover)?;
        (self.map_vertices(cover) && self.map_triangles(cover)).then_some(kept)
    }

    // Marks the tiles that are reached from the role's start, which must be a quarter of the triangles, and puts their rows into
    // `faces`.
    fn find_tiles(&mut self, role: usize, cover: &Cover) -> Option<()> {
        let triangles = cover.triangles();
        let start = cover.start(role)?;
        let marks = &mut self.marks[..triangles];
        reach(start, cover.ring, marks, self.map, &mut self.table[..3 * triangles]);
        let count = select(cover.rows, marks, self.faces);
        (4 * count == triangles).then_some(())
    }

    // Numbers the vertices and the edges of the coarse mesh that the rows make, and answers how many vertices it has, if these add
    // up to the input's.
    fn number_tiles(&mut self, cover: &Cover) -> Option<usize> {
        let (vertices, triangles) = (cover.vertices, cover.triangles());
        let corners = 3 * (triangles / 4);
        let kept = &self.faces[..corners];
        let used = &mut self.table[..vertices];
        mark_used(kept, used);
        let kept_count = ranks(used, &mut self.map[..vertices]);
        let rank = &self.map[..vertices];
        for (corner, &vertex) in self.coarse.iter_mut().zip(kept) {
            *corner = rank[vertex as usize];
        }

        let marks = &self.marks[..triangles];
        let tile = &mut self.map[..triangles];
        ranks(marks, tile);
        selected_ring(cover.ring, marks, tile, &mut self.table[..corners]);
        let edges = number_edges(kept_count, &self.table[..corners], &mut self.numbers[..corners]);
        (kept_count + edges == vertices).then_some(kept_count)
    }

    // Gives the vertices of the rows the numbers of the coarse vertices, and the corners of the tiles those on the half-edges.
    // Answers whether each vertex got one number.
    fn map_vertices(&mut self, cover: &Cover) -> bool {
        let triangles = cover.triangles();
        let corners = 3 * (triangles / 4);
        select(cover.list, &self.marks[..triangles], self.table);
        let map = &mut self.map[..cover.vertices];
        let (kept, coarse) = (&self.faces[..corners], &self.coarse[..corners]);
        let (middles, numbers) = (&self.table[..corners], &self.numbers[..corners]);
        scatter(kept, coarse, map);
        scatter(middles, numbers, map);
        holds(kept, coarse, map) && holds(middles, numbers, map)
    }

    // Gives each triangle its number in the splitting: a tile is the centre, and the triangle across the tile's edge that ends at
    // a corner is that corner's. Answers whether each got one.
    fn map_triangles(&mut self, cover: &Cover) -> bool {
        let triangles = cover.triangles();
        let claimed = &mut self.table[..triangles];
        let tiles = cover.other.chunks_exact(3).zip(&self.marks[..triangles]).enumerate().filter(|(_, (_, &mark))| mark != 0);
        for (four, (k, (others, _))) in claimed.chunks_exact_mut(4).zip(tiles) {
            let across = |side: usize| others[side] / 3;
            four.copy_from_slice(&[k as u16, across(2), across(0), across(1)]);
        }
        let faces = &mut self.faces[..triangles];
        for (p, &k) in claimed.iter().enumerate() {
            faces[k as usize] = p as u16;
        }
        claimed.iter().enumerate().all(|(p, &k)| faces[k as usize] as usize == p)
    }

    // Compares every triangle, under the maps, with its triangle of the splitting of the coarse mesh, which has so many vertices: once
    // for the vertices and for the windings.
    fn compare(&mut self, kept: usize, cover: &Cover) -> Tried {
        let corners = 3 * (cover.triangles() / 4);
        let splitting = &mut self.table[..4 * corners];
        write_fours(&self.coarse[..corners], &self.numbers[..corners], splitting);
        let map = &self.map[..cover.vertices];
        let mut tried = Tried::Reading(kept);
        for (k, (t, &face)) in cover.list.chunks_exact(3).zip(&*self.faces).enumerate() {
            let place = 3 * face as usize;
            let s = &splitting[place..place + 3];
            let [a, b, c] = [map[t[0] as usize], map[t[1] as usize], map[t[2] as usize]];
            if is_rotation([a, b, c], s) {
                continue;
            }
            if !is_rotation([a, c, b], s) {
                return Tried::Other;
            }
            if let Tried::Reading(_) = tried {
                tried = Tried::Turned(k);
            }
        }
        tried
    }
}

// Copies the three entries of each marked triangle to the front of `out`, and answers how many are marked.
fn select(entries: &[u16], marks: &[u16], out: &mut [u16]) -> usize {
    let mut count = 0;
    for (three, &mark) in entries.chunks_exact(3).zip(marks) {
        if mark != 0 {
            out[3 * count..3 * count + 3].copy_from_slice(three);
            count += 1;
        }
    }
    count
}

// How many marks stand before each place. Answers how many there are.
fn ranks(marks: &[u16], rank: &mut [u16]) -> usize {
    let mut count = 0;
    for (&mark, rank) in marks.iter().zip(rank) {
        *rank = count as u16;
        count += usize::from(mark != 0);
    }
    count
}

// The rings of the marked triangles' edges, as half-edges of the marked triangles alone, whose ranks are in `tile`.
fn selected_ring(ring: &[u16], marks: &[u16], tile: &[u16], out: &mut [u16]) {
    let marked = ring.chunks_exact(3).zip(marks).filter(|(_, &mark)| mark != 0);
    for (out, (nexts, _)) in out.chunks_exact_mut(3).zip(marked) {
        for (out, &h) in out.iter_mut().zip(nexts) {
            let k = h / 3;
            *out = 3 * tile[k as usize] + (h - 3 * k);
        }
    }
}

// Puts each value into the table at its key.
fn scatter(keys: &[u16], values: &[u16], table: &mut [u16]) {
    for (&key, &value) in keys.iter().zip(values) {
        table[key as usize] = value;
    }
}

// Whether the table has each value at its key.
fn holds(keys: &[u16], values: &[u16], table: &[u16]) -> bool {
    keys.iter().zip(values).all(|(&key, &value)| table[key as usize] == value)
}

// Whether a triangle has three corners in the same order, beginning with any of them: each is followed by what follows it there. With
// which it begins decides no branch, since no processor foresees it.
fn is_rotation([a, b, c]: [u16; 3], s: &[u16]) -> bool {
    let [x, y, z] = [s[0], s[1], s[2]];
    let follower = |v: u16| {
        if v == x {
            y
        } else if v == y {
            z
        } else {
            x
        }
    };
    b == follower(a) && c == follower(b) && a == follower(c)
}
