//! Document 01, "A reading", with the rule of document 02, #103: what a reading is, the role of triangle 0, and the numbering of the
//! returned coarse mesh.

use crate::mesh::{edge, opposite, same, same_up_to_rotation, Mesh, Triangle};
use crate::splitting::splitting;
use std::collections::BTreeSet;

/// A coarse mesh, with a match of the input's vertices and triangles to those of its splitting.
#[derive(Clone, Debug, PartialEq, Eq)]
pub struct Match {
    pub coarse: Mesh,
    pub vertex_map: Vec<usize>,
    pub triangle_map: Vec<usize>,
}

/// What is asked of matched triangles. "Reading" alone means one by the new rule; the old one is left for refusal 15.
#[derive(Clone, Copy, Debug, PartialEq, Eq)]
pub enum Rule {
    /// Document 01: "matched triangles have the same three vertices under the vertex match".
    Old,
    /// Document 02, #103: "From now on matched triangles in a reading must agree up to rotation of corners."
    New,
}

impl Rule {
    fn agree(self, t: Triangle, u: Triangle) -> bool {
        match self {
            Rule::Old => same(t, u),
            Rule::New => same_up_to_rotation(t, u),
        }
    }
}

/// "A *reading* of a proper mesh is a proper coarse triangle mesh with a one-to-one match of the input's vertices onto those of its
/// splitting, and of triangles onto triangles", where matched triangles agree by the rule.
pub fn is_reading(input: &Mesh, m: &Match, rule: Rule) -> bool {
    // "a proper coarse triangle mesh"
    if !m.coarse.proper() {
        return false;
    }
    let fine = splitting(&m.coarse);
    // "a one-to-one match of the input's vertices onto those of its splitting"
    input.vertices == fine.vertices
        && one_to_one_onto(&m.vertex_map, fine.vertices as usize)
        // "and of triangles onto triangles"
        && input.triangles.len() == fine.triangles.len()
        && one_to_one_onto(&m.triangle_map, fine.triangles.len())
        && least_disagreeing(input, m, rule).is_none()
}

/// The least input triangle that disagrees, by the rule and under the vertex match, with the triangle of the splitting to which it is
/// matched. Both maps must be onto.
pub fn least_disagreeing(input: &Mesh, m: &Match, rule: Rule) -> Option<usize> {
    let fine = splitting(&m.coarse);
    let mut matched = input.triangles.iter().zip(&m.triangle_map);
    matched.position(|(t, &k)| !rule.agree(t.map(|v| m.vertex_map[v]), fine.triangles[k]))
}

/// "one-to-one ... onto": the map sends `0..count` to `0..count` and no two numbers to the same.
fn one_to_one_onto(map: &[usize], count: usize) -> bool {
    let mut taken = vec![false; count];
    map.len() == count && map.iter().all(|&to| to < count && !std::mem::replace(&mut taken[to], true))
}

/// "The *role* of triangle 0 is 0 if it is a centre, or 1, 2, 3 if its first, second or third corner is its kept vertex."
///
/// "Centres are the triangles matched to some 4j." "Input vertices matched to coarse ones are *kept*", and coarse vertices keep
/// their numbers in the splitting, so a vertex is kept when it is matched to a number below the coarse V.
pub fn role(input: &Mesh, m: &Match) -> Option<u64> {
    if m.triangle_map.first()? % 4 == 0 {
        return Some(0);
    }
    let kept = |v: &usize| (m.vertex_map[*v] as u64) < m.coarse.vertices;
    Some(input.triangles.first()?.iter().position(kept)? as u64 + 1)
}

/// The four input triangles that are matched to 4j, 4j+1, 4j+2, 4j+3 for one j, up to the order of the last three: a centre
/// (a, b, c), and the triangles across c-a, across a-b and across b-c from it.
///
/// By the table of the splitting, 4j = (e12, e23, e31) has the edge e31-e12 in common with 4j+1 = (v1, e12, e31), the edge e12-e23
/// with 4j+2 and the edge e23-e31 with 4j+3. So every reading parts the input's triangles into such tiles.
#[derive(Clone, Debug, PartialEq, Eq)]
pub struct Tile {
    pub centre: usize,
    pub across: [usize; 3],
}

impl Tile {
    /// The kept vertices "across c-a, across a-b, across b-c" of the centre (a, b, c): the corner triangle's third corner.
    /// None if one of the three triangles is not across its edge.
    pub fn kept(&self, input: &Mesh) -> Option<[usize; 3]> {
        let [a, b, c] = input.triangles[self.centre];
        let third = |k: usize, e| opposite(&input.triangles[k], e);
        Some([third(self.across[0], edge(c, a))?, third(self.across[1], edge(a, b))?, third(self.across[2], edge(b, c))?])
    }
}

/// The reading by the rule with the given tiles, as it is returned; None if there is none.
///
/// The tiles settle a reading apart from coarse numbering and order: a tile's kept vertices are the corners of its coarse triangle,
/// and the corner of the centre that two of its corner triangles have in common stands between their kept vertices. To renumber the
/// coarse vertices, to reorder the coarse triangles or to rotate a coarse triangle's corners only renumbers and reorders the splitting
/// and rotates corners in it. To turn a coarse triangle over also turns its four triangles over. By the old rule that makes no
/// difference. By the new one a coarse triangle must turn as its centre does, and here it does: the centre's corners are those of 4j in
/// order. So if any reading by the rule has these tiles then the one built here is one too; whether it is, the full check of the
/// definition says at the end.
pub fn returned(input: &Mesh, tiles: &[Tile], rule: Rule) -> Option<Match> {
    // "The returned coarse mesh numbers the kept vertices upward in input order, and the centres upward likewise."
    let mut tiles = tiles.to_vec();
    tiles.sort_by_key(|tile| tile.centre);
    let across: Vec<[usize; 3]> = tiles.iter().map(|tile| tile.kept(input)).collect::<Option<_>>()?;
    let kept: Vec<usize> = across.iter().flatten().copied().collect::<BTreeSet<_>>().into_iter().collect();

    // "A centre (a, b, c) gives the coarse triangle (kept vertex across c-a, across a-b, across b-c)."
    let number = |v: usize| kept.binary_search(&v).ok();
    let coarse_triangle = |vs: &[usize; 3]| Some([number(vs[0])?, number(vs[1])?, number(vs[2])?]);
    let triangles = across.iter().map(coarse_triangle).collect::<Option<Vec<_>>>()?;
    let coarse = Mesh { vertices: kept.len() as u64, triangles };
    if !coarse.proper() {
        return None;
    }

    // "The vertex map sends each input vertex, and the triangle map each input triangle, to its number in the splitting of the
    // returned mesh." The corner a of the centre (a, b, c) is common to the triangles across c-a and across a-b, whose kept vertices
    // are v1 and v2; so a is e12, and likewise b is e23 and c is e31: the centre's corners are those of 4j in this order.
    let fine = splitting(&coarse);
    let mut vertex_map = vec![None; input.vertices as usize];
    let mut triangle_map = vec![None; input.triangles.len()];
    for (i, &v) in kept.iter().enumerate() {
        send(&mut vertex_map, v, i)?;
    }
    for (j, tile) in tiles.iter().enumerate() {
        for (x, e) in input.triangles[tile.centre].into_iter().zip(fine.triangles[4 * j]) {
            send(&mut vertex_map, x, e)?;
        }
        send(&mut triangle_map, tile.centre, 4 * j)?;
        for (i, &k) in tile.across.iter().enumerate() {
            send(&mut triangle_map, k, 4 * j + 1 + i)?;
        }
    }
    let m = Match {
        coarse,
        vertex_map: vertex_map.into_iter().collect::<Option<_>>()?,
        triangle_map: triangle_map.into_iter().collect::<Option<_>>()?,
    };
    is_reading(input, &m, rule).then_some(m)
}

/// Enters that the map sends `from` to `to`; None if it already sends it elsewhere.
fn send(map: &mut [Option<usize>], from: usize, to: usize) -> Option<()> {
    (*map[from].get_or_insert(to) == to).then_some(())
}
