//! The first search for a reading: straight from the definition, through all choices. For small meshes.
//!
//! Why nothing is missed. Every reading parts the input's triangles into tiles (see [`Tile`]): a centre and, for each edge of the
//! centre, another triangle that has this edge. [`all_tiles`] lists every choice of a centre and of such three triangles, in all
//! ways, also where many triangles have an edge. [`complete`] then goes through the ways to part the triangles into listed tiles:
//! every triangle must lie in exactly one tile, so it is enough to take any one triangle that has no tile yet and to try every tile
//! with it. Which triangle is taken does not matter; the one with the fewest tiles to try is taken, for speed. A tile is left out
//! only if, together with the tiles chosen so far, it contradicts the definition, see [`Chosen::allows`]. Every parting that remains
//! is put to the full check of the definition in [`returned`]. That edges of centres are regular is not used, and neither is that
//! there is at most one reading in a role.

use crate::mesh::{edge, edges, Edge, Mesh, OnEdges};
use crate::reading::{returned, role, Match, Rule, Tile};
use std::collections::{BTreeMap, BTreeSet};

/// Every reading by the rule of a proper mesh in which triangle 0 has the given role.
///
/// "Each triangle has exactly one role in a reading, so there are at most four readings apart from coarse numbering and order":
/// there is at most one in each role, which is asserted, since this claim is nowhere used.
pub fn reading(input: &Mesh, asked: u64, rule: Rule) -> Option<Match> {
    let mut found = Vec::new();
    // "of triangles onto triangles": the splitting has 4 triangles for each coarse one
    if input.triangles.len().is_multiple_of(4) && !input.triangles.is_empty() {
        let tiles: Vec<Candidate> = all_tiles(input).into_iter().filter(|c| c.gives_triangle_0(input, asked)).collect();
        complete(input, &tiles, rule, &mut Vec::new(), &mut found);
    }
    for m in &found {
        assert_eq!(role(input, m), Some(asked), "the role of triangle 0 in a reading");
    }
    assert!(found.len() <= 1, "two readings in one role");
    found.pop()
}

/// A tile that may be chosen, with its kept vertices and, for each corner of its centre, the two kept ones it stands between.
struct Candidate {
    tile: Tile,
    kept: [usize; 3],
    between: [(usize, Edge); 3],
}

impl Candidate {
    /// All triangles of the tile.
    fn triangles(&self) -> [usize; 4] {
        let [p, q, r] = self.tile.across;
        [self.tile.centre, p, q, r]
    }

    /// Whether triangle 0 has the role asked, if it is in this tile: "0 if it is a centre, or 1, 2, 3 if its first, second or third
    /// corner is its kept vertex".
    fn gives_triangle_0(&self, input: &Mesh, asked: u64) -> bool {
        if self.tile.centre == 0 {
            return asked == 0;
        }
        match self.tile.across.iter().position(|&k| k == 0) {
            Some(i) => (1..=3).contains(&asked) && input.triangles[0][asked as usize - 1] == self.kept[i],
            None => true,
        }
    }
}

/// Every triangle as a centre (a, b, c), with every choice of other triangles that have the edges c-a, a-b, b-c.
///
/// Left out are choices in which two of the kept vertices are equal, since they are the corners of a triangle of the coarse mesh,
/// which is proper.
fn all_tiles(input: &Mesh) -> Vec<Candidate> {
    let on = OnEdges::of(input);
    let mut tiles = Vec::new();
    for (centre, t) in input.triangles.iter().enumerate() {
        let [a, b, c] = *t;
        let [on_ab, on_bc, on_ca] = edges(t).map(|e| on.others(e, centre));
        for &across_ca in &on_ca {
            for &across_ab in &on_ab {
                for &across_bc in &on_bc {
                    let tile = Tile { centre, across: [across_ca, across_ab, across_bc] };
                    if let Some(kept) = tile.kept(input) {
                        let [v1, v2, v3] = kept;
                        if v1 != v2 && v2 != v3 && v3 != v1 {
                            let between = [(a, edge(v1, v2)), (b, edge(v2, v3)), (c, edge(v3, v1))];
                            tiles.push(Candidate { tile, kept, between });
                        }
                    }
                }
            }
        }
    }
    tiles
}

/// What the tiles chosen so far say of the triangles and vertices.
#[derive(Default)]
struct Chosen {
    triangles: BTreeSet<usize>,
    kept: BTreeSet<usize>,
    between: BTreeMap<usize, Edge>,
    vertex_between: BTreeMap<Edge, usize>,
}

impl Chosen {
    fn of(tiles: &[Candidate], chosen: &[usize]) -> Chosen {
        let mut all = Chosen::default();
        for &i in chosen {
            all.triangles.extend(tiles[i].triangles());
            all.kept.extend(tiles[i].kept);
            for (x, e) in tiles[i].between {
                all.between.insert(x, e);
                all.vertex_between.insert(e, x);
            }
        }
        all
    }

    /// Whether a further tile does not contradict the definition:
    /// - a triangle is matched to one triangle only, so that it is in one tile only;
    /// - "Input vertices matched to coarse ones are *kept*; the others stand *between* two kept ones", so none is both;
    /// - "Each coarse edge gets one new vertex": a vertex stands between the same two kept ones in all tiles, and between two kept
    ///   ones stands the same vertex in all tiles.
    fn allows(&self, c: &Candidate) -> bool {
        c.triangles().iter().all(|k| !self.triangles.contains(k))
            && c.kept.iter().all(|v| !self.between.contains_key(v))
            && c.between.iter().all(|(x, e)| {
                !self.kept.contains(x)
                    && self.between.get(x).is_none_or(|other| other == e)
                    && self.vertex_between.get(e).is_none_or(|other| other == x)
            })
    }
}

/// Adds to the chosen tiles in all ways until every triangle is in one, and puts each such parting to the full check.
fn complete(input: &Mesh, tiles: &[Candidate], rule: Rule, chosen: &mut Vec<usize>, found: &mut Vec<Match>) {
    if 4 * chosen.len() == input.triangles.len() {
        let parting: Vec<Tile> = chosen.iter().map(|&i| tiles[i].tile.clone()).collect();
        found.extend(returned(input, &parting, rule));
        return;
    }
    for i in tiles_to_try(input, tiles, &Chosen::of(tiles, chosen)) {
        chosen.push(i);
        complete(input, tiles, rule, chosen, found);
        chosen.pop();
    }
}

/// For one triangle that has no tile yet, all tiles that may still be chosen for it: for the triangle that has the fewest.
fn tiles_to_try(input: &Mesh, tiles: &[Candidate], so_far: &Chosen) -> Vec<usize> {
    let mut may_be_chosen = vec![Vec::new(); input.triangles.len()];
    for (i, c) in tiles.iter().enumerate().filter(|(_, c)| so_far.allows(c)) {
        for k in c.triangles() {
            may_be_chosen[k].push(i);
        }
    }
    let without_tile = may_be_chosen.into_iter().enumerate().filter(|(k, _)| !so_far.triangles.contains(k));
    without_tile.map(|(_, may)| may).min_by_key(Vec::len).unwrap_or_default()
}
