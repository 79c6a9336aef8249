//! Document 01, "Meshes": edges, proper, and the faults 6 to 10 with their least places.

use std::collections::{BTreeMap, BTreeSet};

/// "Mesh sizes are numbers with constants on one limits type, not scattered through the code."
pub struct Limits;

impl Limits {
    /// Refusal 4: "F above 16,384".
    pub const TRIANGLES: usize = 16_384;
    /// Refusal 4: "(split: above 4,096)".
    pub const SPLIT_TRIANGLES: usize = 4_096;
    /// Refusal 4: "or V above 32,767".
    pub const VERTICES: u64 = 32_767;
    /// "Asked 0 to 3: that role. Asked 4: the least role that has a reading."
    pub const ASKED_ONE: u64 = 4;
    /// "Asked at most 0 to 7 levels."
    pub const LEVELS: u64 = 7;
    /// Refusal 13: document 02, #105: "13 is given above 16,396 bytes", no longer above document 01's 16,384. "A full file of 1,024
    /// triangles now takes 16,396 bytes", 12 + 16 * 1,024, if each of its lines ends in CR LF.
    pub const PROGRAM_BYTES: usize = 16_396;
    /// The program "has room for 1,024 triangles".
    pub const PROGRAM_TRIANGLES: usize = 1_024;
    /// The program has room for "1,026 vertices".
    pub const PROGRAM_VERTICES: usize = 1_026;
}

/// The three corners of a triangle, in order.
pub type Triangle = [usize; 3];

/// "An edge is an unordered pair of different vertices that occur together in a triangle": the lesser vertex stands first.
pub type Edge = (usize, usize);

/// "A mesh is a vertex count V and an index list of length 3F; triangle k has the corners at 3k, 3k+1, 3k+2."
#[derive(Clone, Debug, PartialEq, Eq)]
pub struct Mesh {
    pub vertices: u64,
    pub triangles: Vec<Triangle>,
}

impl Mesh {
    /// "triangle k has the corners at 3k, 3k+1, 3k+2". (One or two entries left over are no triangle; refusal 2 is given before.)
    pub fn of(vertices: u64, list: &[u16]) -> Mesh {
        Mesh { vertices, triangles: list.chunks_exact(3).map(|t| [t[0].into(), t[1].into(), t[2].into()]).collect() }
    }

    /// The index list of the mesh. "Entries of index lists and maps are 16-bit numbers."
    pub fn list(&self) -> Vec<u16> {
        self.triangles.iter().flatten().map(|&v| v as u16).collect()
    }

    /// Refusal 6: "a corner not below V", at the "least triangle".
    pub fn corner_not_below(&self) -> Option<usize> {
        self.triangles.iter().position(|t| t.iter().any(|&v| v as u64 >= self.vertices))
    }

    /// Refusal 7: "two equal corners", at the "least triangle".
    pub fn two_equal_corners(&self) -> Option<usize> {
        self.triangles.iter().position(|t| t[0] == t[1] || t[1] == t[2] || t[2] == t[0])
    }

    /// Refusal 8: "same as an earlier triangle", at the "least later one".
    pub fn same_as_an_earlier(&self) -> Option<usize> {
        let mut earlier = BTreeSet::new();
        self.triangles.iter().position(|&t| !earlier.insert(sorted(t)))
    }

    /// Refusal 9: "a vertex in no triangle", the "least vertex".
    pub fn vertex_in_no_triangle(&self) -> Option<u64> {
        let in_a_triangle: BTreeSet<u64> = self.triangles.iter().flatten().map(|&v| v as u64).collect();
        (0..self.vertices).find(|v| !in_a_triangle.contains(v))
    }

    /// Refusal 10: "not connected to triangle 0", at the "least triangle". "Connected means by steps over shared edges, singular
    /// ones included."
    pub fn not_connected(&self) -> Option<usize> {
        let on = OnEdges::of(self);
        let mut reached = vec![false; self.triangles.len()];
        let mut stepped_over = vec![false; on.edges.len()];
        let mut to_step_from = Vec::new();
        if !reached.is_empty() {
            reached[0] = true;
            to_step_from.push(0);
        }
        while let Some(k) = to_step_from.pop() {
            for n in edges(&self.triangles[k]).into_iter().filter_map(|e| on.number(e)) {
                // one step over an edge reaches all triangles that have it
                if !std::mem::replace(&mut stepped_over[n], true) {
                    for &other in on.triangles(n) {
                        if !std::mem::replace(&mut reached[other], true) {
                            to_step_from.push(other);
                        }
                    }
                }
            }
        }
        reached.iter().position(|&r| !r)
    }

    /// The first of the refusals 6 to 10 that applies, with its place. "Checked in this order."
    pub fn fault(&self) -> Option<(u64, u64)> {
        if let Some(k) = self.corner_not_below() {
            return Some((6, k as u64));
        }
        if let Some(k) = self.two_equal_corners() {
            return Some((7, k as u64));
        }
        if let Some(k) = self.same_as_an_earlier() {
            return Some((8, k as u64));
        }
        if let Some(v) = self.vertex_in_no_triangle() {
            return Some((9, v));
        }
        if let Some(k) = self.not_connected() {
            return Some((10, k as u64));
        }
        None
    }

    /// "A mesh is *proper* when every corner is below V, each triangle has three different corners, no two triangles are the same,
    /// every vertex is in a triangle, and the triangles are connected."
    pub fn proper(&self) -> bool {
        self.corner_not_below().is_none()
            && self.two_equal_corners().is_none()
            && self.same_as_an_earlier().is_none()
            && self.vertex_in_no_triangle().is_none()
            && self.not_connected().is_none()
    }

    /// Document 02, #102: "the resulting mesh's edge count and boundary edge count", in this order, of a mesh whose triangles have three
    /// different corners each.
    ///
    /// "An edge is an unordered pair of different vertices that occur together in a triangle. An edge is boundary, regular or singular
    /// when one, two, or three and more triangles have it": how many triangles have each edge is counted in the list itself.
    pub fn edge_counts(&self) -> (u64, u64) {
        let mut have: BTreeMap<Edge, u64> = BTreeMap::new();
        for e in self.triangles.iter().flat_map(edges) {
            *have.entry(e).or_insert(0) += 1;
        }
        let boundary = have.values().filter(|&&triangles| triangles == 1).count();
        (have.len() as u64, boundary as u64)
    }
}

/// "An edge is boundary, regular or singular when one, two, or three and more triangles have it": the edges of a mesh, upward, and the
/// triangles that have each of them.
pub struct OnEdges {
    pub edges: Vec<Edge>,
    /// Where the triangles of each edge begin, and where the last ones end.
    begins: Vec<usize>,
    triangles: Vec<usize>,
}

impl OnEdges {
    pub fn of(mesh: &Mesh) -> OnEdges {
        let of_triangle = |(k, t)| edges(t).map(|e| (e, k));
        let mut pairs: Vec<(Edge, usize)> = mesh.triangles.iter().enumerate().flat_map(of_triangle).collect();
        pairs.sort_unstable();
        let mut on = OnEdges { edges: Vec::new(), begins: Vec::new(), triangles: Vec::new() };
        for (e, k) in pairs {
            if on.edges.last() != Some(&e) {
                on.edges.push(e);
                on.begins.push(on.triangles.len());
            }
            on.triangles.push(k);
        }
        on.begins.push(on.triangles.len());
        on
    }

    /// The number of an edge in the list of the edges.
    pub fn number(&self, e: Edge) -> Option<usize> {
        self.edges.binary_search(&e).ok()
    }

    /// The triangles, upward, that have the edge of the given number.
    pub fn triangles(&self, number: usize) -> &[usize] {
        &self.triangles[self.begins[number]..self.begins[number + 1]]
    }

    /// The triangles, upward, that have an edge, except one of them.
    pub fn others(&self, e: Edge, except: usize) -> Vec<usize> {
        let all = self.number(e).map_or(&[][..], |n| self.triangles(n));
        all.iter().copied().filter(|&k| k != except).collect()
    }
}

/// "An edge is an unordered pair".
pub fn edge(a: usize, b: usize) -> Edge {
    (a.min(b), a.max(b))
}

/// "in (v1, v2, v3) the edges v1v2, v2v3, v3v1".
pub fn edges(t: &Triangle) -> [Edge; 3] {
    [edge(t[0], t[1]), edge(t[1], t[2]), edge(t[2], t[0])]
}

/// The vertices of a triangle upward: equal for two triangles exactly when they are the same.
pub fn sorted(mut t: Triangle) -> Triangle {
    t.sort_unstable();
    t
}

/// "Two triangles are the same when they have the same three vertices; winding is ignored".
pub fn same(t: Triangle, u: Triangle) -> bool {
    sorted(t) == sorted(u)
}

/// Document 02, #103: triangles that "agree up to rotation of corners" have the same corners in the same turning.
pub fn same_up_to_rotation([a, b, c]: Triangle, u: Triangle) -> bool {
    u == [a, b, c] || u == [b, c, a] || u == [c, a, b]
}

/// The corner of a triangle that is not on the given one of its edges.
pub fn opposite(t: &Triangle, e: Edge) -> Option<usize> {
    t.iter().copied().find(|&v| v != e.0 && v != e.1)
}
