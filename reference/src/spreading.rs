//! The second search for a reading: the labels kept and between are spread from triangle 0 over shared edges. For large meshes.
//!
//! The rules that follow from the table of the splitting:
//! - A corner triangle (4j+1, 4j+2, 4j+3) has one kept corner and two between; a centre (4j) has three between. So the labels of a
//!   triangle's corners say what it is, and no triangle has two kept corners.
//! - An edge from a kept vertex to one between is on corner triangles only, one for each coarse triangle on this coarse edge. So the
//!   third corner of every triangle on it, be they one, two or many, is between.
//! - An edge of two vertices between, say e31-e12, is on 4j and 4j+1 and on no other triangle: a coarse triangle with both the edges
//!   v3v1 and v1v2 has the three corners of j, and so is j. So exactly two triangles are on this edge, one of them a centre, whose
//!   third corner is between, and the other a corner triangle, whose third corner is kept.
//!
//! Why nothing is missed. Over each of its edges, a triangle whose corners have labels thus settles the label of the third corner of
//! every triangle on that edge. "Connected means by steps over shared edges, singular ones included", so that from triangle 0, whose
//! labels its role gives, all labels are settled; in every reading with this role they are the same. A contradiction on the way means
//! that there is no reading. The labels settle the tiles: the centres are the triangles without a kept corner, and each of a centre's
//! edges has exactly one other triangle. The tiles settle the reading, see [`returned`], where the full check of the definition is
//! made. How triangles turn plays no part before: a reading by the new rule is one by the old rule.

use crate::mesh::{edges, opposite, Mesh, OnEdges};
use crate::reading::{returned, role, Match, Rule, Tile};
use std::collections::VecDeque;

/// "Input vertices matched to coarse ones are *kept*; the others stand *between* two kept ones."
#[derive(Clone, Copy, Debug, PartialEq, Eq)]
enum Label {
    Kept,
    Between,
}

/// The reading by the rule of a proper mesh in which triangle 0 has the given role, if there is one.
pub fn reading(input: &Mesh, asked: u64, rule: Rule) -> Option<Match> {
    // "of triangles onto triangles": the splitting has 4 triangles for each coarse one
    if input.triangles.is_empty() || !input.triangles.len().is_multiple_of(4) {
        return None;
    }
    let on = OnEdges::of(input);
    let labels = spread(input, &on, asked)?;
    let tiles = tiles(input, &on, &labels)?;
    returned(input, &tiles, rule).filter(|m| role(input, m) == Some(asked))
}

/// "The *role* of triangle 0 is 0 if it is a centre, or 1, 2, 3 if its first, second or third corner is its kept vertex."
fn labels_of_triangle_0(asked: u64) -> Option<[Label; 3]> {
    use Label::{Between, Kept};
    match asked {
        0 => Some([Between, Between, Between]),
        1 => Some([Kept, Between, Between]),
        2 => Some([Between, Kept, Between]),
        3 => Some([Between, Between, Kept]),
        _ => None,
    }
}

/// The label of every vertex, or None if there is a contradiction.
fn spread(input: &Mesh, on: &OnEdges, asked: u64) -> Option<Vec<Label>> {
    let mut labels: Vec<Option<Label>> = vec![None; input.vertices as usize];
    let mut reached = vec![false; input.triangles.len()];
    let mut spread_over = vec![false; on.edges.len()];
    let mut to_spread_from = VecDeque::from([0]);
    reached[0] = true;
    for (v, label) in input.triangles[0].into_iter().zip(labels_of_triangle_0(asked)?) {
        labels[v] = Some(label);
    }
    while let Some(k) = to_spread_from.pop_front() {
        let t = &input.triangles[k];
        for e in edges(t) {
            // once is enough: what one triangle on the edge says of the others, each of them says of the rest
            let n = on.number(e)?;
            if std::mem::replace(&mut spread_over[n], true) {
                continue;
            }
            let third = labels[opposite(t, e)?]?;
            let of_others = third_corner_of_others(labels[e.0]?, labels[e.1]?, third, on.triangles(n).len())?;
            for &other in on.triangles(n).iter().filter(|&&other| other != k) {
                let v = opposite(&input.triangles[other], e)?;
                if *labels[v].get_or_insert(of_others) != of_others {
                    return None;
                }
                if !std::mem::replace(&mut reached[other], true) {
                    to_spread_from.push_back(other);
                }
            }
        }
    }
    labels.into_iter().collect()
}

/// The label of the third corner of the other triangles on an edge, from the labels of its two vertices, that of the third corner of
/// one triangle, and the number of triangles on the edge. None if these contradict each other. See the rules above.
fn third_corner_of_others(p: Label, q: Label, third: Label, triangles: usize) -> Option<Label> {
    use Label::{Between, Kept};
    match (p, q, third) {
        (Between, Between, Between) => (triangles == 2).then_some(Kept),
        (Between, Between, Kept) => (triangles == 2).then_some(Between),
        (Kept, Between, Between) | (Between, Kept, Between) => Some(Between),
        _ => None,
    }
}

/// "Centres are the triangles matched to some 4j": the triangles whose corners are all between, each with the other triangle on
/// c-a, on a-b and on b-c.
fn tiles(input: &Mesh, on: &OnEdges, labels: &[Label]) -> Option<Vec<Tile>> {
    let mut tiles = Vec::new();
    for (centre, t) in input.triangles.iter().enumerate() {
        if t.iter().all(|&v| labels[v] == Label::Between) {
            let [on_ab, on_bc, on_ca] = edges(t).map(|e| on.others(e, centre));
            tiles.push(Tile { centre, across: [*on_ca.first()?, *on_ab.first()?, *on_bc.first()?] });
        }
    }
    Some(tiles)
}
