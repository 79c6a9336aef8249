//! What docs/COURSE.md says to be found "by trying all".

mod common;

use common::{band, coarse_meshes, is_proper, list, matches, sorted, split_of, turnings, Mesh};
use reference::{reading_in, undo_one, OneRoom, Rule, Search};
use std::collections::BTreeSet;

/// The roles that have a reading by the rule.
fn roles(mesh: &Mesh, rule: Rule) -> Vec<u64> {
    let has = |role: &u64| reading_in(mesh.0.into(), &list(mesh), *role, rule, Search::Exhaustive).is_some();
    (0..4).filter(has).collect()
}

fn edges(t: &[u16; 3]) -> [[u16; 2]; 3] {
    let [a, b, c] = sorted(*t);
    [[a, b], [b, c], [a, c]]
}

/// By the old rule, in which it makes no difference how the coarse triangles are turned.
#[test]
fn smallest_mesh_with_two_coarse_meshes_by_the_old_rule() {
    let by_count: Vec<Vec<Mesh>> = (1..=5).map(coarse_meshes).collect();
    assert_eq!(by_count.iter().map(Vec::len).collect::<Vec<_>>(), [1, 1, 3, 10, 37]);
    let with_two: Vec<&Mesh> = by_count.iter().flatten().filter(|mesh| roles(&split_of(mesh), Rule::Old).len() > 1).collect();
    assert_eq!(with_two.len(), 1);
    assert!(!matches(with_two[0], &band(5)).is_empty());
}

/// All proper meshes of one triangle more than the given ones, apart from numbering, some of them several times: a connected mesh has a
/// triangle without which it is connected.
fn with_one_more(meshes: &[Mesh]) -> Vec<Mesh> {
    let mut all = Vec::new();
    for mesh in meshes {
        // the further triangle has an edge in common with another one, and so at most one new vertex
        for c in 0..=mesh.0 {
            for b in 0..c {
                all.extend((0..b).map(|a| (mesh.0.max(c + 1), [&mesh.1[..], &[[a, b, c]]].concat())));
            }
        }
    }
    all.retain(is_proper);
    all
}

/// Whether each edge that two triangles have runs opposite ways in them: no triangle has it the same way as another.
fn turns_alike(mesh: &Mesh) -> bool {
    let ways: Vec<[u16; 2]> = mesh.1.iter().flat_map(|&[a, b, c]| [[a, b], [b, c], [c, a]]).collect();
    ways.len() == ways.iter().collect::<BTreeSet<_>>().len()
}

/// By the new rule, with the coarse triangles turned in all ways. A reading by the new rule is one by the old rule, so that of up to five
/// triangles only the Moebius band is to be looked at. It has one reading, however its triangles are turned. Of six triangles only the
/// band of six, which is a ring, has two readings by the old rule. By the new rule it has both if its triangles turn alike, and otherwise
/// one.
#[test]
fn smallest_mesh_with_two_coarse_meshes() {
    for coarse in turnings(&band(5)) {
        let fine = split_of(&coarse);
        assert_eq!((roles(&fine, Rule::Old).len(), roles(&fine, Rule::New)), (2, vec![0]), "{coarse:?}");
    }
    let of_six = with_one_more(&coarse_meshes(5));
    let with_two: Vec<Mesh> = of_six.into_iter().filter(|mesh| roles(&split_of(mesh), Rule::Old).len() > 1).collect();
    assert!(!with_two.is_empty());
    for mesh in with_two {
        assert!(mesh.0 == 6 && !matches(&mesh, &band(6)).is_empty());
    }
    for coarse in turnings(&band(6)) {
        let fine = split_of(&coarse);
        assert_eq!((fine.0, fine.1.len(), roles(&fine, Rule::Old).len()), (18, 24, 2));
        assert_eq!(roles(&fine, Rule::New).len(), if turns_alike(&coarse) { 2 } else { 1 }, "{coarse:?}");
    }
    assert_eq!(turnings(&band(6)).iter().filter(|mesh| turns_alike(mesh)).count(), 2);
}

/// Of all proper meshes of up to four triangles, with their triangles turned in all ways, only a split triangle is refused 15 when asked 4,
/// of 4 triangles and 6 vertices: in the 14 of 16 ways in which not all four turn alike.
#[test]
fn smallest_mesh_refused_15() {
    let is_refused_15 = |mesh: &Mesh| {
        let room = OneRoom { mesh: 3, vertex_map: mesh.0.into(), triangle_map: 4 };
        undo_one(mesh.0.into(), &list(mesh), 4, room, &[], Search::Exhaustive).answer.refusal == 15
    };
    let tile = split_of(&(3, vec![[0, 1, 2]]));
    let meshes: Vec<Mesh> = (1..=4).flat_map(coarse_meshes).collect();
    let split_triangles: Vec<&Mesh> =
        meshes.iter().filter(|mesh| (mesh.0, mesh.1.len()) == (6, 4) && !matches(mesh, &tile).is_empty()).collect();
    assert_eq!(split_triangles.len(), 1);
    for mesh in &meshes {
        let refused = turnings(mesh).iter().filter(|mesh| is_refused_15(mesh)).count();
        assert_eq!(refused, if split_triangles.contains(&mesh) { 14 } else { 0 }, "{mesh:?}");
    }
}

/// A tile: the centre first, of kept vertices 0 to 2 and vertices 3 to 5 between 0 and 1, 1 and 2, 2 and 0, under other names.
fn tile(names: &[u16; 6]) -> Vec<[u16; 3]> {
    let [k, l, m, kl, lm, mk] = *names;
    vec![[kl, lm, mk], [k, kl, mk], [l, lm, kl], [m, mk, lm]]
}

/// All names of a second tile's vertices, where those of the first are 0 to 5: each is one of these, and none twice, or a new one.
fn second_names() -> Vec<[u16; 6]> {
    let mut all: Vec<Vec<u16>> = vec![vec![]];
    for _ in 0..6 {
        let longer = |names: &Vec<u16>| {
            let new = names.iter().copied().max().map_or(6, |most| 6.max(most + 1));
            let free = (0..6).filter(|v| !names.contains(v)).chain([new]);
            free.map(|v| [&names[..], &[v]].concat()).collect::<Vec<_>>()
        };
        all = all.iter().flat_map(longer).collect();
    }
    all.into_iter().map(|names| names.try_into().unwrap()).collect()
}

/// Whether two tiles cover the mesh and everything counts up: the edges of their centres are regular, the two triangles of their
/// kept vertices are a proper coarse mesh, and its vertices and edges are as many as the mesh has vertices.
fn counts_up(mesh: &Mesh, kept: [[u16; 3]; 2]) -> bool {
    let on = |e: &[u16; 2]| mesh.1.iter().filter(|t| edges(t).contains(e)).count();
    let regular = [0, 4].iter().flat_map(|&k: &usize| edges(&mesh.1[k])).all(|e| on(&e) == 2);
    let coarse = common::compact((mesh.0, kept.to_vec()));
    let coarse_edges: BTreeSet<[u16; 2]> = coarse.1.iter().flat_map(edges).collect();
    is_proper(mesh) && regular && is_proper(&coarse) && usize::from(mesh.0) == usize::from(coarse.0) + coarse_edges.len()
}

#[test]
fn two_tiles_that_count_up_without_a_reading() {
    let all = second_names();
    assert_eq!(all.len(), 13_327);
    let mut without: Vec<Mesh> = Vec::new();
    for names in all {
        let mesh: Mesh = (names.iter().fold(6, |n, &v| n.max(v + 1)), [tile(&[0, 1, 2, 3, 4, 5]), tile(&names)].concat());
        let known = |other: &Mesh| other.0 == mesh.0 && !matches(&mesh, other).is_empty();
        if counts_up(&mesh, [[0, 1, 2], [names[0], names[1], names[2]]])
            && roles(&mesh, Rule::Old).is_empty()
            && !without.iter().any(known)
        {
            without.push(mesh);
        }
    }
    println!("apart from numbering and order: {without:?}");
    assert_eq!(without.len(), 2);
    // the one of the course
    let count: Mesh = (9, vec![[4, 5, 6], [0, 4, 6], [1, 5, 4], [2, 6, 5], [7, 8, 6], [0, 7, 6], [1, 8, 7], [3, 6, 8]]);
    assert!(without.iter().any(|mesh| !matches(mesh, &count).is_empty()));
}
