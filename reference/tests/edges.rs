//! Document 02, request 102: the edges and boundary edges in the answers of split and of undo. Expectations are the request's, worked out
//! by hand, or counted to the letter of document 01, pair of vertices by pair of vertices.

mod common;

use common::{
    band, book, coarse_meshes, fan, is_proper, list, make, octahedron, projective_plane, seven_vertex_torus, split_of, strip,
};
use common::{tetrahedron, torus, Mesh, Random, KINDS};
use reference::{split, undo_one, undo_several, Answer, One, OneRoom, Search, Several};

/// "An edge is an unordered pair of different vertices that occur together in a triangle. An edge is boundary ... when one ... triangles
/// have it": every pair is looked for in every triangle.
fn counted(mesh: &Mesh) -> (u64, u64) {
    let (mut edges, mut boundary) = (0, 0);
    for b in 0..mesh.0 {
        for a in 0..b {
            let have = mesh.1.iter().filter(|t| t.contains(&a) && t.contains(&b)).count();
            edges += u64::from(have > 0);
            boundary += u64::from(have == 1);
        }
    }
    (edges, boundary)
}

/// The counts of an answer that accepts.
fn counts(answer: Answer) -> (u64, u64) {
    assert_eq!(answer.refusal, 0);
    (answer.edges, answer.boundary_edges)
}

/// "2E + 3F", and two boundary edges of each.
fn of_splitting(mesh: &Mesh, (edges, boundary): (u64, u64)) -> (u64, u64) {
    (2 * edges + 3 * mesh.1.len() as u64, 2 * boundary)
}

fn split_answer(mesh: &Mesh) -> Answer {
    split(mesh.0.into(), &list(mesh), 12 * mesh.1.len(), &[]).0
}

fn one(mesh: &Mesh, asked: u64) -> One {
    let f = mesh.1.len();
    let room = OneRoom { mesh: 3 * (f / 4), vertex_map: mesh.0.into(), triangle_map: f };
    undo_one(mesh.0.into(), &list(mesh), asked, room, &[], Search::Spreading)
}

fn several(mesh: &Mesh, asked: u64) -> Several {
    undo_several(mesh.0.into(), &list(mesh), asked, 3 * mesh.1.len(), &[], Search::Spreading)
}

/// The resulting mesh of an answer.
fn result(answer: Answer, entries: &[u16]) -> Mesh {
    (answer.vertices as u16, entries.chunks(3).map(|t| [t[0], t[1], t[2]]).collect())
}

/// The examples of the request.
#[test]
fn examples() {
    let triangle: Mesh = (3, vec![[0, 1, 2]]);
    assert_eq!(counts(split_answer(&triangle)), (9, 6));
    assert_eq!(counts(split_answer(&(5, vec![[0, 1, 2], [0, 1, 3], [0, 1, 4]]))), (23, 12));
    let sample: Mesh = (6, vec![[5, 0, 3], [4, 1, 0], [3, 0, 1], [2, 3, 1]]);
    let undone = one(&sample, 1);
    assert_eq!((counts(undone.answer), undone.role), ((3, 3), 1));
    let undone = one(&torus(6, 6, 0), 0);
    assert_eq!((counts(undone.answer), undone.answer.triangles), ((27, 0), 18));
    let left = several(&triangle, 0);
    assert_eq!((counts(left.answer), left.levels), ((3, 3), 0));
}

/// Meshes whose edges can be counted on paper: as they are, split, and undone again.
#[test]
fn known_meshes() {
    let mut known = vec![
        // each edge has two triangles
        (tetrahedron(), (6, 0)),
        (octahedron(), (12, 0)),
        (projective_plane(), (15, 0)),
        (seven_vertex_torus(), (21, 0)),
        (torus(3, 3, 0), (27, 0)),
        (torus(4, 5, 0), (60, 0)),
        // two tetrahedra that have an edge in common, which has four triangles: 6 and 6 edges, but for one of them
        ((6, vec![[0, 1, 2], [0, 1, 3], [0, 2, 3], [1, 2, 3], [0, 1, 4], [0, 1, 5], [0, 4, 5], [1, 4, 5]]), (11, 0)),
        // two tetrahedra that have the triangle (0, 1, 2) in common, each edge of which has three triangles: 6 and 6 edges, but for three
        ((5, vec![[0, 1, 2], [0, 1, 3], [1, 2, 3], [0, 2, 3], [0, 1, 4], [1, 2, 4], [0, 2, 4]]), (9, 0)),
        // five triangles on the edge 0-1, which have 11 edges, and one on 1-2, with two more: all are boundary but 0-1 and 1-2
        ((8, vec![[0, 1, 2], [0, 1, 3], [0, 1, 4], [0, 1, 5], [0, 1, 6], [1, 2, 7]]), (13, 11)),
    ];
    for f in 1..=9 {
        let n = u64::from(f);
        // each triangle but the first shares one edge with the one before
        known.push((strip(f), (2 * n + 1, n + 2)));
        known.push((fan(f, false), (2 * n + 1, n + 2)));
        // the edge 0-1, and two more of each triangle; 0-1 is boundary where there is one triangle alone
        known.push((book(f), (2 * n + 1, 2 * n + u64::from(f == 1))));
    }
    for f in 3..=9 {
        // an edge from the middle to each vertex around it, and the edges around
        known.push((fan(f, true), (2 * u64::from(f), f.into())));
    }
    for f in 5..=9 {
        // an edge across, and one along a side, from each vertex on
        known.push((band(f), (2 * u64::from(f), f.into())));
    }
    for (mesh, edges) in known {
        assert_eq!(counts(several(&mesh, 0).answer), edges, "{mesh:?}");
        assert_eq!(counts(split_answer(&mesh)), of_splitting(&mesh, edges), "{mesh:?}");
        let fine = split_of(&mesh);
        assert_eq!(counts(one(&fine, 0).answer), edges, "{mesh:?}");
        assert_eq!(counts(several(&fine, 1).answer), edges, "{mesh:?}");
        assert_eq!(counts(several(&fine, 0).answer), of_splitting(&mesh, edges), "{mesh:?}");
    }
    assert_eq!(counts(split_answer(&tetrahedron())), (24, 0));
}

/// Of three triangles on one edge that edge is singular and no boundary edge, and of their splitting the two that it becomes.
#[test]
fn singular_edges() {
    let fin = book(3);
    assert_eq!(counts(several(&fin, 0).answer), (7, 6));
    // without the third triangle the edge is regular, and no boundary edge either; without the second it is one
    assert_eq!(counts(several(&book(2), 0).answer), (5, 4));
    assert_eq!(counts(several(&book(1), 0).answer), (3, 3));
    let fine = split_of(&fin);
    let have = |a: u16, b: u16| fine.1.iter().filter(|t| t.contains(&a) && t.contains(&b)).count();
    assert_eq!((have(0, 5), have(5, 1)), (3, 3));
    // 23 edges: these two, 9 around the centres, which are regular, and 12 on one triangle each
    assert_eq!(counts(several(&fine, 0).answer), (23, 12));
    assert_eq!(counts(one(&fine, 4).answer), (7, 6));
}

/// What undo several counts is what it leaves, whether as many levels were asked, fewer, or more than there are.
#[test]
fn levels() {
    let twice = |mesh: &Mesh| split_of(&split_of(mesh));
    // 2 times 7 and 3 times 3, 2 times 23 and 3 times 12; 2 times 6 and 3 times 4, 2 times 24 and 3 times 16
    for (mesh, by_levels) in [(twice(&book(3)), [(82, 24), (23, 12), (7, 6)]), (twice(&tetrahedron()), [(96, 0), (24, 0), (6, 0)])]
    {
        for asked in 0..=7 {
            let left = several(&mesh, asked);
            assert_eq!((left.levels, counts(left.answer)), (asked.min(2), by_levels[asked.min(2) as usize]));
        }
    }
    // 3 edges of each of 36 vertices, and of each of 9
    for asked in 0..=7 {
        let left = several(&torus(6, 6, 0), asked);
        assert_eq!((left.levels, counts(left.answer)), if asked == 0 { (0, (108, 0)) } else { (1, (27, 0)) });
    }
    // a triangle with n edges along each side: n(n + 1)/2 triangles stand as the first one does, and each edge is on one of these
    let mut mesh: Mesh = (3, vec![[0, 1, 2]]);
    for splits in 0..=7 {
        for asked in 0..=7 {
            let left = several(&mesh, asked);
            let n = 1 << (splits - left.levels);
            assert_eq!((left.levels, counts(left.answer)), (asked.min(splits), (3 * n * (n + 1) / 2, 3 * n)));
        }
        if splits < 7 {
            mesh = split_of(&mesh);
        }
    }
    assert_eq!(mesh.1.len(), 16_384);
}

/// "zeros in a refusal": of each number that the three calls give.
#[test]
fn zeros_in_a_refusal() {
    let refused = |refusal, place| Answer { refusal, place, vertices: 0, triangles: 0, edges: 0, boundary_edges: 0 };
    let one = |v: u64, list: &[u16], asked, more: usize| {
        let room = OneRoom { mesh: 3 * (list.len() / 12) + more, vertex_map: 15 + more, triangle_map: list.len() / 3 };
        undo_one(v, list, asked, room, &[], Search::Spreading).answer
    };
    let several = |v, list: &[u16], asked, room| undo_several(v, list, asked, room, &[], Search::Spreading).answer;
    let once = [3, 4, 5, 0, 3, 5, 1, 4, 3, 2, 5, 4];
    assert_eq!(one(6, &once, 4, 0).edges, 3);
    // 1
    assert_eq!(one(6, &once, 5, 0), refused(1, 0));
    assert_eq!(several(6, &once, 8, 12), refused(1, 0));
    // 2 to 4 and 6 to 10, by all three calls
    let faults: [(u64, &[u16], Answer); 8] = [
        (6, &once[..11], refused(2, 0)),
        (0, &[], refused(3, 0)),
        (32_768, &once, refused(4, 0)),
        (5, &once, refused(6, 0)),
        (6, &[3, 4, 5, 0, 3, 5, 1, 4, 3, 2, 5, 5], refused(7, 3)),
        (6, &[3, 4, 5, 0, 3, 5, 1, 4, 3, 2, 5, 4, 5, 4, 3], refused(8, 4)),
        (7, &once, refused(9, 6)),
        (8, &[3, 4, 5, 0, 3, 5, 1, 4, 3, 2, 5, 4, 2, 6, 7], refused(10, 4)),
    ];
    for (v, list, answer) in faults {
        assert_eq!(split(v, list, 100, &[]).0, answer);
        assert_eq!(one(v, list, 4, 40_000), answer);
        assert_eq!(one(v, list, 0, 40_000), answer);
        assert_eq!(several(v, list, 7, 100), answer);
        assert_eq!(several(v, list, 0, 100), answer);
    }
    // 5
    assert_eq!(split(6, &once, 47, &[]).0, refused(5, 0));
    assert_eq!(split(6, &once, 48, &[17]).0, refused(5, 0));
    assert_eq!(one(16, &once, 4, 0), refused(5, 0));
    assert_eq!(several(6, &once, 0, 11), refused(5, 0));
    // 11: this mesh has a reading in role 0 alone, and one triangle has none
    assert_eq!(one(6, &once, 1, 0), refused(11, 0));
    assert_eq!(one(3, &[0, 1, 2], 4, 0), refused(11, 0));
    // 15: the last triangle is turned over
    assert_eq!(one(6, &[3, 4, 5, 0, 3, 5, 1, 4, 3, 2, 4, 5], 0, 0), refused(15, 3));
}

/// Every proper mesh of up to four triangles, and many more of all kinds: each answer counts what is returned. The splitting of a mesh
/// with E edges, B of them boundary, and F triangles has 2E + 3F and 2B; and so has the input, if that is the mesh that undo one returns.
#[test]
fn counted_pair_by_pair() {
    let mut r = Random(102);
    let mut meshes: Vec<Mesh> = (1..=4).flat_map(coarse_meshes).collect();
    for kind in 0..KINDS {
        meshes.extend((0..400).map(|_| make(&mut r, kind).1));
    }
    let (mut proper, mut closed, mut singular, mut refused, mut levels) = (0, 0, 0, 0, [0; 3]);
    let mut roles = [0; 4];
    for mesh in meshes {
        let fine = split(mesh.0.into(), &list(&mesh), 12 * mesh.1.len(), &[]);
        if !is_proper(&mesh) {
            let all = [fine.0, one(&mesh, 4).answer, several(&mesh, 0).answer, several(&mesh, 7).answer];
            assert!(all.iter().all(|a| a.refusal > 0 && (a.edges, a.boundary_edges) == (0, 0)), "{mesh:?}");
            refused += 1;
            continue;
        }
        proper += 1;
        let (edges, boundary) = counted(&mesh);
        closed += usize::from(boundary == 0);
        // without singular edges, a triangle's side for each boundary edge and two for each other are all
        singular += usize::from(3 * mesh.1.len() as u64 > boundary + 2 * (edges - boundary));
        assert_eq!(counts(several(&mesh, 0).answer), (edges, boundary), "{mesh:?}");
        assert_eq!(counts(fine.0), counted(&result(fine.0, &fine.1)), "split of {mesh:?}");
        assert_eq!(counts(fine.0), of_splitting(&mesh, (edges, boundary)), "split of {mesh:?}");
        for role in 0..4 {
            let undone = one(&mesh, role);
            if undone.answer.refusal != 0 {
                assert!([11, 15].contains(&undone.answer.refusal), "role {role} of {mesh:?}");
                assert_eq!((undone.answer.edges, undone.answer.boundary_edges), (0, 0));
                continue;
            }
            roles[role as usize] += 1;
            let coarse = result(undone.answer, &undone.mesh);
            assert_eq!(counts(undone.answer), counted(&coarse), "role {role} of {mesh:?}");
            assert_eq!(of_splitting(&coarse, counts(undone.answer)), (edges, boundary), "role {role} of {mesh:?}");
        }
        for asked in [1, 7] {
            let left = several(&mesh, asked);
            levels[left.levels.min(2) as usize] += 1;
            assert_eq!(counts(left.answer), counted(&result(left.answer, &left.mesh)), "{asked} levels of {mesh:?}");
        }
    }
    println!("{refused} refused, {proper} proper; of these {closed} closed, {singular} with a singular edge");
    println!("readings in roles {roles:?}; none, one, more levels undone: {levels:?}");
    assert!(proper > 3_000 && closed > 300 && singular > 1_000 && refused > 1_000);
    assert!(roles.iter().all(|&n| n > 200) && levels.iter().all(|&n| n > 200));
}
