// All versions give the answers that another way gives, on every mesh that is measured, and each refusal once: so all do the work,
// and the judging, that the times are to include. The calls that read and write texts are in `text_checks`.
use crate::cases::{
    split_buffers, undo_one_buffers, undo_several_buffers, HASHED, LEAST, LENT, MOST_LEVELS, NAMES, SPLITS, UNDO_ONES,
    UNDO_SEVERALS,
};
use crate::library::{Answer, OneAnswer, OneOutputs, SeveralAnswer};
use crate::meshes::{self, edge_counts, splitting, Mesh, Several, MOST, MOST_TO_SPLIT, SIZES};
use crate::text_checks::{check_text_refusals, check_texts};
use std::collections::BTreeMap;

// Those that do more than to read and write texts.
const VERSIONS: std::ops::Range<usize> = 0..SPLITS.len();

pub fn check_all() {
    check_one_triangle();
    check_mesh_refusals();
    check_other_refusals();
    check_windings();
    check_text_refusals();
    for size in SIZES {
        meshes::to_split(size).iter().for_each(check_split);
        meshes::to_undo(size).iter().for_each(check_undo_one);
        meshes::to_undo_several(size).iter().for_each(check_undo_several);
        meshes::to_write(size).iter().for_each(check_texts);
    }
}

// The splitting of one triangle and its undoing, worked by hand.
fn check_one_triangle() {
    let (coarse, fine) = ([2, 0, 1], [3, 4, 5, 2, 3, 5, 0, 4, 3, 1, 5, 4]);
    let reading = OneOutputs { mesh: coarse.into(), vertex_map: vec![0, 1, 2, 3, 4, 5], triangle_map: vec![0, 1, 2, 3] };
    for version in VERSIONS {
        let what = format!("{} on one triangle", NAMES[version]);
        let (mut out, mut work) = split_buffers(3, &coarse);
        let answer = SPLITS[version](3, &coarse, &mut out, &mut work);
        let expected = Answer { refusal: 0, place: 0, vertices: 6, triangles: 4, edges: 9, boundary_edges: 6 };
        assert_eq!(answer, expected, "{what}");
        assert_eq!(out, fine, "{what}");

        let (mut out, mut work) = undo_one_buffers(6, &fine);
        let answer = UNDO_ONES[version](6, &fine, LEAST, &mut out, &mut work);
        let expected = OneAnswer { refusal: 0, place: 0, vertices: 3, triangles: 1, edges: 3, boundary_edges: 3, role: 0 };
        assert_eq!(answer, expected, "{what}");
        assert_eq!(out, reading, "{what}");

        let answer = SeveralAnswer { vertices: 3, triangles: 1, edges: 3, boundary_edges: 3, levels: 1, ..Default::default() };
        check_levels(version, (6, &fine), MOST_LEVELS, answer, &coarse);
    }
}

// What all calls judge in the same way, but for the most triangles that they take. Undo one then has no reading of a mesh that
// passes, and undo several leaves it as it is.
fn check_mesh_refusals() {
    let large = |most: usize| [0, 1, 2].repeat(most + 1);
    let cases: [(u64, &[u16], u64, u64); 9] = [
        (3, &[0, 1, 2, 0], 2, 0),
        (3, &[], 3, 0),
        (32_768, &[0, 1, 2], 4, 0),
        (4, &[0, 1, 2, 1, 2, 4], 6, 1),
        (4, &[0, 1, 2, 3, 1, 3], 7, 1),
        (4, &[0, 1, 2, 1, 2, 3, 2, 1, 0], 8, 2),
        (5, &[0, 1, 2, 1, 2, 4], 9, 3),
        (9, &[0, 1, 2, 3, 2, 1, 4, 5, 6, 2, 7, 8], 10, 2),
        (4, &[0, 1, 2, 3, 2, 1], 0, 0),
    ];
    for version in VERSIONS {
        for (vertices, list, refusal, place) in cases.into_iter().chain([(3, &large(MOST_TO_SPLIT)[..], 4, 0)]) {
            let (mut out, mut work) = split_buffers(vertices as usize, list);
            let answer = SPLITS[version](vertices, list, &mut out, &mut work);
            let expected = match refusal {
                0 => split_answer(&splitting(vertices as usize, list)),
                _ => Answer { refusal, place, ..Default::default() },
            };
            assert_eq!(answer, expected, "{} split {vertices}, {list:?}", NAMES[version]);
            assert!(refusal == 0 || out.iter().all(|&entry| entry == LENT), "{}: refusal {refusal} writes", NAMES[version]);
            check_cleared(version, &work, "a refusal of split");
        }
        for (vertices, list, refusal, place) in cases.into_iter().chain([(3, &large(MOST)[..], 4, 0)]) {
            if refusal == 0 {
                check_undo_one_refused(version, vertices, list, LEAST, (11, 0));
                check_levels(version, (vertices, list), MOST_LEVELS, no_level(vertices, list), list);
            } else {
                check_undo_one_refused(version, vertices, list, LEAST, (refusal, place));
                check_undo_several_refused(version, vertices, list, MOST_LEVELS, (refusal, place));
            }
        }
    }
}

// 1, the room that 5 is about, and 11 in a role that is asked where another role has a reading.
fn check_other_refusals() {
    let (vertices, list) = splitting(3, &[0, 1, 2]);
    for version in VERSIONS {
        let name = NAMES[version];
        check_undo_one_refused(version, vertices as u64, &list, LEAST + 1, (1, 0));
        check_undo_several_refused(version, vertices as u64, &list, MOST_LEVELS + 1, (1, 0));
        for role in 1..4 {
            check_undo_one_refused(version, vertices as u64, &list, role, (11, 0));
        }

        let (mut out, mut work) = split_buffers(3, &[0, 1, 2]);
        assert_eq!(SPLITS[version](3, &[0, 1, 2], &mut out[..11], &mut work).refusal, 5, "{name} on a short output");
        work.last_mut().unwrap().pop();
        let refusal = if version == HASHED { 0 } else { 5 };
        assert_eq!(SPLITS[version](3, &[0, 1, 2], &mut out, &mut work).refusal, refusal, "{name} on a short work buffer");

        // The last of these are work buffers.
        for short in if version == HASHED { 0..3 } else { 0..4 } {
            let (mut out, mut work) = undo_one_buffers(vertices, &list);
            [&mut out.mesh, &mut out.vertex_map, &mut out.triangle_map, work.last_mut().unwrap()][short].pop();
            let answer = UNDO_ONES[version](vertices as u64, &list, LEAST, &mut out, &mut work);
            assert_eq!(answer.refusal, 5, "{name}: buffer {short} of undo one is short");
        }

        for short in if version == HASHED { 0..1 } else { 0..2 } {
            let (mut out, mut work) = undo_several_buffers(vertices, &list);
            [&mut out, work.last_mut().unwrap()][short].pop();
            let answer = UNDO_SEVERALS[version](vertices as u64, &list, MOST_LEVELS, &mut out, &mut work);
            assert_eq!(answer.refusal, 5, "{name}: buffer {short} of undo several is short");
        }
    }
}

// A split triangle with some of its four triangles turned, by hand: refused 15 at the least corner triangle that does not go round as
// the centre, and else accepted; 11 in the roles that have no reading by either rule. Undo several stops at either.
fn check_windings() {
    let cases: [(&[usize], Option<u64>); 5] =
        [(&[1], Some(1)), (&[3], Some(3)), (&[0], Some(1)), (&[2, 3], Some(2)), (&[0, 1, 2, 3], None)];
    for (turned, place) in cases {
        let (vertices, mut list) = splitting(3, &[0, 1, 2]);
        turned.iter().for_each(|&triangle| list.swap(3 * triangle + 1, 3 * triangle + 2));
        for version in VERSIONS {
            for role in 1..LEAST {
                check_undo_one_refused(version, vertices as u64, &list, role, (11, 0));
            }
            let Some(place) = place else {
                let (mut out, mut work) = undo_one_buffers(vertices, &list);
                let answer = UNDO_ONES[version](vertices as u64, &list, LEAST, &mut out, &mut work);
                // The centre is (3, 5, 4), with 1 across 4-3, 0 across 3-5 and 2 across 5-4.
                assert_eq!((answer.refusal, out.mesh), (0, vec![1, 0, 2]), "{} with all turned", NAMES[version]);
                continue;
            };
            for asked in [0, LEAST] {
                check_undo_one_refused(version, vertices as u64, &list, asked, (15, place));
            }
            check_levels(version, (vertices as u64, &list), MOST_LEVELS, no_level(vertices as u64, &list), &list);
        }
    }
}

// Of the work buffers, which the hashed version does not use.
fn check_cleared(version: usize, work: &[Vec<u16>], what: &str) {
    let cleared = work.iter().flatten().all(|&entry| entry == 0);
    assert!(cleared || version == HASHED, "{what}: {} leaves a work buffer that is not cleared", NAMES[version]);
}

fn check_undo_one_refused(version: usize, vertices: u64, list: &[u16], asked: u64, (refusal, place): (u64, u64)) {
    let what = format!("{} undo one, asked {asked}, of {vertices} vertices, {} triangles", NAMES[version], list.len() / 3);
    let (mut out, mut work) = undo_one_buffers(vertices as usize, list);
    let before = out.clone();
    let answer = UNDO_ONES[version](vertices, list, asked, &mut out, &mut work);
    assert_eq!(answer, OneAnswer { refusal, place, ..Default::default() }, "{what}");
    assert!(out == before, "{what}: a refusal writes");
    check_cleared(version, &work, &what);
}

fn check_undo_several_refused(version: usize, vertices: u64, list: &[u16], asked: u64, (refusal, place): (u64, u64)) {
    check_levels(version, (vertices, list), asked, SeveralAnswer { refusal, place, ..Default::default() }, &[]);
}

// Undo several answers so, and writes no more than the mesh that is left.
fn check_levels(version: usize, (vertices, list): (u64, &[u16]), asked: u64, expected: SeveralAnswer, left: &[u16]) {
    let what = format!("{} undo several, asked {asked}, of {vertices} vertices, {} triangles", NAMES[version], list.len() / 3);
    let (mut out, mut work) = undo_several_buffers(vertices as usize, list);
    let answer = UNDO_SEVERALS[version](vertices, list, asked, &mut out, &mut work);
    assert_eq!(answer, expected, "{what}");
    assert!(out[..left.len()] == *left, "{what}: another mesh is left");
    assert!(out[left.len()..].iter().all(|&entry| entry == LENT), "{what}: writes after the mesh that is left");
    check_cleared(version, &work, &what);
}

// What split should answer to a mesh of which this is the splitting.
fn split_answer((vertices, list): &(usize, Vec<u16>)) -> Answer {
    let (edges, boundary_edges) = edge_counts(list);
    Answer { refusal: 0, place: 0, vertices: *vertices as u64, triangles: list.len() as u64 / 3, edges, boundary_edges }
}

// What undo several should answer to a mesh that it leaves as it is.
fn no_level(vertices: u64, list: &[u16]) -> SeveralAnswer {
    let (edges, boundary_edges) = edge_counts(list);
    SeveralAnswer { vertices, triangles: list.len() as u64 / 3, edges, boundary_edges, ..Default::default() }
}

fn check_split(mesh: &Mesh) {
    let expected = splitting(mesh.vertices, &mesh.list);
    for version in VERSIONS {
        let what = format!("{} on {}, {}", NAMES[version], mesh.name, mesh.order);
        let (mut out, mut work) = split_buffers(mesh.vertices, &mesh.list);
        let answer = SPLITS[version](mesh.vertices as u64, &mesh.list, &mut out, &mut work);
        assert_eq!(answer, split_answer(&expected), "{what}");
        assert!(out == expected.1, "{what}: another output");
        check_cleared(version, &work, &what);
    }
}

// A mesh that no splitting made is refused, whatever is asked. Any other is undone, and refused in the roles before the least.
fn check_undo_one(mesh: &Mesh) {
    let kept = kept(mesh);
    for version in VERSIONS {
        let refused = if kept.is_empty() { 0..LEAST + 1 } else { 0..check_undone(version, mesh, &kept) };
        for asked in refused {
            check_unread(version, mesh, asked);
        }
    }
}

// A mesh that has no reading in what is asked is refused 11; one with triangles that are turned, which but for that has a reading in
// each role, 15.
fn check_unread(version: usize, mesh: &Mesh, asked: u64) {
    let refusal = if mesh.is_inside_out() { (15, turned_place(version, mesh, asked % LEAST)) } else { (11, 0) };
    check_undo_one_refused(version, mesh.vertices as u64, &mesh.list, asked, refusal);
}

// The place by another way. With its triangles turned to go round as triangle 0 does, the mesh has a reading in the role: of that the
// tiles are taken, and the least triangle that was turned where the centre of its tile was not, or was not where that was.
fn turned_place(version: usize, mesh: &Mesh, role: u64) -> u64 {
    let turned = against_first(&mesh.list);
    let mut mended = mesh.clone();
    for (k, _) in turned.iter().enumerate().filter(|(_, &turned)| turned) {
        mended.list.swap(3 * k + 1, 3 * k + 2);
    }
    let tiles = undo_one_accepted(version, &mended, role).1.triangle_map;
    let mut centres = vec![false; tiles.len() / 4];
    for (&number, &turned) in tiles.iter().zip(&turned).filter(|(&number, _)| number % 4 == 0) {
        centres[number as usize / 4] = turned;
    }
    let disagrees = |(&number, &turned): (&u16, &bool)| centres[number as usize / 4] != turned;
    tiles.iter().zip(&turned).position(disagrees).expect("a triangle disagrees with its centre") as u64
}

// For each triangle of a surface with two sides whether it faces another side than triangle 0: neighbours that face the same run over
// their edge in opposite directions.
fn against_first(list: &[u16]) -> Vec<bool> {
    let ends = |half: usize| (list[half], list[half - half % 3 + (half + 1) % 3]);
    let mut halves_on: BTreeMap<(u16, u16), Vec<usize>> = BTreeMap::new();
    for half in 0..list.len() {
        let (v, w) = ends(half);
        halves_on.entry((v.min(w), v.max(w))).or_default().push(half);
    }
    let mut against = vec![None; list.len() / 3];
    let mut open = vec![(0, false)];
    while let Some((k, is_against)) = open.pop() {
        if against[k].is_none() {
            against[k] = Some(is_against);
            for half in 3 * k..3 * k + 3 {
                let (v, w) = ends(half);
                let on = halves_on[&(v.min(w), v.max(w))].iter().filter(|&&other| other != half);
                open.extend(on.map(|&other| (other / 3, is_against != (ends(other) == (v, w)))));
            }
        }
    }
    against.into_iter().map(|against| against.expect("the mesh is connected")).collect()
}

// In the role that the splitting gave to triangle 0 the mesh that was split comes back. Answers the least role that has a reading,
// which may be another.
fn check_undone(version: usize, mesh: &Mesh, kept: &[u16]) -> u64 {
    let role = role(&mesh.list, |vertex| kept.contains(vertex));
    let coarse = mesh.coarse.iter().flatten().flatten();
    // Its triangles in the order of their centres, its vertices in the order of their numbers.
    let expected: Vec<u16> = coarse.map(|corner| kept.binary_search(corner).unwrap() as u16).collect();
    let (answer, out) = undo_one_accepted(version, mesh, role);
    assert_eq!((answer.role, answer.vertices), (role, kept.len() as u64), "{} on {}, {}", NAMES[version], mesh.name, mesh.order);
    assert!(out.mesh == expected, "{} on {}, {}: another coarse mesh", NAMES[version], mesh.name, mesh.order);
    let least = undo_one_accepted(version, mesh, LEAST).0.role;
    assert!(least <= role, "{} on {}, {}: not the least role", NAMES[version], mesh.name, mesh.order);
    least
}

// Undoes a mesh and checks the reading: the coarse mesh, split anew, is the input under the maps, which leave nothing out.
fn undo_one_accepted(version: usize, mesh: &Mesh, asked: u64) -> (OneAnswer, OneOutputs) {
    let what = format!("{} on {}, {}, asked {asked}", NAMES[version], mesh.name, mesh.order);
    let (mut out, mut work) = undo_one_buffers(mesh.vertices, &mesh.list);
    let answer = UNDO_ONES[version](mesh.vertices as u64, &mesh.list, asked, &mut out, &mut work);
    assert_eq!((answer.refusal, answer.place, answer.triangles), (0, 0, mesh.list.len() as u64 / 12), "{what}");
    assert_eq!((answer.edges, answer.boundary_edges), edge_counts(&out.mesh), "{what}: other edges");
    check_cleared(version, &work, &what);

    let (vertices, fours) = splitting(answer.vertices as usize, &out.mesh);
    assert_eq!(vertices, mesh.vertices, "{what}: another number of vertices");
    for map in [&out.vertex_map, &out.triangle_map] {
        let mut numbers = map.clone();
        numbers.sort();
        assert!(numbers.into_iter().eq(0..map.len() as u16), "{what}: a map does not take each number once");
    }
    for (t, &number) in mesh.list.chunks_exact(3).zip(&out.triangle_map) {
        let [a, b, c] = [t[0], t[1], t[2]].map(|corner| out.vertex_map[corner as usize]);
        let expected: [u16; 3] = fours[3 * number as usize..][..3].try_into().unwrap();
        // Beginning with any of its corners.
        assert!([[a, b, c], [b, c, a], [c, a, b]].contains(&expected), "{what}: a triangle is not that of the splitting");
    }
    let is_kept = |&vertex: &u16| (out.vertex_map[vertex as usize] as u64) < answer.vertices;
    assert_eq!(answer.role, role(&mesh.list, is_kept), "{what}: another role than that of triangle 0");
    (answer, out)
}

// However many levels are asked, the answer and the mesh that is left are those of so many undos of one. In order all roles are 0,
// and after all levels the mesh that was split at first is left.
fn check_undo_several(several: &Several) {
    let Several { mesh, first, levels } = several;
    let what = format!("{}, {}", mesh.name, mesh.order);
    for version in VERSIONS {
        let undone = undo_ones(version, mesh, *levels);
        for asked in 0..=MOST_LEVELS {
            let (answer, left) = &undone[undone.len().min(asked as usize + 1) - 1];
            check_levels(version, (mesh.vertices as u64, &mesh.list), asked, *answer, left);
        }
        let (answer, left) = undone.last().unwrap();
        assert_eq!(answer.levels as usize, *levels, "{} on {what}: another number of levels", NAMES[version]);
        if mesh.order == first.order {
            assert_eq!((answer.vertices as usize, answer.roles), (first.vertices, [0; 7]), "{} on {what}", NAMES[version]);
            assert!(*left == first.list, "{} on {what}: not the mesh that was split at first", NAMES[version]);
        }
    }
}

// What undo several should answer and leave after no level, one, and so on, by undo one in the least role. Each reading is
// checked, the roles before it are refused, and after the last level all are.
fn undo_ones(version: usize, mesh: &Mesh, levels: usize) -> Vec<(SeveralAnswer, Vec<u16>)> {
    let mut answer = no_level(mesh.vertices as u64, &mesh.list);
    let mut left = mesh.clone();
    let mut undone = vec![(answer, left.list.clone())];
    for level in 0..levels {
        let (one, out) = undo_one_accepted(version, &left, LEAST);
        for role in 0..one.role {
            check_unread(version, &left, role);
        }
        (answer.vertices, answer.triangles) = (one.vertices, one.triangles);
        (answer.edges, answer.boundary_edges) = edge_counts(&out.mesh);
        answer.levels += 1;
        answer.roles[level] = one.role as u8;
        left = Mesh { vertices: one.vertices as usize, list: out.mesh, ..left };
        undone.push((answer, left.list.clone()));
    }
    for asked in 0..=LEAST {
        check_unread(version, &left, asked);
    }
    undone
}

// The vertices of the mesh that was split, by their numbers in its splitting, in order.
fn kept(mesh: &Mesh) -> Vec<u16> {
    let mut kept: Vec<u16> = mesh.coarse.iter().flatten().flatten().copied().collect();
    kept.sort();
    kept.dedup();
    kept
}

// The role of triangle 0: 0 if it is a centre, or 1, 2, 3 if its first, second or third corner is kept.
fn role(list: &[u16], is_kept: impl Fn(&u16) -> bool) -> u64 {
    list[..3].iter().position(is_kept).map_or(0, |corner| corner as u64 + 1)
}
