//! Document 02, request 103: matched triangles agree up to rotation of corners, and refusal 15. Expectations are the request's or worked
//! out by hand.

mod common;

use common::{coarse_meshes, list, split_of, torus, turned, turnings, Mesh};
use reference::{program, split, undo_one, undo_several, write_frames, Answer, One, OneRoom, Search, Several};

/// The splitting of the triangle (0, 1, 2).
const TILE: [[u16; 3]; 4] = [[3, 4, 5], [0, 3, 5], [1, 4, 3], [2, 5, 4]];
/// Its second triangle is turned over.
const INSIDE_OUT: [[u16; 3]; 4] = [[3, 4, 5], [0, 5, 3], [1, 4, 3], [2, 5, 4]];

fn mesh(vertices: u16, triangles: &[[u16; 3]]) -> Mesh {
    (vertices, triangles.to_vec())
}

/// The mesh with the triangles turned over whose numbers are asked for.
fn with_turned(mesh: &Mesh, turns: impl Fn(usize) -> bool) -> Mesh {
    (mesh.0, mesh.1.iter().enumerate().map(|(k, &t)| if turns(k) { turned(t) } else { t }).collect())
}

fn one_by(mesh: &Mesh, asked: u64, search: Search) -> One {
    let f = mesh.1.len();
    let room = OneRoom { mesh: 3 * (f / 4), vertex_map: mesh.0.into(), triangle_map: f };
    undo_one(mesh.0.into(), &list(mesh), asked, room, &[], search)
}

/// By both searches, which must agree.
fn one(mesh: &Mesh, asked: u64) -> One {
    let [p, q] = [Search::Exhaustive, Search::Spreading].map(|search| one_by(mesh, asked, search));
    assert_eq!(p, q);
    p
}

fn several(mesh: &Mesh, asked: u64) -> Several {
    undo_several(mesh.0.into(), &list(mesh), asked, 3 * mesh.1.len(), &[], Search::Spreading)
}

/// The refusal and the place. In a refusal everything else is 0, and nothing is written.
fn refusal(one: &One) -> (u64, u64) {
    let (refusal, place) = (one.answer.refusal, one.answer.place);
    if refusal != 0 {
        let answer = Answer { refusal, place, ..Answer::default() };
        assert_eq!(one, &One { answer, role: 0, mesh: vec![], vertex_map: vec![], triangle_map: vec![] });
    }
    (refusal, place)
}

/// The refusals and places when asked 0, 1, 2, 3 and 4.
fn refusals(mesh: &Mesh) -> [(u64, u64); 5] {
    [0, 1, 2, 3, 4].map(|asked| refusal(&one(mesh, asked)))
}

const NONE: (u64, u64) = (11, 0);
const ACCEPTED: (u64, u64) = (0, 0);

#[test]
fn one_triangle() {
    // no other role than 0 has a reading by the old rule: there 11 stays 11
    assert_eq!(refusals(&mesh(6, &INSIDE_OUT)), [(15, 1), NONE, NONE, NONE, (15, 1)]);
    // the centre is turned over: the coarse triangle is turned as it is, and the least corner triangle disagrees
    let centre_turned = mesh(6, &[[3, 5, 4], [0, 3, 5], [1, 4, 3], [2, 5, 4]]);
    assert_eq!(refusals(&centre_turned), [(15, 1), NONE, NONE, NONE, (15, 1)]);
    // All four are turned over. The centre (3, 5, 4) has 1 across 4-3, 0 across 3-5 and 2 across 5-4, so that the coarse triangle is
    // (1, 0, 2), and 3, 5, 4 are its edge vertices 3, 4, 5.
    let all_turned = one(&mesh(6, &[[3, 5, 4], [0, 5, 3], [1, 3, 4], [2, 4, 5]]), 0);
    assert_eq!((refusal(&all_turned), all_turned.role), (ACCEPTED, 0));
    assert_eq!(all_turned.mesh, [1, 0, 2]);
    assert_eq!((all_turned.vertex_map, all_turned.triangle_map), (vec![0, 1, 2, 3, 5, 4], vec![0, 2, 1, 3]));
}

/// Each way to turn triangles of a split triangle over: accepted if the corner triangles turn as the centre does, and otherwise 15 at the
/// least corner triangle that does not.
#[test]
fn every_turning_of_one_triangle() {
    let all = turnings(&mesh(6, &TILE));
    assert_eq!(all.len(), 16);
    for fine in all {
        let is_turned = |k: usize| fine.1[k] != TILE[k];
        let least = (1..4).find(|&k| is_turned(k) != is_turned(0));
        let expected = least.map_or(ACCEPTED, |k| (15, k as u64));
        assert_eq!(refusals(&fine), [expected, NONE, NONE, NONE, expected], "{fine:?}");
    }
}

/// Rotated corners agree, each triangle on its own.
#[test]
fn rotation_is_no_turning() {
    for rotations in 0..81 {
        let mut fine = mesh(6, &TILE);
        for (k, t) in fine.1.iter_mut().enumerate() {
            t.rotate_left(rotations / 3usize.pow(k as u32) % 3);
        }
        assert_eq!(refusals(&fine), [ACCEPTED, NONE, NONE, NONE, ACCEPTED], "{fine:?}");
        fine.1[2] = turned(fine.1[2]);
        assert_eq!(refusals(&fine), [(15, 2), NONE, NONE, NONE, (15, 2)], "{fine:?}");
    }
}

/// Nothing is asked of how two tiles turn: an edge between them may run the same way in both. "the split fin of document 01 is still
/// accepted", and so is any splitting: it is matched to itself.
#[test]
fn tiles_turn_each_in_its_own_way() {
    let fin = mesh(5, &[[0, 1, 2], [0, 1, 3], [0, 1, 4]]);
    let pair = mesh(4, &[[0, 1, 2], [0, 1, 3]]);
    let small = (1..=4).flat_map(coarse_meshes).flat_map(|coarse| turnings(&coarse));
    for coarse in [fin, pair].into_iter().chain(small) {
        let undone = one(&split_of(&coarse), 0);
        assert_eq!((refusal(&undone), undone.mesh), (ACCEPTED, list(&coarse)));
        assert!(undone.vertex_map.iter().copied().eq(0..undone.vertex_map.len() as u16), "{coarse:?}");
        assert!(undone.triangle_map.iter().copied().eq(0..undone.triangle_map.len() as u16), "{coarse:?}");
    }
}

/// Document 01's sample has its reading in role 1; its last triangle is turned over.
#[test]
fn another_role_than_0() {
    let sample = mesh(6, &[[5, 0, 3], [4, 1, 0], [3, 0, 1], [2, 1, 3]]);
    assert_eq!(refusals(&sample), [NONE, (15, 3), NONE, NONE, (15, 3)]);
}

// Tori. Let A(i, j) be the triangle of the vertices in row and column (i, j), (i + 1, j) and (i + 1, j + 1), and B(i, j) that of (i, j),
// (i + 1, j + 1) and (i, j + 1). Where there are n columns, their numbers are 2(ni + j) and 2(ni + j) + 1. Every role has a reading by
// the old rule; each second vertex of each second row is kept. Where (i, j) is kept, the coarse triangles of (i, j), (i + 2, j), (i + 2,
// j + 2) and of (i, j), (i + 2, j + 2), (i, j + 2) have the tiles:
//
//     B(i + 1, j), the centre, A(i, j), A(i + 1, j), A(i + 1, j + 1);
//     A(i, j + 1), the centre, B(i, j), B(i, j + 1), B(i + 1, j + 1).
//
// Triangle 0 is A(0, 0), of (0, 0), (1, 0) and (1, 1). So role 1 keeps the even rows and even columns, role 2 the odd rows and even columns,
// role 3 the odd rows and odd columns; and role 0, in which no corner of triangle 0 is kept, the even rows and odd columns.

/// One triangle of a torus is turned over. It disagrees in each role but that in which it is a centre: there its corner triangles do. Asked
/// 4, the place is that of role 0.
#[test]
fn one_triangle_of_a_torus() {
    // A(0, 0) is a centre in role 0, with B(0, 5), B(0, 0) and B(1, 0): triangles 11, 1 and 13
    let fine = with_turned(&torus(6, 6, 0), |k| k == 0);
    assert_eq!(refusals(&fine), [(15, 1), (15, 0), (15, 0), (15, 0), (15, 1)]);
    // triangle 3, B(0, 1), is a centre where (5, 1) is kept, in role 3, with A(5, 1), A(0, 1) and A(0, 2): triangles 62, 2 and 4
    let fine = with_turned(&torus(6, 6, 0), |k| k == 3);
    assert_eq!(refusals(&fine), [(15, 3), (15, 3), (15, 3), (15, 2), (15, 3)]);
}

/// Four rows of a torus of 8 rows and 6 columns are turned over. The rows i and i + 1 have the same tiles where row i is kept. If both are
/// turned over, or none, their tiles agree. If one is, each tile has a triangle that disagrees with its centre: A(i, j) and B(i + 1, j + 1),
/// where (i, j) is kept. The rows from an odd one on are whole tiles in the roles 2 and 3, those from an even one on in the roles 0 and 1.
#[test]
fn four_rows_of_a_torus() {
    let rows = |from: usize| with_turned(&torus(8, 6, 0), move |k| (from..from + 4).contains(&(k / 12)));
    // The rows 1 to 4. In the roles 0 and 1 those that disagree are of the rows 0 and 1, and 4 and 5: the least is A(0, 1) and A(0, 0).
    let fine = rows(1);
    assert_eq!(refusals(&fine), [(15, 2), (15, 0), ACCEPTED, ACCEPTED, ACCEPTED]);
    // asked 4: role 2, the lesser of the accepted ones, is not hidden by role 0, which has a reading by the old rule alone
    assert_eq!(one(&fine, 4), one(&fine, 2));
    assert_eq!(one(&fine, 4).role, 2);
    // and so do several; the torus of 24 triangles that is left has too few vertices for a reading
    assert_eq!((several(&fine, 7).levels, several(&fine, 7).roles), (1, [2, 0, 0, 0, 0, 0, 0]));
    // The rows 3 to 6: the same two rows on, A(2, 1) and A(2, 0).
    assert_eq!(refusals(&rows(3)), [(15, 26), (15, 24), ACCEPTED, ACCEPTED, ACCEPTED]);
    // The rows 2 to 5. In the roles 2 and 3 those that disagree are of the rows 1 and 2, and 5 and 6: A(1, 0) and A(1, 1).
    assert_eq!(refusals(&rows(2)), [ACCEPTED, ACCEPTED, (15, 12), (15, 14), ACCEPTED]);
    assert_eq!(one(&rows(2), 4).role, 0);
}

/// The columns 4 to 7 of a torus of 6 rows and 8 columns are turned over: whole tiles where the even columns are kept, in the roles 1 and 2.
/// Where odd ones are, the columns 3 and 4 have the same tiles, and 7 and 0. There A(i + 1, j + 1) and B(i, j) disagree, where (i, j) is
/// kept. In role 0 the least is B(0, 3). In role 3, where row 5 is kept, it is A(0, 0).
#[test]
fn four_columns_of_a_torus() {
    let fine = with_turned(&torus(6, 8, 0), |k| k % 16 >= 8);
    assert_eq!(refusals(&fine), [(15, 7), ACCEPTED, ACCEPTED, (15, 0), ACCEPTED]);
    assert_eq!(one(&fine, 4), one(&fine, 1));
}

/// "undo several stops at either number", with what it has.
#[test]
fn several_stop() {
    let inside_out = mesh(6, &INSIDE_OUT);
    let counts = Answer { refusal: 0, place: 0, vertices: 6, triangles: 4, edges: 9, boundary_edges: 6 };
    let mut fine = inside_out.clone();
    for splits in 0..=3 {
        for asked in 0..=7 {
            let left = several(&fine, asked);
            assert_eq!((left.levels, left.roles), (asked.min(splits), [0; 7]));
            if asked >= splits {
                assert_eq!((left.answer, left.mesh), (counts, list(&inside_out)));
            }
        }
        fine = split_of(&fine);
    }
}

/// Refusal 8 "keeps the old sameness", and 1 to 10 come before 15.
#[test]
fn order_of_refusals() {
    let inside_out = mesh(6, &INSIDE_OUT);
    let with = |vertices, t: [u16; 3]| refusal(&one(&(vertices, [&inside_out.1[..], &[t]].concat()), 0));
    assert_eq!(refusal(&one(&inside_out, 5)), (1, 0));
    assert_eq!(with(6, [0, 1, 6]), (6, 4));
    assert_eq!(with(6, [0, 1, 1]), (7, 4));
    assert_eq!(with(6, [3, 4, 5]), (8, 4));
    assert_eq!(with(6, [3, 5, 4]), (8, 4));
    assert_eq!(refusal(&one(&mesh(7, &INSIDE_OUT), 0)), (9, 6));
    assert_eq!(with(8, [0, 6, 7]), (10, 4));
    let list = list(&inside_out);
    let room = OneRoom { mesh: 2, vertex_map: 6, triangle_map: 4 };
    assert_eq!(refusal(&undo_one(6, &list, 0, room, &[], Search::Spreading)), (5, 0));
    assert_eq!(refusal(&undo_one(6, &list[..11], 0, room, &[], Search::Spreading)), (2, 0));
    assert_eq!(refusal(&undo_one(32_768, &list, 0, room, &[], Search::Spreading)), (4, 0));
    // splitting looks for no reading
    assert_eq!(split(6, &list, 48, &[]).0.refusal, 0);
}

/// "two digits each of refusal number and role, and four of place".
#[test]
fn the_program() {
    let run = |mesh: &Mesh| {
        let (written, frames) = write_frames(mesh.0.into(), &list(mesh), 11 + 15 * mesh.1.len());
        assert_eq!(written.refusal, 0);
        String::from_utf8(program(&frames)).unwrap()
    };
    assert_eq!(run(&mesh(6, &INSIDE_OUT)), "410F000001\n");
    assert_eq!(run(&mesh(6, &[[5, 0, 3], [4, 1, 0], [3, 0, 1], [2, 1, 3]])), "410F000003\n");
    // 256 triangles, the last one turned over
    let fine = split_of(&split_of(&split_of(&mesh(6, &TILE))));
    assert_eq!(run(&with_turned(&fine, |k| k == 255)), "410F0000FF\n");
    let rows = with_turned(&torus(8, 6, 0), |k| (1..5).contains(&(k / 12)));
    assert!(run(&rows).starts_with("4100020000\n4D000C0018\n"));
}

/// As many triangles as are allowed: one triangle split seven times, and one of the last triangles turned over.
#[test]
fn many_triangles() {
    let mut fine = mesh(3, &[[0, 1, 2]]);
    for _ in 0..7 {
        fine = split_of(&fine);
    }
    let place = |k: usize| refusal(&one_by(&with_turned(&fine, |other| other == k), 4, Search::Spreading));
    assert_eq!(fine.1.len(), 16_384);
    assert_eq!(place(16_383), (15, 16_383));
    // a centre
    assert_eq!(place(16_380), (15, 16_381));
    let left = several(&with_turned(&fine, |k| k == 16_383), 7);
    assert_eq!((left.answer.refusal, left.answer.triangles, left.levels), (0, 16_384, 0));
}
