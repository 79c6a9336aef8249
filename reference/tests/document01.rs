//! Document 01's examples. Expectations come from document 01 or from hand calculation. The edges and boundary edges, which request 102
//! of document 02 put into the answers, were counted by hand. Where each edge has two triangles there are 3F/2 edges, none boundary.
//! Frames are of upper case and LF here; the other spellings of request 105 are in `spelling.rs`. Refusal 13 is given above its 16,396
//! bytes.

use reference::{program, proper, read_frames, split, undo_one, undo_several, write_frames};
use reference::{Answer, FramesAnswer, One, OneRoom, Search, Several};

const BOTH: [Search; 2] = [Search::Exhaustive, Search::Spreading];

fn refused(refusal: u64, place: u64) -> Answer {
    Answer { refusal, place, vertices: 0, triangles: 0, edges: 0, boundary_edges: 0 }
}

/// The edges and the boundary edges are given as a pair.
fn accepted(vertices: u64, triangles: u64, (edges, boundary_edges): (u64, u64)) -> Answer {
    Answer { refusal: 0, place: 0, vertices, triangles, edges, boundary_edges }
}

fn frames_refused(refusal: u64, place: u64) -> FramesAnswer {
    FramesAnswer { refusal, place, vertices: 0, triangles: 0 }
}

fn frames_accepted(vertices: u64, triangles: u64) -> FramesAnswer {
    FramesAnswer { refusal: 0, place: 0, vertices, triangles }
}

fn work(v: u64, list: &[u16]) -> [usize; 1] {
    [v as usize + 3 * (list.len() / 3)]
}

/// The splitting of a mesh with so many edges and boundary edges. "Hence V + E vertices, 2E + 3F edges, 4F triangles." Each boundary edge
/// becomes two.
fn split_of(v: u64, list: &[u16], (edges, boundary): (u64, u64)) -> (u64, Vec<u16>) {
    let f = list.len() as u64 / 3;
    let (a, fine) = split(v, list, 4 * list.len(), &work(v, list));
    assert_eq!(a, accepted(v + edges, 4 * f, (2 * edges + 3 * f, 2 * boundary)));
    (a.vertices, fine)
}

fn one_by(v: u64, list: &[u16], asked: u64, search: Search) -> One {
    let f = list.len() / 3;
    undo_one(v, list, asked, OneRoom { mesh: 3 * (f / 4), vertex_map: v as usize, triangle_map: f }, &work(v, list), search)
}

/// By both searches, which must agree.
fn one(v: u64, list: &[u16], asked: u64) -> One {
    let [p, q] = BOTH.map(|search| one_by(v, list, asked, search));
    assert_eq!(p, q);
    p
}

fn several(v: u64, list: &[u16], asked: u64) -> Several {
    undo_several(v, list, asked, list.len(), &work(v, list), Search::Spreading)
}

/// The fault of a mesh, which all three calls must give alike.
fn fault(v: u64, list: &[u16]) -> (u64, u64) {
    let a = one(v, list, 4).answer;
    assert_eq!(a, refused(a.refusal, a.place));
    assert_eq!(split(v, list, 4 * list.len(), &work(v, list)), (a, Vec::new()));
    assert_eq!(several(v, list, 0), Several { answer: a, levels: 0, roles: [0; 7], mesh: vec![] });
    assert!(!proper(v, list));
    (a.refusal, a.place)
}

const SAMPLE: [u16; 12] = [5, 0, 3, 4, 1, 0, 3, 0, 1, 2, 3, 1];
const SAMPLE_INPUT: &str = "4D00060004\n46000500000003\n46000400010000\n46000300000001\n46000200030001\n";
const SAMPLE_OUTPUT: &str =
    "4100010000\n4D00030001\n46000000020001\n560004\n560005\n560000\n560003\n560001\n560002\n540002\n540003\n\
                             540000\n540001\n";
const TETRAHEDRON: [u16; 12] = [0, 1, 2, 0, 2, 3, 0, 3, 1, 1, 3, 2];
const TETRAHEDRON_EDGES: (u64, u64) = (6, 0);
const OCTAHEDRON: [u16; 24] = [0, 1, 2, 0, 2, 3, 0, 3, 4, 0, 4, 1, 5, 2, 1, 5, 3, 2, 5, 4, 3, 5, 1, 4];

/// "One triangle (0,1,2) splits to (3,4,5), (0,3,5), (1,4,3), (2,5,4)."
#[test]
fn one_triangle_splits() {
    assert_eq!(split_of(3, &[0, 1, 2], (3, 3)), (6, vec![3, 4, 5, 0, 3, 5, 1, 4, 3, 2, 5, 4]));
}

/// "The input above has the reading shown, in role 1."
#[test]
fn sample_reading() {
    let shown = One {
        answer: accepted(3, 1, (3, 3)),
        role: 1,
        mesh: vec![0, 2, 1],
        vertex_map: vec![4, 5, 0, 3, 1, 2],
        triangle_map: vec![2, 3, 0, 1],
    };
    for asked in 0..=5 {
        match asked {
            1 | 4 => assert_eq!(one(6, &SAMPLE, asked), shown),
            5 => assert_eq!(one(6, &SAMPLE, asked).answer, refused(1, 0)),
            _ => assert_eq!(one(6, &SAMPLE, asked).answer, refused(11, 0)),
        }
    }
}

#[test]
fn faults() {
    // "(0,1,2), (0,2,1), V = 3: refusal 8, place 1."
    assert_eq!(fault(3, &[0, 1, 2, 0, 2, 1]), (8, 1));
    // "(0,1,2), (0,3,4), V = 5: touch at a point; 10, place 1."
    assert_eq!(fault(5, &[0, 1, 2, 0, 3, 4]), (10, 1));
    // "(0,1,2), V = 4: 9, place 3. V = 2: 6, place 0. (0,0,1), V = 2: 7, place 0."
    assert_eq!(fault(4, &[0, 1, 2]), (9, 3));
    assert_eq!(fault(2, &[0, 1, 2]), (6, 0));
    assert_eq!(fault(2, &[0, 0, 1]), (7, 0));
    // a later triangle's 6 comes before an earlier one's 7, and so on
    assert_eq!(fault(3, &[0, 0, 1, 0, 1, 3]), (6, 1));
    assert_eq!(fault(3, &[0, 1, 2, 2, 1, 0, 1, 2, 1]), (7, 2));
    assert_eq!(fault(4, &[0, 1, 2, 2, 1, 0]), (8, 1));
    assert_eq!(fault(8, &[0, 1, 2, 3, 4, 5, 5, 4, 6]), (9, 7));
    assert_eq!(fault(7, &[0, 1, 2, 3, 4, 5, 5, 4, 6]), (10, 1));
    // sizes: 2 before 3 and 4, 4 before 5
    assert_eq!(fault(u64::MAX, &[0, 1]), (2, 0));
    assert_eq!(fault(u64::MAX, &[]), (3, 0));
    assert_eq!(undo_several(u64::MAX, &[0, 1, 2], 0, 0, &[0], Search::Spreading).answer, refused(4, 0));
    assert_eq!(undo_several(32_768, &[0, 1, 2], 0, 9, &[99_999], Search::Spreading).answer, refused(4, 0));
    assert_eq!(undo_several(32_767, &[0, 1, 2], 0, 9, &[99_999], Search::Spreading).answer, refused(9, 3));
    assert!(
        !proper(u64::MAX, &[0, 1, 2]) && !proper(3, &[0, 1, 2, 0]) && proper(3, &[0, 1, 2]) && proper(0, &[]) && !proper(1, &[])
    );
}

/// "Three triangles on the edge 0-1, third corners 2, 3, 4: splits to 12 vertices, 12 triangles." (7 edges, so 5 + 7 vertices; all but
/// 0-1 are boundary.)
/// "Stepping from tile to tile over regular edges only: a split fin is then refused."
#[test]
fn fin() {
    let (v, fine) = split_of(5, &[0, 1, 2, 0, 1, 3, 0, 1, 4], (7, 6));
    assert_eq!((v, fine.len() / 3), (12, 12));
    assert_eq!(fine[..12], [5, 6, 7, 0, 5, 7, 1, 6, 5, 2, 7, 6]);
    assert_eq!(fine[12..24], [5, 8, 9, 0, 5, 9, 1, 8, 5, 3, 9, 8]);
    assert_eq!(fine[24..], [5, 10, 11, 0, 5, 11, 1, 10, 5, 4, 11, 10]);
    let undone = one(v, &fine, 4);
    assert_eq!((undone.answer, undone.role), (accepted(5, 3, (7, 6)), 0));
    assert_eq!(undone.mesh, [0, 1, 2, 0, 1, 3, 0, 1, 4]);
    assert_eq!(undone.vertex_map, (0..12).collect::<Vec<_>>());
    assert_eq!(undone.triangle_map, (0..12).collect::<Vec<_>>());
}

/// "One triangle, a tetrahedron, an octahedron: 11. Each of the first two split: accepted."
#[test]
fn no_reading() {
    for (v, list, edges) in [(3, &[0, 1, 2][..], (3, 3)), (4, &TETRAHEDRON, TETRAHEDRON_EDGES), (6, &OCTAHEDRON, (12, 0))] {
        let f = list.len() as u64 / 3;
        for asked in 0..=4 {
            assert_eq!(one(v, list, asked).answer, refused(11, 0));
        }
        assert_eq!(several(v, list, 7), Several { answer: accepted(v, f, edges), levels: 0, roles: [0; 7], mesh: list.to_vec() });
        let (fv, fine) = split_of(v, list, edges);
        let undone = one(fv, &fine, 4);
        assert_eq!((undone.answer, undone.role), (accepted(v, f, edges), 0));
        assert_eq!(undone.mesh, list);
    }
}

/// "A regular 6 by 6 torus of 72 triangles: all four roles accepted."
#[test]
fn torus() {
    let n = 6;
    let at = |i: u16, j: u16| (i % n) * n + j % n;
    let mut list = Vec::new();
    for i in 0..n {
        for j in 0..n {
            list.extend([at(i, j), at(i + 1, j), at(i + 1, j + 1)]);
            list.extend([at(i, j), at(i + 1, j + 1), at(i, j + 1)]);
        }
    }
    for role in 0..=3 {
        let undone = one(36, &list, role);
        assert_eq!((undone.answer, undone.role), (accepted(9, 18, (27, 0)), role));
    }
    assert_eq!(one(36, &list, 4), one(36, &list, 0));
}

/// "Seven splits of one triangle: 16,384 triangles; undo of 7 gives it back; asked 8 gives 1. 16,385 triangles: 4."
///
/// With n edges along each side there are n(n + 1)/2 triangles that stand as the first one does, and each edge is on one of these.
#[test]
fn seven_splits() {
    let grid = |n: u64| (3 * n * (n + 1) / 2, 3 * n);
    let (mut v, mut list) = (3, vec![0, 1, 2]);
    let mut fourth = Vec::new();
    for times in 1..=7 {
        (v, list) = split_of(v, &list, grid(1 << (times - 1)));
        if times == 4 {
            fourth = list.clone();
        }
    }
    assert_eq!(list.len(), 3 * 16_384);
    assert_eq!(several(v, &list, 7), Several { answer: accepted(3, 1, (3, 3)), levels: 7, roles: [0; 7], mesh: vec![0, 1, 2] });
    assert_eq!(several(v, &list, 8).answer, refused(1, 0));
    let two = several(v, &list, 2);
    assert_eq!((two.answer, two.levels), (accepted(561, 1_024, (1_584, 96)), 2));
    assert_eq!(several(v, &list, 3), Several { answer: accepted(153, 256, (408, 48)), levels: 3, roles: [0; 7], mesh: fourth });
    let unchanged = several(v, &list, 0);
    assert_eq!((unchanged.answer, unchanged.levels, &unchanged.mesh), (accepted(8_385, 16_384, (24_768, 384)), 0, &list));
    assert_eq!(split(v, &list[..3 * 4_097], usize::MAX, &[]).0, refused(4, 0));
    assert_eq!(one_by(v, &list, 1, Search::Spreading).answer, refused(11, 0));
    list.extend([0, 1, 2]);
    assert_eq!(several(v, &list, 7).answer, refused(4, 0));
    assert_eq!(one_by(v, &list, 4, Search::Spreading).answer, refused(4, 0));
}

/// "Counting F = 4 times the coarse F, V = coarse V + E, all covered, and accepting without comparing: two tiles sharing a coarse edge
/// must also agree on the vertex between."
///
/// A tetrahedron is split, and in the tile of (0,1,2) the vertex between 0 and 1 is replaced by that between 2 and 3: the tile's centre
/// and corner triangles still fit together and all counts stay the same, but the other tile on 0-1 says otherwise.
#[test]
fn tiles_that_disagree() {
    let (v, mut fine) = split_of(4, &TETRAHEDRON, TETRAHEDRON_EDGES);
    // tile 0 is (4,5,6), (0,4,6), (1,5,4), (2,6,5): 4 is on 0-1; tile 1 = (0,2,3) has 6 on 0-2, 7 on 2-3, 8 on 3-0
    assert_eq!(fine[..24], [4, 5, 6, 0, 4, 6, 1, 5, 4, 2, 6, 5, 6, 7, 8, 0, 6, 8, 2, 7, 6, 3, 8, 7]);
    for entry in &mut fine[..12] {
        if *entry == 4 {
            *entry = 7;
        }
    }
    assert!(proper(v, &fine));
    for asked in 0..=4 {
        assert_eq!(one(v, &fine, asked).answer, refused(11, 0));
    }
}

/// "Calling it 11 when role 0 fails, though role 2 has a reading." The triangle (1,4,3) = 4j+2, rotated to (3,1,4), comes first.
#[test]
fn role_2() {
    let list = [3, 1, 4, 3, 4, 5, 0, 3, 5, 2, 5, 4];
    for asked in [0, 1, 3] {
        assert_eq!(one(6, &list, asked).answer, refused(11, 0));
    }
    // kept 0, 1, 2; the centre (3,4,5) has 0 across 5-3, 1 across 3-4, 2 across 4-5
    let reading = One {
        answer: accepted(3, 1, (3, 3)),
        role: 2,
        mesh: vec![0, 1, 2],
        vertex_map: vec![0, 1, 2, 3, 4, 5],
        triangle_map: vec![2, 0, 1, 3],
    };
    assert_eq!(one(6, &list, 2), reading);
    assert_eq!(one(6, &list, 4), reading);
    assert_eq!(several(6, &list, 7).roles, [2, 0, 0, 0, 0, 0, 0]);
}

/// Room: "undo one needs 3 times (F divided by 4, rounded down) for the mesh, V and F for the two maps; undo several 3F; split 12F;
/// reading 3F; writing 11 + 15F bytes"; each work buffer V + 3F.
#[test]
fn room() {
    let enough = OneRoom { mesh: 3, vertex_map: 6, triangle_map: 4 };
    let with = |room, work: &[usize]| undo_one(6, &SAMPLE, 4, room, work, Search::Spreading).answer.refusal;
    assert_eq!(with(enough, &[18, 18]), 0);
    assert_eq!(with(enough, &[]), 0);
    assert_eq!(with(enough, &[18, 17]), 5);
    assert_eq!(with(OneRoom { mesh: 2, ..enough }, &[18]), 5);
    assert_eq!(with(OneRoom { vertex_map: 5, ..enough }, &[18]), 5);
    assert_eq!(with(OneRoom { triangle_map: 3, ..enough }, &[18]), 5);
    // 3 triangles need no room for the mesh
    let none = OneRoom { mesh: 0, vertex_map: 5, triangle_map: 3 };
    assert_eq!(undo_one(5, &[0, 1, 2, 0, 1, 3, 0, 1, 4], 4, none, &[14], Search::Spreading).answer, refused(11, 0));
    assert_eq!(undo_several(6, &SAMPLE, 4, 12, &[18], Search::Spreading).answer, accepted(3, 1, (3, 3)));
    assert_eq!(undo_several(6, &SAMPLE, 4, 11, &[18], Search::Spreading).answer, refused(5, 0));
    // 9 edges, 6 of them boundary, and 4 triangles: 2 times 9 and 3 times 4 edges
    assert_eq!(split(6, &SAMPLE, 48, &[18]).0, accepted(15, 16, (30, 12)));
    assert_eq!(split(6, &SAMPLE, 47, &[18]).0, refused(5, 0));
    assert_eq!(split(6, &SAMPLE, 48, &[17]).0, refused(5, 0));
    assert_eq!(write_frames(6, &SAMPLE, 71).0, frames_accepted(6, 4));
    assert_eq!(write_frames(6, &SAMPLE, 70).0, frames_refused(5, 0));
    assert_eq!(read_frames(SAMPLE_INPUT.as_bytes(), 12).0, frames_accepted(6, 4));
    assert_eq!(read_frames(SAMPLE_INPUT.as_bytes(), 11).0, frames_refused(5, 0));
}

#[test]
fn frames() {
    let read = |text: &str| read_frames(text.as_bytes(), 100);
    assert_eq!(read(SAMPLE_INPUT), (frames_accepted(6, 4), SAMPLE.to_vec()));
    assert_eq!(write_frames(6, &SAMPLE, 1_000), (frames_accepted(6, 4), SAMPLE_INPUT.as_bytes().to_vec()));
    // "'4D00000000' and LF: reads as V = 0, F = 0. Empty bytes: 12, place 0."
    assert_eq!(read("4D00000000\n"), (frames_accepted(0, 0), vec![]));
    assert_eq!(read(""), (frames_refused(12, 0), vec![]));
    assert_eq!(write_frames(0, &[], 11), (frames_accepted(0, 0), b"4D00000000\n".to_vec()));
    for first in ["4D00000000", "4D0000000G\n", "4D000000000\n", "4D0000000\n", " 4D00000000\n", "4D00000000 \n", "\n"] {
        assert_eq!(read(first), (frames_refused(12, 0), vec![]), "{first:?}");
    }
    // "bytes after the last frame are refused at line F + 1"; "If lines run out, the place is the first missing one"
    assert_eq!(read("4D00000000\n\n").0, frames_refused(12, 1));
    assert_eq!(read("4D00000001\n").0, frames_refused(12, 1));
    assert_eq!(read("4D00000002\n46000500000003\n").0, frames_refused(12, 2));
    assert_eq!(read("4D00000002\n46000500000003\n4600").0, frames_refused(12, 2));
    assert_eq!(read("4D00000001\n46000500000003").0, frames_refused(12, 1));
    assert_eq!(read("4D00000001\n46000500000003\n46000500000003\n").0, frames_refused(12, 2));
    assert_eq!(read("4D00000001\n46FFFF0000ABCD\n"), (frames_accepted(0, 1), vec![0xFFFF, 0, 0xABCD]));
    // 12 for the first line, then 4, 5, then 12 for later lines
    assert_eq!(read("4D80000000\n").0, frames_refused(4, 0));
    assert_eq!(read("4D7FFF0000\n").0, frames_accepted(0x7FFF, 0));
    assert_eq!(read("4D00004001\n").0, frames_refused(4, 0));
    assert_eq!(read("4D00004000\n").0, frames_refused(5, 0));
    assert_eq!(write_frames(32_768, &[], 11).0, frames_refused(4, 0));
    assert_eq!(write_frames(u64::MAX, &[0], 0).0, frames_refused(2, 0));
    assert_eq!(write_frames(0, &vec![0; 3 * 16_385], usize::MAX).0, frames_refused(4, 0));
}

#[test]
fn the_program() {
    let run = |text: &str| String::from_utf8(program(text.as_bytes())).unwrap();
    assert_eq!(run(SAMPLE_INPUT), SAMPLE_OUTPUT);
    assert_eq!(run(""), "410C000000\n");
    assert_eq!(run("4D00000000\n"), "4103000000\n");
    assert_eq!(run("4D00030001\n46000000010002\n"), "410B000000\n");
    assert_eq!(run("4D00050002\n46000000010002\n46000000030004\n"), "410A000001\n");
    assert_eq!(run("4D00030001\n46000000010002\n\n"), "410C000002\n");
    // "more triangles are refused 5 by reading, more vertices 5 by undoing"
    assert_eq!(run("4D00030401\n"), "4105000000\n");
    assert_eq!(run("4D00030400\n"), "410C000001\n");
    assert_eq!(run("4D04030001\n46000000010002\n"), "4105000000\n");
    assert_eq!(run("4D04020001\n46000000010002\n"), "4109000003\n");
    assert_eq!(run("4D80000001\n46000000010002\n"), "4104000000\n");
    // "the program gives 13 before anything else": 16,396 bytes are read
    assert_eq!(run(&"0".repeat(16_397)), "410D000000\n");
    assert_eq!(run(&"0".repeat(16_396)), "410C000000\n");
}
