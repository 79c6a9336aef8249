//! The definition of a reading, taken literally: for meshes of up to 16 triangles, every proper coarse mesh of a quarter of the
//! triangles, with its triangles turned in every way, is split, and every one-to-one match of the vertices is tried. Both searches must
//! find just these readings, by the old rule and by the new one, and undo one must answer as these readings say.

mod common;

use common::{coarse_meshes, coarse_of, disagreeing, is_proper, least_first, list, make, matches, sorted, split_of, turnings};
use common::{Mesh, Random};
use reference::{reading_in, undo_one, OneRoom, Reading, Rule, Search};
use std::collections::BTreeSet;

const BOTH: [Search; 2] = [Search::Exhaustive, Search::Spreading];

/// A reading by the old rule, apart from coarse numbering and order and from rotation of corners.
#[derive(PartialEq, Debug)]
struct Literal {
    role: usize,
    kept: BTreeSet<u16>,
    /// The input triangles that are centres.
    centres: BTreeSet<usize>,
    /// The coarse triangles as kept vertices of the input, the least first.
    coarse: BTreeSet<[u16; 3]>,
    /// The input triangles that are no rotation of the triangle of the splitting to which they are matched.
    disagreeing: Vec<usize>,
}

impl Literal {
    /// The match sends the vertices of the splitting of the coarse mesh to those of the input, and so the triangles.
    fn of(input: &Mesh, coarse: &Mesh, fine: &Mesh, to: &[u16]) -> Literal {
        let image = |t: &[u16; 3]| t.map(|v| to[usize::from(v)]);
        let number = |t: &[u16; 3]| input.1.iter().position(|&u| sorted(u) == sorted(image(t))).unwrap();
        let kept: BTreeSet<u16> = (0..coarse.0).map(|v| to[usize::from(v)]).collect();
        let centres: BTreeSet<usize> = fine.1.iter().step_by(4).map(number).collect();
        let first_kept = input.1[0].iter().position(|v| kept.contains(v));
        let mut disagreeing: Vec<usize> =
            fine.1.iter().filter(|t| least_first(input.1[number(t)]) != least_first(image(t))).map(number).collect();
        disagreeing.sort_unstable();
        Literal {
            role: if centres.contains(&0) { 0 } else { 1 + first_kept.unwrap() },
            kept,
            centres,
            coarse: coarse.1.iter().map(|t| least_first(image(t))).collect(),
            disagreeing,
        }
    }

    /// "From now on matched triangles in a reading must agree up to rotation of corners."
    fn by_new_rule(&self) -> bool {
        self.disagreeing.is_empty()
    }

    /// "A centre (a, b, c) gives the coarse triangle (kept vertex across c-a, across a-b, across b-c)", whose splitting has the centre
    /// (a, b, c). So in the returned reading the centres agree, and by them each coarse triangle is turned as it is returned.
    fn as_returned(&self) -> bool {
        self.disagreeing.iter().all(|k| !self.centres.contains(k))
    }

    fn of_found(input: &Mesh, role: usize, found: &Reading) -> Literal {
        let kept: Vec<u16> = (0..input.0).filter(|&v| u64::from(found.vertex_map[usize::from(v)]) < found.vertices).collect();
        let by_kept = |t: &[u16; 3]| least_first(t.map(|v| kept[usize::from(v)]));
        Literal {
            role,
            centres: (0..input.1.len()).filter(|&k| found.triangle_map[k].is_multiple_of(4)).collect(),
            coarse: coarse_of(found).1.iter().map(by_kept).collect(),
            disagreeing: disagreeing(input, found),
            kept: kept.into_iter().collect(),
        }
    }
}

/// A coarse mesh and its splitting.
type Split = (Mesh, Mesh);

/// All coarse meshes of so many triangles, with their splittings, up to what changes nothing: coarse vertices renumbered, coarse
/// triangles reordered and rotated only renumbers, reorders and rotates in the splitting.
fn all_splits(f: usize) -> Vec<Split> {
    coarse_meshes(f).iter().flat_map(turnings).map(|coarse| (coarse.clone(), split_of(&coarse))).collect()
}

/// All readings of a proper mesh by the old rule, from the definition.
fn literal_readings(input: &Mesh, splits_by_count: &[Vec<Split>]) -> Vec<Literal> {
    if !input.1.len().is_multiple_of(4) {
        return Vec::new();
    }
    let of_size = splits_by_count[input.1.len() / 4].iter().filter(|(_, fine)| fine.0 == input.0);
    let of_split =
        |(coarse, fine): &Split| matches(input, fine).iter().map(|to| Literal::of(input, coarse, fine, to)).collect::<Vec<_>>();
    of_size.flat_map(of_split).collect()
}

/// Both searches find a reading in the role exactly if there is one, and all there are in this role are the one found: by the old rule
/// apart from how coarse triangles are turned, and by the new rule in this too.
fn compare_readings(mesh: &Mesh, role: usize, all: &[Literal]) {
    let of_role: Vec<&Literal> = all.iter().filter(|literal| literal.role == role).collect();
    let by_new_rule: Vec<&Literal> = of_role.iter().copied().filter(|literal| literal.by_new_rule()).collect();
    for search in BOTH {
        let found = |rule| {
            let reading = reading_in(mesh.0.into(), &list(mesh), role as u64, rule, search);
            reading.map(|reading| Literal::of_found(mesh, role, &reading))
        };
        let (old, new) = (found(Rule::Old), found(Rule::New));
        assert_eq!(old.is_some(), !of_role.is_empty(), "role {role} of {mesh:?}");
        assert_eq!(new.is_some(), !by_new_rule.is_empty(), "role {role} of {mesh:?}");
        for literal in &of_role {
            let old = old.as_ref().unwrap();
            assert_eq!((&literal.kept, &literal.centres), (&old.kept, &old.centres), "{mesh:?}");
            let unturned = |of: &Literal| of.coarse.iter().map(|&t| sorted(t)).collect::<BTreeSet<_>>();
            assert_eq!(unturned(literal), unturned(old), "{mesh:?}");
            assert_eq!(literal.as_returned(), literal == &old, "{mesh:?}");
        }
        for literal in &by_new_rule {
            assert_eq!(Some(*literal), new.as_ref(), "{mesh:?}");
        }
    }
}

/// The refusal, place and role that undo one must give: 0 in the least role asked that has a reading by the new rule; else 15 in the least
/// that has one by the old rule, at the least triangle that disagrees in the returned one; else 11.
fn literal_answer(asked: u64, all: &[Literal]) -> (u64, u64, u64) {
    let of_asked = || all.iter().filter(|literal| asked == 4 || literal.role as u64 == asked);
    if let Some(role) = of_asked().filter(|literal| literal.by_new_rule()).map(|literal| literal.role).min() {
        return (0, 0, role as u64);
    }
    match of_asked().filter(|literal| literal.as_returned()).min_by_key(|literal| literal.role) {
        Some(returned) => (15, returned.disagreeing[0] as u64, 0),
        None => (11, 0, 0),
    }
}

#[test]
fn readings_are_those_of_the_definition() {
    let splits_by_count: Vec<Vec<Split>> = (0..=4).map(|f| if f == 0 { vec![] } else { all_splits(f) }).collect();
    // one triangle; two on an edge; a book, a strip, a closed fan: each triangle turned or not
    assert_eq!(splits_by_count[1..=3].iter().map(Vec::len).collect::<Vec<_>>(), [2, 4, 3 * 8]);
    let mut r = Random(20_020_102);
    let (mut meshes, mut with_reading, mut refused, mut matched) = (0, [0; 4], [0; 16], 0);
    for kind in 0..14 {
        for _ in 0..600 {
            let (_, mesh) = make(&mut r, kind);
            if mesh.1.len() > 16 || !is_proper(&mesh) {
                continue;
            }
            meshes += 1;
            let all = literal_readings(&mesh, &splits_by_count);
            matched += all.len();
            for (role, count) in with_reading.iter_mut().enumerate() {
                compare_readings(&mesh, role, &all);
                *count += usize::from(all.iter().any(|literal| literal.role == role && literal.by_new_rule()));
            }
            let room = OneRoom { mesh: 12, vertex_map: mesh.0.into(), triangle_map: 16 };
            for asked in 0..=4 {
                for search in BOTH {
                    let one = undo_one(mesh.0.into(), &list(&mesh), asked, room, &[], search);
                    let answer = (one.answer.refusal, one.answer.place, one.role);
                    assert_eq!(answer, literal_answer(asked, &all), "asked {asked}, {mesh:?}");
                    refused[one.answer.refusal as usize] += usize::from(asked == 4 && search == BOTH[0]);
                }
            }
        }
    }
    println!(
        "{meshes} meshes; readings in roles {with_reading:?}; {matched} matches; asked 4, {} are refused 11 and {} 15",
        refused[11], refused[15]
    );
    assert!(with_reading.iter().all(|&n| n > 100) && refused[11] > 1_000 && refused[15] > 300);
}
