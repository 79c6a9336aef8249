//! The two searches agree on many small meshes of all kinds, by both rules, and the calls say of the readings what the documents say.

mod common;

use common::{disagreeing, is_proper, list, make, Mesh, Random, KINDS};
use reference::{reading_in, undo_one, undo_several, One, OneRoom, Reading, Rule, Search};
use std::time::Instant;

#[derive(Default)]
struct Count {
    meshes: usize,
    proper: usize,
    with_reading: usize,
    roles: [usize; 4],
    /// Refused 15 when asked 4.
    inside_out: usize,
    /// Accepted when asked 4, though a lesser role has a reading by the old rule.
    not_hidden: usize,
    exhaustive_micros: u128,
    slowest_micros: u128,
}

/// The readings by the rule in each role, which both searches find alike.
fn readings(mesh: &Mesh, rule: Rule, count: &mut Count) -> Vec<Option<Reading>> {
    let (v, l) = (u64::from(mesh.0), list(mesh));
    let all_by = |search| (0..4).map(|role| reading_in(v, &l, role, rule, search)).collect::<Vec<_>>();
    let begin = Instant::now();
    let all = all_by(Search::Exhaustive);
    let micros = begin.elapsed().as_micros();
    count.exhaustive_micros += micros;
    count.slowest_micros = count.slowest_micros.max(micros);
    assert_eq!(all_by(Search::Spreading), all, "{rule:?}, V = {v}, {l:?}");
    all
}

/// In a role there is a reading by the new rule exactly if there is one by the old rule, as it is returned, that agrees everywhere up to
/// rotation of corners; and it is this one. Centres agree always.
fn compare_rules(mesh: &Mesh, old: &[Option<Reading>], new: &[Option<Reading>]) {
    for (old, new) in old.iter().zip(new) {
        assert_eq!(new.as_ref(), old.as_ref().filter(|reading| disagreeing(mesh, reading).is_empty()), "{mesh:?}");
        if let Some(reading) = old {
            assert!(disagreeing(mesh, reading).iter().all(|&k| reading.triangle_map[k] % 4 != 0), "{mesh:?}");
        }
    }
}

/// The answer of undo one to a proper mesh follows from its readings by the two rules.
fn compare_answer(mesh: &Mesh, asked: u64, old: &[Option<Reading>], new: &[Option<Reading>], one: &One) {
    let roles = if asked == 4 { 0..4 } else { asked as usize..asked as usize + 1 };
    let least = |readings: &[Option<Reading>]| roles.clone().find(|&role| readings[role].is_some());
    let refusal = (one.answer.refusal, one.answer.place as usize);
    match (least(new), least(old)) {
        (Some(role), _) => {
            let reading = new[role].as_ref().unwrap();
            assert_eq!((refusal, one.role as usize, one.answer.vertices), ((0, 0), role, reading.vertices));
            assert_eq!(
                (&one.mesh, &one.vertex_map, &one.triangle_map),
                (&reading.mesh, &reading.vertex_map, &reading.triangle_map)
            );
        }
        (None, Some(role)) => {
            let least_place = disagreeing(mesh, old[role].as_ref().unwrap())[0];
            assert_eq!(refusal, (15, least_place), "asked {asked}, {mesh:?}");
        }
        (None, None) => assert_eq!(refusal, (11, 0), "asked {asked}, {mesh:?}"),
    }
}

/// Just enough room for undo one.
fn room(v: u64, list: &[u16]) -> OneRoom {
    let f = list.len() / 3;
    OneRoom { mesh: 3 * (f / 4), vertex_map: v as usize, triangle_map: f }
}

/// Undo several is undo one, asked 4, as often as it accepts and the asked number allows: the levels, the roles, V and the list.
fn one_after_the_other(mesh: &Mesh, asked: u64) -> (u64, [u8; 7], u64, Vec<u16>) {
    let (mut levels, mut roles, mut v, mut l) = (0, [0; 7], u64::from(mesh.0), list(mesh));
    while levels < asked {
        let one = undo_one(v, &l, 4, room(v, &l), &[], Search::Spreading);
        if one.answer.refusal != 0 {
            break;
        }
        roles[levels as usize] = one.role as u8;
        (levels, v, l) = (levels + 1, one.answer.vertices, one.mesh);
    }
    (levels, roles, v, l)
}

fn compare(mesh: &Mesh, count: &mut Count) {
    let (v, l) = (u64::from(mesh.0), list(mesh));
    let f = mesh.1.len();
    let old = readings(mesh, Rule::Old, count);
    let new = readings(mesh, Rule::New, count);
    compare_rules(mesh, &old, &new);
    for asked in 0..=5 {
        let [p, q] = [Search::Exhaustive, Search::Spreading].map(|s| undo_one(v, &l, asked, room(v, &l), &[], s));
        assert_eq!(p, q, "asked {asked}, V = {v}, {l:?}");
        if is_proper(mesh) && asked <= 4 {
            compare_answer(mesh, asked, &old, &new, &p);
        } else {
            assert!((1..=10).contains(&p.answer.refusal));
        }
    }
    for asked in [0, 1, 2, 7, 8] {
        let [p, q] = [Search::Exhaustive, Search::Spreading].map(|s| undo_several(v, &l, asked, 3 * f, &[], s));
        assert_eq!(p, q, "asked {asked}, V = {v}, {l:?}");
        if is_proper(mesh) && asked <= 7 {
            assert_eq!(p.answer.refusal, 0);
            assert_eq!((p.levels, p.roles, p.answer.vertices, p.mesh), one_after_the_other(mesh, asked), "{mesh:?}");
        } else {
            assert!((1..=10).contains(&p.answer.refusal));
        }
    }
    let [least_old, least_new] = [&old, &new].map(|readings| readings.iter().position(Option::is_some));
    count.meshes += 1;
    count.proper += usize::from(is_proper(mesh));
    count.with_reading += usize::from(least_new.is_some());
    count.inside_out += usize::from(least_old.is_some() && least_new.is_none());
    count.not_hidden += usize::from(least_new.is_some() && least_old < least_new);
    for (n, reading) in count.roles.iter_mut().zip(&new) {
        *n += usize::from(reading.is_some());
    }
}

#[test]
fn the_searches_agree() {
    let mut r = Random(20_020_101);
    let mut sum = Count::default();
    println!(
        "{:42} {:>6} {:>6} {:>7} {:>6}  role 0, 1, 2, 3; exhaustive search, four roles: mean and slowest",
        "kind", "meshes", "proper", "reading", "15"
    );
    for kind in 0..KINDS {
        let mut count = Count::default();
        let mut name = "";
        let meshes = match kind {
            14 | 15 => 150,
            12 => 6_000,
            _ => 4_000,
        };
        for _ in 0..meshes {
            let (n, mesh) = make(&mut r, kind);
            name = n;
            compare(&mesh, &mut count);
        }
        let mean = count.exhaustive_micros / (2 * count.meshes) as u128;
        println!(
            "{name:42} {:6} {:6} {:7} {:6}  {:?}; {mean} us, {} us",
            count.meshes, count.proper, count.with_reading, count.inside_out, count.roles, count.slowest_micros
        );
        sum.meshes += count.meshes;
        sum.proper += count.proper;
        sum.with_reading += count.with_reading;
        sum.inside_out += count.inside_out;
        sum.not_hidden += count.not_hidden;
        for (all, n) in sum.roles.iter_mut().zip(count.roles) {
            *all += n;
        }
    }
    println!("all: {} meshes, {} proper, {} with a reading, in roles {:?}", sum.meshes, sum.proper, sum.with_reading, sum.roles);
    println!(
        "{} refused 15; {} accepted in a role above one that has a reading by the old rule alone",
        sum.inside_out, sum.not_hidden
    );
    // a good share has readings in each of the roles 0 to 3, or is refused 15
    assert!(sum.proper * 2 > sum.meshes);
    assert!(sum.with_reading * 6 > sum.proper, "too few readings");
    assert!(sum.roles.iter().all(|&n| n * 30 > sum.proper), "too few readings in some role");
    assert!(sum.inside_out * 15 > sum.proper, "too few readings by the old rule alone");
    assert!(sum.not_hidden > 10, "too few lesser roles by the old rule alone");
}
