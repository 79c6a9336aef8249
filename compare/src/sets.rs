// The cases, in sets. A case has a number in its set, and is made from that and the seed alone.
use std::collections::BTreeSet;

use crate::boundaries;
use crate::checker::{Checked, Checker};
use crate::document;
use crate::frames;
use crate::index;
use crate::kinds;
use crate::meshes::{disguised, split_times, Mesh, Shape, SHAPES};
use crate::program;
use crate::random::Random;
use crate::room::Room;

pub struct Set {
    pub name: &'static str,
    pub cases: usize,
    pub kind: fn(usize) -> &'static str,
    pub check: fn(&mut Checker, usize) -> Checked,
}

impl Set {
    // The kinds that its cases are of, each with the set's name.
    pub fn kinds(&self) -> BTreeSet<(&'static str, &'static str)> {
        (0..self.cases).map(|number| (self.name, (self.kind)(number))).collect()
    }
}

// How many cases of the sets whose size can be chosen.
pub struct Sizes {
    pub small: usize,
    pub large: usize,
    pub frames: usize,
    pub index: usize,
    pub programs: usize,
}

pub fn all(sizes: &Sizes) -> Vec<Set> {
    vec![
        Set { name: "documents", cases: document::MESHES, kind: |number| document::named(number).name, check: check_document },
        Set { name: "frames", cases: sizes.frames, kind: |number| frames::kind(number).name, check: check_frames },
        Set { name: "index", cases: sizes.index, kind: index_kind, check: check_index },
        Set { name: "shapes", cases: sizes.small / 30, kind: |number| shape(number).name, check: check_shape },
        Set { name: "small", cases: sizes.small, kind: mesh_kind, check: check_small },
        Set { name: "boundaries", cases: boundaries::CASES, kind: |_| "of every number", check: boundaries::check },
        Set { name: "large", cases: sizes.large, kind: mesh_kind, check: check_large },
        Set { name: program::SET, cases: sizes.programs, kind: |number| program::kind(number).name, check: program::check },
    ]
}

fn mesh_kind(number: usize) -> &'static str {
    kinds::KINDS[number % kinds::KINDS.len()].name
}

fn index_kind(number: usize) -> &'static str {
    index::KINDS[number % index::KINDS.len()].name
}

// ---- meshes

// What is asked now and then beside the numbers that have a meaning.
const ASKED_TOO_MUCH: [u64; 8] = [5, 7, 8, 9, 255, 256, 1 << 32, u64::MAX];

fn check_document(checker: &mut Checker, number: usize) -> Checked {
    check_mesh(checker, &(document::named(number).mesh)())
}

fn shape(number: usize) -> &'static Shape {
    &SHAPES[number % SHAPES.len()]
}

// As it is, split once, or twice.
fn check_shape(checker: &mut Checker, number: usize) -> Checked {
    let random = &mut checker.random;
    let triangles = shape(number).least.max(random.between(1, 12));
    let coarse = (shape(number).make)(random, triangles);
    let mesh = split_times(&coarse, random.below(3));
    let mesh = disguised(random, mesh);
    check_mesh(checker, &mesh)
}

fn check_small(checker: &mut Checker, number: usize) -> Checked {
    // Mostly as few triangles as both searches take.
    let most = checker.random.pick(&[4, 8, 8, 12, 12, 16, 24, 32, 48, 72]);
    check_kind(checker, number, most)
}

fn check_large(checker: &mut Checker, number: usize) -> Checked {
    let most = checker.random.pick(&[256, 1_024, 1_024, 4_096, 4_096, 16_384]);
    check_kind(checker, number, most)
}

fn check_kind(checker: &mut Checker, number: usize, most: usize) -> Checked {
    let mesh = kinds::KINDS[number % kinds::KINDS.len()].of_size(&mut checker.random, most);
    check_mesh(checker, &mesh)
}

// Every call, with all that can be asked.
fn check_mesh(checker: &mut Checker, mesh: &Mesh) -> Checked {
    let room = Room::of_split(mesh).at_random(&mut checker.random);
    checker.split(mesh, &room)?;
    for asked in asked_up_to(checker, 4) {
        let room = Room::of_undo_one(mesh).at_random(&mut checker.random);
        checker.undo_one(mesh, asked, &room)?;
    }
    for asked in asked_up_to(checker, 7) {
        let room = Room::of_undo_several(mesh).at_random(&mut checker.random);
        checker.undo_several(mesh, asked, &room)?;
    }
    let text = frames::text(mesh);
    let beyond = checker.random.below(3);
    checker.write_frames(mesh, text.len() + beyond)?;
    checker.read_frames(&text, mesh.list.len() + beyond)?;
    let text = index::text(mesh);
    checker.write_index(mesh, text.len() + beyond)?;
    checker.read_index(mesh.vertices, &text, mesh.list.len() + beyond)
}

fn asked_up_to(checker: &mut Checker, most: u64) -> Vec<u64> {
    let too_much = if checker.random.one_in(8) { vec![checker.random.pick(&ASKED_TOO_MUCH)] } else { vec![] };
    (0..=most).chain(too_much).collect()
}

// ---- texts

// Mostly a few; sometimes many, and about as many as are allowed.
fn triangles_of_text(random: &mut Random) -> usize {
    match random.below(500) {
        0 => random.pick(&[16_383, 16_384, 16_385]),
        1..20 => random.between(10, 300),
        _ => random.below(6),
    }
}

// Of a buffer that needs so many entries.
fn lengths_around(random: &mut Random, entries: usize) -> [usize; 4] {
    [entries, entries + random.between(1, 9), entries.saturating_sub(random.between(1, 4)), 0]
}

// A text of a kind in buffers of several lengths, a few short ones cut at every place; and what is read written again.
fn check_frames(checker: &mut Checker, number: usize) -> Checked {
    let random = &mut checker.random;
    let triangles = triangles_of_text(random);
    let mesh = frames::any_corners(random, triangles);
    let text = frames::of_kind(random, number, frames::text(&mesh));
    let entries = 3 * frames::triangles_said(&text);
    for length in lengths_around(random, entries) {
        checker.read_frames(&text, length)?;
    }
    let bytes = 11 + 15 * triangles;
    for length in [bytes, bytes + 3, bytes - 1] {
        checker.write_frames(&mesh, length)?;
    }
    if triangles <= 3 && checker.random.one_in(16) {
        checker.read_cut_frames(&text, entries)?;
    }
    checker.write_read_frames(&text)
}

// The same of index texts, but that they are not written again.
fn check_index(checker: &mut Checker, number: usize) -> Checked {
    let random = &mut checker.random;
    let triangles = triangles_of_text(random);
    let mesh = index::any_mesh(random, triangles);
    let spelling = index::any_spelling(random, &mesh);
    let text = (index::KINDS[number % index::KINDS.len()].make)(random, spelling);
    let entries = entries_of(&text).unwrap_or(mesh.list.len());
    for length in lengths_around(random, entries) {
        checker.read_index(mesh.vertices, &text, length)?;
    }
    let bytes = index::text(&mesh).len();
    for length in [bytes, bytes + 3, bytes.saturating_sub(1), 21 * triangles, 0] {
        checker.write_index(&mesh, length)?;
    }
    if triangles <= 3 && number.is_multiple_of(16) {
        for end in 0..text.len() {
            checker.read_index(mesh.vertices, &text[..end], entries)?;
        }
    }
    Ok(())
}

// How many corners an index text has, if it is right.
fn entries_of(text: &[u8]) -> Option<usize> {
    let (answer, list) = reference::read_index(0, text, usize::MAX);
    (answer.refusal == 0).then_some(list.len())
}
