// The cases of crates/vectors, as text: numbers, which are commands with their arguments (reference/README.md, "Vectors"). Those that were
// worked out by hand come first.
use std::fmt::Write;

use crate::document::{three_cones, torus, Named, INSIDE_OUT, STARRED};
use crate::frames;
use crate::index;
use crate::kinds::KINDS;
use crate::meshes::{self, Mesh};
use crate::random::Random;

const BY_HAND: &str = include_str!("../../reference/tests/by_hand.txt");

const SEED: u64 = 1;
const GENERATED: usize = 330;
const GENERATED_INDEX_TEXTS: usize = 260;
// Each in every spelling and with every damage.
const GENERATED_FRAMES: usize = 4;

// Greater numbers are wrong in cases.
const GREATEST: u64 = 18_446_744_073_709_551_609;

// What is asked too much of undo one and of undo several, among others.
const TOO_MUCH: [u64; 6] = [8, 9, 255, 256, 32_768, 65_535];

#[derive(Default)]
struct Text(String);

impl Text {
    fn comment(&mut self, what: &str) {
        self.line(&format!("# {what}"));
    }

    fn line(&mut self, words: &str) {
        self.0 += words;
        self.0.push('\n');
    }

    // The present mesh.
    fn mesh(&mut self, mesh: &Mesh) {
        let mut words = format!("1 {} {}", mesh.vertices, mesh.list.len());
        for entry in &mesh.list {
            let _ = write!(words, " {entry}");
        }
        self.line(&words);
    }

    fn triangle(&mut self, [a, b, c]: [u16; 3]) {
        self.line(&format!("2 {a} {b} {c}"));
    }

    // From here on every buffer has so many entries to spare.
    fn spare(&mut self, entries: usize) {
        self.line(&format!("7 {entries} 0 0"));
    }

    // The present mesh becomes its splitting, and that one's, and so on.
    fn split(&mut self, times: usize) {
        self.line(&vec!["3"; times].join(" "));
    }

    fn undo_one(&mut self, asked: impl IntoIterator<Item = u64>) {
        self.asked("4", asked);
    }

    fn undo_several(&mut self, asked: impl IntoIterator<Item = u64>) {
        self.asked("5", asked);
    }

    // The present mesh becomes the result.
    fn take_several(&mut self, asked: impl IntoIterator<Item = u64>) {
        self.asked("6", asked);
    }

    fn read_frames(&mut self, room: usize, frames: &str) {
        self.line(&format!("8 {room} {}\n{frames}", frames.len()));
    }

    fn write_frames(&mut self) {
        self.line("9");
    }

    fn read_index(&mut self, vertices: u64, room: usize, index_text: &str) {
        self.line(&format!("10 {vertices} {room} {}\n{index_text}", index_text.len()));
    }

    fn write_index(&mut self, room: usize) {
        self.line(&format!("11 {room}"));
    }

    fn asked(&mut self, command: &str, asked: impl IntoIterator<Item = u64>) {
        let words: Vec<String> = asked.into_iter().map(|asked| format!("{command} {asked}")).collect();
        self.line(&words.join(" "));
    }
}

pub fn text() -> String {
    let mut text = Text::default();
    text.comment("Cases for the library and for the independent implementation. Written by 'compare --vectors'.");
    text.comment("---- reference/tests/by_hand.txt");
    text.0 += BY_HAND;
    unstarred(&mut text);
    starred(&mut text);
    refusals(&mut text);
    edges(&mut text);
    inside_out(&mut text);
    generated(&mut text);
    frames_by_bytes(&mut text);
    frames_by_ends(&mut text);
    frames_generated(&mut text);
    index_by_bytes(&mut text);
    index_by_numbers(&mut text);
    index_generated(&mut text);
    text.0
}

fn unstarred(text: &mut Text) {
    text.comment("---- document 01's meshes without a star");
    let shapes = [("one triangle", meshes::one_triangle()), ("a tetrahedron", meshes::tetrahedron())];
    for (name, mesh) in &shapes {
        text.comment(&format!("{name}: 11; split: accepted"));
        text.mesh(mesh);
        text.undo_one(0..=4);
        text.split(1);
        text.undo_one(0..=4);
        text.undo_several(0..=7);
    }
    text.comment("an octahedron: 11");
    text.mesh(&meshes::octahedron());
    text.undo_one(0..=4);
    text.comment("a regular 6 by 6 torus of 72 triangles: all four roles");
    text.mesh(&torus());
    text.undo_one(0..=4);
    text.undo_several(0..=7);
    text.comment("seven splits of one triangle: 16,384 triangles; undo of 7 gives it back, asked 8 gives 1");
    text.mesh(&meshes::one_triangle());
    text.split(7);
    text.undo_several([7, 6, 1, 0, 8]);
    text.undo_one([4, 1]);
    text.comment("one triangle more: 16,385, and 4; asked too much is 1 all the same");
    text.triangle([0, 1, 2]);
    text.undo_several([7, 8]);
    text.undo_one([4, 5]);
    text.split(1);
    text.comment("six splits are split once more; with one triangle more they are 4,097, and 4 for splitting alone");
    text.mesh(&meshes::one_triangle());
    text.split(6);
    text.triangle([0, 1, 2]);
    text.split(1);
    text.undo_one([4]);
    text.undo_several([7]);
}

fn starred(text: &mut Text) {
    text.comment("---- document 01's meshes with a star");
    for Named { name, mesh } in &STARRED {
        text.comment(name);
        text.mesh(&mesh());
        text.undo_one(0..=4);
        text.undo_several([0, 7]);
        text.split(1);
    }
}

// Judged from numbers alone, at their boundaries.
fn refusals(text: &mut Text) {
    text.comment("---- refusals 1 to 4");
    for length in 0..=5 {
        text.mesh(&Mesh { vertices: 3, list: [0, 1, 2, 2, 1, 0][..length].to_vec() });
        text.undo_one([4, 5]);
        text.undo_several([7, 8]);
        text.split(1);
    }
    for vertices in [0, 1, 32_767, 32_768, 65_535] {
        text.mesh(&Mesh { vertices, ..meshes::one_triangle() });
        text.undo_one([0, 4, 5]);
        text.undo_several([0, 7, 8]);
        text.split(1);
    }
}

// Edges with one triangle, two and three, of meshes as they are, split, and undone by several levels; and a refusal after each.
fn edges(text: &mut Text) {
    text.comment("---- boundary, regular and singular edges");
    let shapes = [
        ("three cones on one rim: singular edges, and no boundary edge", three_cones()),
        ("three triangles on an edge: a singular edge, and boundary edges", meshes::book(3)),
        ("a strip: regular and boundary edges", meshes::strip(5)),
    ];
    for (name, mesh) in &shapes {
        text.comment(name);
        text.mesh(mesh);
        text.undo_several([0, 7]);
        text.undo_one([4]);
        text.split(1);
        text.undo_one([0, 1, 4]);
        text.split(1);
        text.undo_several([0, 1, 2, 7, 8]);
    }
}

fn inside_out(text: &mut Text) {
    text.comment("---- triangles inside out");
    for Named { name, mesh } in &INSIDE_OUT {
        text.comment(name);
        text.mesh(&mesh());
        text.undo_one(0..=4);
        text.undo_several([1, 7]);
    }
}

fn generated(text: &mut Text) {
    text.comment("---- generated");
    for number in 0..GENERATED {
        let mut random = Random::of_case(SEED, 0, number);
        let kind = &KINDS[number % KINDS.len()];
        let most = random.pick(&[4, 8, 8, 12, 16, 24, 32, 48]);
        text.comment(kind.name);
        text.spare(number % 3);
        text.mesh(&kind.of_size(&mut random, most));
        text.undo_one((0..=4).chain(random.one_in(10).then(|| random.pick(&TOO_MUCH))));
        text.undo_several([0, 1, 2, 7].into_iter().chain(random.one_in(10).then(|| random.pick(&TOO_MUCH))));
        match random.below(3) {
            0 => text.split(1),
            1 => text.take_several([1, 1, 7]),
            _ => {
                text.split(1);
                text.take_several([1, 7]);
            }
        }
    }
}

// Every sign in three places: as a digit, before LF, and after CR.
fn frames_by_bytes(text: &mut Text) {
    text.comment("---- frames: every byte below 128");
    for sign in '\0'..='\x7f' {
        text.read_frames(0, &format!("4D0{sign}000000\n"));
        text.read_frames(0, &format!("4D00000000{sign}\n"));
        text.read_frames(0, &format!("4D00000000\r{sign}"));
    }
}

// Both line ends and others at each line, beside lines with LF and with CR LF.
fn frames_by_ends(text: &mut Text) {
    text.comment("---- frames: line ends");
    let lines = frames::text(&Mesh::new(0xAB, &[0xCD, 0xE, 0xF, 0x1A2B, 0xC3D4, 0xE5F6]));
    for lines in [frames::with_returns(&lines), lines] {
        for (line, end) in (0..3).flat_map(|line| ["\n", "\r\n"].iter().chain(frames::OTHER_ENDS).map(move |end| (line, end))) {
            text.read_frames(6, &String::from_utf8_lossy(&frames::with_end(&lines, line, end)));
        }
    }
}

// Texts of every kind but those that are no UTF-8; then the present mesh, which may be what was read, is written.
fn frames_generated(text: &mut Text) {
    text.comment("---- frames, generated");
    for number in 0..GENERATED_FRAMES {
        let mut random = Random::of_case(SEED, 2, number);
        text.spare(number % 3);
        let mesh = frames::any_corners(&mut random, number);
        for kind in 0..frames::KINDS {
            let Ok(spelling) = String::from_utf8(frames::of_kind(&mut random, kind, frames::text(&mesh))) else { continue };
            text.comment(frames::kind(kind).name);
            text.read_frames((mesh.list.len() + 4).saturating_sub(random.below(6)), &spelling);
            text.write_frames();
        }
    }
}

// Every sign in three places: between two numbers, where a -1 may stand, and in a comment before what is no number.
fn index_by_bytes(text: &mut Text) {
    text.comment("---- index texts: every byte below 128");
    for sign in '\0'..='\x7f' {
        text.read_index(9, 3, &format!("0{sign}1 2"));
        text.read_index(9, 3, &format!("0 1 2 -{sign}"));
        text.read_index(9, 3, &format!("0 1 2#{sign}x"));
    }
}

// Texts with and without a fault, with V at its boundary, and room for one face and for two.
fn index_by_numbers(text: &mut Text) {
    text.comment("---- index texts: refusals 14, 4 and 5, and 2, 4 and 5");
    for vertices in [0, 32_767, 32_768, 65_536, 4_294_967_297, GREATEST] {
        for index_text in ["", "#", "0 1 2", "0 1 2 -1,3 4 5", "0 1 ", "0 1 2 3", "0 1 2 -1 3 4 5 -1 x"] {
            for room in [0, 2, 3, 5, 6] {
                text.read_index(vertices, room, index_text);
            }
        }
        for length in [0, 1, 2, 3, 4, 6] {
            text.mesh(&Mesh { vertices, list: [0, 10, 65_535, 9, 100, 99][..length].to_vec() });
            for room in [0, 12, 13, 25, 26, 27] {
                text.write_index(room);
            }
        }
    }
}

// Texts of every kind but those that are no UTF-8; then the present mesh, which may be what was read, is written. The last is long.
fn index_generated(text: &mut Text) {
    text.comment("---- index texts, generated");
    for number in 0..=GENERATED_INDEX_TEXTS {
        let mut random = Random::of_case(SEED, 1, number);
        let kind = &index::KINDS[number % index::KINDS.len()];
        let triangles = if number < GENERATED_INDEX_TEXTS { random.below(6) } else { 1_000 };
        let mut mesh = index::any_mesh(&mut random, triangles);
        mesh.vertices = mesh.vertices.min(GREATEST);
        let spelling = index::any_spelling(&mut random, &mesh);
        let Ok(index_text) = String::from_utf8((kind.make)(&mut random, spelling)) else { continue };
        text.comment(kind.name);
        text.read_index(mesh.vertices, (mesh.list.len() + 4).saturating_sub(random.below(6)), &index_text);
        if random.one_in(2) {
            text.mesh(&mesh);
        }
        let needed = index::text(&mesh).len();
        for room in [needed, needed.saturating_sub(1), needed + random.below(4)] {
            text.write_index(room);
        }
    }
}
