// Index texts: as they should be in any spelling, damaged, and of any bytes.
use std::ops::Range;

use crate::damage;
use crate::meshes::Mesh;
use crate::random::Random;

pub struct Kind {
    pub name: &'static str,
    pub make: fn(&mut Random, Vec<u8>) -> Vec<u8>,
}

// What is done to a text that is as it should be.
pub const KINDS: &[Kind] = &[
    Kind { name: "as it should be", make: |_, text| text },
    Kind { name: "one byte changed", make: |random, text| damage::byte_changed(random, text, any_byte) },
    Kind { name: "a byte removed", make: damage::byte_removed },
    Kind { name: "a byte put in", make: |random, text| damage::byte_put_in(random, text, any_byte) },
    Kind { name: "a comment begun", make: |random, text| damage::byte_put_in(random, text, |_| b'#') },
    Kind { name: "a run changed", make: run_changed },
    Kind { name: "a run left out", make: run_left_out },
    Kind { name: "a run put in", make: run_put_in },
    Kind { name: "cut short", make: damage::cut_short },
    Kind { name: "extended", make: extended },
    Kind { name: "any runs", make: any_runs },
    Kind { name: "any signs", make: |random, text| damage::other_bytes(random, text, any_sign) },
    Kind { name: "any bytes", make: |random, text| damage::other_bytes(random, text, |random| random.next() as u8) },
];

const SEPARATORS: &[u8] = b" \t\r\n,";

// What a reader might take for a number or a -1, between blanks. The last are white space, and a byte order mark.
const AT_FAULT: &str =
    "65536 065536 65537 99999 131072 4294967296 4294967297 18446744073709551616 18446744073709551617 -01 -001 +1 -2 \
    -0 -11 --1 -1- -1-1 1-1 - 0x1F 1.0 1. 1e3 [ ] [0 2] x 1_0 1;2 \x0b 1\x0c2 \0 \u{a0} \u{2028} \u{feff} \u{feff}0";

// Within the limits mostly.
const VERTICES: &[u64] = &[0, 1, 9, 255, 4_096, 32_766, 32_767];
const TOO_MANY_VERTICES: &[u64] = &[32_768, 32_769, 65_535, 65_536, 65_545, 1 << 32, (1 << 32) + 9, (1 << 63) + 9, u64::MAX];

// As the library writes it. Entries beyond a multiple of 3 are left out.
pub fn text(mesh: &Mesh) -> Vec<u8> {
    words(mesh).join(" ").into_bytes()
}

fn words(mesh: &Mesh) -> Vec<String> {
    let face = |number| mesh.triangle(number).map(|corner| corner.to_string()).into_iter().chain(["-1".into()]);
    (0..mesh.triangles()).flat_map(face).collect()
}

// A mesh of any corners, since neither call judges them, with numbers of all lengths.
pub fn any_mesh(random: &mut Random, triangles: usize) -> Mesh {
    let vertices = if random.one_in(8) { random.pick(TOO_MANY_VERTICES) } else { random.pick(VERTICES) };
    Mesh { vertices, list: (0..3 * triangles).map(|_| any_corner(random)).collect() }
}

fn any_corner(random: &mut Random) -> u16 {
    if random.one_in(4) {
        return random.pick(&[0, 1, 9, 10, 99, 100, 999, 1_000, 9_999, 10_000, 32_767, 32_768, 65_534, 65_535]);
    }
    random.next() as u16 >> random.below(16)
}

// The text as the library writes it, or in another spelling.
pub fn any_spelling(random: &mut Random, mesh: &Mesh) -> Vec<u8> {
    if random.one_in(3) {
        return text(mesh);
    }
    let mut words = words(mesh);
    if random.one_in(2) {
        words.pop();
    }
    spelt(random, &words)
}

// The words with leading zeros here and there, between separators and comments.
fn spelt(random: &mut Random, words: &[String]) -> Vec<u8> {
    let mut text = Vec::new();
    for (number, word) in words.iter().enumerate() {
        if number > 0 || random.one_in(4) {
            text.extend(any_separation(random));
        }
        if random.one_in(10) && !word.starts_with('-') {
            text.extend(vec![b'0'; random.between(1, 25)]);
        }
        text.extend(word.bytes());
    }
    if random.one_in(3) {
        text.extend(any_separation(random));
    }
    text
}

fn any_separation(random: &mut Random) -> Vec<u8> {
    match random.below(24) {
        0 => any_comment(random),
        1..4 => (0..random.between(2, 4)).map(|_| random.pick(SEPARATORS)).collect(),
        _ => vec![random.pick(SEPARATORS)],
    }
}

fn any_comment(random: &mut Random) -> Vec<u8> {
    let mut comment = vec![b'#'];
    comment.extend((0..random.below(12)).map(|_| any_byte(random)).filter(|byte| !b"\r\n".contains(byte)));
    comment.extend(random.pick(&[&b"\r"[..], b"\n", b"\r\n"]));
    comment
}

// Signs that texts are made of.
fn any_sign(random: &mut Random) -> u8 {
    random.pick(b"01234567899-11  ,\t\r\n#")
}

// Bytes that a reader might take for others: beside the digits and separators, or with a bit set.
fn any_byte(random: &mut Random) -> u8 {
    match random.below(4) {
        0 | 1 => any_sign(random),
        2 => random.pick(b"/:+.;[]xX\x08\x0b\x0c\x0e\x1f!\"$\0\x10\x11\x7f\x80\x85\xa0\xb0\xb9\xad\xac\xef\xff"),
        _ => random.next() as u8,
    }
}

fn any_run(random: &mut Random) -> String {
    match random.below(6) {
        0 | 1 => any_corner(random).to_string(),
        2 | 3 => "-1".into(),
        4 => ((1u128 << random.between(15, 127)) + random.below(70_000) as u128).to_string(),
        _ => random.pick(&AT_FAULT.split(' ').collect::<Vec<&str>>()).into(),
    }
}

// The stretch without separators around any place, which is empty between two separators.
fn any_stretch(random: &mut Random, text: &[u8]) -> Range<usize> {
    let place = random.between(0, text.len());
    let is_separator = |byte: &u8| SEPARATORS.contains(byte);
    let begin = text[..place].iter().rposition(is_separator).map_or(0, |before| before + 1);
    let end = text[place..].iter().position(is_separator).map_or(text.len(), |after| place + after);
    begin..end
}

fn run_changed(random: &mut Random, mut text: Vec<u8>) -> Vec<u8> {
    let stretch = any_stretch(random, &text);
    text.splice(stretch, any_run(random).into_bytes());
    text
}

fn run_left_out(random: &mut Random, mut text: Vec<u8>) -> Vec<u8> {
    let stretch = any_stretch(random, &text);
    text.drain(stretch);
    text
}

fn run_put_in(random: &mut Random, mut text: Vec<u8>) -> Vec<u8> {
    let place = any_stretch(random, &text).start;
    text.splice(place..place, format!("{} ", any_run(random)).into_bytes());
    text
}

fn extended(random: &mut Random, mut text: Vec<u8>) -> Vec<u8> {
    match random.below(4) {
        0 => text.extend(any_separation(random)),
        1 => text.extend(b" #".iter().chain(b"3 4 5 -1")),
        2 => text.extend(b"\n0 1 2 -1"),
        _ => text.extend(format!(" {}", any_run(random)).bytes()),
    }
    text
}

// Mostly runs that are right by themselves, so that faces are judged.
fn any_runs(random: &mut Random, _: Vec<u8>) -> Vec<u8> {
    let words: Vec<String> = (0..random.below(14))
        .map(|number| match random.below(20) {
            0 => any_run(random),
            _ if number % 4 == 3 => "-1".into(),
            _ => any_corner(random).to_string(),
        })
        .collect();
    spelt(random, &words)
}
