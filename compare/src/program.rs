// The program, as it is built, beside what the reference says that it writes.
use std::io::{ErrorKind, Write};
use std::path::PathBuf;
use std::process::{Command, Stdio};

use crate::checker::{Checked, Checker};
use crate::cover::Call;
use crate::damage;
use crate::frames;
use crate::kinds;
use crate::meshes::{disguised, splitting, strip, Mesh};
use crate::random::Random;

// The name of its set of cases.
pub const SET: &str = "program";

// The most bytes that it takes: a file with CR LF of the most triangles that it has room for.
const MOST_BYTES: usize = 16_396;

pub struct Kind {
    pub name: &'static str,
    make: fn(&mut Random) -> Vec<u8>,
}

const KINDS: &[Kind] = &[
    Kind { name: "frames in any spelling, or damaged", make: any_frames },
    Kind { name: "frames filled up", make: filled_up },
    Kind { name: "a full file with CR LF", make: full_file },
    Kind { name: "a full file with CR LF and another last end", make: other_last_end },
    Kind { name: "a full file with CR LF and a byte more", make: byte_more },
];

// The program itself.
pub fn path() -> PathBuf {
    PathBuf::from(env!("CARGO_MANIFEST_DIR")).join("../target/bin/unsplit")
}

// Mostly the first.
pub fn kind(number: usize) -> &'static Kind {
    &KINDS[(number % 16).saturating_sub(16 - KINDS.len())]
}

pub fn check(checker: &mut Checker, number: usize) -> Checked {
    let input = (kind(number).make)(&mut checker.random);
    let expected = reference::program(&input);
    let found = run(&input)?;
    let (refusal, place) = (number_at(&expected, 2..4), number_at(&expected, 6..10));
    checker.cover.answer(Call::Program, refusal, place);
    if found == expected {
        return Ok(());
    }
    let [input, found, expected] = [input, found, expected].map(|bytes| bytes.escape_ascii().to_string());
    Err(format!("the program, given \"{input}\", wrote \"{found}\", expected \"{expected}\""))
}

fn run(input: &[u8]) -> Result<Vec<u8>, String> {
    let failed = |what: &str, error: std::io::Error| format!("{what} {}: {error}", path().display());
    let mut command = Command::new(path());
    let started = command.stdin(Stdio::piped()).stdout(Stdio::piped()).spawn();
    let mut process = started.map_err(|error| failed("cannot start", error))?;
    let mut stdin = process.stdin.take().ok_or("the program has no standard input")?;
    match stdin.write_all(input) {
        // It need not read what is too long to the end.
        Err(error) if error.kind() != ErrorKind::BrokenPipe => return Err(failed("cannot write to", error)),
        _ => drop(stdin),
    }
    let output = process.wait_with_output().map_err(|error| failed("cannot read from", error))?;
    match output.status.code() {
        Some(0) => Ok(output.stdout),
        _ => Err(format!("the program, given \"{}\", ended with {}", input.escape_ascii(), output.status)),
    }
}

// The hexadecimal digits of an answer's first line.
fn number_at(answer: &[u8], digits: std::ops::Range<usize>) -> u64 {
    let digits = answer.get(digits).and_then(|digits| std::str::from_utf8(digits).ok());
    digits.and_then(|digits| u64::from_str_radix(digits, 16).ok()).unwrap_or(0)
}

// Frames of a mesh that may have a reading, often damaged.
fn any_frames(random: &mut Random) -> Vec<u8> {
    let mesh = mesh(random);
    match random.below(3) {
        0 => {
            let kind = random.below(frames::KINDS);
            frames::of_kind(random, kind, frames::text(&mesh))
        }
        _ => frames::any_spelling(random, frames::text(&mesh)),
    }
}

// To about as many bytes as are taken, or as were taken before a line could end in CR LF.
fn filled_up(random: &mut Random) -> Vec<u8> {
    let mut text = any_frames(random);
    let most = random.pick(&[MOST_BYTES, MOST_BYTES, 16_384]);
    text.resize(most - 1 + random.below(3), random.pick(b"0\r\n"));
    text
}

// As many bytes as are taken: 1,024 triangles, most often with a reading.
fn full_file(random: &mut Random) -> Vec<u8> {
    let mesh = if random.one_in(4) { strip(1_024) } else { splitting(&strip(256)) };
    let mesh = disguised(random, mesh);
    let text = frames::with_returns(&frames::text(&mesh));
    frames::any_case(random, text)
}

// As many bytes, or up to two less. One of the ends is right.
fn other_last_end(random: &mut Random) -> Vec<u8> {
    let text = full_file(random);
    frames::with_end(&text, 1_024, random.pick(&["", "\n", "\r", "\r\r", "\n\r", "\n\n"]))
}

fn byte_more(random: &mut Random) -> Vec<u8> {
    let text = full_file(random);
    damage::byte_put_in(random, text, |random| random.pick(b"0Aa\r\n "))
}

// Of every kind, and at the boundaries of the program's room: 1,024 triangles and 1,026 vertices.
fn mesh(random: &mut Random) -> Mesh {
    match random.below(16) {
        0 => strip(random.between(1_023, 1_025)),
        1 => splitting(&strip(256)),
        2 => Mesh { vertices: random.between(1_025, 1_028) as u64, ..splitting(&strip(random.between(1, 3))) },
        3 => Mesh::default(),
        5 => Mesh { vertices: random.pick(&[2, 4, 32_767, 32_768, 65_535]), ..strip(1) },
        4 => kinds::KINDS[random.below(kinds::KINDS.len())].of_size(random, 1_024),
        _ => kinds::KINDS[random.below(kinds::KINDS.len())].of_size(random, 64),
    }
}
