// Texts of frames: as they should be in any spelling, damaged, and of any bytes.
use crate::damage;
use crate::meshes::Mesh;
use crate::random::Random;

pub struct Kind {
    pub name: &'static str,
    make: fn(&mut Random, Vec<u8>) -> Vec<u8>,
}

// How a text may be spelt.
const SPELLINGS: &[Kind] = &[
    Kind { name: "as they are written", make: |_, text| text },
    Kind { name: "lower case", make: |_, text| text.to_ascii_lowercase() },
    Kind { name: "lower case from a place on", make: lower_case_from },
    Kind { name: "case by chance", make: any_case },
    Kind { name: "CR LF", make: |_, text| with_returns(&text) },
    Kind { name: "line ends by chance", make: any_ends },
    Kind { name: "lower case and CR LF", make: |_, text| with_returns(&text.to_ascii_lowercase()) },
    Kind { name: "case and line ends by chance", make: any_case_and_ends },
];

// What is done to a text in one of these spellings.
const DAMAGES: &[Kind] = &[
    Kind { name: "one byte changed", make: |random, text| damage::byte_changed(random, text, any_byte) },
    Kind { name: "a byte removed", make: damage::byte_removed },
    Kind { name: "a byte put in", make: |random, text| damage::byte_put_in(random, text, any_byte) },
    Kind { name: "a neighbour of the digits for a digit", make: neighbour_for_a_digit },
    Kind { name: "CR put in", make: |random, text| damage::byte_put_in(random, text, |_| b'\r') },
    Kind { name: "CR for a line end", make: |random, text| other_end(random, &text, "\r") },
    Kind { name: "CR CR LF for a line end", make: |random, text| other_end(random, &text, "\r\r\n") },
    Kind { name: "LF CR for a line end", make: |random, text| other_end(random, &text, "\n\r") },
    Kind { name: "another line end", make: any_other_end },
    Kind { name: "CR for the last line end", make: |_, text| with_end(&text, lines(&text).len() - 1, "\r") },
    Kind { name: "two lines swapped", make: lines_swapped },
    Kind { name: "a line left out or repeated", make: line_left_out_or_repeated },
    Kind { name: "another count in the first line", make: other_count },
    Kind { name: "cut short", make: damage::cut_short },
    Kind { name: "extended", make: extended },
    Kind { name: "any bytes", make: |random, text| damage::other_bytes(random, text, |random| random.next() as u8) },
    Kind { name: "any digits and line ends", make: |random, text| damage::other_bytes(random, text, any_digit) },
];

pub const KINDS: usize = SPELLINGS.len() + DAMAGES.len();

// Right before and right after the digits 0 to 9, A to F and a to f.
const NEIGHBOURS: &[u8] = b"/:@G`g";

// What is no line end, though a part of it may be one. Among the last are LF and CR with a bit set, and line ends of other texts.
pub const OTHER_ENDS: &[&str] = &[
    "", "\r", "\r\r", "\r\r\n", "\n\r", "\n\n", "\n\r\n", "\r\n\r", "\r\n\n", "\r\n\r\n", "\n ", " \n", " \r\n", "\r \n", "0\n",
    "\r0\n", "*", "-\n", "\0\n", "\t\n", "\x0b", "\x0c", "\x1e", "\u{85}", "\u{2028}",
];

// As the library writes it.
pub fn text(mesh: &Mesh) -> Vec<u8> {
    let mut text = format!("4D{:04X}{:04X}\n", mesh.vertices, mesh.triangles());
    for number in 0..mesh.triangles() {
        let [a, b, c] = mesh.triangle(number);
        text += &format!("46{a:04X}{b:04X}{c:04X}\n");
    }
    text.into_bytes()
}

pub fn kind(number: usize) -> &'static Kind {
    let number = number % KINDS;
    SPELLINGS.get(number).unwrap_or_else(|| &DAMAGES[number - SPELLINGS.len()])
}

// A text of the kind, made of one that is as it is written.
pub fn of_kind(random: &mut Random, number: usize, text: Vec<u8>) -> Vec<u8> {
    let is_damage = number % KINDS >= SPELLINGS.len();
    let text = if is_damage { any_spelling(random, text) } else { text };
    (kind(number).make)(random, text)
}

pub fn any_spelling(random: &mut Random, text: Vec<u8>) -> Vec<u8> {
    (SPELLINGS[random.below(SPELLINGS.len())].make)(random, text)
}

// How a text that is read is written: in upper case, and without the CR of each CR LF.
pub fn normal(text: &[u8]) -> Vec<u8> {
    let without = |line: &Vec<u8>| line.strip_suffix(b"\r\n").map_or(line.clone(), |digits| [digits, b"\n"].concat());
    lines(&text.to_ascii_uppercase()).iter().flat_map(without).collect()
}

// A mesh of any corners, since reading does not judge them.
pub fn any_corners(random: &mut Random, triangles: usize) -> Mesh {
    let vertices = random.pick(&[0, 1, 9, 10, 15, 16, 255, 256, 4_095, 4_096, 32_766, 32_767]);
    Mesh { vertices, list: (0..3 * triangles).map(|_| random.next() as u16).collect() }
}

// How many triangles the first line says there are, if it can be read.
pub fn triangles_said(bytes: &[u8]) -> usize {
    let digits = bytes.get(6..10).and_then(|digits| std::str::from_utf8(digits).ok());
    digits.and_then(|digits| usize::from_str_radix(digits, 16).ok()).unwrap_or(0)
}

// Each line ends in CR LF.
pub fn with_returns(text: &[u8]) -> Vec<u8> {
    lines(text).iter().flat_map(|line| [digits(line), b"\r\n"].concat()).collect()
}

// The line of this number ends in something else.
pub fn with_end(text: &[u8], line: usize, end: &str) -> Vec<u8> {
    let mut lines = lines(text);
    lines[line] = [digits(&lines[line]), end.as_bytes()].concat();
    lines.concat()
}

// Bytes that a reader might take for others: beside the digits, or with a bit set or missing.
fn any_byte(random: &mut Random) -> u8 {
    match random.below(4) {
        0 => any_digit(random),
        1 => random.pick(NEIGHBOURS),
        2 => random.pick(b" \n\r\t\0Mm+-x*\x0b\x0c\x0e\x10\x19\x1a\x7f\x80\x8a\x8d\xb0\xc1\xe1\xff"),
        _ => random.next() as u8,
    }
}

fn any_digit(random: &mut Random) -> u8 {
    random.pick(b"0123456789ABCDEFabcdef46\r\n")
}

fn lines(text: &[u8]) -> Vec<Vec<u8>> {
    text.split_inclusive(|&byte| byte == b'\n').map(<[u8]>::to_vec).collect()
}

// A line without its end.
fn digits(line: &[u8]) -> &[u8] {
    line.trim_ascii_end()
}

fn lower_case_from(random: &mut Random, mut text: Vec<u8>) -> Vec<u8> {
    let from = random.below(text.len());
    text[from..].make_ascii_lowercase();
    text
}

pub fn any_case(random: &mut Random, mut text: Vec<u8>) -> Vec<u8> {
    text.iter_mut().filter(|_| random.one_in(2)).for_each(u8::make_ascii_lowercase);
    text
}

fn any_ends(random: &mut Random, text: Vec<u8>) -> Vec<u8> {
    lines(&text).iter().flat_map(|line| [digits(line), random.pick(&[&b"\n"[..], b"\r\n"])].concat()).collect()
}

fn any_case_and_ends(random: &mut Random, text: Vec<u8>) -> Vec<u8> {
    let text = any_case(random, text);
    any_ends(random, text)
}

fn neighbour_for_a_digit(random: &mut Random, mut text: Vec<u8>) -> Vec<u8> {
    let places: Vec<usize> = (0..text.len()).filter(|&place| text[place].is_ascii_hexdigit()).collect();
    text[random.pick(&places)] = random.pick(NEIGHBOURS);
    text
}

fn other_end(random: &mut Random, text: &[u8], end: &str) -> Vec<u8> {
    with_end(text, random.below(lines(text).len()), end)
}

fn any_other_end(random: &mut Random, text: Vec<u8>) -> Vec<u8> {
    let end = random.pick(OTHER_ENDS);
    other_end(random, &text, end)
}

fn lines_swapped(random: &mut Random, text: Vec<u8>) -> Vec<u8> {
    let mut lines = lines(&text);
    let (one, other) = (random.below(lines.len()), random.below(lines.len()));
    lines.swap(one, other);
    lines.concat()
}

fn line_left_out_or_repeated(random: &mut Random, text: Vec<u8>) -> Vec<u8> {
    let mut lines = lines(&text);
    let line = random.below(lines.len());
    if random.one_in(2) {
        lines.remove(line);
    } else {
        lines.insert(line, lines[line].clone());
    }
    lines.concat()
}

// V or F becomes another, at a limit or near what it was.
fn other_count(random: &mut Random, mut text: Vec<u8>) -> Vec<u8> {
    let near = triangles_said(&text) + random.below(3);
    let count = random.pick(&[near, near.saturating_sub(1), 0, 1, 16_384, 16_385, 32_767, 32_768, 65_535]);
    let from = random.pick(&[2, 6]);
    text[from..from + 4].copy_from_slice(&any_case(random, format!("{count:04X}").into_bytes()));
    text
}

fn extended(random: &mut Random, mut text: Vec<u8>) -> Vec<u8> {
    match random.below(3) {
        0 => text.extend(random.pick(&["\n", "\r", "\r\n", "\n\r", "\r\r\n"]).bytes()),
        1 => text.extend(any_ends(random, b"46000000010002\n".to_vec())),
        _ => text.extend((0..random.between(1, 20)).map(|_| any_byte(random)).collect::<Vec<u8>>()),
    }
    text
}
