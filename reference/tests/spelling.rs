//! Document 02, request 105: digits of either case, and lines that end in LF or CR LF. Expectations are the request's or worked out by
//! hand: of each spelling from the rules, and never by another reader.

mod common;

use common::{list, split_of, Random};
use reference::{program, read_frames, write_frames, FramesAnswer};

/// Room for every file of this test but the large ones.
const ROOM: usize = 600;

const UPPER: &[u8; 16] = b"0123456789ABCDEF";
const LOWER: &[u8; 16] = b"0123456789abcdef";

/// "each line may end in LF or CR LF".
const ENDS: [&str; 2] = ["\n", "\r\n"];

fn refused(refusal: u64, place: u64) -> (FramesAnswer, Vec<u16>) {
    (FramesAnswer { refusal, place, vertices: 0, triangles: 0 }, vec![])
}

fn accepted(vertices: u64, list: &[u16]) -> (FramesAnswer, Vec<u16>) {
    (FramesAnswer { refusal: 0, place: 0, vertices, triangles: list.len() as u64 / 3 }, list.to_vec())
}

/// The file is read as this mesh.
fn reads(file: impl AsRef<[u8]>, vertices: u64, list: &[u16]) {
    let file = file.as_ref();
    assert_eq!(read_frames(file, ROOM), accepted(vertices, list), "\"{}\"", file.escape_ascii());
}

/// The file is refused so, at this place.
fn refuses(file: impl AsRef<[u8]>, refusal: u64, place: u64) {
    let file = file.as_ref();
    assert_eq!(read_frames(file, ROOM), refused(refusal, place), "\"{}\"", file.escape_ascii());
}

/// The file is refused 12 at this line.
fn fails(file: impl AsRef<[u8]>, line: u64) {
    refuses(file, 12, line);
}

/// The value of a digit, which stands in one list or the other.
fn value(byte: u8) -> Option<u16> {
    let at = |digits: &[u8; 16]| digits.iter().position(|&d| d == byte);
    at(UPPER).or(at(LOWER)).map(|n| n as u16)
}

/// Three triangles, without the line ends.
const LINES: [&str; 4] = ["4D00BC0003", "460A1B2C3D4E5F", "46ABCDEFFACE09", "46FFFF00000001"];
const VERTICES: u64 = 188;
const CORNERS: [u16; 9] = [2_587, 11_325, 20_063, 43_981, 61_434, 52_745, 65_535, 0, 1];

/// The lines, each with its end after it.
fn file(lines: &[impl AsRef<[u8]>], ends: &[impl AsRef<[u8]>]) -> Vec<u8> {
    assert_eq!(lines.len(), ends.len());
    lines.iter().zip(ends).flat_map(|(line, end)| [line.as_ref(), end.as_ref()].concat()).collect()
}

/// The lines and ends of `LINES`, where one end is another.
fn with_end(line: usize, end: impl AsRef<[u8]>, others: &str) -> Vec<u8> {
    let mut ends = [others.as_bytes(); 4];
    ends[line] = end.as_ref();
    file(&LINES, &ends)
}

#[test]
fn examples() {
    let read = |file: &str| read_frames(file.as_bytes(), 3);
    assert_eq!(read("4d00000000\r\n"), accepted(0, &[]));
    assert_eq!(read("4D00000000\r"), refused(12, 0));
    assert_eq!(read("4D00000000\n\r"), refused(12, 1));
    assert_eq!(read("4D00030001\r\n46000000010002\n"), accepted(3, &[0, 1, 2]));
    // "A full file of 1,024 triangles now takes 16,396 bytes": not 13, but read, and refused 7 for its first triangle, (0, 0, 0)
    let full = format!("4D00010400\r\n{}", "46000000000000\r\n".repeat(1_024));
    assert_eq!(full.len(), 16_396);
    assert_eq!(program(full.as_bytes()), b"4107000000\n");
    assert_eq!(program((full + "\n").as_bytes()), b"410D000000\n");
}

/// Every number, its digits in every choice of case, as V and as each corner.
#[test]
fn numbers() {
    for number in 0..=u16::MAX {
        let digits = format!("{number:04X}");
        for choice in 0..16 {
            let lower = |i| choice >> i & 1 == 1;
            let spelt: String =
                digits.chars().enumerate().map(|(i, d)| if lower(i) { d.to_ascii_lowercase() } else { d }).collect();
            let first = format!("4D{spelt}0001\n");
            if number < 0x8000 {
                reads(format!("{first}46{digits}{spelt}0000\n"), number.into(), &[number, number, 0]);
                reads(format!("{first}460000{digits}{spelt}\r\n"), number.into(), &[0, number, number]);
            } else {
                refuses(first, 4, 0);
            }
            reads(format!("4d00000001\r\n46{spelt}{digits}{spelt}\n"), 0, &[number; 3]);
        }
    }
}

/// F is a number like the others: so many lines follow, and one more or fewer is 12. Here 171 triangles.
#[test]
fn triangle_counts() {
    for (count, end) in [("00AB", "\n"), ("00ab", "\n"), ("00aB", "\r\n"), ("00Ab", "\r\n")] {
        let with = |lines| format!("4D0005{count}{end}") + &format!("4600010002000a{end}").repeat(lines);
        reads(with(171), 5, &[1, 2, 10].repeat(171));
        fails(with(170), 171);
        fails(with(172), 172);
        assert_eq!(read_frames(with(171).as_bytes(), 512), refused(5, 0));
        assert_eq!(read_frames(with(0).as_bytes(), 512), refused(5, 0));
    }
}

/// The first line of an otherwise right file, and the lines of triangles, with every pair of bytes as their kind.
#[test]
fn kinds() {
    for (p, q) in (0..=255).flat_map(|p| (0..=255).map(move |q| (p, q))) {
        let kind = [p, q];
        let first = [&kind, b"00010000\r\n".as_slice()].concat();
        let triangle = [b"4d00010001\n".as_slice(), &kind, b"000000000000\n"].concat();
        match &kind {
            b"4D" | b"4d" => reads(first, 1, &[]),
            _ => fails(first, 0),
        }
        match &kind {
            b"46" => reads(triangle, 1, &[0, 0, 0]),
            _ => fails(triangle, 1),
        }
    }
}

/// Every byte in place of each digit of V and F in a first line without triangles after it. Digits 0 to 9, A to F and a to f make a
/// number, all others are 12 at 0.
#[test]
fn bytes_in_the_first_line() {
    for (byte, place) in (0..=255).flat_map(|byte| (2..10).map(move |place| (byte, place))) {
        for end in ENDS {
            let mut line = *b"4D00000000";
            line[place] = byte;
            let file = [&line, end.as_bytes()].concat();
            let Some(digit) = value(byte) else {
                fails(file, 0);
                continue;
            };
            let number = u64::from(digit) << [12, 8, 4, 0][(place - 2) % 4];
            match (place < 6, number) {
                (_, 0) => reads(file, 0, &[]),
                (true, 0x8000..) => refuses(file, 4, 0),
                (true, _) => reads(file, number, &[]),
                (false, 0x4001..) => refuses(file, 4, 0),
                // there is room for 200 triangles, of which the first is missing
                (false, 201..) => refuses(file, 5, 0),
                (false, _) => fails(file, 1),
            }
        }
    }
}

/// Every byte in place of each digit of each triangle: it changes one corner by the digit's weight, or is 12 at its line.
#[test]
fn bytes_in_a_triangle() {
    for (byte, line, place) in (0..=255).flat_map(|byte| (1..4).flat_map(move |line| (2..14).map(move |place| (byte, line, place))))
    {
        for end in ENDS {
            let mut lines = LINES.map(|line| line.as_bytes().to_vec());
            let old = value(std::mem::replace(&mut lines[line][place], byte)).unwrap();
            let file = file(&lines, &[end; 4]);
            let Some(new) = value(byte) else {
                fails(file, line as u64);
                continue;
            };
            let mut corners = CORNERS;
            let weight = [4_096, 256, 16, 1][(place - 2) % 4];
            let corner = &mut corners[3 * (line - 1) + (place - 2) / 4];
            *corner = *corner - weight * old + weight * new;
            reads(file, VERTICES, &corners);
        }
    }
}

/// Every byte in place of the LF and of the CR of each line. An LF in place of the CR is a right end; after it there is an empty line.
#[test]
fn bytes_at_an_end() {
    for line in 0..4 {
        for byte in 0..=255 {
            for others in ENDS {
                let [for_lf, after_cr, for_cr] = [vec![byte], vec![b'\r', byte], vec![byte, b'\n']];
                match byte {
                    b'\n' => {
                        reads(with_end(line, for_lf, others), VERTICES, &CORNERS);
                        reads(with_end(line, after_cr, others), VERTICES, &CORNERS);
                        fails(with_end(line, for_cr, others), line as u64 + 1);
                    }
                    b'\r' => {
                        fails(with_end(line, for_lf, others), line as u64);
                        fails(with_end(line, after_cr, others), line as u64);
                        reads(with_end(line, for_cr, others), VERTICES, &CORNERS);
                    }
                    _ => {
                        for end in [for_lf, after_cr, for_cr] {
                            fails(with_end(line, end, others), line as u64);
                        }
                    }
                }
            }
        }
    }
}

/// Both ends in every choice, line by line.
#[test]
fn right_ends() {
    for choice in 0..16 {
        let ends = [0, 1, 2, 3].map(|line| ENDS[choice >> line & 1]);
        reads(file(&LINES, &ends), VERTICES, &CORNERS);
        reads(file(&LINES.map(str::to_lowercase), &ends), VERTICES, &CORNERS);
    }
}

/// Every sequence of up to five bytes, CR, LF, a blank or a digit, in place of each line's end. If it begins with LF or CR LF, this is the
/// line's end and the rest, if any, is in the next line, which is then too long, or after the last. Otherwise the line's own end is wrong.
#[test]
fn all_short_ends() {
    let mut ends = vec![vec![]];
    let mut count = 0;
    while let Some(end) = ends.pop() {
        if end.len() < 5 {
            ends.extend(b"\r\n 0".map(|byte| [&end[..], &[byte]].concat()));
        }
        count += 1;
        for (line, others) in (0..4).flat_map(|line| ENDS.map(|others| (line, others))) {
            let file = with_end(line, &end, others);
            match &end[..] {
                b"\n" | b"\r\n" => reads(file, VERTICES, &CORNERS),
                [b'\n', ..] | [b'\r', b'\n', ..] => fails(file, line as u64 + 1),
                _ => fails(file, line as u64),
            }
        }
        // the same where the first line is the only one
        let file = [b"4d00000000", &end[..]].concat();
        match &end[..] {
            b"\n" | b"\r\n" => reads(file, 0, &[]),
            [b'\n', ..] | [b'\r', b'\n', ..] => fails(file, 1),
            _ => fails(file, 0),
        }
    }
    assert_eq!(count, 1 + 4 + 16 + 64 + 256 + 1_024);
}

/// What others take for a line end or a blank is none: tabs, form feeds, zeros, the ends of Latin-1 and Unicode, an end of file.
#[test]
fn other_ends() {
    for other in ["\t", "\x0b", "\x0c", "\0", "\x1a", "\x1c", "\u{85}", "\u{a0}", "\u{2028}", "\u{feff}", "\\n", "\\r\\n", ";", ","]
    {
        for (line, others) in (0..4).flat_map(|line| ENDS.map(|others| (line, others))) {
            for wrong in [other.to_string(), format!("{other}\n"), format!("{other}\r\n"), format!("\r{other}\n")] {
                fails(with_end(line, wrong, others), line as u64);
            }
            for right in ENDS {
                fails(with_end(line, format!("{right}{other}"), others), line as u64 + 1);
            }
        }
        fails([other.as_bytes(), &with_end(0, "\n", "\n")].concat(), 0);
    }
}

/// A CR at every place within a line, between two bytes and in place of one, with LF after it or not.
#[test]
fn returns_within_lines() {
    for (line, others) in (0..4).flat_map(|line| ENDS.map(|others| (line, others))) {
        for (at, put) in (0..LINES[line].len()).flat_map(|at| ["\r", "\r\n", "\n", "\n\r"].map(|put| (at, put))) {
            for over in [0, 1] {
                let mut lines = LINES.map(String::from);
                lines[line].replace_range(at..at + over, put);
                fails(file(&lines, &[others; 4]), line as u64);
            }
        }
    }
}

/// A line that is too short or too long by up to five digits, with either end, and a file that is cut off at every byte.
#[test]
fn lengths() {
    for (line, others) in (0..4).flat_map(|line| ENDS.map(|others| (line, others))) {
        for by in 1..=5 {
            let mut lines = LINES.map(String::from);
            lines[line].truncate(LINES[line].len() - by);
            fails(file(&lines, &[others; 4]), line as u64);
            lines[line] = LINES[line].to_string() + &"0".repeat(by);
            fails(file(&lines, &[others; 4]), line as u64);
        }
        // lines run out: "the place is the first missing one", also if it is there but for its end
        let whole = file(&LINES, &[others; 4]);
        let begin = if line == 0 { 0 } else { 10 + 14 * (line - 1) + line * others.len() };
        let end = 10 + 14 * line + (line + 1) * others.len();
        for cut in begin..end {
            fails(&whole[..cut], line as u64);
        }
    }
}

/// "Reading gives 12 for the first line, then 4, 5, then 12 for later lines."
#[test]
fn order() {
    let read = |file: &str, room| read_frames(file.as_bytes(), room);
    for too_large in ["4d80000000", "4D00004001", "4dffffFFFF", "4DfFfF0001"] {
        assert_eq!(read(&format!("{too_large}\r"), 0), refused(12, 0));
        assert_eq!(read(&format!("{too_large}\r\r\n"), 0), refused(12, 0));
        assert_eq!(read(&format!("{too_large}\r\n"), 0), refused(4, 0));
        assert_eq!(read(&format!("{too_large}\r\n\r"), 100), refused(4, 0));
    }
    for too_many in ["4d7fff0001", "4D00004000", "4d00003fFf", "4D0000000a"] {
        assert_eq!(read(&format!("{too_many}\r"), 0), refused(12, 0));
        assert_eq!(read(&format!("{too_many}\r\n"), 0), refused(5, 0));
        assert_eq!(read(&format!("{too_many}\r\n\r"), 2), refused(5, 0));
    }
    // room is counted in entries, whatever the bytes: 3 for a triangle
    let one = "4d00030001\r\n46000000010002";
    for room in 0..6 {
        let [right, lone, twice] = ["\r\n", "\r", "\r\r\n"].map(|end| read(&format!("{one}{end}"), room));
        assert_eq!(right, if room < 3 { refused(5, 0) } else { accepted(3, &[0, 1, 2]) });
        assert_eq!(lone, if room < 3 { refused(5, 0) } else { refused(12, 1) });
        assert_eq!(twice, lone);
    }
}

/// A V, and a list of triangles with any corners.
fn mesh(r: &mut Random) -> (u64, Vec<u16>) {
    let corners = 3 * r.below(12);
    (r.below(32_768) as u64, (0..corners).map(|_| r.next() as u16).collect())
}

/// The frames of a mesh, where each letter is raised or lowered and each line ended as it comes: of 8, so many letters are lowered, and so
/// many lines end in CR LF.
fn spelling(r: &mut Random, vertices: u64, list: &[u16], of_8: usize) -> Vec<u8> {
    let mut plain = vec![format!("4D{vertices:04X}{:04X}", list.len() / 3)];
    plain.extend(list.chunks(3).map(|t| format!("46{:04X}{:04X}{:04X}", t[0], t[1], t[2])));
    let mut bytes = Vec::new();
    for line in plain {
        bytes.extend(line.bytes().map(|b| if r.below(8) < of_8 { b.to_ascii_lowercase() } else { b }));
        bytes.extend(if r.below(8) < of_8 { b"\r\n".as_slice() } else { b"\n" });
    }
    bytes
}

/// a to f are raised, and each CR right before LF is dropped: of a file that is read, this is the normal spelling.
fn raised(bytes: &[u8]) -> Vec<u8> {
    let dropped = |i: usize| bytes[i] == b'\r' && bytes.get(i + 1) == Some(&b'\n');
    let raise = |b: u8| if (b'a'..=b'f').contains(&b) { b - 32 } else { b };
    (0..bytes.len()).filter(|&i| !dropped(i)).map(|i| raise(bytes[i])).collect()
}

/// The frames of what was read.
fn normal(bytes: &[u8]) -> Vec<u8> {
    let (read, list) = read_frames(bytes, ROOM);
    assert_eq!(read.refusal, 0);
    let (written, normal) = write_frames(read.vertices, &list, 11 + 15 * (list.len() / 3));
    assert_eq!(written, read);
    normal
}

/// "Reading a written file still gives the mesh; writing a read file now gives its one normal spelling, and doing so twice changes
/// nothing." A file that is read is its own normal spelling exactly if it has no a to f and no CR.
#[test]
fn normal_spelling() {
    let mut r = Random(105);
    let mut own = 0;
    for of_8 in [0, 0, 1, 4, 7, 8].into_iter().cycle().take(6_000) {
        let (vertices, list) = mesh(&mut r);
        let file = spelling(&mut r, vertices, &list, of_8);
        reads(&file, vertices, &list);
        let written = write_frames(vertices, &list, 10_000).1;
        reads(&written, vertices, &list);
        assert_eq!(normal(&file), written);
        assert_eq!(written, raised(&file));
        assert_eq!(normal(&written), written);
        let is_plain = !file.iter().any(|b| matches!(b, b'a'..=b'f' | b'\r'));
        assert_eq!(written == file, is_plain);
        own += usize::from(is_plain);
    }
    assert!((2_000..3_000).contains(&own), "{own} files are their own normal spelling");
}

/// Files with up to three bytes put in, changed or taken out. Whatever the answer, it is that of the file with a to f raised and each CR
/// right before LF dropped, which is then the normal spelling if the file is accepted. Not so with CR CR LF, of which CR LF would be left:
/// such a file is refused.
#[test]
fn files_with_faults() {
    let mut r = Random(106);
    let bytes = b"\r\r\r\n\n\n0aAfFgG dD46/:@`[{\x10\x00\xe1";
    let mut answers = [0; 3];
    for _ in 0..200_000 {
        let (vertices, mut list) = mesh(&mut r);
        list.truncate(9);
        let mut file = spelling(&mut r, vertices, &list, 4);
        for _ in 0..r.below(4) {
            let (at, byte) = (r.below(file.len()), bytes[r.below(bytes.len())]);
            match r.below(3) {
                0 => file.insert(at, byte),
                1 => file[at] = byte,
                _ => drop(file.remove(at)),
            }
        }
        let (answer, list) = read_frames(&file, 9);
        if file.windows(3).any(|three| three == b"\r\r\n") {
            assert_ne!(answer.refusal, 0, "\"{}\"", file.escape_ascii());
            answers[2] += 1;
            continue;
        }
        assert_eq!(read_frames(&raised(&file), 9), (answer, list), "\"{}\"", file.escape_ascii());
        if answer.refusal == 0 {
            assert_eq!(normal(&file), raised(&file));
        }
        answers[usize::from(answer.refusal != 0)] += 1;
    }
    let [accepted, refused, twice] = answers;
    assert!(accepted > 50_000 && refused > 100_000 && twice > 500, "accepted, refused, and refused with CR CR LF: {answers:?}");
}

/// Document 01's example, as the partner apps would write it: the program's answer is of upper case and LF.
#[test]
fn the_program() {
    let input = "4D00060004\n46000500000003\n46000400010000\n46000300000001\n46000200030001\n";
    let output = program(input.as_bytes());
    assert!(output.starts_with(b"4100010000\n4D00030001\n"));
    for file in [input.to_lowercase(), input.replace('\n', "\r\n"), input.to_lowercase().replace('\n', "\r\n")] {
        assert_eq!(program(file.as_bytes()), output);
    }
    assert_eq!(program(b"4d00000000\r\n"), b"4103000000\n");
    assert_eq!(program(b"4D00000000\r"), b"410C000000\n");
    assert_eq!(program(b"4D00000000\n\r"), b"410C000001\n");
    assert_eq!(program(b"4d00030001\r\n46000000010002\r\n"), b"410B000000\n");
    assert_eq!(program(b"4d00030001\r\n46000000010002\r\n\r\n"), b"410C000002\n");
    assert_eq!(program(b"4d00030401\r\n"), b"4105000000\n");
    assert_eq!(program(b"4dfffF0000\r\n"), b"4104000000\n");
    // ten times the triangle (10, 11, 12): 6 with 12 vertices, and 8 at the second with 13
    let ten = "46000a000b000c\r\n".repeat(10);
    assert_eq!(program(format!("4d000c000a\r\n{ten}").as_bytes()), b"4106000000\n");
    assert_eq!(program(format!("4d000d000a\r\n{ten}").as_bytes()), b"4108000001\n");
}

/// A triangle split five times has 1,024 triangles and 561 vertices. With CR LF its file is as long as one may be, and its answer is that
/// of the file with LF: 153 vertices and 256 triangles, in role 0.
#[test]
fn a_full_file() {
    let mut mesh = (3, vec![[0, 1, 2]]);
    for _ in 0..5 {
        mesh = split_of(&mesh);
    }
    assert_eq!((mesh.0, mesh.1.len()), (561, 1_024));
    let with_lf = write_frames(561, &list(&mesh), 15_371).1;
    let text = String::from_utf8(with_lf.clone()).unwrap();
    let with_cr_lf = text.replace('\n', "\r\n");
    assert_eq!((with_lf.len(), with_cr_lf.len()), (11 + 15 * 1_024, 16_396));
    let output = program(&with_lf);
    assert!(output.starts_with(b"4100000000\n4D00990100\n"));
    assert_eq!(output.len(), 11 + 11 + 15 * 256 + 7 * (561 + 1_024));
    assert_eq!(program(with_cr_lf.as_bytes()), output);
    assert_eq!(program(with_cr_lf.to_lowercase().as_bytes()), output);
    // all of its 16,396 bytes are read: the last line is number 1,024, and 1,025 is after it
    let with_lf_for_crs = with_cr_lf.replace("\r\n", "\n\n");
    let [one_less, other_end] = ["", "\r"].map(|end| with_cr_lf.strip_suffix('\n').unwrap().to_string() + end);
    let [one_more, far_more] = [1, 50_000].map(|more| with_cr_lf.clone() + &"\n".repeat(more));
    assert_eq!(program(one_less.as_bytes()), b"410C000400\n");
    assert_eq!(program(other_end.as_bytes()), b"410C000400\n");
    assert_eq!(program(with_lf_for_crs.as_bytes()), b"410C000001\n");
    assert_eq!(program((text.clone() + &"\r".repeat(16_396 - text.len())).as_bytes()), b"410C000401\n");
    assert_eq!(program((text.clone() + &"\r".repeat(16_397 - text.len())).as_bytes()), b"410D000000\n");
    assert_eq!(program(one_more.as_bytes()), b"410D000000\n");
    assert_eq!(program(far_more.as_bytes()), b"410D000000\n");
    // one triangle more: with LF there is no room for it, with CR LF the file is too long
    let more = text.replacen("4D02310400", "4D02310401", 1) + "46000000010002\n";
    assert_eq!(program(more.as_bytes()), b"4105000000\n");
    assert_eq!(program(more.replace('\n', "\r\n").as_bytes()), b"410D000000\n");
}

/// "13 is given above 16,396 bytes", whatever they are; the others are judged by reading.
#[test]
fn bytes_of_the_program() {
    for byte in [b'0', b'4', b'\n', b'\r', 0, 255] {
        for length in [0, 1, 16_384, 16_385, 16_395, 16_396, 16_397, 16_398, 65_536, 81_932] {
            let answer = if length <= 16_396 { b"410C000000\n" } else { b"410D000000\n" };
            assert_eq!(program(&vec![byte; length]), answer, "{length} times {byte}");
        }
    }
    // a right first line without triangles, and zeros after it
    for first in ["4D00000000\n", "4d00000000\r\n"] {
        let with = |length| program(format!("{first:0<length$}").as_bytes());
        assert_eq!(with(16_396), b"410C000001\n");
        assert_eq!(with(16_397), b"410D000000\n");
    }
}
