// The checks of the calls that read a mesh from a text and write it as one: frames and index texts.
use crate::cases::{FRAME_READS, FRAME_WRITES, INDEX_READS, INDEX_WRITES, LENT, NAMES};
use crate::library::{FramesAnswer, TextAnswer};
use crate::meshes::{frame_texts, frames, index_text, index_texts, Mesh, MOST};

// No hash map of edges has a part in them.
const VERSIONS: std::ops::Range<usize> = 0..FRAME_READS.len();

// The entries that the cases of reading lend, one too few for three triangles.
const ROOM: usize = 8;

pub fn check_text_refusals() {
    check_read_frames_refusals();
    check_frame_spellings();
    check_read_index_refusals();
    check_index_spellings();
    check_write_refusals();
}

// A mesh is written as the standard library formats it, and read back.
pub fn check_texts(mesh: &Mesh) {
    for version in VERSIONS {
        check_frames(version, mesh);
        check_index(version, mesh);
    }
}

fn check_frames(version: usize, mesh: &Mesh) {
    let bytes = frames(mesh);
    let mut written = vec![0; bytes.len()];
    let answer = FRAME_WRITES[version](mesh.vertices as u64, &mesh.list, &mut written);
    assert_eq!(answer, accepted(mesh.vertices as u64, &mesh.list), "{}", NAMES[version]);
    assert!(written == bytes, "{} writes other frames", NAMES[version]);
    for (_, bytes) in frame_texts(mesh) {
        check_read_back(version, mesh, |out| FRAME_READS[version](&bytes, out));
    }
}

fn check_index(version: usize, mesh: &Mesh) {
    let text = index_text(mesh);
    // A byte more than the text takes.
    let mut written = vec![0; text.len() + 1];
    let answer = INDEX_WRITES[version](mesh.vertices as u64, &mesh.list, &mut written);
    assert_eq!(answer, text_accepted(mesh.vertices as u64, &mesh.list, text.len()), "{}", NAMES[version]);
    assert!(written.strip_suffix(&[0]) == Some(&text), "{} writes another index text", NAMES[version]);
    for (_, text) in index_texts(mesh) {
        check_read_back(version, mesh, |out| INDEX_READS[version](mesh.vertices as u64, &text, out));
    }
}

fn check_read_back(version: usize, mesh: &Mesh, read: impl FnOnce(&mut [u16]) -> FramesAnswer) {
    let mut out = vec![LENT; mesh.list.len()];
    assert_eq!(read(&mut out), accepted(mesh.vertices as u64, &mesh.list), "{}", NAMES[version]);
    assert!(out == mesh.list, "{} reads another mesh", NAMES[version]);
}

// What reading frames refuses, each with its place, and the frames that are just accepted. A wrong end is the fault of its own line,
// and what comes after LF that of the next.
fn check_read_frames_refusals() {
    const MESH: &str = "4D00030002";
    const LINE: &str = "46000000010002";
    const CR_LF: &str = "\r\n";
    let three = ["4D00030003\n", LINE, "\n", LINE, "\n", LINE, "\n"];
    let cases: [(&[&str], u64, u64); 39] = [
        (&[MESH, "\n", LINE, "\n", LINE, "\n"], 0, 0),
        (&[MESH, CR_LF, LINE, CR_LF, LINE, CR_LF], 0, 0),
        (&[MESH, CR_LF, LINE, "\n", LINE, "\n"], 0, 0),
        (&[MESH, "\n", LINE, "\n", LINE, CR_LF], 0, 0),
        (&["4D7FFF0000\n"], 0, 0),
        (&[], 12, 0),
        (&[MESH], 12, 0),
        (&[MESH, "\r"], 12, 0),
        (&[MESH, "\r\r\n", LINE, "\n", LINE, "\n"], 12, 0),
        (&[MESH, "\r", LINE, "\n", LINE, "\n"], 12, 0),
        (&[CR_LF, MESH, CR_LF, LINE, CR_LF, LINE, CR_LF], 12, 0),
        (&["4600030002\n"], 12, 0),
        (&["4G00030002\n"], 12, 0),
        (&["4D0003000G\n"], 12, 0),
        (&["4D0003000g\n"], 12, 0),
        (&["4D80000000\r\r\n"], 12, 0),
        (&["4D80000000\n"], 4, 0),
        (&["4d80000000\r\n"], 4, 0),
        (&["4D00034001\n"], 4, 0),
        (&three, 5, 0),
        (&["4D00030003\n\r"], 5, 0),
        (&["4D7FFF0000\n\r"], 12, 1),
        (&["4D7FFF0000\r\n\n"], 12, 1),
        (&[MESH, "\n", LINE, "\n"], 12, 2),
        (&[MESH, "\n", LINE, "\n", LINE], 12, 2),
        (&[MESH, "\n", LINE, "\n", LINE, "\r"], 12, 2),
        (&[MESH, "\n", LINE, "\r", LINE, "\n"], 12, 1),
        (&[MESH, "\n", LINE, "\r\r\n", LINE, "\n"], 12, 1),
        (&[MESH, "\n", LINE, "\n\r\n", LINE, "\n"], 12, 2),
        (&[MESH, "\n", "4600000001000G\n", LINE, "\n"], 12, 1),
        (&[MESH, "\n", "4600000001000g\n", LINE, "\n"], 12, 1),
        (&[MESH, "\n", "4600\r0000010002\n", LINE, "\n"], 12, 1),
        (&[MESH, "\n", "4600\r000010002\n", LINE, "\n"], 12, 1),
        (&[MESH, "\n", "4\r\n6000000010002\n", LINE, "\n"], 12, 1),
        (&[MESH, "\n", LINE, "\n", "47000000010002\n"], 12, 2),
        (&[MESH, "\n", LINE, "\n", LINE, "\n\n"], 12, 3),
        (&[MESH, "\n", LINE, "\n", LINE, "\n\r"], 12, 3),
        (&[MESH, CR_LF, LINE, CR_LF, LINE, CR_LF, CR_LF], 12, 3),
        (&[MESH, CR_LF, LINE, CR_LF, LINE, CR_LF, LINE, CR_LF], 12, 3),
    ];
    for version in VERSIONS {
        for (parts, refusal, place) in cases {
            let text = parts.concat();
            check_judged(version, &text, (refusal, place), |out| FRAME_READS[version](text.as_bytes(), out));
        }
    }
}

// Frames that have each digit in each case, and the corners that they have.
fn check_frame_spellings() {
    let cases: [(u64, &str, &[u16]); 4] = [
        (0x7fff, "4D7FFF0000\n", &[]),
        (0x7fff, "4d7fFf0000\r\n", &[]),
        (9, "4D00090002\r\n460123456789AB\n46CDEFabcdef00\r\n", &[0x0123, 0x4567, 0x89ab, 0xcdef, 0xabcd, 0xef00]),
        (9, "4d00090001\n46aBcDEf00Ffe1\r\n", &[0xabcd, 0xef00, 0xffe1]),
    ];
    for version in VERSIONS {
        for (vertices, text, corners) in cases {
            check_corners(version, text, (vertices, corners), |out| FRAME_READS[version](text.as_bytes(), out));
        }
    }
}

// What reading an index text refuses. A fault is found first, wherever it is.
fn check_read_index_refusals() {
    let large = "0 1 2 -1 ".repeat(MOST + 1);
    let long = large.clone() + "x";
    let cases: [(u64, &str, u64, usize); 29] = [
        (9, "0", 14, 1),
        (9, "0 1", 14, 3),
        (9, "0 1 ", 14, 4),
        (9, "0 1 #2\n", 14, 7),
        (9, "-1", 14, 0),
        (9, "0 1 -1", 14, 4),
        (9, "0 1 2 -1 -1", 14, 9),
        (9, "0 1 2 3", 14, 6),
        (9, "0 1 65536", 14, 4),
        (9, "0 1 4294967297", 14, 4),
        (9, "0 1 18446744073709551616", 14, 4),
        (9, "0 1 2#-1\r3 4 5", 14, 9),
        (9, "0 1 2 -", 14, 6),
        (9, "0 1 2 -1-1", 14, 6),
        (9, "0 1 2 -01", 14, 6),
        (9, "0 1 2 -2", 14, 6),
        (9, "0 +1 2", 14, 2),
        (9, "0 0x1F 2", 14, 2),
        (9, "0 1.0 2", 14, 2),
        (9, "0 1-1 2", 14, 2),
        (9, "[0 1 2]", 14, 0),
        (9, "0 1\u{b}2", 14, 2),
        (9, "\u{feff}0 1 2", 14, 0),
        (40_000, "x", 14, 0),
        (40_000, "", 4, 0),
        (32_768, "0 1 2", 4, 0),
        (9, &large, 4, 0),
        (9, &long, 14, large.len()),
        (9, "0 1 2 -1 3 4 5 -1 6 7 8", 5, 0),
    ];
    for version in VERSIONS {
        for (vertices, text, refusal, place) in cases {
            let read = |out: &mut [u16]| INDEX_READS[version](vertices, text.as_bytes(), out);
            check_judged(version, text, (refusal, place as u64), read);
        }
    }
}

// What reading answers, and that a refusal writes nothing.
fn check_judged(version: usize, text: &str, judged: (u64, u64), read: impl FnOnce(&mut [u16]) -> FramesAnswer) {
    let what = format!("{} reads {:?} of {} bytes", NAMES[version], text.get(..30).unwrap_or(text), text.len());
    let mut out = [LENT; ROOM];
    let answer = read(&mut out);
    assert_eq!((answer.refusal, answer.place), judged, "{what}");
    assert!(judged.0 == 0 || (answer.vertices, answer.triangles, out) == (0, 0, [LENT; ROOM]), "{what}: a refusal gives more");
}

// Index texts that no mesh of the benchmark has, and the corners that they have, which need not be less than the vertices.
fn check_index_spellings() {
    let cases: [(&str, &[u16]); 10] = [
        ("", &[]),
        (" \t\r\n,", &[]),
        ("#", &[]),
        ("#a\n# -1", &[]),
        ("0 1 2", &[0, 1, 2]),
        ("0 1 2 -1,3,4,5,-1", &[0, 1, 2, 3, 4, 5]),
        ("#a\r0 1 2", &[0, 1, 2]),
        ("0#a\n1#b\n2#c\n-1#d", &[0, 1, 2]),
        (",,0,\t1\r\n2,,-1 ,", &[0, 1, 2]),
        ("65535 00 0000000000000000000007", &[65_535, 0, 7]),
    ];
    for version in VERSIONS {
        for (text, corners) in cases {
            check_corners(version, text, (9, corners), |out| INDEX_READS[version](9, text.as_bytes(), out));
        }
    }
}

// That a mesh is read, and nothing written after its corners.
fn check_corners(version: usize, text: &str, mesh: (u64, &[u16]), read: impl FnOnce(&mut [u16]) -> FramesAnswer) {
    let (vertices, corners) = mesh;
    let mut out = [LENT; ROOM];
    assert_eq!(read(&mut out), accepted(vertices, corners), "{} reads {text:?}", NAMES[version]);
    let (written, rest) = out.split_at(corners.len());
    assert_eq!(written, corners, "{} reads {text:?}", NAMES[version]);
    assert!(rest.iter().all(|&entry| entry == LENT), "{} reads {text:?}: writes after the corners", NAMES[version]);
}

// What both ways of writing refuse, each mesh with the room for its frames and for its index text. Where it is accepted there is
// no byte too many.
fn check_write_refusals() {
    let large = vec![0; 3 * (MOST + 1)];
    let ample = 21 * large.len();
    let two = [0, 1, 2, 10, 65_535, 3];
    let cases: [(u64, &[u16], [usize; 2], u64); 7] = [
        (0, &[], [11, 0], 0),
        (9, &two, [41, 22], 0),
        (9, &two, [40, 21], 5),
        (3, &[0, 1, 2], [25, 7], 5),
        (3, &[0, 1], [ample, ample], 2),
        (32_768, &[0, 1, 2], [ample, ample], 4),
        (3, &large, [ample, ample], 4),
    ];
    for version in VERSIONS {
        for (vertices, list, [frames, bytes], refusal) in cases {
            let what = format!("{} writes {vertices} vertices, {} entries", NAMES[version], list.len());
            let (framed, text) = match refusal {
                0 => ((accepted(vertices, list), frames), (text_accepted(vertices, list, bytes), bytes)),
                _ => ((FramesAnswer { refusal, ..Default::default() }, 0), (TextAnswer { refusal, ..Default::default() }, 0)),
            };
            assert_eq!(write(frames, |out| FRAME_WRITES[version](vertices, list, out)), framed, "{what} as frames");
            assert_eq!(write(bytes, |out| INDEX_WRITES[version](vertices, list, out)), text, "{what} as an index text");
        }
        // An index text of no triangles fits anywhere.
        assert_eq!(FRAME_WRITES[version](0, &[], &mut [0; 10]).refusal, 5, "{} writes no triangles", NAMES[version]);
    }
}

// What writing into so many bytes answers, and how many it writes. No text has a byte 0.
fn write<A>(room: usize, write: impl FnOnce(&mut [u8]) -> A) -> (A, usize) {
    let mut out = vec![0; room];
    let answer = write(&mut out);
    (answer, out.iter().filter(|&&byte| byte != 0).count())
}

fn accepted(vertices: u64, list: &[u16]) -> FramesAnswer {
    FramesAnswer { refusal: 0, place: 0, vertices, triangles: list.len() as u64 / 3 }
}

fn text_accepted(vertices: u64, list: &[u16], bytes: usize) -> TextAnswer {
    TextAnswer { refusal: 0, place: 0, vertices, triangles: list.len() as u64 / 3, bytes: bytes as u64 }
}
