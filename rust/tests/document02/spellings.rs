//! #105: lower-case frames and CR LF.

use crate::shapes::refused_at;
use flatcarol::{read_frames, Limits, Mesh, Refusal};

// Two triangles of which each has letters among its digits.
const NORMAL: &[u8] = b"4D00EF0002\n46000A00BC00DE\n46000000BC00EE\n";

fn mesh() -> Mesh {
    Mesh::new(0xEF, [0x0A, 0xBC, 0xDE, 0, 0xBC, 0xEE])
}

fn with_cr(bytes: &[u8]) -> Vec<u8> {
    bytes.iter().flat_map(|&byte| if byte == b'\n' { vec![b'\r', b'\n'] } else { vec![byte] }).collect()
}

#[test]
fn every_spelling_is_read_and_written_in_the_normal_one() {
    let lower = NORMAL.to_ascii_lowercase();
    let mixed = b"4D00eF0002\r\n46000a00BC00dE\n46000000bC00Ee\r\n".to_vec();
    for spelling in [NORMAL.to_vec(), lower.clone(), with_cr(NORMAL), with_cr(&lower), mixed] {
        let read = Mesh::from_frames(&spelling).unwrap();
        assert_eq!(read, mesh());
        let written = read.to_frames().unwrap();
        assert_eq!(written, NORMAL);
        assert_eq!(Mesh::from_frames(&written).unwrap().to_frames().unwrap(), NORMAL);
    }
}

#[test]
fn the_examples() {
    assert_eq!(Mesh::from_frames(b"4d00000000\r\n"), Ok(Mesh::new(0, [])));
    assert_eq!(refused_at(b"4D00000000\r"), 0);
    assert_eq!(refused_at(b"4D00000000\n\r"), 1);
    assert_eq!(Mesh::from_frames(b"4D00030001\r\n46000000010002\n"), Ok(Mesh::new(3, [0, 1, 2])));
}

#[test]
fn a_wrong_end_is_told_at_its_line() {
    assert_eq!(refused_at(b"4D00000000\r\r\n"), 0);
    assert_eq!(refused_at(b"4D00030001\r46000000010002\n"), 0);
    assert_eq!(refused_at(b"4D00030001\n\r46000000010002\n"), 1);
    assert_eq!(refused_at(b"4D00030001\r\n46000000010002\r"), 1);
    assert_eq!(refused_at(b"4D00030001\r\n46000000010002\r\r\n"), 1);
    assert_eq!(refused_at(b"4D00030001\r\n46000000010002\r\n\r"), 2);
    assert_eq!(refused_at(b"4D00030001\r\n4600000001\r0002\n"), 1);
}

#[test]
fn no_other_byte_is_a_digit() {
    for byte in 0..=u8::MAX {
        // The last digit of the second corner.
        let mut frames = *b"4D00030001\n46000000010002\n";
        frames[20] = byte;
        let value = match byte {
            b'0'..=b'9' => Some(byte - b'0'),
            b'A'..=b'F' => Some(byte - b'A' + 10),
            b'a'..=b'f' => Some(byte - b'a' + 10),
            _ => None,
        };
        match value {
            Some(digit) => assert_eq!(Mesh::from_frames(&frames), Ok(Mesh::new(3, [0, digit.into(), 2]))),
            None => assert_eq!(refused_at(&frames), 1),
        }
    }
}

#[test]
fn a_refusal_at_the_last_line_writes_nothing() {
    let mut out = [7; 6];
    let frames = b"4d00030002\r\n46000000010002\r\n46000000020001\r";
    assert_eq!(read_frames(frames, &mut out), Err(Refusal::FrameNotAsRequired { line: 2 }));
    assert_eq!(out, [7; 6]);
}

// "A full file of 1,024 triangles now takes 16,396 bytes."
#[test]
fn a_full_file_is_as_long_as_the_program_reads() {
    let line = "46000000010002\r\n".repeat(1_024);
    let full = ["4D00030400\r\n", &line].concat();
    assert_eq!(full.len(), Limits::PROGRAM_BYTES);
    assert_eq!(Mesh::from_frames(full.as_bytes()), Ok(Mesh::new(3, [0, 1, 2].repeat(1_024))));
}
