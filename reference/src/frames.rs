//! Document 01, "Frames": reading and writing.
//!
//! Document 01: "Upper-case hexadecimal, no blanks, each line ended by one LF." Document 02, #105: "Digits may be of either case and each
//! line may end in LF or CR LF. We go on writing upper case and LF." So what is written is as document 01 says, and what is read may also
//! be spelt otherwise, each digit and each line end by itself.

use crate::calls::{answer_by_size, answer_to_write, FramesAnswer};

/// "Digits may be of either case": the value of at most four hexadecimal digits; None if a byte is no digit.
fn number(digits: &[u8]) -> Option<u16> {
    let mut value = 0;
    for &d in digits {
        let digit = match d {
            b'0'..=b'9' => d - b'0',
            b'A'..=b'F' => d - b'A' + 10,
            b'a'..=b'f' => d - b'a' + 10,
            _ => return None,
        };
        value = 16 * value + u16::from(digit);
    }
    Some(value)
}

/// "hexadecimal, no blanks"; "Digits may be of either case": a frame of a kind in two digits and N numbers in four digits each, without
/// its line end. A kind's digits are digits too: 4d is 4D.
fn frame<const N: usize>(line: &[u8], kind: u16) -> Option<[u16; N]> {
    if line.len() != 2 + 4 * N || number(&line[..2]) != Some(kind) {
        return None;
    }
    let mut numbers = [0; N];
    for (i, n) in numbers.iter_mut().enumerate() {
        *n = number(&line[2 + 4 * i..6 + 4 * i])?;
    }
    Some(numbers)
}

/// "each line ended by one LF"; now "each line may end in LF or CR LF": takes the bytes before the next LF, without the one CR that may
/// stand right before it, and leaves those after the LF. None, and nothing is taken, if there is no further LF.
///
/// Every other CR stays where it is, as a byte that is no digit: the first one of CR CR LF is in the line, and one after LF in the next.
fn next_line<'a>(rest: &mut &'a [u8]) -> Option<&'a [u8]> {
    let end = rest.iter().position(|&b| b == b'\n')?;
    let line = &rest[..end];
    *rest = &rest[end + 1..];
    Some(line.strip_suffix(b"\r").unwrap_or(line))
}

/// "First line: 4D, V in four digits, F in four digits. Then exactly F lines: 46 and three corners of four digits each. Corners are
/// not judged here. A frame is either read whole or refused with its line number. If lines run out, the place is the first missing
/// one; bytes after the last frame are refused at line F + 1."
///
/// "Reading gives 12 for the first line, then 4, 5, then 12 for later lines." Room: "reading 3F".
///
/// Document 02, #105: "Digits may be of either case and each line may end in LF or CR LF." The answer and the list do not tell which of
/// the spellings was read.
pub fn read_frames(bytes: &[u8], out: usize) -> (FramesAnswer, Vec<u16>) {
    let mut rest = bytes;
    let Some([v, f]) = next_line(&mut rest).and_then(|line| frame::<2>(line, 0x4D)) else {
        return (FramesAnswer::refused(12, 0), Vec::new());
    };
    let triangles = usize::from(f);
    let answer = answer_by_size(v.into(), triangles, 3 * triangles, out);
    if answer.refusal != 0 {
        return (answer, Vec::new());
    }
    let mut list = Vec::new();
    for k in 0..triangles {
        let Some(corners) = next_line(&mut rest).and_then(|line| frame::<3>(line, 0x46)) else {
            return (FramesAnswer::refused(12, k as u64 + 1), Vec::new());
        };
        list.extend(corners);
    }
    if !rest.is_empty() {
        return (FramesAnswer::refused(12, triangles as u64 + 1), Vec::new());
    }
    (answer, list)
}

/// The frames of a mesh. "First line: 4D, V in four digits, F in four digits. Then exactly F lines: 46 and three corners of four
/// digits each." "Upper-case hexadecimal, no blanks, each line ended by one LF": "We go on writing upper case and LF."
pub(crate) fn frames(vertices: u64, list: &[u16]) -> String {
    let mut text = format!("4D{:04X}{:04X}\n", vertices, list.len() / 3);
    for t in list.chunks_exact(3) {
        text += &format!("46{:04X}{:04X}{:04X}\n", t[0], t[1], t[2]);
    }
    text
}

/// "Writing frames gives 2, 4, 5 and allows F = 0." Room: "writing 11 + 15F bytes".
pub fn write_frames(vertices: u64, list: &[u16], out: usize) -> (FramesAnswer, Vec<u8>) {
    let answer = answer_to_write(vertices, list, 11 + 15 * (list.len() / 3), out);
    (answer, if answer.refusal == 0 { frames(vertices, list).into_bytes() } else { Vec::new() })
}
