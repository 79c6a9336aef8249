// Read frames and write frames. As in the library every line is judged before the first entry is written.
use crate::library::FramesAnswer;
use crate::refusals::{frames_answer, judge_read, judge_write_frames, Counts, Refusal};

// How the first line begins, and each of the others.
const MESH: &[u8; 2] = b"4D";
const TRIANGLE: &[u8; 2] = b"46";

// The bytes of these lines as they are written.
const MESH_LINE: usize = 11;
const TRIANGLE_LINE: usize = 15;

// Never inlined, since the library's call is not either.
#[inline(never)]
pub fn read_frames(bytes: &[u8], out: &mut [u16]) -> FramesAnswer {
    frames_answer(read(bytes, out))
}

// The second loop does not judge again: both would take half as long again.
fn read(bytes: &[u8], out: &mut [u16]) -> Result<Counts, Refusal> {
    let (digits, lines) = judge_line::<8>(bytes, MESH).ok_or(Refusal(12, 0))?;
    let mut counts = [0; 2];
    put_numbers(digits, &mut counts);
    let [vertices, triangles] = counts.map(usize::from);
    judge_read(vertices as u64, triangles, out.len())?;

    let mut left = lines;
    for k in 1..=triangles {
        (_, left) = judge_line::<12>(left, TRIANGLE).ok_or(Refusal(12, k))?;
    }
    if !left.is_empty() {
        return Err(Refusal(12, triangles + 1));
    }

    left = lines;
    for corners in out.chunks_exact_mut(3).take(triangles) {
        let (_, digits, after) = cut_line::<12>(left).expect("the line was judged");
        put_numbers(digits, corners);
        left = after;
    }
    Ok((vertices, triangles))
}

// The digits of a line's numbers, if it is as required, and the bytes after it. The digits are judged by `&`, all of them: with a
// branch for each, as `all` has, a processor would have to foresee which are letters, and a shuffled mesh would take three times
// as long. A table of 256 entries is no faster.
fn judge_line<'a, const DIGITS: usize>(bytes: &'a [u8], kind: &[u8; 2]) -> Option<(&'a [u8; DIGITS], &'a [u8])> {
    let (start, digits, after) = cut_line(bytes)?;
    let are_digits = digits.iter().fold(true, |are_digits, byte| are_digits & byte.is_ascii_hexdigit());
    (start.eq_ignore_ascii_case(kind) && are_digits).then_some((digits, after))
}

// What stands where a line has its kind and where it has the digits of its numbers, and the bytes after its end.
fn cut_line<const DIGITS: usize>(bytes: &[u8]) -> Option<(&[u8; 2], &[u8; DIGITS], &[u8])> {
    let (kind, left) = bytes.split_first_chunk()?;
    let (digits, left) = left.split_first_chunk()?;
    match left {
        [b'\n', after @ ..] | [b'\r', b'\n', after @ ..] => Some((kind, digits, after)),
        _ => None,
    }
}

// The numbers of four digits each.
fn put_numbers(digits: &[u8], numbers: &mut [u16]) {
    for (number, digits) in numbers.iter_mut().zip(digits.chunks_exact(4)) {
        *number = digits.iter().fold(0, |number, &digit| 16 * number + digit_value(digit));
    }
}

// Of a byte that is a digit: its last four bits, and 9 more if it is a letter of either case.
fn digit_value(digit: u8) -> u16 {
    u16::from(digit % 16 + 9 * (digit / 64))
}

// Never inlined, since the library's call is not either.
#[inline(never)]
pub fn write_frames(vertices: u64, list: &[u16], out: &mut [u8]) -> FramesAnswer {
    let triangles = list.len() / 3;
    frames_answer(judge_write_frames(vertices, list.len(), out.len()).map(|()| {
        let (mesh, lines) = out.split_at_mut(MESH_LINE);
        put_line(mesh, MESH, &[vertices as u16, triangles as u16]);
        for (line, corners) in lines.chunks_exact_mut(TRIANGLE_LINE).zip(list.chunks_exact(3)) {
            put_line(line, TRIANGLE, corners);
        }
        (vertices as usize, triangles)
    }))
}

fn put_line(line: &mut [u8], kind: &[u8; 2], numbers: &[u16]) {
    let (start, digits) = line.split_at_mut(2);
    start.copy_from_slice(kind);
    for (digits, &number) in digits.chunks_exact_mut(4).zip(numbers) {
        digits.copy_from_slice(&[number >> 12, number >> 8, number >> 4, number].map(digit));
    }
    line[line.len() - 1] = b'\n';
}

fn digit(value: u16) -> u8 {
    let value = (value % 16) as u8;
    if value < 10 {
        b'0' + value
    } else {
        b'A' + (value - 10)
    }
}
