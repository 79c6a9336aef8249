// Read index and write index. As in the library every run is judged before the first entry is written, and every byte counted
// before the first one is.
use crate::library::{FramesAnswer, TextAnswer};
use crate::refusals::{frames_answer, judge_read, judge_room, judge_write, text_answer, Counts, Refusal};

// What closes a face, in reading and in writing.
const CLOSE: &[u8] = b"-1";

// Never inlined, since the library's call is not either.
#[inline(never)]
pub fn read_index(vertices: u64, text: &[u8], out: &mut [u16]) -> FramesAnswer {
    frames_answer(read(vertices, text, out))
}

fn read(vertices: u64, text: &[u8], out: &mut [u16]) -> Result<Counts, Refusal> {
    let triangles = faces(text).try_fold(0, |count, face| face.map(|_| count + 1)).map_err(|place| Refusal(14, place))?;
    judge_read(vertices, triangles, out.len())?;
    for (corners, face) in out.chunks_exact_mut(3).zip(faces(text)) {
        corners.copy_from_slice(&face.expect("the face was judged"));
    }
    Ok((vertices as usize, triangles))
}

// The faces of a text in order, each three corners, or the place of the fault that it has instead, after which no more are asked.
fn faces(text: &[u8]) -> Faces<'_> {
    Faces { length: text.len(), left: skip(text) }
}

// What is left of a text of such a length: nothing, or what starts with a run.
struct Faces<'a> {
    length: usize,
    left: &'a [u8],
}

impl Iterator for Faces<'_> {
    type Item = Result<[u16; 3], usize>;

    fn next(&mut self) -> Option<Self::Item> {
        (!self.left.is_empty()).then(|| self.face().ok_or(self.length - self.left.len()))
    }
}

impl<'a> Faces<'a> {
    fn face(&mut self) -> Option<[u16; 3]> {
        let corners = [self.take(number)?, self.take(number)?, self.take(number)?];
        // The last face need not be closed.
        if !self.left.is_empty() {
            self.take(close)?;
        }
        Some(corners)
    }

    // Goes on to the next run if this one says what it should. Otherwise it stays, since here is the fault.
    fn take<T>(&mut self, run: fn(&'a [u8]) -> Found<'a, T>) -> Option<T> {
        let (said, after) = run(self.left)?;
        self.left = ends_run(after).then(|| skip(after))?;
        Some(said)
    }
}

// What a text starts with, if it does, and what comes after that.
type Found<'a, T> = Option<(T, &'a [u8])>;

fn number(text: &[u8]) -> Found<'_, u16> {
    let mut value = 0;
    let mut left = text;
    while let [digit @ b'0'..=b'9', after @ ..] = left {
        value = 10 * value + u32::from(digit - b'0');
        if value > u32::from(u16::MAX) {
            return None;
        }
        left = after;
    }
    (left.len() < text.len()).then_some((value as u16, left))
}

fn close(text: &[u8]) -> Found<'_, ()> {
    Some(((), text.strip_prefix(CLOSE)?))
}

fn ends_run(after: &[u8]) -> bool {
    matches!(after, [] | [b' ' | b'\t' | b'\r' | b'\n' | b',' | b'#', ..])
}

// The text from its next run on.
fn skip(mut text: &[u8]) -> &[u8] {
    loop {
        text = match text {
            [b' ' | b'\t' | b'\r' | b'\n' | b',', after @ ..] => after,
            [b'#', comment @ ..] => {
                let end = comment.iter().position(|byte| matches!(byte, b'\r' | b'\n'));
                &comment[end.unwrap_or(comment.len())..]
            }
            _ => return text,
        }
    }
}

// Never inlined, since the library's call is not either.
#[inline(never)]
pub fn write_index(vertices: u64, list: &[u16], out: &mut [u8]) -> TextAnswer {
    text_answer(write(vertices, list, out))
}

fn write(vertices: u64, list: &[u16], out: &mut [u8]) -> Result<(usize, Counts), Refusal> {
    judge_write(vertices, list.len())?;
    let bytes = text_length(list);
    judge_room(bytes, out.len())?;
    let mut left = out;
    for (k, corners) in list.chunks_exact(3).enumerate() {
        if k > 0 {
            left = put(left, b" ");
        }
        for &corner in corners {
            left = put(put_number(left, corner), b" ");
        }
        left = put(left, CLOSE);
    }
    Ok((bytes, (vertices as usize, list.len() / 3)))
}

// Beside its digits a face has six bytes: a blank after each corner, -1, and a blank before it, which the first has not.
fn text_length(list: &[u16]) -> usize {
    let digits: usize = list.iter().map(|&corner| digits_needed(corner)).sum();
    (list.len() / 3 * 6).saturating_sub(1) + digits
}

fn digits_needed(number: u16) -> usize {
    1 + number.checked_ilog10().unwrap_or(0) as usize
}

// Puts a text at the start of a buffer, and answers what is left of it.
fn put<'a>(out: &'a mut [u8], text: &[u8]) -> &'a mut [u8] {
    let (start, left) = out.split_at_mut(text.len());
    start.copy_from_slice(text);
    left
}

fn put_number(out: &mut [u8], number: u16) -> &mut [u8] {
    let (digits, left) = out.split_at_mut(digits_needed(number));
    let mut value = number;
    for digit in digits.iter_mut().rev() {
        *digit = b'0' + (value % 10) as u8;
        value /= 10;
    }
    left
}
