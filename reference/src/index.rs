//! Document 02, request 101: the coordIndex text of a VRML97 IndexedFaceSet, reading and writing.
//!
//! A text is taken apart in steps, each for the whole of it: comments become blanks, what stands between separators is a run, each run
//! is a word by itself, and the words up to each -1 are a face. No byte moves on the way, so that a run's offset is its place.

use crate::calls::{answer_by_size, answer_to_write, FramesAnswer};

/// "a corner above 65,535" is at fault.
const GREATEST_CORNER: &str = "65535";

/// "-1 closing a face".
const CLOSE: &str = "-1";

/// What a run says that is not at fault by itself.
#[derive(Clone, Copy, PartialEq, Eq)]
enum Word {
    Corner(u16),
    Close,
}

/// A word and where its run begins.
type Placed = (usize, Word);

/// "# starting a comment that runs to the line end": each becomes blanks up to the next CR or LF, or the end of the text.
fn without_comments(text: &[u8]) -> Vec<u8> {
    let mut plain = text.to_vec();
    for line in plain.split_mut(|b| matches!(b, b'\r' | b'\n')) {
        let comment = line.iter().position(|&b| b == b'#').unwrap_or(line.len());
        line[comment..].fill(b' ');
    }
    plain
}

/// "separated by spaces, tabs, CR, LF or commas": the longest stretches of other bytes, each with its offset.
fn runs(plain: &[u8]) -> Vec<(usize, &[u8])> {
    let mut offset = 0;
    let mut runs = Vec::new();
    for stretch in plain.split(|b| matches!(b, b' ' | b'\t' | b'\r' | b'\n' | b',')) {
        if !stretch.is_empty() {
            runs.push((offset, stretch));
        }
        offset += stretch.len() + 1;
    }
    runs
}

/// "unsigned decimal integers", "-1 closing a face"; None for "a corner above 65,535" and all other runs.
///
/// Numbers are compared as they are spelt: without leading zeros the one with more digits is greater, and of two with equally many
/// the one that is later in the alphabet.
fn word(run: &[u8]) -> Option<Word> {
    let run = std::str::from_utf8(run).ok()?;
    if run == CLOSE {
        return Some(Word::Close);
    }
    if !run.bytes().all(|b| b.is_ascii_digit()) {
        return None;
    }
    let five_digits = format!("{:0>5}", run.trim_start_matches('0'));
    if five_digits.len() > GREATEST_CORNER.len() || five_digits.as_str() > GREATEST_CORNER {
        return None;
    }
    five_digits.parse().ok().map(Word::Corner)
}

/// Where a face is at fault, of which the words up to and with its -1, or up to the last of all, are given: at "a fourth corner", or at
/// "an early -1".
fn fault_of_face(face: &[Placed]) -> Option<usize> {
    match face {
        [_, _, _, fourth, ..] => (fourth.1 != Word::Close).then_some(fourth.0),
        _ => face.iter().find(|(_, word)| *word == Word::Close).map(|early| early.0),
    }
}

/// The corners of a text, three for each face, or else the place: "the first byte of the first run at fault (a fourth corner, an early
/// -1; a run ends at a separator, # or the end), or the text's length if corners are missing".
fn corners(text: &[u8]) -> Result<Vec<u16>, u64> {
    let plain = without_comments(text);
    let runs = runs(&plain);
    // after the first run that is no word, none can be the first at fault
    let words: Vec<Placed> = runs.iter().map_while(|&(offset, run)| Some((offset, word(run)?))).collect();
    let faces: Vec<&[Placed]> = words.split_inclusive(|(_, word)| *word == Word::Close).collect();
    let no_word = runs.get(words.len()).map(|&(offset, _)| offset);
    // "the last -1 optional"
    let missing = faces.last().is_some_and(|face| face.len() < 3).then_some(text.len());
    match faces.iter().find_map(|face| fault_of_face(face)).or(no_word).or(missing) {
        Some(place) => Err(place as u64),
        None => Ok(faces.iter().flat_map(|face| corners_of(face)).collect()),
    }
}

/// The corners among a face's words.
fn corners_of(face: &[Placed]) -> impl Iterator<Item = u16> + '_ {
    face.iter().filter_map(|(_, word)| match word {
        Word::Corner(corner) => Some(*corner),
        Word::Close => None,
    })
}

/// "The vertex count comes from the caller. The reader gives 4 and 5"; "14, text not of this form, a corner above 65,535 or a face not of
/// three corners, ... before 4." Room: "reading 3F". Corners are not judged against V, as in frames.
pub fn read_index(vertices: u64, text: &[u8], out: usize) -> (FramesAnswer, Vec<u16>) {
    match corners(text) {
        Err(place) => (FramesAnswer::refused(14, place), Vec::new()),
        Ok(list) => {
            let answer = answer_by_size(vertices, list.len() / 3, list.len(), out);
            (answer, if answer.refusal == 0 { list } else { Vec::new() })
        }
    }
}

/// "The writer uses one blank between numbers and closes each face".
fn index_text(list: &[u16]) -> String {
    let faces = list.chunks_exact(3).map(|t| format!("{} {} {} {CLOSE}", t[0], t[1], t[2]));
    faces.collect::<Vec<String>>().join(" ")
}

/// "The reader gives 4 and 5, the writer 2, 4, and 5 for the bytes it writes." The fifth number of its answer is how many bytes are
/// returned.
pub fn write_index(vertices: u64, list: &[u16], out: usize) -> (FramesAnswer, Vec<u8>) {
    let text = index_text(list);
    let answer = answer_to_write(vertices, list, text.len(), out);
    (answer, if answer.refusal == 0 { text.into_bytes() } else { Vec::new() })
}
