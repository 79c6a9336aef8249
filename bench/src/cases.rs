// What is measured: each call on each of its meshes, by all versions on the same buffers, so that none gains by where these lie;
// undo several beside undo one; and meshes shuffled beside the same in order.
use std::hint::black_box;

use crate::hashed;
use crate::library::{self, Answer, FramesAnswer, OneAnswer, OneOutputs, SeveralAnswer, TextAnswer};
use crate::library::{OneWork, SeveralWork, SplitWork};
use crate::meshes::{self, frame_texts, frames, index_text, index_texts, Mesh, Several, Spelling, MADE_IN_ORDER, SIZES};
use crate::plain;

type Split = fn(u64, &[u16], &mut [u16], &mut SplitWork) -> Answer;
type UndoOne = fn(u64, &[u16], u64, &mut OneOutputs, &mut OneWork) -> OneAnswer;
type UndoSeveral = fn(u64, &[u16], u64, &mut [u16], &mut SeveralWork) -> SeveralAnswer;
type ReadFrames = fn(&[u8], &mut [u16]) -> FramesAnswer;
type WriteFrames = fn(u64, &[u16], &mut [u8]) -> FramesAnswer;
type ReadIndex = fn(u64, &[u8], &mut [u16]) -> FramesAnswer;
type WriteIndex = fn(u64, &[u16], &mut [u8]) -> TextAnswer;

// Runs a version: it is given the number of vertices, the input and the buffers.
pub type Run<T, B> = fn(usize, u64, &[T], &mut B);

// The versions by number. A copy of the input is measured as if it were another. Texts have no edges to find by a hash map.
pub const LIBRARY: usize = 0;
pub const PLAIN: usize = 1;
pub const HASHED: usize = 2;
pub const COPY: usize = 3;
pub const NAMES: [&str; 4] = ["library", "plain", "hashed", "copy"];
pub const SPLITS: [Split; 3] = [library::split, plain::split::split, hashed::split::split];
pub const UNDO_ONES: [UndoOne; 3] = [library::undo_one, plain::undo_one::undo_one, hashed::undo_one::undo_one];
pub const UNDO_SEVERALS: [UndoSeveral; 3] =
    [library::undo_several, plain::undo_several::undo_several, hashed::undo_several::undo_several];
pub const FRAME_READS: [ReadFrames; 2] = [library::read_frames, plain::frames::read_frames];
pub const FRAME_WRITES: [WriteFrames; 2] = [library::write_frames, plain::frames::write_frames];
pub const INDEX_READS: [ReadIndex; 2] = [library::read_index, plain::index::read_index];
pub const INDEX_WRITES: [WriteIndex; 2] = [library::write_index, plain::index::write_index];

const OF_MESHES: &[usize] = &[LIBRARY, PLAIN, HASHED, COPY];
const OF_TEXTS: &[usize] = &[LIBRARY, PLAIN, COPY];

// The number that undo one is asked: the least role that has a reading.
pub const LEAST: u64 = 4;

// The number that undo several is asked: as many levels as it undoes.
pub const MOST_LEVELS: u64 = 7;

pub const SPLIT: &str = "split";
pub const UNDO_ONE: &str = "undo one";
pub const UNDO_SEVERAL: &str = "undo several";
pub const READ_FRAMES: &str = "read frames";
pub const WRITE_FRAMES: &str = "write frames";
const READ_INDEX: &str = "read index";
const WRITE_INDEX: &str = "write index";
pub const CALLS: [&str; 7] = [SPLIT, UNDO_ONE, UNDO_SEVERAL, READ_FRAMES, WRITE_FRAMES, READ_INDEX, WRITE_INDEX];

pub struct Case {
    pub call: &'static str,
    pub mesh: &'static str,
    pub order: &'static str,
    // Of the input.
    pub triangles: usize,
    // Of the text that the call reads or writes, if it does.
    pub bytes: Option<usize>,
    // What is measured, by number, and what runs it once.
    pub versions: &'static [usize],
    pub run: Box<dyn FnMut(usize)>,
}

// All cases, those of a call together, and in these those of a kind of mesh in an order, by size.
pub fn all(of_size: fn(usize) -> Vec<Case>) -> Vec<Case> {
    let mut all: Vec<Case> = SIZES.into_iter().flat_map(of_size).collect();
    all.sort_by_key(|case| (CALLS.iter().position(|&call| call == case.call), case.mesh, case.order));
    all
}

pub fn of_size(size: usize) -> Vec<Case> {
    let splits = meshes::to_split(size).into_iter().map(split);
    let undo_ones = meshes::to_undo(size).into_iter().map(undo_one);
    let undo_severals = meshes::to_undo_several(size).into_iter().map(|several| undo_several(several.mesh));
    let meshes = splits.chain(undo_ones).chain(undo_severals);
    let written = meshes::to_write(size);
    let frames = written.iter().flat_map(read_frames).chain(written.iter().map(write_frames));
    let index = written.iter().flat_map(read_index).chain(written.iter().map(write_index));
    meshes.chain(frames).chain(index).collect()
}

// The library's undo several and its undo one of the same meshes, each with the number of levels.
pub fn several_and_one(size: usize) -> Vec<(usize, Case)> {
    let both = |Several { mesh, levels, .. }: Several| {
        let one = undo_one(mesh.clone());
        (levels, beside(undo_several(mesh), one))
    };
    meshes::to_undo_several(size).into_iter().map(both).collect()
}

// The library's calls on meshes that are made in an order, shuffled and as they are made.
pub fn shuffled_and_in_order(size: usize) -> Vec<Case> {
    let is_compared = |case: &Case| [SPLIT, UNDO_ONE, UNDO_SEVERAL].contains(&case.call) && MADE_IN_ORDER.contains(&case.mesh);
    // Each mesh in order, and after it shuffled.
    let mut cases = of_size(size).into_iter().filter(is_compared);
    let both = || {
        let in_order = cases.next()?;
        Some(beside(cases.next()?, in_order))
    };
    std::iter::from_fn(both).collect()
}

// What the library does in two cases, as if these were two versions. These are cases apart, since a version that is run beside
// another call of its own would find its code in the caches.
fn beside(one: Case, other: Case) -> Case {
    let mut runs = [one.run, other.run];
    let run = Box::new(move |which: usize| runs[which](LIBRARY));
    Case { versions: &[0, 1], run, ..one }
}

fn split(mesh: Mesh) -> Case {
    let buffers = split_buffers(mesh.vertices, &mesh.list);
    case(SPLIT, OF_MESHES, &mesh, &mesh.list, buffers, |version, vertices, list, (out, work)| {
        black_box(SPLITS[version](vertices, list, out, work));
    })
}

fn undo_one(mesh: Mesh) -> Case {
    let buffers = undo_one_buffers(mesh.vertices, &mesh.list);
    case(UNDO_ONE, OF_MESHES, &mesh, &mesh.list, buffers, |version, vertices, list, (out, work)| {
        black_box(UNDO_ONES[version](vertices, list, LEAST, out, work));
    })
}

fn undo_several(mesh: Mesh) -> Case {
    let buffers = undo_several_buffers(mesh.vertices, &mesh.list);
    case(UNDO_SEVERAL, OF_MESHES, &mesh, &mesh.list, buffers, |version, vertices, list, (out, work)| {
        black_box(UNDO_SEVERALS[version](vertices, list, MOST_LEVELS, out, work));
    })
}

fn read_frames(mesh: &Mesh) -> [Case; 3] {
    read(READ_FRAMES, mesh, frame_texts(mesh), |version, _, bytes, out| {
        black_box(FRAME_READS[version](bytes, out));
    })
}

fn write_frames(mesh: &Mesh) -> Case {
    write(WRITE_FRAMES, mesh, frames(mesh), |version, vertices, list, out| {
        black_box(FRAME_WRITES[version](vertices, list, out));
    })
}

fn read_index(mesh: &Mesh) -> [Case; 2] {
    read(READ_INDEX, mesh, index_texts(mesh), |version, vertices, text, out| {
        black_box(INDEX_READS[version](vertices, text, out));
    })
}

fn write_index(mesh: &Mesh) -> Case {
    write(WRITE_INDEX, mesh, index_text(mesh), |version, vertices, list, out| {
        black_box(INDEX_WRITES[version](vertices, list, out));
    })
}

// The cases of a call that reads a mesh from a text, one for each spelling.
fn read<const N: usize>(call: &'static str, mesh: &Mesh, texts: [Spelling; N], run: Run<u8, Vec<u16>>) -> [Case; N] {
    texts.map(|(name, text)| {
        let out = vec![LENT; mesh.list.len()];
        Case { mesh: name, bytes: Some(text.len()), ..case(call, OF_TEXTS, mesh, &text, out, run) }
    })
}

// A case of a call that writes a mesh as a text, over the same text.
fn write(call: &'static str, mesh: &Mesh, text: Vec<u8>, run: Run<u16, Vec<u8>>) -> Case {
    Case { bytes: Some(text.len()), ..case(call, OF_TEXTS, mesh, &mesh.list, text, run) }
}

// A case of a call, without a text.
pub fn case<T: Copy + 'static, B: 'static>(
    call: &'static str,
    versions: &'static [usize],
    mesh: &Mesh,
    input: &[T],
    mut buffers: B,
    run: Run<T, B>,
) -> Case {
    let vertices = mesh.vertices as u64;
    let input = input.to_vec();
    let mut copy = input.clone();
    let run = move |version: usize| {
        if version == COPY {
            copy.copy_from_slice(black_box(&input));
            black_box(&mut copy);
        } else {
            run(version, black_box(vertices), black_box(&input), &mut buffers);
            black_box(&mut buffers);
        }
    };
    Case { call, mesh: mesh.name, order: mesh.order, triangles: mesh.list.len() / 3, bytes: None, versions, run: Box::new(run) }
}

// An entry of a buffer as it is lent: not 0, so that a call that does not clear it is seen.
pub const LENT: u16 = 0xaaaa;

// The buffers that a list asks for.
pub fn split_buffers(vertices: usize, list: &[u16]) -> (Vec<u16>, SplitWork) {
    (vec![LENT; 4 * list.len()], work(vertices, list))
}

pub fn undo_one_buffers(vertices: usize, list: &[u16]) -> (OneOutputs, OneWork) {
    let triangles = list.len() / 3;
    let mesh = vec![LENT; 3 * (triangles / 4)];
    (OneOutputs { mesh, vertex_map: vec![LENT; vertices], triangle_map: vec![LENT; triangles] }, work(vertices, list))
}

pub fn undo_several_buffers(vertices: usize, list: &[u16]) -> (Vec<u16>, SeveralWork) {
    (vec![LENT; list.len()], work(vertices, list))
}

fn work<const N: usize>(vertices: usize, list: &[u16]) -> [Vec<u16>; N] {
    std::array::from_fn(|_| vec![LENT; vertices + list.len()])
}
