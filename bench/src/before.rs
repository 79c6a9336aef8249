// The library beside an earlier archive of it, whose functions have other names here (see `build`): split, undo one, undo several, read
// frames and write frames on the same meshes and the same buffers. Both are called in the same way, by declarations of this module.
use std::hint::black_box;
use std::mem::MaybeUninit;

use crate::cases::{self, case, split_buffers, undo_one_buffers, undo_several_buffers, Case, LEAST, LENT, MOST_LEVELS};
use crate::cases::{READ_FRAMES, SPLIT, UNDO_ONE, UNDO_SEVERAL, WRITE_FRAMES};
use crate::library::{OneOutputs, OneWork, SeveralWork, SplitWork};
use crate::measure::{self, measure, median, Row, REPETITIONS};
use crate::meshes::{self, frames, Mesh, Several, SIZES};
use crate::tables::{labels, number, print_head, print_row, LABELS};

// What a call may cost after a change, as a multiple of what it cost before; and read frames, where the earlier archive reads one
// spelling alone.
const BOUND: f64 = 1.02;
const SPELLINGS_BOUND: f64 = 1.2;

// More than elsewhere, since a few hundredths are looked for.
const ROUNDS: usize = 4 * measure::ROUNDS;

// The versions by number.
const AFTER: usize = 0;
const BEFORE: usize = 1;
const BOTH: &[usize] = &[AFTER, BEFORE];

// What an answer of every archive begins with. What follows differs between archives: an answer of more than two numbers is written
// to memory of the caller's, so it is enough that there is room for more than any has.
#[repr(C)]
struct Begins {
    refusal: u64,
    place: u64,
    vertices: u64,
    triangles: u64,
    more: MaybeUninit<[u64; 16]>,
}

// Refusal, place, vertices and triangles.
type Numbers = [u64; 4];

// Makes the buffers that a list asks for, and calls an archive: it is given its number, the number of vertices, the input and them.
type Buffers<B> = fn(usize, &[u16]) -> B;
type Call<T, B> = fn(usize, u64, &[T], &mut B) -> Numbers;

impl Begins {
    fn numbers(self) -> Numbers {
        [self.refusal, self.place, self.vertices, self.triangles]
    }
}

// Declares the call of both archives. After the other arguments stand the buffers that it writes, by the type of their entries, each
// an address and a length.
macro_rules! declare {
    ($($after:ident, $before:ident($($argument:ident: $type:ty),*; $entry:ty: $($buffer:ident),*);)*) => {
        #[link(name = "flatcarol_before", kind = "static")]
        extern "C" {
            $(fn $after($($argument: $type,)* $($buffer: *mut $entry, _: usize),*) -> Begins;)*
            $(fn $before($($argument: $type,)* $($buffer: *mut $entry, _: usize),*) -> Begins;)*
        }
    };
}

// Makes the call of one of them, where each of the buffers is a slice.
macro_rules! lend {
    ($version:expr, $after:ident, $before:ident($($argument:expr),*; $($buffer:expr),*)) => {
        // SAFETY: each pointer and length are those of a slice or a vector, and those that are written are borrowed mutably. The
        // calls take every input.
        unsafe {
            match $version {
                AFTER => $after($($argument,)* $($buffer.as_mut_ptr(), $buffer.len()),*),
                _ => $before($($argument,)* $($buffer.as_mut_ptr(), $buffer.len()),*),
            }
        }
    };
}

declare! {
    flatcarol_split, before_flatcarol_split(vertices: u64, list: *const u16, list_len: usize;
        u16: out, work1, work2, work3, work4, work5);
    flatcarol_undo_one, before_flatcarol_undo_one(vertices: u64, list: *const u16, list_len: usize, asked: u64;
        u16: mesh, vertex_map, triangle_map, work1, work2, work3, work4, work5, work6, work7, work8, work9);
    flatcarol_undo_several, before_flatcarol_undo_several(vertices: u64, list: *const u16, list_len: usize, asked: u64;
        u16: out, work1, work2, work3, work4, work5, work6, work7, work8, work9, work10);
    flatcarol_read_frames, before_flatcarol_read_frames(bytes: *const u8, bytes_len: usize; u16: out);
    flatcarol_write_frames, before_flatcarol_write_frames(vertices: u64, list: *const u16, list_len: usize; u8: out);
}

fn split(version: usize, vertices: u64, list: &[u16], (out, work): &mut (Vec<u16>, SplitWork)) -> Numbers {
    let [w1, w2, w3, w4, w5] = work;
    lend!(version, flatcarol_split, before_flatcarol_split(vertices, list.as_ptr(), list.len(); out, w1, w2, w3, w4, w5)).numbers()
}

fn undo_one(version: usize, vertices: u64, list: &[u16], (out, work): &mut (OneOutputs, OneWork)) -> Numbers {
    let OneOutputs { mesh, vertex_map, triangle_map } = out;
    let [w1, w2, w3, w4, w5, w6, w7, w8, w9] = work;
    lend!(version, flatcarol_undo_one, before_flatcarol_undo_one(vertices, list.as_ptr(), list.len(), LEAST;
        mesh, vertex_map, triangle_map, w1, w2, w3, w4, w5, w6, w7, w8, w9))
    .numbers()
}

fn undo_several(version: usize, vertices: u64, list: &[u16], (out, work): &mut (Vec<u16>, SeveralWork)) -> Numbers {
    let [w1, w2, w3, w4, w5, w6, w7, w8, w9, w10] = work;
    lend!(version, flatcarol_undo_several, before_flatcarol_undo_several(vertices, list.as_ptr(), list.len(), MOST_LEVELS;
        out, w1, w2, w3, w4, w5, w6, w7, w8, w9, w10))
    .numbers()
}

// The number of vertices is in the frames.
fn read_frames(version: usize, _: u64, bytes: &[u8], out: &mut Vec<u16>) -> Numbers {
    lend!(version, flatcarol_read_frames, before_flatcarol_read_frames(bytes.as_ptr(), bytes.len(); out)).numbers()
}

fn write_frames(version: usize, vertices: u64, list: &[u16], out: &mut Vec<u8>) -> Numbers {
    lend!(version, flatcarol_write_frames, before_flatcarol_write_frames(vertices, list.as_ptr(), list.len(); out)).numbers()
}

// The buffers that these two ask for, whatever the number of vertices.
fn read_frames_buffer(_: usize, list: &[u16]) -> Vec<u16> {
    vec![LENT; list.len()]
}

fn write_frames_buffer(_: usize, list: &[u16]) -> Vec<u8> {
    vec![0; 11 + 15 * (list.len() / 3)]
}

// Whether the earlier archive refuses a mesh for its windings: a split triangle of which one is turned. One from before request 103 of
// document 02 reads such a mesh, and does other work.
fn knows_windings() -> bool {
    let list = [3, 4, 5, 0, 5, 3, 1, 4, 3, 2, 5, 4];
    undo_one(BEFORE, 6, &list, &mut undo_one_buffers(6, &list))[0] != 0
}

// Whether the earlier archive reads frames in lower case. One from before request 105 of document 02 reads the normal spelling alone,
// on which both are measured, and has less to judge.
fn knows_spellings() -> bool {
    read_frames(BEFORE, 0, b"4d00000000\n", &mut Vec::new())[0] == 0
}

// The meshes that both archives are to answer alike.
fn to_undo(size: usize) -> Vec<Mesh> {
    let all = knows_windings();
    meshes::to_undo(size).into_iter().filter(|mesh| all || !mesh.is_inside_out()).collect()
}

fn to_undo_several(size: usize) -> Vec<Several> {
    let all = knows_windings();
    meshes::to_undo_several(size).into_iter().filter(|several| all || !several.mesh.is_inside_out()).collect()
}

pub fn of_size(size: usize) -> Vec<Case> {
    let splits = meshes::to_split(size).into_iter().map(|mesh| {
        let buffers = split_buffers(mesh.vertices, &mesh.list);
        case(SPLIT, BOTH, &mesh, &mesh.list, buffers, |version, vertices, list, buffers| {
            black_box(split(version, vertices, list, buffers));
        })
    });
    let undo_ones = to_undo(size).into_iter().map(|mesh| {
        let buffers = undo_one_buffers(mesh.vertices, &mesh.list);
        case(UNDO_ONE, BOTH, &mesh, &mesh.list, buffers, |version, vertices, list, buffers| {
            black_box(undo_one(version, vertices, list, buffers));
        })
    });
    let undo_severals = to_undo_several(size).into_iter().map(|several| {
        let mesh = several.mesh;
        let buffers = undo_several_buffers(mesh.vertices, &mesh.list);
        case(UNDO_SEVERAL, BOTH, &mesh, &mesh.list, buffers, |version, vertices, list, buffers| {
            black_box(undo_several(version, vertices, list, buffers));
        })
    });
    let written = meshes::to_write(size);
    let read_frames = written.iter().map(|mesh| {
        let out = read_frames_buffer(mesh.vertices, &mesh.list);
        case(READ_FRAMES, BOTH, mesh, &frames(mesh), out, |version, vertices, bytes, out| {
            black_box(read_frames(version, vertices, bytes, out));
        })
    });
    let write_frames = written.iter().map(|mesh| {
        let out = write_frames_buffer(mesh.vertices, &mesh.list);
        case(WRITE_FRAMES, BOTH, mesh, &mesh.list, out, |version, vertices, list, out| {
            black_box(write_frames(version, vertices, list, out));
        })
    });
    splits.chain(undo_ones).chain(undo_severals).chain(read_frames).chain(write_frames).collect()
}

// Both archives give the same numbers and leave the same in every buffer, on every mesh that is measured: so both do the same work,
// but for what an answer has besides.
pub fn check_all() {
    for size in SIZES {
        meshes::to_split(size).iter().for_each(|mesh| check_list(mesh, split_buffers, split));
        to_undo(size).iter().for_each(|mesh| check_list(mesh, undo_one_buffers, undo_one));
        to_undo_several(size).iter().for_each(|several| check_list(&several.mesh, undo_several_buffers, undo_several));
        for mesh in &meshes::to_write(size) {
            check(mesh, &frames(mesh), read_frames_buffer, read_frames);
            check_list(mesh, write_frames_buffer, write_frames);
        }
    }
}

// Of a call that is given a mesh as a list.
fn check_list<B: PartialEq>(mesh: &Mesh, buffers: Buffers<B>, call: Call<u16, B>) {
    check(mesh, &mesh.list, buffers, call);
}

fn check<T, B: PartialEq>(mesh: &Mesh, input: &[T], buffers: Buffers<B>, call: Call<T, B>) {
    let [after, before] = [AFTER, BEFORE].map(|version| {
        let mut buffers = buffers(mesh.vertices, &mesh.list);
        (call(version, mesh.vertices as u64, input, &mut buffers), buffers)
    });
    assert_eq!(after.0, before.0, "{}, {}: another answer than before", mesh.name, mesh.order);
    assert!(after.1 == before.1, "{}, {}: other buffers than before", mesh.name, mesh.order);
}

pub fn print_all() {
    let repetitions = ROUNDS * REPETITIONS;
    println!("Medians of {repetitions} repetitions, in nanoseconds per triangle of the input, and of the quotients within each repetition.");
    let rows = measure(cases::all(of_size), ROUNDS);
    let calls: Vec<&[Row]> = rows.chunk_by(|one, other| one.call == other.call).collect();
    for call in &calls {
        print_head(call[0].call, [&LABELS[..], &["before", "after", "after / before"]].concat());
        call.iter().for_each(print_mesh);
    }
    let columns = ["call", "meshes", "least", "median", "greatest", "bound", "above it"];
    print_head("after / before, over the meshes of each call", columns);
    calls.iter().for_each(|call| print_summary(call));
}

fn print_mesh(row: &Row) {
    let times = [BEFORE, AFTER].map(|version| number(row.time(version)));
    print_row(labels(row).into_iter().chain(times).chain([quotient(row.ratio(AFTER, BEFORE))]));
}

// That of one mesh also has in it what chance makes, and where code and buffers lie in memory: so the median counts.
fn print_summary(call: &[Row]) {
    let mut quotients: Vec<f64> = call.iter().filter_map(|row| row.ratio(AFTER, BEFORE)).collect();
    quotients.sort_by(f64::total_cmp);
    let places = [quotients.first().copied(), median(quotients.clone()), quotients.last().copied()].map(quotient);
    let bound = bound(call[0].call);
    let above = quotients.iter().filter(|&&quotient| quotient > bound).count();
    let meshes = quotients.len().to_string();
    print_row([call[0].call.into(), meshes].into_iter().chain(places).chain([bound.to_string(), above.to_string()]));
}

fn bound(call: &str) -> f64 {
    if call == READ_FRAMES && !knows_spellings() {
        SPELLINGS_BOUND
    } else {
        BOUND
    }
}

fn quotient(value: Option<f64>) -> String {
    value.map(|value| format!("{value:.3}")).unwrap_or_default()
}
