// Every refusal that is judged from numbers, at the boundaries of these: of V, F, the list's length, what is asked, and the length
// of each buffer.
use crate::checker::{Checked, Checker};
use crate::index;
use crate::meshes::{splitting, strip, Mesh};
use crate::room::Room;

const TRIANGLES: [usize; 11] = [0, 1, 2, 3, 4, 5, 8, 4_096, 4_097, 16_384, 16_385];

// Added to the mesh's own vertex count, these give counts that fewer bits would take for it.
const MORE: [u64; 5] = [1 << 8, 1 << 15, 1 << 16, 1 << 32, 1 << 63];

const VERTICES: usize = 8 + 2 * MORE.len();
fn vertex_counts(own: u64) -> Vec<u64> {
    let plain = [0, own.saturating_sub(1), own, own + 1, 32_767, 32_768, 65_535, u64::MAX];
    plain.into_iter().chain(MORE).chain(MORE.map(|more| own + more)).collect()
}

const ASKED: [u64; 16] = [0, 1, 2, 3, 4, 5, 6, 7, 8, 9, 255, 256, 260, 1 << 32, 1 << 63, u64::MAX];

// What is asked of a mesh whose buffers are large.
const ASKED_OF_LARGE: [u64; 5] = [4, 5, 7, 8, u64::MAX];

// How many entries beyond a multiple of 3 the list has.
const BEYOND: usize = 3;

pub const CASES: usize = TRIANGLES.len() * VERTICES * BEYOND;

pub fn check(checker: &mut Checker, number: usize) -> Checked {
    let triangles = TRIANGLES[number % TRIANGLES.len()];
    let own = if triangles.is_multiple_of(4) { splitting(&strip(triangles / 4)) } else { strip(triangles) };
    let vertices = vertex_counts(own.vertices)[number / TRIANGLES.len() % VERTICES];
    let beyond = number / TRIANGLES.len() / VERTICES;
    let mesh = Mesh { vertices, list: [&own.list[..], &vec![1; beyond]].concat() };
    let is_large = triangles > 8 || vertices > 1_000;

    for room in rooms(checker, Room::of_split(&mesh), is_large) {
        checker.split(&mesh, &room)?;
    }
    for &asked in if is_large { &ASKED_OF_LARGE[..] } else { &ASKED } {
        for room in rooms(checker, Room::of_undo_one(&mesh), is_large || asked != 4) {
            checker.undo_one(&mesh, asked, &room)?;
        }
        for room in rooms(checker, Room::of_undo_several(&mesh), is_large || asked != 7) {
            checker.undo_several(&mesh, asked, &room)?;
        }
    }
    let needed = 11 + 15 * triangles;
    for length in [needed, needed - 1, needed + 1, needed + 15, 11, 10, 0] {
        checker.write_frames(&mesh, length)?;
    }
    let text = index::text(&mesh);
    for length in [text.len(), text.len().saturating_sub(1), text.len() + 1, 21 * triangles, 0] {
        checker.write_index(&mesh, length)?;
    }
    let entries = 3 * triangles;
    for length in [entries, entries.saturating_sub(1), entries + 1, 0] {
        checker.read_index(vertices, &text, length)?;
    }
    Ok(())
}

// What is needed, more of each buffer, less of each; and each buffer alone one shorter, empty, and longer: of large buffers one at
// random.
fn rooms(checker: &mut Checker, needed: Room, is_large: bool) -> Vec<Room> {
    let less = |length: usize| length.saturating_sub(1);
    let mut rooms = vec![needed.clone(), needed.each(less)];
    let alone = |buffer: usize| [needed.one(buffer, less), needed.one(buffer, |_| 0), needed.one(buffer, |length| length + 5)];
    if is_large {
        rooms.extend(alone(checker.random.below(needed.buffers())).into_iter().nth(checker.random.below(3)));
    } else {
        rooms.extend([needed.each(|length| length + 7), needed.each(|_| 0)]);
        rooms.extend((0..needed.buffers()).flat_map(alone));
    }
    rooms
}
