//! Document 01, "Frames": the program.

use crate::calls::{undo_one, OneRoom, Search};
use crate::frames::{frames, read_frames};
use crate::mesh::Limits;

/// "writes 41, then two digits each of refusal number and role, and four of place."
fn first_line(refusal: u64, role: u64, place: u64) -> String {
    format!("41{refusal:02X}{role:02X}{place:04X}\n")
}

/// "The program reads standard input, has room for 1,024 triangles and 1,026 vertices (more triangles are refused 5 by reading, more
/// vertices 5 by undoing), asks role 4, and writes 41, then two digits each of refusal number and role, and four of place. After 00
/// follow the coarse mesh's frames, one 56 frame of four digits per input vertex (vertex map), and one 54 frame per input triangle
/// (triangle map). A refusal, from reading or undoing or 13, prints its one line only."
pub fn program(input: &[u8]) -> Vec<u8> {
    // "the program gives 13 before anything else"
    if input.len() > Limits::PROGRAM_BYTES {
        return first_line(13, 0, 0).into_bytes();
    }
    let (read, list) = read_frames(input, 3 * Limits::PROGRAM_TRIANGLES);
    if read.refusal != 0 {
        return first_line(read.refusal, 0, read.place).into_bytes();
    }
    let room = OneRoom {
        mesh: 3 * (Limits::PROGRAM_TRIANGLES / 4),
        vertex_map: Limits::PROGRAM_VERTICES,
        triangle_map: Limits::PROGRAM_TRIANGLES,
    };
    let work = [Limits::PROGRAM_VERTICES + 3 * Limits::PROGRAM_TRIANGLES];
    let one = undo_one(read.vertices, &list, 4, room, &work, Search::Spreading);
    let mut text = first_line(one.answer.refusal, one.role, one.answer.place);
    if one.answer.refusal == 0 {
        text += &frames(one.answer.vertices, &one.mesh);
        for n in &one.vertex_map {
            text += &format!("56{n:04X}\n");
        }
        for n in &one.triangle_map {
            text += &format!("54{n:04X}\n");
        }
    }
    text.into_bytes()
}
