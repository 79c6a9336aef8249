// What the plain and the hashed version share, since it costs nothing to speak of: the refusals that numbers and lengths decide,
// 1 to 5, what follows from counts, and the making of answers.
use crate::library::{Answer, FramesAnswer, OneAnswer, OneOutputs, SeveralAnswer, TextAnswer};

pub const ANY_ROLE: u64 = 4;

const MOST_LEVELS: u64 = 7;
const MOST_VERTICES: u64 = 32_767;
const MOST_TO_SPLIT: usize = 4_096;
const MOST_TRIANGLES: usize = 16_384;

// A refusal's number and place.
pub struct Refusal(pub u64, pub usize);

// How many vertices and triangles a mesh has that is read or written.
pub type Counts = (usize, usize);

// What is counted of a mesh that is split or undone, and of the result.
pub struct MeshCounts {
    pub vertices: usize,
    pub triangles: usize,
    pub edges: usize,
    pub boundary_edges: usize,
}

// Of the splitting of a mesh with so many of each: a vertex on each edge, the two halves of it, and three edges more within each
// triangle.
pub fn split_counts(counts: MeshCounts) -> MeshCounts {
    MeshCounts {
        vertices: counts.vertices + counts.edges,
        triangles: 4 * counts.triangles,
        edges: 2 * counts.edges + 3 * counts.triangles,
        boundary_edges: 2 * counts.boundary_edges,
    }
}

// Of the coarse mesh of a reading with so many kept vertices and centres, where the input has so many vertices and boundary edges:
// each vertex that is not kept stands on an edge of its own, and a boundary edge became two.
pub fn coarse_counts(vertices: usize, boundary_edges: usize, kept: usize, centres: usize) -> MeshCounts {
    MeshCounts { vertices: kept, triangles: centres, edges: vertices - kept, boundary_edges: boundary_edges / 2 }
}

// What undo several comes to: the counts of the mesh that is left, the number of levels, and the role of each.
pub struct Levels {
    pub left: MeshCounts,
    pub levels: u64,
    pub roles: [u8; MOST_LEVELS as usize],
}

fn refuse(number: u64, when: bool) -> Result<(), Refusal> {
    if when {
        Err(Refusal(number, 0))
    } else {
        Ok(())
    }
}

pub fn judge_split(vertices: u64, entries: usize, out: usize, work: usize) -> Result<(), Refusal> {
    judge_mesh(MOST_TO_SPLIT, vertices, entries)?;
    refuse(5, out < 4 * entries || work < vertices as usize + entries)
}

pub fn judge_undo_one(vertices: u64, entries: usize, asked: u64, out: &OneOutputs, work: usize) -> Result<(), Refusal> {
    refuse(1, asked > ANY_ROLE)?;
    judge_mesh(MOST_TRIANGLES, vertices, entries)?;
    let vertices = vertices as usize;
    let triangles = entries / 3;
    let short = out.mesh.len() < 3 * (triangles / 4) || out.vertex_map.len() < vertices || out.triangle_map.len() < triangles;
    refuse(5, short || work < vertices + entries)
}

pub fn judge_undo_several(vertices: u64, entries: usize, asked: u64, out: usize, work: usize) -> Result<(), Refusal> {
    refuse(1, asked > MOST_LEVELS)?;
    judge_mesh(MOST_TRIANGLES, vertices, entries)?;
    refuse(5, out < entries || work < vertices as usize + entries)
}

// Of frames and of an index text.
pub fn judge_read(vertices: u64, triangles: usize, out: usize) -> Result<(), Refusal> {
    judge_counts(MOST_TRIANGLES, vertices, triangles)?;
    judge_room(3 * triangles, out)
}

pub fn judge_write_frames(vertices: u64, entries: usize, out: usize) -> Result<(), Refusal> {
    judge_write(vertices, entries)?;
    judge_room(11 + 15 * (entries / 3), out)
}

// Of frames and of an index text, before the bytes are counted.
pub fn judge_write(vertices: u64, entries: usize) -> Result<(), Refusal> {
    refuse(2, !entries.is_multiple_of(3))?;
    judge_counts(MOST_TRIANGLES, vertices, entries / 3)
}

pub fn judge_room(needed: usize, lent: usize) -> Result<(), Refusal> {
    refuse(5, lent < needed)
}

// Refusals 2 to 4.
fn judge_mesh(most_triangles: usize, vertices: u64, entries: usize) -> Result<(), Refusal> {
    refuse(2, !entries.is_multiple_of(3))?;
    refuse(3, entries == 0)?;
    judge_counts(most_triangles, vertices, entries / 3)
}

fn judge_counts(most_triangles: usize, vertices: u64, triangles: usize) -> Result<(), Refusal> {
    refuse(4, triangles > most_triangles || vertices > MOST_VERTICES)
}

pub fn answer(result: Result<MeshCounts, Refusal>) -> Answer {
    match result {
        Ok(MeshCounts { vertices, triangles, edges, boundary_edges }) => Answer {
            refusal: 0,
            place: 0,
            vertices: vertices as u64,
            triangles: triangles as u64,
            edges: edges as u64,
            boundary_edges: boundary_edges as u64,
        },
        Err(Refusal(refusal, place)) => Answer { refusal, place: place as u64, ..Default::default() },
    }
}

// Of undo one, by the role and what the coarse mesh has.
pub fn one_answer(result: Result<(usize, MeshCounts), Refusal>) -> OneAnswer {
    let role = result.as_ref().map_or(0, |&(role, _)| role as u64);
    let Answer { refusal, place, vertices, triangles, edges, boundary_edges } = answer(result.map(|(_, counts)| counts));
    OneAnswer { refusal, place, vertices, triangles, edges, boundary_edges, role }
}

pub fn several_answer(result: Result<Levels, Refusal>) -> SeveralAnswer {
    let (levels, roles) = result.as_ref().map_or((0, Default::default()), |undone| (undone.levels, undone.roles));
    let Answer { refusal, place, vertices, triangles, edges, boundary_edges } = answer(result.map(|undone| undone.left));
    SeveralAnswer { refusal, place, vertices, triangles, edges, boundary_edges, levels, roles }
}

// Of the calls that read, and of write frames.
pub fn frames_answer(result: Result<Counts, Refusal>) -> FramesAnswer {
    match result {
        Ok((vertices, triangles)) => FramesAnswer { refusal: 0, place: 0, vertices: vertices as u64, triangles: triangles as u64 },
        Err(Refusal(refusal, place)) => FramesAnswer { refusal, place: place as u64, vertices: 0, triangles: 0 },
    }
}

// Of write index, by the bytes that were written and what the mesh has.
pub fn text_answer(result: Result<(usize, Counts), Refusal>) -> TextAnswer {
    let bytes = result.as_ref().map_or(0, |&(bytes, _)| bytes as u64);
    let FramesAnswer { refusal, place, vertices, triangles } = frames_answer(result.map(|(_, counts)| counts));
    TextAnswer { refusal, place, vertices, triangles, bytes }
}
