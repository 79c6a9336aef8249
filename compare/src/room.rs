// How long the buffers are that a call is lent.
use flatcarol::raw::{ONE_WORK, SEVERAL_WORK, SPLIT_WORK};

use crate::meshes::Mesh;
use crate::random::Random;

// Lengths in entries, of the output buffers in their order and of the work buffers.
#[derive(Clone, Debug, PartialEq)]
pub struct Room {
    pub outputs: Vec<usize>,
    pub work: Vec<usize>,
}

// The most that is ever lent of a buffer: more than the largest mesh needs within the limits, and a little beyond them.
pub const MOST: usize = 200_000;

// What docs/ROOM.md says is needed, as far as it can be lent: a mesh that needs more is refused by its size.
impl Room {
    pub fn of_split(mesh: &Mesh) -> Room {
        Room::needed(mesh, &[12 * mesh.triangles()], SPLIT_WORK)
    }

    pub fn of_undo_one(mesh: &Mesh) -> Room {
        let vertex_map = mesh.vertices.min(MOST as u64) as usize;
        Room::needed(mesh, &[3 * (mesh.triangles() / 4), vertex_map, mesh.triangles()], ONE_WORK)
    }

    pub fn of_undo_several(mesh: &Mesh) -> Room {
        Room::needed(mesh, &[3 * mesh.triangles()], SEVERAL_WORK)
    }

    fn needed(mesh: &Mesh, outputs: &[usize], work: usize) -> Room {
        let each = mesh.vertices.saturating_add(3 * mesh.triangles() as u64).min(MOST as u64) as usize;
        Room { outputs: outputs.iter().map(|&length| length.min(MOST)).collect(), work: vec![each; work] }
    }

    fn lengths_mut(&mut self) -> impl Iterator<Item = &mut usize> {
        self.outputs.iter_mut().chain(&mut self.work)
    }

    pub fn buffers(&self) -> usize {
        self.outputs.len() + self.work.len()
    }

    // Each buffer as it is by the change.
    pub fn each(&self, mut change: impl FnMut(usize) -> usize) -> Room {
        let mut room = self.clone();
        room.lengths_mut().for_each(|length| *length = change(*length).min(MOST));
        room
    }

    // One buffer changed.
    pub fn one(&self, buffer: usize, change: impl Fn(usize) -> usize) -> Room {
        let mut room = self.clone();
        room.lengths_mut().nth(buffer).into_iter().for_each(|length| *length = change(*length).min(MOST));
        room
    }

    // As it is, longer here and there, or, once in a while, with buffers that are too short.
    pub fn at_random(&self, random: &mut Random) -> Room {
        if random.one_in(4) {
            return self.clone();
        }
        let room = self.each(|length| if random.one_in(2) { length + random.below(20) } else { length });
        if !random.one_in(60) {
            return room;
        }
        let cut = random.between(1, 3);
        let room = room.one(random.below(room.buffers()), |length| length.saturating_sub(cut));
        let left = random.below(4);
        if random.one_in(2) {
            room.one(random.below(room.buffers()), |length| length * left / 4)
        } else {
            room
        }
    }
}
