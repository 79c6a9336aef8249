// Undo several.
use super::undo::{least_role, Role, Tables, ROLES};
use super::{clear, count_boundary, count_edges, judge, ring_table, room};
use crate::library::{SeveralAnswer, SeveralWork};
use crate::refusals::{coarse_counts, judge_undo_several, several_answer, Levels, MeshCounts, Refusal};
use std::mem::swap;

// Never inlined, since the library's call is not either.
#[inline(never)]
pub fn undo_several(vertices: u64, list: &[u16], asked: u64, out: &mut [u16], work: &mut SeveralWork) -> SeveralAnswer {
    let sizes = judge_undo_several(vertices, list.len(), asked, out.len(), room(work));
    let undone = sizes.and_then(|()| undo_levels(vertices as usize, list, asked, out, work));
    clear(work);
    several_answer(undone)
}

// Refusals 6 to 10, and the levels. The mesh is judged once, and its edges are counted once: a coarse mesh that a role reads off a
// proper one is proper too, and its counts follow. Where the library calls itself for the next level, this goes round.
fn undo_levels(vertices: usize, list: &[u16], asked: u64, out: &mut [u16], work: &mut SeveralWork) -> Result<Levels, Refusal> {
    let mut corners = list.len();
    let [current, other, rows, ring, marks, coarse, numbers, map, faces, table] = work;
    judge(vertices, list, ring, [&mut *marks, coarse, numbers, map])?;
    let (edges, boundary_edges) = (count_edges(&ring[..corners]), count_boundary(&ring[..corners]));
    let mut left = MeshCounts { vertices, triangles: corners / 3, edges, boundary_edges };

    let mut current = &mut current[..];
    current[..corners].copy_from_slice(list);
    let mut tables = Tables { other, rows, ring };
    let mut role = Role { marks, coarse, numbers, map, faces, table };
    let (mut levels, mut roles) = (0, [0; 7]);
    while levels < asked {
        let Ok((number, kept)) = least_role(ROLES, left.vertices, &current[..corners], &mut tables, &mut role) else {
            break;
        };
        roles[levels as usize] = number as u8;
        levels += 1;
        corners /= 4;
        left = coarse_counts(left.vertices, left.boundary_edges, kept, corners / 3);
        swap(&mut current, &mut role.coarse);
        let work = [&mut *role.marks, &mut *role.numbers, &mut *role.map, &mut *role.faces];
        ring_table(kept, &current[..corners], tables.ring, work);
    }
    out[..corners].copy_from_slice(&current[..corners]);
    Ok(Levels { left, levels, roles })
}
