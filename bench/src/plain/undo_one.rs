// Undo one.
use super::undo::{least_role, Role, Tables, ROLES};
use super::{clear, count_boundary, judge, room};
use crate::library::{OneAnswer, OneOutputs, OneWork};
use crate::refusals::{coarse_counts, judge_undo_one, one_answer, MeshCounts, Refusal, ANY_ROLE};

// Never inlined, since the library's call is not either.
#[inline(never)]
pub fn undo_one(vertices: u64, list: &[u16], asked: u64, out: &mut OneOutputs, work: &mut OneWork) -> OneAnswer {
    let sizes = judge_undo_one(vertices, list.len(), asked, out, room(work));
    let found = sizes.and_then(|()| undo_mesh(vertices as usize, list, asked, out, work));
    clear(work);
    one_answer(found)
}

// Refusals 6 to 11 and 15, and the reading. The boundary edges are counted while the mesh's rings are there.
fn undo_mesh(
    vertices: usize,
    list: &[u16],
    asked: u64,
    out: &mut OneOutputs,
    work: &mut OneWork,
) -> Result<(usize, MeshCounts), Refusal> {
    let triangles = list.len() / 3;
    let [other, rows, ring, marks, coarse, numbers, map, faces, table] = work;
    judge(vertices, list, ring, [&mut *marks, coarse, numbers, map])?;
    let boundary_edges = count_boundary(&ring[..list.len()]);

    let mut tables = Tables { other, rows, ring };
    let mut role = Role { marks, coarse, numbers, map, faces, table };
    let roles = if asked == ANY_ROLE { ROLES } else { asked as usize..asked as usize + 1 };
    let (number, kept) = least_role(roles, vertices, list, &mut tables, &mut role)?;

    let corners = 3 * (triangles / 4);
    out.mesh[..corners].copy_from_slice(&role.coarse[..corners]);
    out.vertex_map[..vertices].copy_from_slice(&role.map[..vertices]);
    out.triangle_map[..triangles].copy_from_slice(&role.faces[..triangles]);
    Ok((number, coarse_counts(vertices, boundary_edges, kept, triangles / 4)))
}
