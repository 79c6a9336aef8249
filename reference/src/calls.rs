//! Document 01, "Calls" and "Refusals by number": split, undo one, undo several.

use crate::mesh::{Limits, Mesh};
use crate::reading::{least_disagreeing, Match, Rule};
use crate::splitting::splitting;
use crate::{exhaustive, spreading};

/// "An answer holds the refusal number (0 when accepted), the place, the resulting V and F (for frames, those read or written), and
/// for undo the role or the levels and roles." The last ones are beside it in [`One`] and [`Several`], and frames have a
/// [`FramesAnswer`].
///
/// Document 02, #102: "The answer of undo and of split shall also carry the resulting mesh's edge count and boundary edge count, and
/// zeros in a refusal."
#[derive(Clone, Copy, Debug, Default, PartialEq, Eq)]
pub struct Answer {
    pub refusal: u64,
    pub place: u64,
    pub vertices: u64,
    pub triangles: u64,
    pub edges: u64,
    pub boundary_edges: u64,
}

impl Answer {
    /// "Other numbers in a refusal are 0"; "zeros in a refusal".
    pub(crate) fn refused(refusal: u64, place: u64) -> Answer {
        Answer { refusal, place, vertices: 0, triangles: 0, edges: 0, boundary_edges: 0 }
    }

    /// "the refusal number (0 when accepted)"; "'Place' is 0 unless named"; and the four numbers of the resulting mesh.
    pub(crate) fn accepted(resulting: &Mesh) -> Answer {
        let (edges, boundary_edges) = resulting.edge_counts();
        Answer {
            refusal: 0,
            place: 0,
            vertices: resulting.vertices,
            triangles: resulting.triangles.len() as u64,
            edges,
            boundary_edges,
        }
    }
}

/// The answer of reading and writing, whether frames or index texts: "the resulting V and F (for frames, those read or written)". Their
/// corners are not judged, and #102 names "The answer of undo and of split" alone: no counts of edges.
#[derive(Clone, Copy, Debug, Default, PartialEq, Eq)]
pub struct FramesAnswer {
    pub refusal: u64,
    pub place: u64,
    pub vertices: u64,
    pub triangles: u64,
}

impl FramesAnswer {
    /// "Other numbers in a refusal are 0."
    pub(crate) fn refused(refusal: u64, place: u64) -> FramesAnswer {
        FramesAnswer { refusal, place, vertices: 0, triangles: 0 }
    }

    /// "the refusal number (0 when accepted)"; "'Place' is 0 unless named."
    pub(crate) fn accepted(vertices: u64, triangles: usize) -> FramesAnswer {
        FramesAnswer { refusal: 0, place: 0, vertices, triangles: triangles as u64 }
    }
}

/// Which of the two ways to look for a reading is taken.
#[derive(Clone, Copy, Debug, PartialEq, Eq)]
pub enum Search {
    Exhaustive,
    Spreading,
}

/// The lengths, in entries, of the output buffers lent to undo one.
#[derive(Clone, Copy, Debug)]
pub struct OneRoom {
    pub mesh: usize,
    pub vertex_map: usize,
    pub triangle_map: usize,
}

/// The answer of undo one, and the entries it writes; none if refused.
#[derive(Clone, Debug, PartialEq, Eq)]
pub struct One {
    pub answer: Answer,
    pub role: u64,
    pub mesh: Vec<u16>,
    pub vertex_map: Vec<u16>,
    pub triangle_map: Vec<u16>,
}

/// The answer of undo several, and the entries it writes; none if refused.
#[derive(Clone, Debug, PartialEq, Eq)]
pub struct Several {
    pub answer: Answer,
    pub levels: u64,
    pub roles: [u8; 7],
    pub mesh: Vec<u16>,
}

/// A reading of a mesh, in the returned numbering.
#[derive(Clone, Debug, PartialEq, Eq)]
pub struct Reading {
    pub vertices: u64,
    pub mesh: Vec<u16>,
    pub vertex_map: Vec<u16>,
    pub triangle_map: Vec<u16>,
}

/// The refusals 2 to 10, "Checked in this order", or else the mesh, which is then proper and has a triangle. `most` is the largest F
/// that is not refused 4; `needed` and `lent` are the lengths of the output buffers; each work buffer needs V + 3F entries.
fn refusals_2_to_10<const N: usize>(
    vertices: u64,
    list: &[u16],
    most: usize,
    needed: impl Fn(usize, usize) -> [usize; N],
    lent: [usize; N],
    work: &[usize],
) -> Result<Mesh, Answer> {
    // "list length not a multiple of 3"
    if !list.len().is_multiple_of(3) {
        return Err(Answer::refused(2, 0));
    }
    let triangles = list.len() / 3;
    // "no triangle"
    if triangles == 0 {
        return Err(Answer::refused(3, 0));
    }
    // "F above 16,384 (split: above 4,096) or V above 32,767"
    if triangles > most || vertices > Limits::VERTICES {
        return Err(Answer::refused(4, 0));
    }
    // "a lent buffer shorter than needed"
    let for_outputs = needed(vertices as usize, triangles);
    let for_work = vertices as usize + 3 * triangles;
    if lent.iter().zip(for_outputs).any(|(&l, n)| l < n) || work.iter().any(|&l| l < for_work) {
        return Err(Answer::refused(5, 0));
    }
    // 6 to 10
    let mesh = Mesh::of(vertices, list);
    match mesh.fault() {
        Some((refusal, place)) => Err(Answer::refused(refusal, place)),
        None => Ok(mesh),
    }
}

/// Refusals 4 and 5 of reading and writing, or else the answer of an accepted mesh: it needs so much room, and `lent` was lent.
pub(crate) fn answer_by_size(vertices: u64, triangles: usize, needed: usize, lent: usize) -> FramesAnswer {
    // "F above 16,384 (split: above 4,096) or V above 32,767"
    if triangles > Limits::TRIANGLES || vertices > Limits::VERTICES {
        return FramesAnswer::refused(4, 0);
    }
    // "a lent buffer shorter than needed"
    if lent < needed {
        return FramesAnswer::refused(5, 0);
    }
    FramesAnswer::accepted(vertices, triangles)
}

/// "Writing frames gives 2, 4, 5 and allows F = 0", and so does writing an index text.
pub(crate) fn answer_to_write(vertices: u64, list: &[u16], needed: usize, lent: usize) -> FramesAnswer {
    // "list length not a multiple of 3"
    if !list.len().is_multiple_of(3) {
        return FramesAnswer::refused(2, 0);
    }
    answer_by_size(vertices, list.len() / 3, needed, lent)
}

/// "**Split.**" "Splitting gives 2 to 10." Room: "split 12F".
pub fn split(vertices: u64, list: &[u16], out: usize, work: &[usize]) -> (Answer, Vec<u16>) {
    match refusals_2_to_10(vertices, list, Limits::SPLIT_TRIANGLES, |_, f| [12 * f], [out], work) {
        Err(refused) => (refused, Vec::new()),
        Ok(mesh) => {
            let fine = splitting(&mesh);
            (Answer::accepted(&fine), fine.list())
        }
    }
}

/// The reading by the rule of a proper mesh in a role, by the search named.
fn search_in(mesh: &Mesh, role: u64, rule: Rule, search: Search) -> Option<Match> {
    match search {
        Search::Exhaustive => exhaustive::reading(mesh, role, rule),
        Search::Spreading => spreading::reading(mesh, role, rule),
    }
}

/// "Asked 0 to 3: that role. Asked 4: the least role that has a reading", here by the rule, with this reading.
fn least_role(mesh: &Mesh, asked: u64, rule: Rule, search: Search) -> Option<(u64, Match)> {
    let mut roles = if asked == 4 { 0..=3 } else { asked..=asked };
    roles.find_map(|role| search_in(mesh, role, rule, search).map(|m| (role, m)))
}

/// The refusal of a proper mesh where no role asked has a reading: 11, or "15, in place of 11, exactly if a role asked has a reading by
/// the old rule but none asked has one by the new; place is the least triangle that disagrees with the splitting of the mesh the old
/// rule returns in the least such role."
fn without_reading(mesh: &Mesh, asked: u64, search: Search) -> Answer {
    match least_role(mesh, asked, Rule::Old, search) {
        // "no reading in the role asked (asked 4: in any)"
        None => Answer::refused(11, 0),
        Some((_, m)) => {
            let place = least_disagreeing(mesh, &m, Rule::New).expect("a match that agrees everywhere is a reading");
            Answer::refused(15, place as u64)
        }
    }
}

/// "**Undo one.** Asked 0 to 3: that role. Asked 4: the least role that has a reading."
///
/// Room: "undo one needs 3 times (F divided by 4, rounded down) for the mesh, V and F for the two maps".
pub fn undo_one(vertices: u64, list: &[u16], asked: u64, room: OneRoom, work: &[usize], search: Search) -> One {
    let refused = |answer| One { answer, role: 0, mesh: Vec::new(), vertex_map: Vec::new(), triangle_map: Vec::new() };
    // "asked above 4 (undo one)"
    if asked > Limits::ASKED_ONE {
        return refused(Answer::refused(1, 0));
    }
    let needed = |v, f| [3 * (f / 4), v, f];
    let lent = [room.mesh, room.vertex_map, room.triangle_map];
    let mesh = match refusals_2_to_10(vertices, list, Limits::TRIANGLES, needed, lent, work) {
        Err(answer) => return refused(answer),
        Ok(mesh) => mesh,
    };
    match least_role(&mesh, asked, Rule::New, search) {
        None => refused(without_reading(&mesh, asked, search)),
        Some((role, m)) => One {
            answer: Answer::accepted(&m.coarse),
            role,
            mesh: m.coarse.list(),
            vertex_map: entries(&m.vertex_map),
            triangle_map: entries(&m.triangle_map),
        },
    }
}

/// "**Undo several.** Asked at most 0 to 7 levels. At each level the least role is taken, and the smaller mesh is treated the same
/// way. It stops when the asked number is reached or no reading exists, and answers 0 with the number of levels undone. The role
/// taken at each level is kept in seven places of the answer; unused places are 0. Asked 0, a proper mesh comes back unchanged."
///
/// "Undo several gives 1 to 10." Room: "undo several 3F". Document 02, #103: "undo several stops at either number", 11 or 15.
pub fn undo_several(vertices: u64, list: &[u16], asked: u64, out: usize, work: &[usize], search: Search) -> Several {
    let refused = |answer| Several { answer, levels: 0, roles: [0; 7], mesh: Vec::new() };
    // "above 7 (undo several)"
    if asked > Limits::LEVELS {
        return refused(Answer::refused(1, 0));
    }
    let mut mesh = match refusals_2_to_10(vertices, list, Limits::TRIANGLES, |_, f| [3 * f], [out], work) {
        Err(answer) => return refused(answer),
        Ok(mesh) => mesh,
    };
    let mut levels = 0;
    let mut roles = [0; 7];
    while levels < asked {
        let Some((role, m)) = least_role(&mesh, 4, Rule::New, search) else { break };
        roles[levels as usize] = role as u8;
        levels += 1;
        mesh = m.coarse;
    }
    Several { answer: Answer::accepted(&mesh), levels, roles, mesh: mesh.list() }
}

/// "A mesh is a vertex count V and an index list of length 3F"; "A mesh is *proper* when ...", see [`Mesh::proper`]. To the letter of
/// it, the mesh of no vertex and no triangle is proper.
pub fn proper(vertices: u64, list: &[u16]) -> bool {
    list.len().is_multiple_of(3) && Mesh::of(vertices, list).proper()
}

/// The reading by the rule of a proper mesh, of at most 16,384 triangles and 32,767 vertices, in which triangle 0 has the given role.
/// None if there is none, or if this is no such mesh.
pub fn reading_in(vertices: u64, list: &[u16], role: u64, rule: Rule, search: Search) -> Option<Reading> {
    if list.len() / 3 > Limits::TRIANGLES || vertices > Limits::VERTICES || !proper(vertices, list) {
        return None;
    }
    let m = search_in(&Mesh::of(vertices, list), role, rule, search)?;
    Some(Reading {
        vertices: m.coarse.vertices,
        mesh: m.coarse.list(),
        vertex_map: entries(&m.vertex_map),
        triangle_map: entries(&m.triangle_map),
    })
}

/// "Entries of index lists and maps are 16-bit numbers".
fn entries(map: &[usize]) -> Vec<u16> {
    map.iter().map(|&n| n as u16).collect()
}
