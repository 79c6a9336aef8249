//! The calls on slices: they write to the caller's buffers and allocate nothing but what the room grows by. The numbers of an answer
//! are narrowed by `as`, since the library is proved to give none above its limits.

use crate::{raw, Limits, OneOutputs, Refusal, Room};

/// How many vertices and triangles a mesh has.
#[derive(Clone, Copy, Debug, Default, PartialEq, Eq)]
pub struct Counts {
    /// The vertices are the numbers below this one.
    pub vertices: usize,
    /// Three entries of the list are a triangle.
    pub triangles: usize,
}

impl Counts {
    /// How many entries the list has: three for each triangle.
    ///
    /// ```
    /// let counts = flatcarol::Counts { vertices: 6, triangles: 4 };
    /// assert_eq!(counts.entries(), 12);
    /// ```
    pub fn entries(self) -> usize {
        3 * self.triangles
    }

    /// How many bytes the frames of the mesh have: 11, and 15 for each triangle.
    ///
    /// ```
    /// let counts = flatcarol::Counts { vertices: 6, triangles: 4 };
    /// assert_eq!(counts.frame_bytes(), 71);
    /// ```
    pub fn frame_bytes(self) -> usize {
        11 + 15 * self.triangles
    }

    /// How many bytes the index text of the mesh has at most: 21 for each triangle.
    ///
    /// ```
    /// let counts = flatcarol::Counts { vertices: 6, triangles: 4 };
    /// assert_eq!(counts.index_bytes_at_most(), 84);
    /// ```
    pub fn index_bytes_at_most(self) -> usize {
        // Three corners of five digits and -1, with a blank after each of the four.
        21 * self.triangles
    }

    // The counts that buffers are made for. A mesh above the limits is refused whatever is lent, and so gets as little as a mesh with
    // nothing in it: no number that a caller gives leads to a large allocation.
    pub(crate) fn to_lend_for(vertices: usize, list: &[u16], most_triangles: usize) -> Counts {
        let triangles = list.len() / 3;
        if vertices > Limits::VERTICES || triangles > most_triangles {
            return Counts::default();
        }
        Counts { vertices, triangles }
    }
}

/// What is asked of undo one.
#[derive(Clone, Copy, Debug, PartialEq, Eq)]
pub enum Asked {
    /// The reading in which triangle 0 has this role: 0 if it is a centre, or 1, 2, 3 if its first, second or third corner is its
    /// kept vertex. A number above 3 is no role, and is refused with [`Refusal::AskedTooMuch`].
    Role(u8),
    /// The reading with the least role.
    Least,
}

impl Asked {
    // Document 01's number: 4 asks for the least role, and all above it is refused. What is no role is sent as the greatest number,
    // since one just above those that are taken today may come to mean something.
    fn number(self) -> u64 {
        match self {
            Asked::Role(role @ 0..=3) => u64::from(role),
            Asked::Least => 4,
            Asked::Role(_) => u64::MAX,
        }
    }
}

/// What [`split`] made: the counts of the fine mesh.
#[derive(Clone, Copy, Debug, PartialEq, Eq)]
pub struct SplitCounts {
    /// The fine mesh: its list is the first entries of `out`.
    pub fine: Counts,
    /// How many edges the fine mesh has: pairs of vertices that some triangle has.
    pub edges: usize,
    /// How many of them exactly one triangle has. With none the mesh has no hole.
    pub boundary_edges: usize,
}

/// What [`undo_one`] found: the counts of the coarse mesh, and the role.
#[derive(Clone, Copy, Debug, PartialEq, Eq)]
pub struct ReadingCounts {
    /// The coarse mesh: its list is the first entries of the buffer `mesh`.
    pub coarse: Counts,
    /// How many edges the coarse mesh has: pairs of vertices that some triangle has.
    pub edges: usize,
    /// How many of them exactly one triangle has. With none the mesh has no hole.
    pub boundary_edges: usize,
    /// The role of triangle 0, from 0 to 3.
    pub role: u8,
}

/// What [`undo_several`] found: the counts of the coarsest mesh, and the role of each level.
#[derive(Clone, Copy, Debug, PartialEq, Eq)]
pub struct UndoneCounts {
    /// The coarsest mesh.
    pub coarse: Counts,
    /// How many edges the coarsest mesh has: pairs of vertices that some triangle has.
    pub edges: usize,
    /// How many of them exactly one triangle has. With none the mesh has no hole.
    pub boundary_edges: usize,
    /// How many levels were undone.
    pub levels: usize,
    /// The role taken at each level, the first one undone first. Behind them stand zeros.
    pub roles: [u8; Limits::LEVELS],
}

/// What [`write_index`] wrote: the counts of the mesh, and the length of its text.
#[derive(Clone, Copy, Debug, PartialEq, Eq)]
pub struct TextCounts {
    /// The mesh that was written.
    pub mesh: Counts,
    /// How many bytes its text has: the first ones of `out`.
    pub bytes: usize,
}

/// Splits a mesh: each triangle becomes four. `out` needs 12 entries for each triangle.
///
/// Gives the counts of the fine mesh, whose list is the first entries of `out`. Coarse vertices keep their numbers, each edge gets a
/// new vertex, and triangle j becomes the triangles 4j (the centre) to 4j + 3.
///
/// ```
/// use flatcarol::{split, Counts, Room};
///
/// let mut fine = [0; 12];
/// let counts = split(3, &[0, 1, 2], &mut fine, &mut Room::new())?;
/// assert_eq!(counts.fine, Counts { vertices: 6, triangles: 4 });
/// assert_eq!((counts.edges, counts.boundary_edges), (9, 6));
/// assert_eq!(fine, [3, 4, 5, 0, 3, 5, 1, 4, 3, 2, 5, 4]);
/// # Ok::<(), flatcarol::Refusal>(())
/// ```
///
/// # Errors
///
/// Refusals 2 to 10.
pub fn split(vertices: usize, list: &[u16], out: &mut [u16], room: &mut Room) -> Result<SplitCounts, Refusal> {
    let work = room.lend(Counts::to_lend_for(vertices, list, Limits::SPLIT_TRIANGLES));
    let answer = raw::split(vertices as u64, list, out, work);
    let fine = counts(answer.refusal, answer.place, answer.vertices, answer.triangles)?;
    Ok(SplitCounts { fine, edges: answer.edges as usize, boundary_edges: answer.boundary_edges as usize })
}

/// Undoes one split. Of `out`, `mesh` needs 3 entries for every four triangles, the vertex map one for each vertex and the triangle
/// map one for each triangle.
///
/// The coarse mesh numbers the kept vertices upward in the order of the input, and the centres likewise. The maps give the number
/// that each vertex and each triangle of the input has in the splitting of the coarse mesh. There each triangle goes round as it does in
/// the input, though it may begin with another of its corners.
///
/// ```
/// use flatcarol::{undo_one, Asked, OneOutputs, Room};
///
/// let list = [5, 0, 3, 4, 1, 0, 3, 0, 1, 2, 3, 1];
/// let (mut mesh, mut vertex_map, mut triangle_map) = ([0; 3], [0; 6], [0; 4]);
/// let out = OneOutputs { mesh: &mut mesh, vertex_map: &mut vertex_map, triangle_map: &mut triangle_map };
/// let reading = undo_one(6, &list, Asked::Least, out, &mut Room::new())?;
/// assert_eq!((reading.role, reading.coarse.vertices, reading.coarse.triangles), (1, 3, 1));
/// assert_eq!((reading.edges, reading.boundary_edges), (3, 3));
/// assert_eq!(mesh, [0, 2, 1]);
/// assert_eq!(vertex_map, [4, 5, 0, 3, 1, 2]);
/// assert_eq!(triangle_map, [2, 3, 0, 1]);
/// # Ok::<(), flatcarol::Refusal>(())
/// ```
///
/// # Errors
///
/// Refusals 1 to 11, and 15 in place of 11.
pub fn undo_one(vertices: usize, list: &[u16], asked: Asked, out: OneOutputs, room: &mut Room) -> Result<ReadingCounts, Refusal> {
    let work = room.lend(Counts::to_lend_for(vertices, list, Limits::TRIANGLES));
    let answer = raw::undo_one(vertices as u64, list, asked.number(), out, work);
    let coarse = counts(answer.refusal, answer.place, answer.vertices, answer.triangles)?;
    let (edges, boundary_edges) = (answer.edges as usize, answer.boundary_edges as usize);
    Ok(ReadingCounts { coarse, edges, boundary_edges, role: answer.role as u8 })
}

/// Undoes up to `levels` splits, from 0 to 7, each in the least role that has a reading. `out` needs as many entries as `list`.
///
/// It stops when that many levels are undone or the mesh has no reading, where [`undo_one`] would give 11 or 15: that is no refusal, and
/// may be after 0 levels. The coarsest mesh's list is the first entries of `out`. With 0 levels it tells whether a mesh is proper, and
/// counts its edges.
///
/// ```
/// use flatcarol::{undo_several, Room};
///
/// let list = [3, 4, 5, 0, 3, 5, 1, 4, 3, 2, 5, 4];
/// let mut coarse = [0; 12];
/// let undone = undo_several(6, &list, 7, &mut coarse, &mut Room::new())?;
/// assert_eq!((undone.levels, undone.roles[0]), (1, 0));
/// assert_eq!((undone.edges, undone.boundary_edges), (3, 3));
/// assert_eq!(coarse[..undone.coarse.entries()], [0, 1, 2]);
/// # Ok::<(), flatcarol::Refusal>(())
/// ```
///
/// # Errors
///
/// Refusals 1 to 10.
pub fn undo_several(
    vertices: usize,
    list: &[u16],
    levels: usize,
    out: &mut [u16],
    room: &mut Room,
) -> Result<UndoneCounts, Refusal> {
    let work = room.lend(Counts::to_lend_for(vertices, list, Limits::TRIANGLES));
    let answer = raw::undo_several(vertices as u64, list, levels as u64, out, work);
    let coarse = counts(answer.refusal, answer.place, answer.vertices, answer.triangles)?;
    let (edges, boundary_edges) = (answer.edges as usize, answer.boundary_edges as usize);
    Ok(UndoneCounts { coarse, edges, boundary_edges, levels: answer.levels as usize, roles: answer.roles })
}

/// Reads a mesh from its frames. `out` needs 3 entries for each triangle that the first line says.
///
/// Digits may be of either case, and each line may end in LF or CR LF. Corners are not judged: the mesh that was read need not be
/// proper.
///
/// ```
/// use flatcarol::{read_frames, Counts};
///
/// let mut list = [0; 3];
/// let counts = read_frames(b"4D00030001\n46000000010002\n", &mut list)?;
/// assert_eq!(counts, Counts { vertices: 3, triangles: 1 });
/// assert_eq!(list, [0, 1, 2]);
/// # Ok::<(), flatcarol::Refusal>(())
/// ```
///
/// # Errors
///
/// Refusal 12 for the first line, then 4 and 5, then 12 for later lines.
pub fn read_frames(bytes: &[u8], out: &mut [u16]) -> Result<Counts, Refusal> {
    let answer = raw::read_frames(bytes, out);
    counts(answer.refusal, answer.place, answer.vertices, answer.triangles)
}

/// Writes a mesh as frames, in upper case and with LF. `out` needs 11 bytes, and 15 for each triangle: [`Counts::frame_bytes`].
///
/// ```
/// use flatcarol::write_frames;
///
/// let mut bytes = [0; 26];
/// let counts = write_frames(3, &[0, 1, 2], &mut bytes)?;
/// assert_eq!(bytes[..counts.frame_bytes()], *b"4D00030001\n46000000010002\n");
/// # Ok::<(), flatcarol::Refusal>(())
/// ```
///
/// # Errors
///
/// Refusals 2, 4 and 5. A mesh without triangles is allowed.
pub fn write_frames(vertices: usize, list: &[u16], out: &mut [u8]) -> Result<Counts, Refusal> {
    let answer = raw::write_frames(vertices as u64, list, out);
    counts(answer.refusal, answer.place, answer.vertices, answer.triangles)
}

/// Reads a mesh from its index text, the `coordIndex` of an IndexedFaceSet in VRML97. `out` needs 3 entries for each face:
/// [`index_entries_at_most`] are enough.
///
/// The text has decimal numbers with blanks, tabs, CR, LF or commas between them; `-1` closes a face, and may be missing after the
/// last; `#` starts a comment, which ends with its line. Corners are not judged against the number of vertices, which the text does
/// not tell: the mesh that was read need not be proper.
///
/// ```
/// use flatcarol::{read_index, Counts, Refusal};
///
/// let mut list = [0; 6];
/// let counts = read_index(4, b"0, 1, 2, -1, # the first\n0, 2, 3", &mut list)?;
/// assert_eq!(counts, Counts { vertices: 4, triangles: 2 });
/// assert_eq!(list, [0, 1, 2, 0, 2, 3]);
/// assert_eq!(read_index(4, b"0 1 2 3 -1", &mut list), Err(Refusal::TextNotAsRequired { byte: 6 }));
/// # Ok::<(), Refusal>(())
/// ```
///
/// # Errors
///
/// Refusal 14, then 4 and 5. A text without faces is allowed.
pub fn read_index(vertices: usize, text: &[u8], out: &mut [u16]) -> Result<Counts, Refusal> {
    let answer = raw::read_index(vertices as u64, text, out);
    counts(answer.refusal, answer.place, answer.vertices, answer.triangles)
}

/// How many entries [`read_index`] needs at most for this text: about one for every three bytes, and never more than the largest mesh
/// has.
///
/// ```
/// use flatcarol::index_entries_at_most;
///
/// assert_eq!(index_entries_at_most(b"0 1 2 -1 0 2 3"), 6);
/// assert_eq!(index_entries_at_most(b"0 1"), 0); // a corner is missing, so it is refused whatever is lent
/// ```
pub fn index_entries_at_most(text: &[u8]) -> usize {
    // A face takes at least the nine bytes of `0 1 2 -1` and a separator, but the last one only the five of `0 1 2`.
    let faces = (text.len() + 4) / 9;
    3 * faces.min(Limits::TRIANGLES)
}

/// Writes a mesh as an index text: `0 1 2 -1 0 2 3 -1`. `out` needs as many bytes as are written: [`Counts::index_bytes_at_most`] are
/// enough.
///
/// ```
/// use flatcarol::write_index;
///
/// let mut bytes = [0; 42];
/// let text = write_index(4, &[0, 1, 2, 0, 2, 3], &mut bytes)?;
/// assert_eq!(bytes[..text.bytes], *b"0 1 2 -1 0 2 3 -1");
/// # Ok::<(), flatcarol::Refusal>(())
/// ```
///
/// # Errors
///
/// Refusals 2, 4 and 5. A mesh without triangles is allowed, and has an empty text.
pub fn write_index(vertices: usize, list: &[u16], out: &mut [u8]) -> Result<TextCounts, Refusal> {
    let answer = raw::write_index(vertices as u64, list, out);
    let mesh = counts(answer.refusal, answer.place, answer.vertices, answer.triangles)?;
    Ok(TextCounts { mesh, bytes: answer.bytes as usize })
}

// The part that all answers share: the refusal, or the counts.
fn counts(refusal: u64, place: u64, vertices: u64, triangles: u64) -> Result<Counts, Refusal> {
    if refusal == 0 {
        return Ok(Counts { vertices: vertices as usize, triangles: triangles as usize });
    }
    // The library is proved to give no number but these, so this panics only if something else is linked in its place.
    Err(Refusal::from_number(refusal, place as usize).expect("the linked library gives the numbers of the table"))
}

#[cfg(test)]
mod tests {
    use super::Asked;

    // A role above 3 is sent as a number that no call takes, today or later: not as 4, which asks for the least role, nor as one near it.
    #[test]
    fn what_is_no_role_is_sent_as_no_number_that_is_taken() {
        for role in 0..=3 {
            assert_eq!(Asked::Role(role).number(), u64::from(role));
        }
        for role in 4..=u8::MAX {
            assert_eq!(Asked::Role(role).number(), u64::MAX, "role {role}");
        }
        assert_eq!(Asked::Least.number(), 4);
    }
}
