//! The calls on meshes of one's own: they give vectors, each exactly as long as needed.

use crate::{
    index_entries_at_most, read_frames, read_index, split, undo_one, undo_several, write_frames, write_index, Asked, Counts,
    Limits, OneOutputs, ReadingCounts, Refusal, Room, SplitCounts, UndoneCounts,
};

/// A triangle mesh: so many vertices, and three entries of the list for each triangle. Any such value may be made; the calls refuse
/// what is no proper mesh.
#[derive(Clone, Debug, Default, PartialEq, Eq)]
pub struct Mesh {
    /// The vertices are the numbers below this one.
    pub vertices: usize,
    /// Triangle k has the corners at 3k, 3k + 1 and 3k + 2.
    pub list: Vec<u16>,
}

/// A mesh, split: what [`Mesh::split`] gives.
#[derive(Clone, Debug, PartialEq, Eq)]
pub struct Split {
    /// The splitting.
    pub fine: Mesh,
    /// How many edges `fine` has: pairs of vertices that some triangle has.
    pub edges: usize,
    /// How many of them exactly one triangle has. With none `fine` has no hole.
    pub boundary_edges: usize,
}

/// A mesh read as a splitting: what [`Mesh::undo_one`] gives.
#[derive(Clone, Debug, PartialEq, Eq)]
pub struct Reading {
    /// The mesh that was split.
    pub coarse: Mesh,
    /// How many edges `coarse` has: pairs of vertices that some triangle has.
    pub edges: usize,
    /// How many of them exactly one triangle has. With none `coarse` has no hole.
    pub boundary_edges: usize,
    /// The role of the input's triangle 0: 0 if it is a centre, or 1, 2, 3 if its first, second or third corner is its kept vertex.
    pub role: u8,
    /// For each vertex of the input, its number in the splitting of `coarse`. The kept ones are those below `coarse.vertices`.
    pub vertex_map: Vec<u16>,
    /// For each triangle of the input, its number in the splitting of `coarse`. The centres are the multiples of 4.
    pub triangle_map: Vec<u16>,
}

/// A mesh with several splits undone: what [`Mesh::undo_several`] gives.
#[derive(Clone, Debug, PartialEq, Eq)]
pub struct Undone {
    /// The mesh that was split at first.
    pub coarse: Mesh,
    /// How many edges `coarse` has: pairs of vertices that some triangle has.
    pub edges: usize,
    /// How many of them exactly one triangle has. With none `coarse` has no hole.
    pub boundary_edges: usize,
    /// The role taken at each level that was undone, in the order of undoing.
    pub roles: Vec<u8>,
}

impl Undone {
    /// How many levels were undone.
    ///
    /// ```
    /// use flatcarol::{Mesh, Room};
    ///
    /// let undone = Mesh::new(3, [0, 1, 2]).undo_several(7, &mut Room::new())?;
    /// assert_eq!(undone.levels(), 0);
    /// # Ok::<(), flatcarol::Refusal>(())
    /// ```
    pub fn levels(&self) -> usize {
        self.roles.len()
    }
}

impl Mesh {
    /// A mesh of so many vertices, with a list of three corners for each triangle.
    ///
    /// ```
    /// use flatcarol::Mesh;
    ///
    /// let mesh = Mesh::new(3, [0, 1, 2]);
    /// assert_eq!(mesh, Mesh { vertices: 3, list: vec![0, 1, 2] });
    /// ```
    pub fn new(vertices: usize, list: impl Into<Vec<u16>>) -> Mesh {
        Mesh { vertices, list: list.into() }
    }

    /// Splits it: each triangle becomes four. See [`split`].
    ///
    /// ```
    /// use flatcarol::{Mesh, Room};
    ///
    /// let split = Mesh::new(3, [0, 1, 2]).split(&mut Room::new())?;
    /// assert_eq!(split.fine, Mesh::new(6, [3, 4, 5, 0, 3, 5, 1, 4, 3, 2, 5, 4]));
    /// assert_eq!((split.edges, split.boundary_edges), (9, 6));
    /// # Ok::<(), flatcarol::Refusal>(())
    /// ```
    ///
    /// # Errors
    ///
    /// Refusals 2 to 10, but for 5.
    pub fn split(&self, room: &mut Room) -> Result<Split, Refusal> {
        let lent = Counts::to_lend_for(self.vertices, &self.list, Limits::SPLIT_TRIANGLES);
        let mut list = vec![0; 4 * lent.entries()];
        let SplitCounts { fine, edges, boundary_edges } = split(self.vertices, &self.list, &mut list, room)?;
        Ok(Split { fine: Mesh::cut(fine, list), edges, boundary_edges })
    }

    /// Undoes one split, in the role asked. See [`undo_one`].
    ///
    /// ```
    /// use flatcarol::{Asked, Mesh, Refusal, Room};
    ///
    /// let mut room = Room::new();
    /// let mesh = Mesh::new(6, [5, 0, 3, 4, 1, 0, 3, 0, 1, 2, 3, 1]);
    /// let reading = mesh.undo_one(Asked::Least, &mut room)?;
    /// assert_eq!(reading.coarse, Mesh::new(3, [0, 2, 1]));
    /// assert_eq!((reading.edges, reading.boundary_edges), (3, 3));
    /// assert_eq!(reading.role, 1);
    /// assert_eq!(mesh.undo_one(Asked::Role(0), &mut room), Err(Refusal::NoReading));
    /// # Ok::<(), Refusal>(())
    /// ```
    ///
    /// A triangle that goes round the other way than the others of its four is told by its number:
    ///
    /// ```
    /// use flatcarol::{Asked, Mesh, Refusal, Room};
    ///
    /// let mesh = Mesh::new(6, [3, 4, 5, 0, 5, 3, 1, 4, 3, 2, 5, 4]);
    /// assert_eq!(mesh.undo_one(Asked::Least, &mut Room::new()), Err(Refusal::InsideOut { triangle: 1 }));
    /// ```
    ///
    /// # Errors
    ///
    /// Refusals 1 to 11 and 15, but for 5.
    pub fn undo_one(&self, asked: Asked, room: &mut Room) -> Result<Reading, Refusal> {
        let lent = Counts::to_lend_for(self.vertices, &self.list, Limits::TRIANGLES);
        let mut list = vec![0; 3 * (lent.triangles / 4)];
        let mut vertex_map = vec![0; lent.vertices];
        let mut triangle_map = vec![0; lent.triangles];
        let out = OneOutputs { mesh: &mut list, vertex_map: &mut vertex_map, triangle_map: &mut triangle_map };
        let ReadingCounts { coarse, edges, boundary_edges, role } = undo_one(self.vertices, &self.list, asked, out, room)?;
        Ok(Reading { coarse: Mesh::cut(coarse, list), edges, boundary_edges, role, vertex_map, triangle_map })
    }

    /// Undoes up to `levels` splits, from 0 to 7, each in the least role that has a reading, and stops where none has: that is no
    /// refusal. See [`undo_several`].
    ///
    /// ```
    /// use flatcarol::{Mesh, Room};
    ///
    /// let mut room = Room::new();
    /// let triangle = Mesh::new(3, [0, 1, 2]);
    /// let fine = triangle.split(&mut room)?.fine.split(&mut room)?.fine;
    /// let undone = fine.undo_several(7, &mut room)?;
    /// assert_eq!(undone.coarse, triangle);
    /// assert_eq!(undone.roles, [0, 0]);
    /// # Ok::<(), flatcarol::Refusal>(())
    /// ```
    ///
    /// With 0 levels the mesh comes back as it is, with its own counts:
    ///
    /// ```
    /// use flatcarol::{Mesh, Room};
    ///
    /// let tetrahedron = Mesh::new(4, [0, 1, 2, 0, 3, 1, 1, 3, 2, 2, 3, 0]);
    /// let counted = tetrahedron.undo_several(0, &mut Room::new())?;
    /// assert_eq!((counted.edges, counted.boundary_edges), (6, 0)); // no hole
    /// # Ok::<(), flatcarol::Refusal>(())
    /// ```
    ///
    /// # Errors
    ///
    /// Refusals 1 to 10, but for 5.
    pub fn undo_several(&self, levels: usize, room: &mut Room) -> Result<Undone, Refusal> {
        let lent = Counts::to_lend_for(self.vertices, &self.list, Limits::TRIANGLES);
        let mut list = vec![0; lent.entries()];
        let UndoneCounts { coarse, edges, boundary_edges, levels, roles } =
            undo_several(self.vertices, &self.list, levels, &mut list, room)?;
        Ok(Undone { coarse: Mesh::cut(coarse, list), edges, boundary_edges, roles: roles[..levels].to_vec() })
    }

    /// Reads a mesh from its frames. See [`read_frames`].
    ///
    /// ```
    /// use flatcarol::{Mesh, Refusal};
    ///
    /// let mesh = Mesh::from_frames(b"4D00030001\n46000000010002\n")?;
    /// assert_eq!(mesh, Mesh::new(3, [0, 1, 2]));
    /// assert_eq!(Mesh::from_frames(b"4d00030001\r\n46000000010002\r\n")?, mesh);
    /// assert_eq!(Mesh::from_frames(b"4D00030001\n"), Err(Refusal::FrameNotAsRequired { line: 1 }));
    /// # Ok::<(), Refusal>(())
    /// ```
    ///
    /// # Errors
    ///
    /// Refusals 4 and 12.
    pub fn from_frames(bytes: &[u8]) -> Result<Mesh, Refusal> {
        // How many triangles come is known only when the first line has been read, which may say more than the bytes hold.
        let mut list = vec![0; 3 * Limits::TRIANGLES];
        let counts = read_frames(bytes, &mut list)?;
        Ok(Mesh::cut(counts, list))
    }

    /// Writes it as frames. See [`write_frames`].
    ///
    /// ```
    /// use flatcarol::Mesh;
    ///
    /// let bytes = Mesh::new(3, [0, 1, 2]).to_frames()?;
    /// assert_eq!(bytes, b"4D00030001\n46000000010002\n");
    /// # Ok::<(), flatcarol::Refusal>(())
    /// ```
    ///
    /// # Errors
    ///
    /// Refusals 2 and 4. A mesh without triangles is allowed.
    pub fn to_frames(&self) -> Result<Vec<u8>, Refusal> {
        let lent = Counts::to_lend_for(self.vertices, &self.list, Limits::TRIANGLES);
        let mut bytes = vec![0; lent.frame_bytes()];
        write_frames(self.vertices, &self.list, &mut bytes)?;
        Ok(bytes)
    }

    /// Reads a mesh of so many vertices from its index text, which may be a string or bytes. See [`read_index`].
    ///
    /// ```
    /// use flatcarol::{Mesh, Refusal};
    ///
    /// let mesh = Mesh::from_index(4, "0, 1, 2, -1,\n0, 2, 3")?;
    /// assert_eq!(mesh, Mesh::new(4, [0, 1, 2, 0, 2, 3]));
    /// // Two corners, and the text is at its end.
    /// assert_eq!(Mesh::from_index(4, b"0 1"), Err(Refusal::TextNotAsRequired { byte: 3 }));
    /// # Ok::<(), Refusal>(())
    /// ```
    ///
    /// # Errors
    ///
    /// Refusals 14 and 4.
    pub fn from_index(vertices: usize, text: impl AsRef<[u8]>) -> Result<Mesh, Refusal> {
        let text = text.as_ref();
        let mut list = vec![0; index_entries_at_most(text)];
        let counts = read_index(vertices, text, &mut list)?;
        Ok(Mesh::cut(counts, list))
    }

    /// Writes it as an index text, which is ASCII. See [`write_index`].
    ///
    /// ```
    /// use flatcarol::Mesh;
    ///
    /// let text = Mesh::new(4, [0, 1, 2, 0, 2, 3]).to_index()?;
    /// assert_eq!(text, b"0 1 2 -1 0 2 3 -1");
    /// # Ok::<(), flatcarol::Refusal>(())
    /// ```
    ///
    /// # Errors
    ///
    /// Refusals 2 and 4. A mesh without triangles is allowed, and has an empty text.
    pub fn to_index(&self) -> Result<Vec<u8>, Refusal> {
        let lent = Counts::to_lend_for(self.vertices, &self.list, Limits::TRIANGLES);
        let mut text = vec![0; lent.index_bytes_at_most()];
        let written = write_index(self.vertices, &self.list, &mut text)?;
        text.truncate(written.bytes);
        text.shrink_to_fit();
        Ok(text)
    }

    // The mesh of these counts, whose list is the first entries of `list`.
    fn cut(counts: Counts, mut list: Vec<u16>) -> Mesh {
        list.truncate(counts.entries());
        list.shrink_to_fit();
        Mesh { vertices: counts.vertices, list }
    }
}
