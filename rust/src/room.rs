use crate::raw::{Work, SEVERAL_WORK};
use crate::{Counts, Limits};
use std::fmt;
use std::mem;

/// The work buffers of the calls, in one allocation that is kept between calls.
///
/// A room serves any call and any mesh. It grows when a mesh needs more than it has, to at most 1,600 KiB (819,190 entries of 16
/// bits for the largest mesh), and never shrinks: drop it to free the memory. Keep one for each thread that makes calls.
///
/// ```
/// use flatcarol::{split, Room};
///
/// let mut room = Room::new();
/// let mut fine = [0; 12];
/// for list in [[0, 1, 2], [2, 0, 1]] {
///     // Only the first call allocates.
///     split(3, &list, &mut fine, &mut room)?;
/// }
/// # Ok::<(), flatcarol::Refusal>(())
/// ```
#[derive(Default)]
pub struct Room {
    entries: Vec<u16>,
}

impl Room {
    /// An empty room: it allocates nothing until the first call.
    ///
    /// ```
    /// use flatcarol::{Mesh, Room};
    ///
    /// let mut room = Room::new();
    /// assert!(Mesh::new(3, [0, 1, 2]).split(&mut room).is_ok());
    /// ```
    pub const fn new() -> Room {
        Room { entries: Vec::new() }
    }

    /// A room that need not grow for meshes with up to so many vertices and triangles, whatever the call. What is above the
    /// [`Limits`] counts as the limit.
    ///
    /// ```
    /// use flatcarol::{Limits, Mesh, Room};
    ///
    /// let mut largest = Room::with_capacity_for(Limits::VERTICES, Limits::TRIANGLES);
    /// assert!(Mesh::new(3, [0, 1, 2]).split(&mut largest).is_ok());
    /// ```
    pub fn with_capacity_for(vertices: usize, triangles: usize) -> Room {
        let mut room = Room::new();
        let most = Counts { vertices: vertices.min(Limits::VERTICES), triangles: triangles.min(Limits::TRIANGLES) };
        // Undo several has the most work buffers.
        room.lend::<SEVERAL_WORK>(most);
        room
    }

    // Lends a mesh's work buffers, each as long as docs/ROOM.md says and no longer, since a call clears all that it is lent. The
    // counts must be within the limits.
    pub(crate) fn lend<const N: usize>(&mut self, mesh: Counts) -> Work<'_, N> {
        let each = mesh.vertices + mesh.entries();
        if self.entries.len() < N * each {
            // Not resized, since that would copy what nobody needs.
            self.entries = vec![0; N * each];
        }
        let mut rest = self.entries.as_mut_slice();
        std::array::from_fn(|_| {
            let (buffer, behind) = mem::take(&mut rest).split_at_mut(each);
            rest = behind;
            buffer
        })
    }
}

impl fmt::Debug for Room {
    // Its size; what stands in it means nothing.
    fn fmt(&self, text: &mut fmt::Formatter) -> fmt::Result {
        text.debug_struct("Room").field("entries", &self.entries.len()).finish()
    }
}
