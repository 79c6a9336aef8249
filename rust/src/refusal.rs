use crate::Limits;
use std::error::Error;
use std::fmt;

/// Why a call was refused: document 01's table, to which document 02 adds 14 and 15, with the place where the table names one.
///
/// Refusals are checked in the order of their numbers, each over the whole mesh, and the place is the least at which the refusal is
/// due. What is read is judged first, as far as it says how large the mesh is: 12 for the first line of frames, and 14; and 15 is given
/// in place of 11. A refused call has written to no buffer of the caller's.
///
/// ```
/// use flatcarol::{Mesh, Refusal, Room};
///
/// let loose = Mesh::new(4, [0, 1, 2]);
/// let refusal = loose.split(&mut Room::new()).unwrap_err();
/// assert_eq!(refusal, Refusal::InNoTriangle { vertex: 3 });
/// assert_eq!(refusal.to_string(), "refusal 9: vertex 3 is in no triangle");
/// ```
#[derive(Clone, Copy, Debug, PartialEq, Eq, Hash)]
pub enum Refusal {
    /// 1: a role above 3 or more than 7 levels were asked.
    AskedTooMuch,
    /// 2: the list's length is not a multiple of 3.
    NotThrees,
    /// 3: the list is empty.
    NoTriangle,
    /// 4: the mesh is above the [`Limits`].
    TooLarge,
    /// 5: a buffer of the caller's is shorter than the call needs.
    TooShort,
    /// 6: a corner is not below the number of vertices.
    CornerNotBelow {
        /// The least triangle with such a corner.
        triangle: usize,
    },
    /// 7: a triangle has two equal corners.
    EqualCorners {
        /// The least such triangle.
        triangle: usize,
    },
    /// 8: a triangle has the same three vertices as an earlier one, in whatever order.
    SameAsEarlier {
        /// The least such triangle, which is the later one.
        triangle: usize,
    },
    /// 9: a vertex is in no triangle.
    InNoTriangle {
        /// The least such vertex.
        vertex: usize,
    },
    /// 10: a triangle is not connected to triangle 0 by steps over shared edges.
    NotConnected {
        /// The least such triangle.
        triangle: usize,
    },
    /// 11: the mesh has no reading in the role asked; where the least was asked, in no role.
    NoReading,
    /// 12: a line is not the frame that is required there.
    FrameNotAsRequired {
        /// The least such line, from 0. Where lines run out it is the first that is missing.
        line: usize,
    },
    /// 13: the input is too long. Only the program `unsplit` gives it, and no function of this crate.
    InputTooLong,
    /// 14: an index text is not of its form, has a corner above 65,535 or a face that has not three corners.
    TextNotAsRequired {
        /// The first byte of the first number, or what stands in the place of one, that is at fault: a fourth corner and an early -1
        /// too. If none is, and the last face lacks a corner, the length of the text.
        byte: usize,
    },
    /// 15, in place of 11: the mesh has a reading in a role that was asked if winding is ignored, and in none with it.
    InsideOut {
        /// The least triangle that goes the other way round than in the splitting of the mesh behind it, in the least such role. That
        /// mesh goes round as the centres do: where a centre is turned, the least of its three corner triangles.
        triangle: usize,
    },
}

impl Refusal {
    /// The refusal of this number at this place. `None` for 0, which says accepted, and for a number that the table does not have.
    /// The place of a refusal that has none is not looked at.
    ///
    /// ```
    /// use flatcarol::Refusal;
    ///
    /// assert_eq!(Refusal::from_number(10, 1), Some(Refusal::NotConnected { triangle: 1 }));
    /// assert_eq!(Refusal::from_number(0, 0), None);
    /// assert_eq!(Refusal::from_number(16, 0), None);
    /// ```
    pub fn from_number(number: u64, place: usize) -> Option<Refusal> {
        Some(match number {
            1 => Refusal::AskedTooMuch,
            2 => Refusal::NotThrees,
            3 => Refusal::NoTriangle,
            4 => Refusal::TooLarge,
            5 => Refusal::TooShort,
            6 => Refusal::CornerNotBelow { triangle: place },
            7 => Refusal::EqualCorners { triangle: place },
            8 => Refusal::SameAsEarlier { triangle: place },
            9 => Refusal::InNoTriangle { vertex: place },
            10 => Refusal::NotConnected { triangle: place },
            11 => Refusal::NoReading,
            12 => Refusal::FrameNotAsRequired { line: place },
            13 => Refusal::InputTooLong,
            14 => Refusal::TextNotAsRequired { byte: place },
            15 => Refusal::InsideOut { triangle: place },
            _ => return None,
        })
    }

    /// Its number in the table.
    ///
    /// ```
    /// assert_eq!(flatcarol::Refusal::NoReading.number(), 11);
    /// ```
    pub fn number(self) -> u64 {
        self.row().0
    }

    /// The triangle, vertex, line or byte that it names, and 0 where it names none.
    ///
    /// ```
    /// use flatcarol::Refusal;
    ///
    /// assert_eq!(Refusal::InNoTriangle { vertex: 3 }.place(), 3);
    /// assert_eq!(Refusal::NoReading.place(), 0);
    /// ```
    pub fn place(self) -> usize {
        self.row().1
    }

    // Number and place.
    fn row(self) -> (u64, usize) {
        match self {
            Refusal::AskedTooMuch => (1, 0),
            Refusal::NotThrees => (2, 0),
            Refusal::NoTriangle => (3, 0),
            Refusal::TooLarge => (4, 0),
            Refusal::TooShort => (5, 0),
            Refusal::CornerNotBelow { triangle } => (6, triangle),
            Refusal::EqualCorners { triangle } => (7, triangle),
            Refusal::SameAsEarlier { triangle } => (8, triangle),
            Refusal::InNoTriangle { vertex } => (9, vertex),
            Refusal::NotConnected { triangle } => (10, triangle),
            Refusal::NoReading => (11, 0),
            Refusal::FrameNotAsRequired { line } => (12, line),
            Refusal::InputTooLong => (13, 0),
            Refusal::TextNotAsRequired { byte } => (14, byte),
            Refusal::InsideOut { triangle } => (15, triangle),
        }
    }
}

impl fmt::Display for Refusal {
    fn fmt(&self, text: &mut fmt::Formatter) -> fmt::Result {
        write!(text, "refusal {}: ", self.number())?;
        match self {
            Refusal::AskedTooMuch => write!(text, "roles are 0 to 3, and at most {} levels are undone", Limits::LEVELS),
            Refusal::NotThrees => write!(text, "the list's length is not a multiple of 3"),
            Refusal::NoTriangle => write!(text, "the list has no triangle"),
            Refusal::TooLarge => write!(
                text,
                "a mesh has at most {} vertices and {} triangles, and {} triangles to be split",
                Limits::VERTICES,
                Limits::TRIANGLES,
                Limits::SPLIT_TRIANGLES
            ),
            Refusal::TooShort => write!(text, "a lent buffer is shorter than needed"),
            Refusal::CornerNotBelow { triangle } => {
                write!(text, "triangle {triangle} has a corner that is not below the number of vertices")
            }
            Refusal::EqualCorners { triangle } => write!(text, "triangle {triangle} has two equal corners"),
            Refusal::SameAsEarlier { triangle } => {
                write!(text, "triangle {triangle} has the same three vertices as an earlier triangle")
            }
            Refusal::InNoTriangle { vertex } => write!(text, "vertex {vertex} is in no triangle"),
            Refusal::NotConnected { triangle } => {
                write!(text, "triangle {triangle} is not connected to triangle 0 over shared edges")
            }
            Refusal::NoReading => write!(text, "the mesh is no split mesh in the role asked (for the least: in any role)"),
            Refusal::FrameNotAsRequired { line } => {
                write!(text, "line {line}, counted from 0, is not the frame that is required there")
            }
            Refusal::InputTooLong => write!(text, "the program reads at most {} bytes", Limits::PROGRAM_BYTES),
            Refusal::TextNotAsRequired { byte } => write!(
                text,
                "the index text is at fault at byte {byte}, counted from 0: faces have three corners up to {} and end with -1",
                Limits::CORNER
            ),
            Refusal::InsideOut { triangle } => {
                write!(text, "triangle {triangle} is inside out: the mesh is a split mesh only if winding is ignored")
            }
        }
    }
}

impl Error for Refusal {}
