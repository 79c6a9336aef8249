//! Reads cases from standard input and writes their answers to standard output, in the format of README.md, "Vectors".

use reference::{read_frames, read_index, split, undo_one, undo_several, write_frames, write_index};
use reference::{Answer, FramesAnswer, One, OneRoom, Search, Several};
use std::fmt::Write as _;
use std::io::{Read as _, Write as _};

/// "The list never becomes longer than 49,155 entries (16,385 triangles)".
const MOST_ENTRIES: usize = 49_155;
/// "The file is at most 262,144 bytes."
const MOST_BYTES: usize = 262_144;
/// "at most 344,072 bytes are lent" to command 11: 21 for each of 16,384 triangles, and 8 more.
const MOST_INDEX_BYTES: u64 = 344_072;
/// Up to this many triangles, both searches are run and must agree.
const BOTH_SEARCHES: usize = 16;

/// Numbers are below this one.
const LARGE: u128 = 18_446_744_073_709_551_610;
/// "spare is at most 8".
const MOST_SPARE: u64 = 8;
/// The work buffers of the library's calls (docs/ROOM.md).
const SPLIT_WORK: u64 = 5;
const ONE_WORK: u64 = 9;
const SEVERAL_WORK: u64 = 10;

/// The file is wrong from here on.
struct Wrong;

/// The numbers of a file of cases, one after the other.
struct Numbers<'a> {
    bytes: &'a [u8],
    at: usize,
}

impl Numbers<'_> {
    /// "Before a number there may be blanks, line feeds and comments; a comment goes from a `#` to its line feed."
    fn skip(&mut self) {
        while let Some(&b) = self.bytes.get(self.at) {
            if b == b'#' {
                while self.bytes.get(self.at).is_some_and(|&b| b != b'\n') {
                    self.at += 1;
                }
            } else if b == b' ' || b == b'\n' {
                self.at += 1;
            } else {
                return;
            }
        }
    }

    /// The next number, or None at the end of the file. "A number is one or more decimal digits, below 18,446,744,073,709,551,610".
    fn next(&mut self) -> Result<Option<u64>, Wrong> {
        self.skip();
        let begin = self.at;
        while self.bytes.get(self.at).is_some_and(|b| b.is_ascii_digit()) {
            self.at += 1;
        }
        match (&self.bytes[begin..self.at], self.bytes.get(self.at)) {
            ([], None) => Ok(None),
            ([], Some(_)) => Err(Wrong),
            (digits, _) => {
                let value = digits.iter().fold(0u128, |n, d| (10 * n + u128::from(d - b'0')).min(LARGE));
                u64::try_from(value).ok().filter(|_| value < LARGE).map(Some).ok_or(Wrong)
            }
        }
    }

    /// The next number within a command.
    fn argument(&mut self) -> Result<u64, Wrong> {
        self.next()?.ok_or(Wrong)
    }

    /// The next entry of a list.
    fn entry(&mut self) -> Result<u16, Wrong> {
        u16::try_from(self.argument()?).map_err(|_| Wrong)
    }

    /// "n bytes, which begin after the one byte that follows n."
    fn raw(&mut self, n: u64) -> Result<&[u8], Wrong> {
        let begin = self.at + 1;
        let end = usize::try_from(n).ok().and_then(|n| begin.checked_add(n)).ok_or(Wrong)?;
        self.at = end;
        self.bytes.get(begin..end).ok_or(Wrong)
    }
}

/// How buffers are lent: "each has `spare` entries more than it needs, but the buffer number `short`, counted from 1 in the order of
/// the call, has `fewer` entries fewer than it needs, or none".
#[derive(Clone, Copy, Default)]
struct Lent {
    spare: usize,
    short: u64,
    fewer: u64,
}

impl Lent {
    /// The length of the buffer of this number, which needs so many entries.
    fn room(self, number: u64, need: usize) -> usize {
        if number == self.short {
            return (need as u64).saturating_sub(self.fewer) as usize;
        }
        need.saturating_add(self.spare)
    }

    /// The lengths of work buffers whose numbers go up from `first`.
    fn work(self, first: u64, count: u64, need: usize) -> Vec<usize> {
        (first..first + count).map(|number| self.room(number, need)).collect()
    }
}

/// "the number of entries, then a colon right after it, and then, each with one blank before it: the entries themselves if they are
/// at most 96; otherwise the first three entries, the last three, and a sum: begin with 0, and for each entry e in order
/// s := (31 s + e + 1) mod 1,000,003."
fn list_line(list: &[u16]) -> String {
    let mut line = format!("{}:", list.len());
    let numbers: Vec<u64> = if list.len() <= 96 {
        list.iter().map(|&e| e.into()).collect()
    } else {
        let sum = list.iter().fold(0, |s, &e| (31 * s + u64::from(e) + 1) % 1_000_003);
        list[..3].iter().chain(&list[list.len() - 3..]).map(|&e| e.into()).chain([sum]).collect()
    };
    for n in numbers {
        let _ = write!(line, " {n}");
    }
    line + "\n"
}

/// The numbers that the line of every split and undo has.
fn numbers_of(a: Answer) -> String {
    format!("{} {} {} {} {} {}", a.refusal, a.place, a.vertices, a.triangles, a.edges, a.boundary_edges)
}

/// The numbers that the line of everything read and written has.
fn frames_numbers_of(a: FramesAnswer) -> String {
    format!("{} {} {} {}", a.refusal, a.place, a.vertices, a.triangles)
}

/// The present mesh, and how buffers are lent.
#[derive(Default)]
struct Present {
    vertices: u64,
    list: Vec<u16>,
    lent: Lent,
}

impl Present {
    fn triangles(&self) -> usize {
        self.list.len() / 3
    }

    /// Each work buffer needs V + 3F entries.
    fn work_need(&self) -> usize {
        (self.vertices as usize).saturating_add(3 * self.triangles())
    }

    /// The mesh takes the place of this one.
    fn take(&mut self, vertices: u64, list: Vec<u16>) {
        self.vertices = vertices;
        self.list = list;
    }

    /// Appends the answer of a call that reads, and if accepted the mesh, which takes the place of this one.
    fn take_read(&mut self, call: &str, (a, list): (FramesAnswer, Vec<u16>), text: &mut String) {
        let _ = writeln!(text, "{call} {}", frames_numbers_of(a));
        if a.refusal == 0 {
            *text += &list_line(&list);
            self.take(a.vertices, list);
        }
    }

    /// By spreading, and for small meshes by both searches, which must agree.
    fn by_search<T: PartialEq>(&self, call: impl Fn(Search) -> T) -> T {
        let answer = call(Search::Spreading);
        if self.triangles() <= BOTH_SEARCHES {
            assert!(call(Search::Exhaustive) == answer, "the two searches differ: V = {}, {:?}", self.vertices, self.list);
        }
        answer
    }

    fn split(&self) -> (Answer, Vec<u16>) {
        let out = self.lent.room(1, 12 * self.triangles());
        split(self.vertices, &self.list, out, &self.lent.work(2, SPLIT_WORK, self.work_need()))
    }

    fn undo_one(&self, asked: u64) -> One {
        let f = self.triangles();
        let room = OneRoom {
            mesh: self.lent.room(1, 3 * (f / 4)),
            vertex_map: self.lent.room(2, self.vertices as usize),
            triangle_map: self.lent.room(3, f),
        };
        let work = self.lent.work(4, ONE_WORK, self.work_need());
        self.by_search(|search| undo_one(self.vertices, &self.list, asked, room, &work, search))
    }

    fn undo_several(&self, asked: u64) -> Several {
        let out = self.lent.room(1, 3 * self.triangles());
        let work = self.lent.work(2, SEVERAL_WORK, self.work_need());
        self.by_search(|search| undo_several(self.vertices, &self.list, asked, out, &work, search))
    }

    /// The answer's line, and all that was lent: "a byte that is as it was lent shows as a hyphen".
    fn write(&self) -> String {
        let room = self.lent.room(1, 11 + 15 * self.triangles());
        let (a, bytes) = write_frames(self.vertices, &self.list, room);
        format!("write {}\n{}\n", frames_numbers_of(a), all_lent(bytes, room, "-"))
    }

    /// The same of an index text, with its length: "a byte that is as it was lent shows as a dot".
    fn write_index(&self, asked_room: u64) -> String {
        let room = asked_room.min(MOST_INDEX_BYTES) as usize;
        let (a, bytes) = write_index(self.vertices, &self.list, room);
        format!("write-index {} {}\n{}\n", frames_numbers_of(a), bytes.len(), all_lent(bytes, room, "."))
    }
}

/// What was written, and in place of each byte that is as it was lent a sign.
fn all_lent(written: Vec<u8>, room: usize, sign: &str) -> String {
    let kept = sign.repeat(room - written.len());
    String::from_utf8(written).expect("what is written is text") + &kept
}

/// Carries out one command after the other until the text ends, and appends the answers.
fn answer(bytes: &[u8], text: &mut String) -> Result<(), Wrong> {
    if bytes.len() > MOST_BYTES {
        return Err(Wrong);
    }
    let mut numbers = Numbers { bytes, at: 0 };
    let mut present = Present::default();
    while let Some(command) = numbers.next()? {
        match command {
            1 => {
                let vertices = numbers.argument()?;
                let n = numbers.argument()?;
                if n > MOST_ENTRIES as u64 {
                    return Err(Wrong);
                }
                let list = (0..n).map(|_| numbers.entry()).collect::<Result<_, _>>()?;
                present.take(vertices, list);
            }
            2 => {
                if present.list.len() + 3 > MOST_ENTRIES {
                    return Err(Wrong);
                }
                let corners = [numbers.entry()?, numbers.entry()?, numbers.entry()?];
                present.list.extend(corners);
            }
            3 => {
                let (a, list) = present.split();
                let _ = writeln!(text, "split {}", numbers_of(a));
                if a.refusal == 0 {
                    *text += &list_line(&list);
                    present.take(a.vertices, list);
                }
            }
            4 => {
                let asked = numbers.argument()?;
                let one = present.undo_one(asked);
                let _ = writeln!(text, "one {asked} {} {}", numbers_of(one.answer), one.role);
                if one.answer.refusal == 0 {
                    for list in [&one.mesh, &one.vertex_map, &one.triangle_map] {
                        *text += &list_line(list);
                    }
                }
            }
            5 | 6 => {
                let asked = numbers.argument()?;
                let several = present.undo_several(asked);
                let a = several.answer;
                let _ = write!(text, "several {asked} {} {}", numbers_of(a), several.levels);
                for role in several.roles {
                    let _ = write!(text, " {role}");
                }
                *text += "\n";
                if a.refusal == 0 {
                    *text += &list_line(&several.mesh);
                    if command == 6 {
                        present.take(a.vertices, several.mesh);
                    }
                }
            }
            7 => {
                let spare = numbers.argument()?;
                if spare > MOST_SPARE {
                    return Err(Wrong);
                }
                present.lent = Lent { spare: spare as usize, short: numbers.argument()?, fewer: numbers.argument()? };
            }
            8 => {
                let (room, n) = (numbers.argument()?, numbers.argument()?);
                present.take_read("read", read_frames(numbers.raw(n)?, room as usize), text);
            }
            9 => *text += &present.write(),
            10 => {
                let (vertices, room, n) = (numbers.argument()?, numbers.argument()?, numbers.argument()?);
                present.take_read("read-index", read_index(vertices, numbers.raw(n)?, room as usize), text);
            }
            11 => *text += &present.write_index(numbers.argument()?),
            _ => return Err(Wrong),
        }
    }
    Ok(())
}

fn main() -> std::io::Result<()> {
    let mut bytes = Vec::new();
    std::io::stdin().read_to_end(&mut bytes)?;
    let mut text = String::new();
    if answer(&bytes, &mut text).is_err() {
        text += "wrong\n";
    }
    std::io::stdout().write_all(text.as_bytes())
}
