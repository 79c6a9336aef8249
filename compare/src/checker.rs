// One call on one input, by the calls under test on guarded buffers and by the reference, compared in everything: the answer, every
// entry of every lent buffer, and the input.
use std::fmt::Debug;

use flatcarol::raw::{Answer, FramesAnswer, OneAnswer, OneOutputs, SeveralAnswer, TextAnswer, SEVERAL_WORK};
use reference::{OneRoom, Search};

use crate::calls::Calls;
use crate::cover::{Call, Cover};
use crate::frames;
use crate::guarded::{Buffer, Entry, Side};
use crate::meshes::Mesh;
use crate::random::Random;
use crate::room::{Room, MOST};

// What was different, in words, with the call and its whole input.
pub type Checked = Result<(), String>;

// What undo one is asked for the least role, and what it refuses where only windings are at fault.
const LEAST: u64 = 4;
const INSIDE_OUT: u64 = 15;

// Up to so many triangles the reference also searches exhaustively.
const EXHAUSTIVE: usize = 12;

// The entries of a list that a report has in full.
const IN_FULL: usize = 600;

// The most bytes that are lent: more than the longest text has, an index text of many separators and comments.
const MOST_BYTES: usize = 5 * MOST;

const OUTPUTS: usize = 3;
// Undo several has the most work buffers.
const WORK: usize = SEVERAL_WORK;

pub struct Checker<'a> {
    calls: &'a dyn Calls,
    pub random: Random,
    pub cover: Cover,
    list: Buffer<u16>,
    outputs: [Buffer<u16>; OUTPUTS],
    work: [Buffer<u16>; WORK],
    bytes: Buffer<u8>,
    contents: Contents,
    // Where in `contents.noise` the entries of a mesh call's outputs begin.
    begin: usize,
}

// What buffers hold when they are lent, in tables, since copying and comparing a table is quick.
struct Contents {
    noise: Vec<u16>,
    noise_bytes: Vec<u8>,
    // Numbers that a call might take for its own.
    counting: Vec<u16>,
    greatest: Vec<u16>,
    zeros: Vec<u16>,
}

// The outputs of a case may begin at any of so many places of the noise.
const BEGINNINGS: usize = 1_000;

impl Contents {
    fn new() -> Contents {
        let mut random = Random::of_case(0, 0, 0);
        Contents {
            noise: (0..MOST + BEGINNINGS).map(|_| random.next() as u16).collect(),
            noise_bytes: (0..MOST_BYTES + BEGINNINGS).map(|_| random.next() as u8).collect(),
            counting: (0..MOST).map(|number| number as u16).collect(),
            greatest: vec![u16::MAX; MOST],
            zeros: vec![0; MOST],
        }
    }
}

// What a call answers, and what it writes to each output.
type Outcome<A> = (A, Vec<Vec<u16>>);

impl<'a> Checker<'a> {
    pub fn new(calls: &'a dyn Calls) -> Checker<'a> {
        Checker {
            calls,
            random: Random::of_case(0, 0, 0),
            cover: Cover::default(),
            list: Buffer::new(MOST),
            outputs: std::array::from_fn(|_| Buffer::new(MOST)),
            work: std::array::from_fn(|_| Buffer::new(MOST)),
            bytes: Buffer::new(MOST_BYTES),
            contents: Contents::new(),
            begin: 0,
        }
    }

    pub fn split(&mut self, mesh: &Mesh, room: &Room) -> Checked {
        self.compare_split(mesh, room).map_err(|what| report("split", mesh, room, &what))
    }

    pub fn undo_one(&mut self, mesh: &Mesh, asked: u64, room: &Room) -> Checked {
        let call = format!("undo one, asked {asked}");
        self.compare_undo_one(mesh, asked, room).map_err(|what| report(&call, mesh, room, &what))
    }

    pub fn undo_several(&mut self, mesh: &Mesh, asked: u64, room: &Room) -> Checked {
        let call = format!("undo several, asked {asked}");
        self.compare_undo_several(mesh, asked, room).map_err(|what| report(&call, mesh, room, &what))
    }

    fn compare_split(&mut self, mesh: &Mesh, room: &Room) -> Checked {
        let (expected, entries) = reference::split(mesh.vertices, &mesh.list, room.outputs[0], &room.work);
        self.lend(mesh, room);
        let Checker { calls, list, outputs: [out, ..], work, .. } = self;
        let found = calls.split(mesh.vertices, list.lent(), out.lent_mut(), slices(work));
        let Answer { refusal, place, triangles, edges, boundary_edges, .. } = answer_of(expected);
        self.cover.answer(Call::Split, refusal, place);
        if refusal == 0 {
            self.cover.edges(Call::Split, triangles, edges, boundary_edges);
        }
        self.judge(found, (answer_of(expected), vec![entries]), mesh, room)
    }

    fn compare_undo_one(&mut self, mesh: &Mesh, asked: u64, room: &Room) -> Checked {
        let expected = self.expected(mesh, |search| expected_one(mesh, asked, room, search))?;
        self.lend(mesh, room);
        let Checker { calls, list, outputs: [coarse, vertex_map, triangle_map], work, .. } = self;
        let [coarse, vertex_map, triangle_map] = [coarse, vertex_map, triangle_map].map(Buffer::lent_mut);
        let out = OneOutputs { mesh: coarse, vertex_map, triangle_map };
        let found = calls.undo_one(mesh.vertices, list.lent(), asked, out, slices(work));
        self.cover_undo_one(mesh, asked, room, expected.0);
        self.judge(found, expected, mesh, room)
    }

    fn cover_undo_one(&mut self, mesh: &Mesh, asked: u64, room: &Room, expected: OneAnswer) {
        let OneAnswer { refusal, place, triangles, edges, boundary_edges, role, .. } = expected;
        self.cover.answer(Call::UndoOne, refusal, place);
        match refusal {
            0 => {
                self.cover.edges(Call::UndoOne, triangles, edges, boundary_edges);
                self.cover.reading(asked, role);
                let is_inside_out = |role: u64| expected_one(mesh, role, room, Search::Spreading).0.refusal == INSIDE_OUT;
                if asked == LEAST && (0..role).any(is_inside_out) {
                    self.cover.passed_over();
                }
            }
            INSIDE_OUT => self.cover.inside_out(asked),
            _ => (),
        }
    }

    fn compare_undo_several(&mut self, mesh: &Mesh, asked: u64, room: &Room) -> Checked {
        let expected = self.expected(mesh, |search| expected_several(mesh, asked, room, search))?;
        self.lend(mesh, room);
        let Checker { calls, list, outputs: [out, ..], work, .. } = self;
        let found = calls.undo_several(mesh.vertices, list.lent(), asked, out.lent_mut(), slices(work));
        self.cover_undo_several(asked, &expected);
        self.judge(found, expected, mesh, room)
    }

    fn cover_undo_several(&mut self, asked: u64, (answer, written): &Outcome<SeveralAnswer>) {
        let SeveralAnswer { refusal, place, vertices, triangles, edges, boundary_edges, levels, roles } = *answer;
        self.cover.answer(Call::UndoSeveral, refusal, place);
        if refusal != 0 {
            return;
        }
        self.cover.edges(Call::UndoSeveral, triangles, edges, boundary_edges);
        self.cover.levels(levels, &roles);
        // Why it stopped is looked at once for a mesh.
        if asked == 7 && levels < asked {
            let left = Mesh::new(vertices, &written[0]);
            let one = expected_one(&left, LEAST, &Room::of_undo_one(&left), Search::Spreading).0;
            if one.refusal == INSIDE_OUT {
                self.cover.stopped_inside_out(levels);
            }
        }
    }

    pub fn read_frames(&mut self, bytes: &[u8], length: usize) -> Checked {
        let expected = reference::read_frames(bytes, length);
        self.read(Call::ReadFrames, bytes, length, expected, |calls, input, out| calls.read_frames(input, out))
    }

    // The beginnings of a text, each alone.
    pub fn read_cut_frames(&mut self, text: &[u8], length: usize) -> Checked {
        if read_by_reference(text).is_some() {
            self.cover.cut(text);
        }
        (0..text.len()).try_for_each(|end| self.read_frames(&text[..end], length))
    }

    // Of a text that is read: what was read is written in the normal spelling, and that is read as the same and written as it is.
    pub fn write_read_frames(&mut self, text: &[u8]) -> Checked {
        let Some(mesh) = read_by_reference(text) else { return Ok(()) };
        let normal = frames::normal(text);
        self.cover.spelling(text, &normal);
        if read_by_reference(&normal).as_ref() != Some(&mesh) {
            return Err(format!("the reference does not read {} as it reads its normal spelling", shown_bytes(text)));
        }
        for spelling in [text, &normal] {
            self.read_frames(spelling, mesh.list.len())?;
            self.write_frames(&mesh, normal.len())?;
            as_written("what is written", &self.bytes, &normal, &normal)
                .map_err(|what| format!("read frames, and write them again, of {}:\n{what}", shown_bytes(spelling)))?;
        }
        Ok(())
    }

    pub fn read_index(&mut self, vertices: u64, text: &[u8], length: usize) -> Checked {
        let expected = reference::read_index(vertices, text, length);
        self.read(Call::ReadIndex, text, length, expected, |calls, input, out| calls.read_index(vertices, input, out))
            .map_err(|what| format!("{vertices} vertices, {what}"))
    }

    pub fn write_frames(&mut self, mesh: &Mesh, length: usize) -> Checked {
        let (expected, bytes) = reference::write_frames(mesh.vertices, &mesh.list, length);
        self.cover.answer(Call::WriteFrames, expected.refusal, expected.place);
        let call = |calls: &dyn Calls, list: &[u16], out: &mut [u8]| calls.write_frames(mesh.vertices, list, out);
        self.write(Call::WriteFrames, mesh, length, (frames_answer_of(expected), bytes), call)
    }

    pub fn write_index(&mut self, mesh: &Mesh, length: usize) -> Checked {
        let (expected, text) = reference::write_index(mesh.vertices, &mesh.list, length);
        self.cover.answer(Call::WriteIndex, expected.refusal, expected.place);
        let FramesAnswer { refusal, place, vertices, triangles } = frames_answer_of(expected);
        let expected = TextAnswer { refusal, place, vertices, triangles, bytes: text.len() as u64 };
        let call = |calls: &dyn Calls, list: &[u16], out: &mut [u8]| calls.write_index(mesh.vertices, list, out);
        self.write(Call::WriteIndex, mesh, length, (expected, text), call)
    }

    // A call that reads bytes, with so many entries lent.
    fn read(
        &mut self,
        name: Call,
        bytes: &[u8],
        length: usize,
        (expected, entries): (reference::FramesAnswer, Vec<u16>),
        call: impl FnOnce(&dyn Calls, &[u8], &mut [u16]) -> FramesAnswer,
    ) -> Checked {
        let Checker { calls, random, bytes: input, outputs: [out, ..], contents, .. } = self;
        let before = &contents.noise[random.below(BEGINNINGS)..][..length];
        input.lend(bytes, side(random));
        out.lend(before, side(random));
        let found = call(*calls, input.lent(), out.lent_mut());
        self.cover.answer(name, expected.refusal, expected.place);
        same_answer(found, frames_answer_of(expected))
            .and_then(|()| as_written("the output", out, &entries, before))
            .and_then(|()| as_it_was("the input", input, bytes))
            .map_err(|what| format!("{}, {length} entries lent, of {}:\n{what}", name.name(), shown_bytes(bytes)))
    }

    // A call that writes bytes, with so many lent.
    fn write<A: PartialEq + Debug>(
        &mut self,
        name: Call,
        mesh: &Mesh,
        length: usize,
        (expected, bytes): (A, Vec<u8>),
        call: impl FnOnce(&dyn Calls, &[u16], &mut [u8]) -> A,
    ) -> Checked {
        let Checker { calls, random, list, bytes: out, contents, .. } = self;
        let before = &contents.noise_bytes[random.below(BEGINNINGS)..][..length];
        list.lend(&mesh.list, side(random));
        out.lend(before, side(random));
        let found = call(*calls, list.lent(), out.lent_mut());
        same_answer(found, expected)
            .and_then(|()| as_written("the output", out, &bytes, before))
            .and_then(|()| as_it_was("the input", list, &mesh.list))
            .map_err(|what| format!("{}, {length} bytes lent, of {}:\n{what}", name.name(), shown(mesh)))
    }

    // The reference's result. Of a small mesh it has two searches, which are compared with each other first.
    fn expected<A: PartialEq + Debug>(&mut self, mesh: &Mesh, result: impl Fn(Search) -> Outcome<A>) -> Result<Outcome<A>, String> {
        let spreading = result(Search::Spreading);
        if mesh.triangles() > EXHAUSTIVE {
            return Ok(spreading);
        }
        self.cover.both_searches();
        let exhaustive = result(Search::Exhaustive);
        if exhaustive != spreading {
            return Err(format!("the reference's searches differ: exhaustive {exhaustive:?}, spreading {spreading:?}"));
        }
        Ok(exhaustive)
    }

    // Lends the list and every buffer, each flush against one of its guards: outputs with noise, and work buffers dirty.
    fn lend(&mut self, mesh: &Mesh, room: &Room) {
        let Checker { random, list, outputs, work, contents, begin, .. } = self;
        *begin = random.below(BEGINNINGS);
        list.lend(&mesh.list, side(random));
        for (buffer, &length) in outputs.iter_mut().zip(&room.outputs) {
            buffer.lend(&contents.noise[*begin..][..length], side(random));
        }
        let dirt = random.pick(&[&contents.noise, &contents.noise, &contents.counting, &contents.greatest]);
        for (buffer, &length) in work.iter_mut().zip(&room.work) {
            buffer.lend(&dirt[..length], side(random));
        }
    }

    fn judge<A: PartialEq + Debug>(&self, found: A, (answer, written): Outcome<A>, mesh: &Mesh, room: &Room) -> Checked {
        same_answer(found, answer)?;
        for (number, entries) in written.iter().enumerate() {
            let before = &self.contents.noise[self.begin..][..room.outputs[number]];
            as_written(&format!("output {number}"), &self.outputs[number], entries, before)?;
        }
        for (number, &length) in room.work.iter().enumerate() {
            as_written(&format!("work buffer {number}"), &self.work[number], &[], &self.contents.zeros[..length])?;
        }
        as_it_was("the list", &self.list, &mesh.list)
    }
}

// Mostly the guard after it: a call that goes too far does so at the end.
fn side(random: &mut Random) -> Side {
    if random.one_in(4) {
        Side::Before
    } else {
        Side::Behind
    }
}

fn slices<const N: usize>(buffers: &mut [Buffer<u16>; WORK]) -> [&mut [u16]; N] {
    let mut buffers = buffers.iter_mut();
    std::array::from_fn(|_| buffers.next().map(Buffer::lent_mut).unwrap_or_default())
}

fn answer_of(answer: reference::Answer) -> Answer {
    let reference::Answer { refusal, place, vertices, triangles, edges, boundary_edges } = answer;
    Answer { refusal, place, vertices, triangles, edges, boundary_edges }
}

fn frames_answer_of(answer: reference::FramesAnswer) -> FramesAnswer {
    let reference::FramesAnswer { refusal, place, vertices, triangles } = answer;
    FramesAnswer { refusal, place, vertices, triangles }
}

// What the reference reads, if it accepts the text.
fn read_by_reference(text: &[u8]) -> Option<Mesh> {
    let (answer, list) = reference::read_frames(text, usize::MAX);
    (answer.refusal == 0).then_some(Mesh { vertices: answer.vertices, list })
}

fn expected_one(mesh: &Mesh, asked: u64, room: &Room, search: Search) -> Outcome<OneAnswer> {
    let one_room = OneRoom { mesh: room.outputs[0], vertex_map: room.outputs[1], triangle_map: room.outputs[2] };
    let one = reference::undo_one(mesh.vertices, &mesh.list, asked, one_room, &room.work, search);
    let Answer { refusal, place, vertices, triangles, edges, boundary_edges } = answer_of(one.answer);
    let answer = OneAnswer { refusal, place, vertices, triangles, edges, boundary_edges, role: one.role };
    (answer, vec![one.mesh, one.vertex_map, one.triangle_map])
}

fn expected_several(mesh: &Mesh, asked: u64, room: &Room, search: Search) -> Outcome<SeveralAnswer> {
    let several = reference::undo_several(mesh.vertices, &mesh.list, asked, room.outputs[0], &room.work, search);
    let Answer { refusal, place, vertices, triangles, edges, boundary_edges } = answer_of(several.answer);
    let reference::Several { levels, roles, mesh, .. } = several;
    (SeveralAnswer { refusal, place, vertices, triangles, edges, boundary_edges, levels, roles }, vec![mesh])
}

fn same_answer<A: PartialEq + Debug>(found: A, expected: A) -> Checked {
    if found == expected {
        Ok(())
    } else {
        Err(format!("answered {found:?}, expected {expected:?}"))
    }
}

// A buffer holds what was written, and after it what it held before.
fn as_written<T: Entry>(name: &str, buffer: &Buffer<T>, written: &[T], before: &[T]) -> Checked {
    let lent = buffer.lent();
    if lent.len() < written.len() {
        return Err(format!("{name} has room for {} entries, and {} are expected", lent.len(), written.len()));
    }
    let end = written.len();
    if lent[..end] != *written || lent[end..] != before[end..] {
        let expected = written.iter().chain(&before[end..]);
        let (place, (found, expected)) = lent.iter().zip(expected).enumerate().find(|(_, (one, other))| one != other).unwrap();
        return Err(format!("{name}, entry {place}, of which {end} are to be written, is {found:?}, expected {expected:?}"));
    }
    if !buffer.margin_is_whole() {
        return Err(format!("{name}: entries beside it were written"));
    }
    Ok(())
}

fn as_it_was<T: Entry>(name: &str, buffer: &Buffer<T>, given: &[T]) -> Checked {
    as_written(name, buffer, &[], given).map_err(|what| format!("{what}: the call wrote to what it only reads"))
}

fn report(call: &str, mesh: &Mesh, room: &Room, what: &str) -> String {
    let Room { outputs, work } = room;
    format!("{call}, outputs of {outputs:?} and work buffers of {work:?} entries lent, of {}:\n{what}", shown(mesh))
}

fn shown(mesh: &Mesh) -> String {
    let Mesh { vertices, list } = mesh;
    if list.len() <= IN_FULL {
        format!("{vertices} vertices, {list:?}")
    } else {
        format!("{vertices} vertices, {} entries (too many to show; the case can be made again)", list.len())
    }
}

fn shown_bytes(bytes: &[u8]) -> String {
    if bytes.len() <= 4 * IN_FULL {
        format!("\"{}\"", bytes.escape_ascii())
    } else {
        format!("{} bytes (too many to show; the case can be made again)", bytes.len())
    }
}
