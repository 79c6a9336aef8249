//! Buffers of the caller's: a shorter one than needed is refusal 5 and leaves all as it was, and what is longer keeps its rest.

use crate::shapes::{sample, split_times, triangle};
use flatcarol::{read_frames, split, undo_one, undo_several, write_frames, Asked, Mesh, OneOutputs, Refusal, Room};

const MARK: u16 = 0xABCD;
const BYTE_MARK: u8 = 0xEF;

// The three outputs of undo one on the sample, where it gives as many entries as are lent.
fn undo_sample(lent: [usize; 3], asked: Asked) -> (Result<u8, Refusal>, [Vec<u16>; 3]) {
    let mut buffers = lent.map(|entries| vec![MARK; entries]);
    let [mesh, vertex_map, triangle_map] = &mut buffers;
    let Mesh { vertices, list } = sample();
    let reading = undo_one(vertices, &list, asked, OneOutputs { mesh, vertex_map, triangle_map }, &mut Room::new());
    (reading.map(|reading| reading.role), buffers)
}

fn untouched(buffers: &[Vec<u16>]) -> bool {
    buffers.iter().flatten().all(|&entry| entry == MARK)
}

#[test]
fn split_needs_twelve_entries_a_triangle() {
    let mut out = [MARK; 14];
    assert_eq!(split(3, &[0, 1, 2], &mut out[..11], &mut Room::new()), Err(Refusal::TooShort));
    assert_eq!(split(4, &[0, 1, 2], &mut out, &mut Room::new()), Err(Refusal::InNoTriangle { vertex: 3 }));
    assert_eq!(out, [MARK; 14]);

    let entries = split(3, &[0, 1, 2], &mut out, &mut Room::new()).unwrap().fine.entries();
    assert_eq!(out[..entries], split_times(triangle(), 1).list);
    assert_eq!(out[entries..], [MARK; 2]);
}

#[test]
fn undo_one_needs_its_three_outputs() {
    for lent in [[2, 6, 4], [3, 5, 4], [3, 6, 3], [0, 0, 0]] {
        let (role, buffers) = undo_sample(lent, Asked::Least);
        assert_eq!(role, Err(Refusal::TooShort), "{lent:?}");
        assert!(untouched(&buffers), "{lent:?}");
    }
    let (role, buffers) = undo_sample([3, 6, 4], Asked::Role(0));
    assert_eq!(role, Err(Refusal::NoReading));
    assert!(untouched(&buffers));

    let (role, buffers) = undo_sample([4, 7, 5], Asked::Least);
    assert_eq!(role, Ok(1));
    assert_eq!(buffers, [vec![0, 2, 1, MARK], vec![4, 5, 0, 3, 1, 2, MARK], vec![2, 3, 0, 1, MARK]]);
}

#[test]
fn undo_several_needs_as_many_entries_as_the_list() {
    let Mesh { vertices, list } = sample();
    let mut out = [MARK; 13];
    assert_eq!(undo_several(vertices, &list, 7, &mut out[..11], &mut Room::new()), Err(Refusal::TooShort));
    assert_eq!(undo_several(vertices, &list, 8, &mut out, &mut Room::new()), Err(Refusal::AskedTooMuch));
    assert_eq!(out, [MARK; 13]);

    let undone = undo_several(vertices, &list, 7, &mut out, &mut Room::new()).unwrap();
    assert_eq!((undone.coarse.vertices, undone.levels, undone.roles), (3, 1, [1, 0, 0, 0, 0, 0, 0]));
    assert_eq!(out[..3], [0, 2, 1]);
    assert_eq!(out[3..], [MARK; 10]);
}

#[test]
fn frames_need_their_length() {
    let mut list = [MARK; 4];
    let frames = b"4D00030001\n46000000010002\n";
    assert_eq!(read_frames(frames, &mut list[..2]), Err(Refusal::TooShort));
    assert_eq!(read_frames(&frames[..25], &mut list), Err(Refusal::FrameNotAsRequired { line: 1 }));
    assert_eq!(list, [MARK; 4]);
    read_frames(frames, &mut list).unwrap();
    assert_eq!(list, [0, 1, 2, MARK]);

    let mut bytes = [BYTE_MARK; 27];
    assert_eq!(write_frames(3, &[0, 1, 2], &mut bytes[..25]), Err(Refusal::TooShort));
    assert_eq!(bytes, [BYTE_MARK; 27]);
    let counts = write_frames(3, &[0, 1, 2], &mut bytes).unwrap();
    assert_eq!(bytes[..counts.frame_bytes()], *frames);
    assert_eq!(bytes[26..], [BYTE_MARK]);
}
