//! Refusals 1 to 4, which are judged from numbers alone, and how much a room grows for them.

use crate::shapes::{sample, split_times, strip, triangle};
use flatcarol::{Asked, Limits, Mesh, Refusal, Room};

// What split, both undos and writing say.
fn all_refuse(mesh: &Mesh, room: &mut Room, refusal: Refusal) {
    assert_eq!(mesh.split(room), Err(refusal));
    assert_eq!(mesh.undo_one(Asked::Least, room), Err(refusal));
    assert_eq!(mesh.undo_several(7, room), Err(refusal));
    assert_eq!(mesh.to_frames(), Err(refusal));
    assert_eq!(mesh.to_index(), Err(refusal));
}

// How many entries a room has, as it shows itself.
fn size(room: &Room) -> String {
    format!("{room:?}")
}

#[test]
fn what_is_asked() {
    let mut room = Room::new();
    for role in [4, 5, u8::MAX] {
        assert_eq!(sample().undo_one(Asked::Role(role), &mut room), Err(Refusal::AskedTooMuch), "role {role}");
    }
    for levels in [Limits::LEVELS + 1, usize::MAX] {
        assert_eq!(sample().undo_several(levels, &mut room), Err(Refusal::AskedTooMuch), "{levels} levels");
    }
    // 1 comes before 2.
    assert_eq!(Mesh::new(3, [0, 1]).undo_one(Asked::Role(5), &mut room), Err(Refusal::AskedTooMuch));
}

#[test]
fn lengths() {
    all_refuse(&Mesh::new(3, [0, 1, 2, 0]), &mut Room::new(), Refusal::NotThrees);
    let none = Mesh::new(3, []);
    assert_eq!(none.split(&mut Room::new()), Err(Refusal::NoTriangle));
    assert_eq!(none.undo_one(Asked::Least, &mut Room::new()), Err(Refusal::NoTriangle));
    assert_eq!(none.undo_several(0, &mut Room::new()), Err(Refusal::NoTriangle));
}

#[test]
fn vertices() {
    let mut room = Room::new();
    for vertices in [Limits::VERTICES + 1, 65_539, usize::MAX / 12, usize::MAX - 3, usize::MAX] {
        all_refuse(&Mesh::new(vertices, [0, 1, 2]), &mut room, Refusal::TooLarge);
    }
    assert_eq!(size(&room), size(&Room::new()), "a mesh above the limits needs no room");
    assert_eq!(Mesh::new(Limits::VERTICES, [0, 1, 2]).split(&mut room), Err(Refusal::InNoTriangle { vertex: 3 }));
}

#[test]
fn triangles() {
    let mut room = Room::new();
    all_refuse(&Mesh::new(3, vec![0; 3 * (Limits::TRIANGLES + 1)]), &mut room, Refusal::TooLarge);
    assert_eq!(strip(4_097).split(&mut room), Err(Refusal::TooLarge));
    assert_eq!(size(&room), size(&Room::new()), "a mesh above the limits needs no room");

    let fine = strip(4_096).split(&mut room).unwrap().fine;
    assert_eq!(fine.list.len(), 3 * Limits::TRIANGLES);
    assert_eq!(fine.undo_one(Asked::Least, &mut room).unwrap().coarse, strip(4_096));
}

#[test]
fn a_room_is_never_larger_than_the_largest_mesh_needs() {
    assert_eq!(size(&Room::with_capacity_for(usize::MAX, usize::MAX)), "Room { entries: 819190 }");
    assert_eq!(size(&Room::with_capacity_for(3, 1)), "Room { entries: 60 }");
}

#[test]
fn a_room_serves_meshes_of_any_size_in_any_order() {
    let mut room = Room::new();
    for times in [1, 4, 2, 5, 1] {
        let fine = split_times(triangle(), times);
        assert_eq!(fine.undo_several(7, &mut room).unwrap().levels(), times);
        assert_eq!(triangle().split(&mut room).unwrap().fine, split_times(triangle(), 1));
    }
}
