//! Calls with a room that is large enough allocate nothing.

use flatcarol::{read_frames, read_index, split, undo_one, undo_several, write_frames, write_index, Asked, OneOutputs, Room};
use std::alloc::{GlobalAlloc, Layout, System};
use std::cell::Cell;

// Counts what each thread allocates, so that a thread of the test's own runner is not counted.
struct Counting;

thread_local! {
    static ALLOCATIONS: Cell<usize> = const { Cell::new(0) };
}

// SAFETY: the system's allocator does the work. Memory that is zeroed or grown comes through `alloc` as well, by the trait's own
// functions for these.
unsafe impl GlobalAlloc for Counting {
    unsafe fn alloc(&self, layout: Layout) -> *mut u8 {
        ALLOCATIONS.set(ALLOCATIONS.get() + 1);
        System.alloc(layout)
    }

    unsafe fn dealloc(&self, memory: *mut u8, layout: Layout) {
        System.dealloc(memory, layout)
    }
}

#[global_allocator]
static ALLOCATOR: Counting = Counting;

fn allocations(work: impl FnOnce()) -> usize {
    let before = ALLOCATIONS.get();
    work();
    ALLOCATIONS.get() - before
}

// Each call once, accepted, and one refusal, on buffers that no heap holds.
fn every_call(room: &mut Room) {
    let (mut fine, mut coarse, mut frames, mut text) = ([0; 12], [0; 12], [0; 71], [0; 84]);
    split(3, &[0, 1, 2], &mut fine, room).unwrap();

    let (mut mesh, mut vertex_map, mut triangle_map) = ([0; 3], [0; 6], [0; 4]);
    let out = OneOutputs { mesh: &mut mesh, vertex_map: &mut vertex_map, triangle_map: &mut triangle_map };
    undo_one(6, &fine, Asked::Least, out, room).unwrap();
    undo_several(6, &fine, 7, &mut coarse, room).unwrap();

    write_frames(6, &fine, &mut frames).unwrap();
    read_frames(&frames, &mut coarse).unwrap();
    let written = write_index(6, &fine, &mut text).unwrap();
    read_index(6, &text[..written.bytes], &mut coarse).unwrap();
    split(usize::MAX, &fine, &mut coarse, room).unwrap_err();
}

#[test]
fn repeated_calls_allocate_nothing() {
    let mut room = Room::new();
    assert_ne!(allocations(|| every_call(&mut room)), 0, "an empty room grows");
    assert_eq!(allocations(|| (0..100).for_each(|_| every_call(&mut room))), 0);
}

#[test]
fn a_room_made_for_a_mesh_is_large_enough() {
    let mut room = Room::with_capacity_for(6, 4);
    assert_eq!(allocations(|| every_call(&mut room)), 0);
}
