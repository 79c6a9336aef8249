//! Document 01, "Frames".

use crate::shapes::{refused_at, sample, split_times, triangle};
use flatcarol::{Limits, Mesh, Refusal};

const SAMPLE: &[u8] = include_bytes!("../../../samples/example.frames");

#[test]
fn the_sample_is_read_and_written() {
    assert_eq!(Mesh::from_frames(SAMPLE), Ok(sample()));
    assert_eq!(sample().to_frames().unwrap(), SAMPLE);
}

#[test]
fn the_least_and_the_largest_mesh() {
    assert_eq!(Mesh::from_frames(b"4D00000000\n"), Ok(Mesh::new(0, [])));
    assert_eq!(Mesh::new(0, []).to_frames().unwrap(), b"4D00000000\n");

    let largest = split_times(triangle(), 7);
    let frames = largest.to_frames().unwrap();
    assert_eq!(frames.len(), 11 + 15 * Limits::TRIANGLES);
    assert_eq!(Mesh::from_frames(&frames), Ok(largest));
}

#[test]
fn wrong_lines_are_told() {
    assert_eq!(refused_at(b""), 0);
    assert_eq!(refused_at(b"4G00000000\n"), 0);
    assert_eq!(refused_at(b"4D00000000 \n"), 0);
    assert_eq!(refused_at(&SAMPLE[..SAMPLE.len() - 1]), 4);
    assert_eq!(refused_at(&[SAMPLE, b"\n"].concat()), 5);
    // The first line says 16,384 triangles, and only one line follows.
    assert_eq!(refused_at(b"4D00034000\n46000000010002\n"), 2);
}

#[test]
fn the_limits_are_judged() {
    assert_eq!(Mesh::from_frames(b"4D00034001\n"), Err(Refusal::TooLarge));
    assert_eq!(Mesh::from_frames(b"4D80000000\n"), Err(Refusal::TooLarge));
}
