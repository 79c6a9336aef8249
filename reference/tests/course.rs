//! The answers that stand beside the meshes of the course are this implementation's.

use std::collections::BTreeSet;
use std::fs;
use std::path::{Path, PathBuf};

fn folder() -> PathBuf {
    Path::new(env!("CARGO_MANIFEST_DIR")).join("../samples/course")
}

/// The files of the course with this ending, without it.
fn samples(ending: &str) -> BTreeSet<PathBuf> {
    let files = fs::read_dir(folder()).unwrap().map(|file| file.unwrap().path());
    files.filter(|path| path.extension().is_some_and(|kind| kind == ending)).map(|path| path.with_extension("")).collect()
}

#[test]
fn answers_of_the_course() {
    let meshes = samples("frames");
    assert!(!meshes.is_empty());
    assert_eq!(samples("answer"), meshes, "each mesh has an answer, and each answer a mesh");
    let read = |sample: &Path, ending| fs::read(sample.with_extension(ending)).unwrap();
    let is_wrong = |sample: &&PathBuf| reference::program(&read(sample, "frames")) != read(sample, "answer");
    let wrong: Vec<&PathBuf> = meshes.iter().filter(is_wrong).collect();
    assert!(wrong.is_empty(), "other answers: {wrong:?}");
}
