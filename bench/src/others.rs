// Split by other libraries, each a program of its own that `others/` has the source of and `run` builds where the library is
// installed.
use std::io::Write;
use std::path::{Path, PathBuf};
use std::process::{Command, Stdio};

use crate::measure::{runs, REPETITIONS, ROUNDS};
use crate::meshes::{splitting, Mesh};

pub const NAMES: [&str; 2] = ["CGAL", "OpenSubdiv"];

pub enum Outcome {
    NotInstalled,
    // The library takes no such mesh.
    Refused,
    // In nanoseconds per input triangle: of the refinement alone, from its own mesh to its own mesh, and from list to list.
    Times { alone: Vec<f64>, whole: Vec<f64> },
}

impl Outcome {
    // With the times of another round.
    fn add(&mut self, other: Outcome) {
        match (self, other) {
            (Outcome::Times { alone, whole }, Outcome::Times { alone: more_alone, whole: more_whole }) => {
                alone.extend(more_alone);
                whole.extend(more_whole);
            }
            (outcome, other) => *outcome = other,
        }
    }
}

pub struct Others {
    programs: [Option<PathBuf>; NAMES.len()],
}

impl Others {
    // Those whose programs are in the folder, if there is one.
    pub fn below(folder: Option<&Path>) -> Others {
        let program = |name: &str| Some(folder?.join(name.to_lowercase())).filter(|path| path.exists());
        Others { programs: NAMES.map(program) }
    }

    pub fn measure(&self, meshes: &[&Mesh]) -> Vec<[Outcome; NAMES.len()]> {
        let mut outcomes: Vec<_> = meshes.iter().map(|_| [const { Outcome::NotInstalled }; NAMES.len()]).collect();
        for _ in 0..ROUNDS {
            for (mesh, outcomes) in meshes.iter().zip(&mut outcomes) {
                for (program, all) in self.programs.iter().zip(outcomes).filter_map(|(program, all)| Some((program.as_ref()?, all)))
                {
                    all.add(outcome(program, mesh));
                }
            }
        }
        outcomes
    }
}

fn outcome(program: &Path, mesh: &Mesh) -> Outcome {
    let triangles = mesh.list.len() / 3;
    let numbers = [mesh.vertices, triangles, REPETITIONS, runs(4 * triangles)];
    let words = numbers.into_iter().chain(mesh.list.iter().map(|&corner| corner as usize));
    let said = run(program, &words.map(|word| word.to_string()).collect::<Vec<_>>().join(" "));
    let mut lines = said.lines();
    let first = lines.next().expect("a first line");
    if first == "refused" {
        return Outcome::Refused;
    }
    let (vertices, fours) = splitting(mesh.vertices, &mesh.list);
    assert_eq!(first, format!("{vertices} {}", fours.len() / 3), "{} on {}, {}", program.display(), mesh.name, mesh.order);
    let times = lines.map(|line| line.split_once(' ').expect("two numbers"));
    let per_triangle = |word: &str| word.parse::<f64>().expect("a number") / triangles as f64;
    let (alone, whole) = times.map(|(alone, whole)| (per_triangle(alone), per_triangle(whole))).unzip();
    Outcome::Times { alone, whole }
}

// What a program answers to an input.
fn run(program: &Path, input: &str) -> String {
    let mut child = Command::new(program).stdin(Stdio::piped()).stdout(Stdio::piped()).spawn().expect("the program starts");
    // Taken, so that it is closed.
    child.stdin.take().expect("a pipe").write_all(input.as_bytes()).expect("the program reads");
    let output = child.wait_with_output().expect("the program ends");
    assert!(output.status.success(), "{} fails", program.display());
    String::from_utf8(output.stdout).expect("text")
}
