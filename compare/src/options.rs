// The words of the command.
use crate::sets::Sizes;
use crate::wrong::{Fault, FAULTS};

pub const USAGE: &str = "compare [--seed N] [--threads N] [--small N] [--large N] [--frames N] [--index N] [--programs N]
    compares. The last five say how many cases; --programs 0 leaves the program out
compare --set SET ..
    compares the cases of that set alone, and does not ask that every expected kind occurs; may be given several times
compare --only SET NUMBER [--seed N]
    compares one case again
compare --wrong FAULT ..
    compares an implementation with that fault in place of the library
compare --faults
    names the faults
compare --vectors
    writes the cases of crates/vectors";

pub enum Task {
    Compare(Options),
    Help,
    NameFaults,
    Vectors,
}

pub struct Options {
    pub seed: u64,
    pub sizes: Sizes,
    pub threads: usize,
    // The sets that are compared; all if none is named.
    pub sets: Vec<String>,
    pub only: Option<(String, usize)>,
    pub fault: Option<Fault>,
}

impl Default for Options {
    fn default() -> Options {
        let sizes = Sizes { small: 120_000, large: 360, frames: 40_000, index: 60_000, programs: 500 };
        let threads = std::thread::available_parallelism().map_or(1, |threads| threads.get());
        Options { seed: 1, sizes, threads, sets: vec![], only: None, fault: None }
    }
}

pub fn of_words(mut words: impl Iterator<Item = String>) -> Result<Task, String> {
    let mut options = Options::default();
    while let Some(word) = words.next() {
        match word.as_str() {
            "--seed" => options.seed = number(&mut words)?,
            "--small" => options.sizes.small = number(&mut words)?,
            "--large" => options.sizes.large = number(&mut words)?,
            "--frames" => options.sizes.frames = number(&mut words)?,
            "--index" => options.sizes.index = number(&mut words)?,
            "--programs" => options.sizes.programs = number(&mut words)?,
            "--threads" => options.threads = number(&mut words)?,
            "--set" => options.sets.push(next(&mut words)?),
            "--only" => options.only = Some((next(&mut words)?, number(&mut words)?)),
            "--wrong" => options.fault = Some(fault(&next(&mut words)?)?),
            "--faults" => return Ok(Task::NameFaults),
            "--help" => return Ok(Task::Help),
            "--vectors" => return Ok(Task::Vectors),
            _ => return Err(format!("'{word}' is no option")),
        }
    }
    Ok(Task::Compare(options))
}

fn next(words: &mut impl Iterator<Item = String>) -> Result<String, String> {
    words.next().ok_or_else(|| "a word is missing at the end".into())
}

fn number<N: std::str::FromStr>(words: &mut impl Iterator<Item = String>) -> Result<N, String> {
    let word = next(words)?;
    word.parse().map_err(|_| format!("'{word}' is no number here"))
}

fn fault(name: &str) -> Result<Fault, String> {
    FAULTS.iter().copied().find(|fault| format!("{fault:?}") == name).ok_or_else(|| format!("'{name}' is no fault"))
}
