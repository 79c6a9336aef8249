// The times of the versions of a case.
use crate::cases::{Case, COPY, LIBRARY, NAMES};
use crate::clock::thread_time;

// The cases take turns too, in rounds, since a machine may be slower for a second or two, which must not fall to one case.
pub const ROUNDS: usize = 8;
pub const REPETITIONS: usize = 8;

// A repetition takes so many triangles, by several runs where a mesh has fewer, and a copy, which is short, as many times more: so
// the clock's own time does not matter.
const TRIANGLES: usize = 16_384;
const COPIES: usize = 32;

// A case with the times of what it measures, by number, in nanoseconds per input triangle and in the order of the repetitions.
pub struct Row {
    pub call: &'static str,
    pub mesh: &'static str,
    pub order: &'static str,
    pub triangles: usize,
    pub bytes: Option<usize>,
    times: [Vec<f64>; NAMES.len()],
}

impl Row {
    pub fn time(&self, version: usize) -> Option<f64> {
        median(self.times[version].clone())
    }

    // In millions of bytes of the text per second, if there is one.
    pub fn speed(&self, version: usize) -> Option<f64> {
        Some(1_000.0 * self.bytes? as f64 / (self.triangles as f64 * self.time(version)?))
    }

    // The time of one version as a multiple of another's.
    pub fn ratio(&self, one: usize, other: usize) -> Option<f64> {
        quotient(&self.times[one], &self.times[other])
    }

    // The library's time as a multiple of that in another row.
    pub fn growth(&self, from: &Row) -> Option<f64> {
        quotient(&self.times[LIBRARY], &from.times[LIBRARY])
    }

    pub fn is_of(&self, other: &Row) -> bool {
        (self.call, self.mesh, self.order) == (other.call, other.mesh, other.order)
    }
}

// The median of the quotients within each repetition, when the machine was as fast for both.
fn quotient(ones: &[f64], others: &[f64]) -> Option<f64> {
    median(ones.iter().zip(others).map(|(one, other)| one / other).collect())
}

pub fn measure(mut cases: Vec<Case>, rounds: usize) -> Vec<Row> {
    let mut times: Vec<_> = cases.iter().map(|_| [const { Vec::new() }; NAMES.len()]).collect();
    for _ in 0..rounds {
        for (case, times) in cases.iter_mut().zip(&mut times) {
            repeat(case, times);
        }
    }
    let row = |(Case { call, mesh, order, triangles, bytes, .. }, times)| Row { call, mesh, order, triangles, bytes, times };
    cases.into_iter().zip(times).map(row).collect()
}

// The repetitions of a round, after one to warm up. The versions take turns, and take turns at being first, so that none gains by
// what the machine does meanwhile.
fn repeat(case: &mut Case, times: &mut [Vec<f64>]) {
    for &version in case.versions {
        time(case, version);
    }
    for repetition in 0..REPETITIONS {
        for turn in 0..case.versions.len() {
            let version = case.versions[(repetition + turn) % case.versions.len()];
            times[version].push(time(case, version));
        }
    }
}

fn time(case: &mut Case, version: usize) -> f64 {
    let runs = runs(case.triangles) * if version == COPY { COPIES } else { 1 };
    let start = thread_time();
    for _ in 0..runs {
        (case.run)(version);
    }
    let time = thread_time() - start;
    time.as_nanos() as f64 / (runs * case.triangles) as f64
}

// How often a mesh is taken in a repetition.
pub fn runs(triangles: usize) -> usize {
    (TRIANGLES / triangles).max(1)
}

pub fn median(mut times: Vec<f64>) -> Option<f64> {
    times.sort_by(f64::total_cmp);
    let n = times.len();
    Some((times.get(n.checked_sub(1)? / 2)? + times[n / 2]) / 2.0)
}
