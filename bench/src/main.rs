// What the library's calls cost beside the same algorithms in plain Rust, beside others with a hash map of edges and beside a copy,
// all in one run; or what they cost beside an earlier archive of the library.
#[cfg(feature = "before")]
mod before;
mod cases;
mod checks;
mod clock;
mod hashed;
mod library;
mod measure;
mod meshes;
mod others;
mod plain;
mod refusals;
mod tables;
mod text_checks;

use std::env;
use std::path::Path;
use std::process::exit;

use cases::Case;
use meshes::MOST;

// With a folder, the programs of other libraries that it has are measured too.
fn main() {
    let words: Vec<String> = env::args().skip(1).collect();
    if let [table, number, which] = &words[..] {
        return run_once(table, number, which);
    }
    checks::check_all();
    #[cfg(feature = "before")]
    if words == ["before"] {
        before::check_all();
        return before::print_all();
    }
    tables::print_all(words.first().map(Path::new));
}

// Names a case of the greatest size, of undo several beside undo one by its levels and of the other tables by its call, and runs one
// of the first two that it measures once, or none: `count` has a tool count the instructions of each such run.
fn run_once(table: &str, number: &str, which: &str) {
    let by_call = |case: Case| (case.call.replace(' ', "-"), case);
    let mut cases: Vec<(String, Case)> = match table {
        "versions" => cases::of_size(MOST).into_iter().map(by_call).collect(),
        #[cfg(feature = "before")]
        "before" => before::of_size(MOST).into_iter().map(by_call).collect(),
        _ => cases::several_and_one(MOST).into_iter().map(|(levels, case)| (levels.to_string(), case)).collect(),
    };
    let Some((name, case)) = number.parse().ok().and_then(|number: usize| cases.get_mut(number)) else {
        exit(1);
    };
    println!("{} {} {} {}", case.triangles, name, case.mesh, case.order.replace(' ', "-"));
    if let Some(which) = ["0", "1"].iter().position(|&number| number == which) {
        (case.run)(which);
    }
}
