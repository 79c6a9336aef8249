// The tables, as bench/results keeps them.
use std::path::Path;

use crate::cases::{self, Case, COPY, HASHED, LIBRARY, NAMES, PLAIN};
use crate::measure::{measure, median, Row, REPETITIONS, ROUNDS};
use crate::meshes::{self, Mesh, IN_ORDER, MOST, SIZES};
use crate::others::{self, Others, Outcome};

// On the ratio of the library to the plain version, on the growth of the library's time per triangle, on undo several as a
// multiple of undo one, and on a shuffled mesh as a multiple of the same in order.
const MOST_RATIO: f64 = 1.15;
const MOST_GROWTH: f64 = 2.5;
const MOST_QUOTIENT: f64 = 1.6;
const MOST_SHUFFLED: f64 = 1.5;

pub const LABELS: [&str; 3] = ["mesh", "order", "triangles"];

// A value and the row that has it.
type Found<'a> = Option<(f64, &'a Row)>;

pub fn print_all(folder: Option<&Path>) {
    println!("Medians of {} repetitions, in nanoseconds per triangle of the input.", ROUNDS * REPETITIONS);
    let rows = measure(cases::all(cases::of_size), ROUNDS);
    let calls: Vec<&[Row]> = rows.chunk_by(|one, other| one.call == other.call).collect();
    calls.iter().for_each(|call| print_call(call));
    print_speeds(&rows);
    print_others(calls[0], &Others::below(folder));
    print_several_and_one();
    print_shuffled_and_in_order();
    print_worst(&calls);
}

fn print_call(call: &[Row]) {
    let ratios = ["library / plain", "hashed / library", "library / copy", "growth"];
    print_head(call[0].call, [&LABELS[..], &NAMES, &ratios].concat());
    for (row, growth) in with_growth(call) {
        let times = [LIBRARY, PLAIN, HASHED, COPY].map(|version| row.time(version));
        let ratios = [row.ratio(LIBRARY, PLAIN), row.ratio(HASHED, LIBRARY), row.ratio(LIBRARY, COPY), growth];
        print_row(labels(row).into_iter().chain(times.map(number)).chain(ratios.map(number)));
    }
}

// The rows of a call, each with the growth from the same kind of mesh of the least size, if there is one.
fn with_growth(call: &[Row]) -> impl Iterator<Item = (&Row, Option<f64>)> {
    let series = call.chunk_by(Row::is_of);
    series.flat_map(|rows| rows.iter().map(|row| (row, row.growth(&rows[0]).filter(|_| rows.len() == SIZES.len()))))
}

// Of the calls that read or write a text, on the meshes of the greatest size.
fn print_speeds(rows: &[Row]) {
    let columns = ["bytes", "library MB/s", "plain MB/s"];
    print_head("bytes per second", ["call"].into_iter().chain(LABELS).chain(columns));
    for row in rows.iter().filter(|row| row.triangles == MOST) {
        let Some(bytes) = row.bytes else { continue };
        let speeds = [LIBRARY, PLAIN].map(|version| number(row.speed(version)));
        print_row([row.call.into()].into_iter().chain(labels(row)).chain([thousands(bytes)]).chain(speeds));
    }
}

fn print_others(splits: &[Row], others: &Others) {
    let columns =
        others::NAMES.map(|name| [&format!("{name} alone"), "/ library", &format!("{name} whole"), "/ library"].map(String::from));
    print_head(
        "split beside other libraries",
        LABELS.map(String::from).into_iter().chain(["library".into()]).chain(columns.concat()),
    );
    let all: Vec<Mesh> = SIZES.into_iter().flat_map(meshes::to_split).collect();
    let meshes: Vec<&Mesh> = splits.iter().map(|row| mesh_of(row, &all)).collect();
    for (row, outcomes) in splits.iter().zip(others.measure(&meshes)) {
        let library = row.time(LIBRARY);
        let cells = outcomes.map(|outcome| cells_of(outcome, library));
        print_row(labels(row).into_iter().chain([number(library)]).chain(cells.concat()));
    }
}

fn mesh_of<'a>(row: &Row, meshes: &'a [Mesh]) -> &'a Mesh {
    let is_measured = |mesh: &&Mesh| (mesh.name, mesh.order, mesh.list.len() / 3) == (row.mesh, row.order, row.triangles);
    meshes.iter().find(is_measured).expect("the mesh of the row")
}

fn cells_of(outcome: Outcome, library: Option<f64>) -> [String; 4] {
    match outcome {
        Outcome::NotInstalled => ["not installed", "", "", ""].map(String::from),
        Outcome::Refused => ["refused", "", "", ""].map(String::from),
        Outcome::Times { alone, whole } => {
            let [alone, whole] = [alone, whole].map(median);
            let ratio = |time: Option<f64>| Some(time? / library?);
            [alone, ratio(alone), whole, ratio(whole)].map(number)
        }
    }
}

fn print_several_and_one() {
    print_head("undo several beside undo one", [&LABELS[..], &["levels", "several", "one", "several / one"]].concat());
    let (levels, cases): (Vec<usize>, Vec<Case>) = cases::several_and_one(MOST).into_iter().unzip();
    let rows = measure(cases, ROUNDS);
    for (levels, row) in levels.iter().zip(&rows) {
        let cells = [levels.to_string(), number(row.time(0)), number(row.time(1)), number(row.ratio(0, 1))];
        print_row(labels(row).into_iter().chain(cells));
    }
    println!();
    print_bound("undo several / undo one", rows.iter().filter_map(|row| row.ratio(0, 1)), MOST_QUOTIENT);
}

fn print_shuffled_and_in_order() {
    print_head("shuffled beside in order", ["call", "mesh", "triangles", "shuffled", "in order", "shuffled / in order"]);
    let rows = measure(cases::shuffled_and_in_order(MOST), ROUNDS);
    for row in &rows {
        let cells = [row.time(0), row.time(1), row.ratio(0, 1)].map(number);
        print_row([row.call.into(), row.mesh.into(), thousands(row.triangles)].into_iter().chain(cells));
    }
    println!();
    print_bound("shuffled / in order", rows.iter().filter_map(|row| row.ratio(0, 1)), MOST_SHUFFLED);
}

// For each call the row that is worst by each measure, and the bounds.
fn print_worst(calls: &[&[Row]]) {
    let measures =
        ["library / plain, at most", "growth in order, at most", "hashed / library, at least", "library / copy, at most"];
    print_head("the worst of each call", ["call"].into_iter().chain(measures));
    let worst: Vec<[Found; 4]> = calls.iter().map(|call| worst(call)).collect();
    for (call, worst) in calls.iter().zip(&worst) {
        print_row([call[0].call.to_string()].into_iter().chain(worst.map(found)));
    }
    println!();
    let values = |measure: usize| worst.iter().filter_map(move |worst| Some(worst[measure]?.0));
    print_bound("library / plain", values(0), MOST_RATIO);
    print_bound("growth in order", values(1), MOST_GROWTH);
}

fn worst(call: &[Row]) -> [Found<'_>; 4] {
    let ratios = |one, other| greatest(call.iter().map(move |row| (row, row.ratio(one, other))));
    let grown = greatest(with_growth(call).filter(|(row, _)| row.order == IN_ORDER));
    let least_hashed = ratios(LIBRARY, HASHED).map(|(value, row)| (1.0 / value, row));
    [ratios(LIBRARY, PLAIN), grown, least_hashed, ratios(LIBRARY, COPY)]
}

fn greatest<'a>(rows: impl Iterator<Item = (&'a Row, Option<f64>)>) -> Found<'a> {
    rows.filter_map(|(row, value)| Some((value?, row))).max_by(|(a, _), (b, _)| a.total_cmp(b))
}

fn print_bound(what: &str, values: impl Iterator<Item = f64>, bound: f64) {
    let greatest = values.fold(0.0, f64::max);
    let holds = if greatest <= bound { "holds" } else { "does not hold" };
    println!("- {what}: at most {greatest:.2}; the bound of {bound} {holds}.");
}

fn found(found: Found) -> String {
    found.map_or_else(String::new, |(value, row)| format!("{} ({})", number(Some(value)), labels(row).join(", ")))
}

pub fn labels(row: &Row) -> [String; 3] {
    [row.mesh.into(), row.order.into(), thousands(row.triangles)]
}

fn thousands(number: usize) -> String {
    match number {
        0..1_000 => number.to_string(),
        _ => format!("{},{:03}", number / 1_000, number % 1_000),
    }
}

// Nothing where nothing was measured.
pub fn number(value: Option<f64>) -> String {
    match value {
        None => String::new(),
        Some(value) if value < 10.0 => format!("{value:.2}"),
        Some(value) => format!("{value:.1}"),
    }
}

pub fn print_head(title: &str, cells: impl IntoIterator<Item = impl ToString>) {
    let cells: Vec<String> = cells.into_iter().map(|cell| cell.to_string()).collect();
    println!();
    println!("## {}{}", title[..1].to_uppercase(), &title[1..]);
    println!();
    println!("| {} |", cells.join(" | "));
    println!("|{}", "---|".repeat(cells.len()));
}

pub fn print_row(cells: impl IntoIterator<Item = String>) {
    println!("| {} |", cells.into_iter().collect::<Vec<_>>().join(" | "));
}
