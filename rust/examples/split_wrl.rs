//! Splits the figure of a VRML97 file:
//!
//!     cargo run --offline --example split_wrl < ../samples/figure.wrl > fine.wrl
//!
//! Lifts the index text out of the file, splits the mesh, and writes the file with the fine mesh in its place. The library knows no
//! positions, so the points of the new vertices are made here. It finds the first figure by the names of its two fields, and is no
//! reader of VRML: a bracket in a comment would mislead it.

use flatcarol::{Mesh, Refusal, Room};
use std::cmp::Reverse;
use std::error::Error;
use std::io;
use std::ops::Range;

type Point = [f64; 3];

fn main() -> Result<(), Box<dyn Error>> {
    print!("{}", split_figure(io::read_to_string(io::stdin())?)?);
    Ok(())
}

fn split_figure(mut file: String) -> Result<String, Box<dyn Error>> {
    let (points_at, index_at) = (field(&file, "point")?, field(&file, "coordIndex")?);
    let points = read_points(&file[points_at.clone()])?;
    // The text does not tell the number of vertices: it is that of the points.
    let mesh = Mesh::from_index(points.len(), &file[index_at.clone()]).map_err(|refusal| told(refusal, &file, index_at.start))?;

    let fine = mesh.split(&mut Room::new())?.fine;
    let fine_points = with_midpoints(points, &mesh, &fine);

    let mut edits = [(points_at, write_points(&fine_points)), (index_at, String::from_utf8(fine.to_index()?)?)];
    // From the end of the file on, so that places before an edit stay what they are.
    edits.sort_by_key(|(at, _)| Reverse(at.start));
    for (at, text) in edits {
        file.replace_range(at, &text);
    }
    Ok(file)
}

// What stands between the brackets of a field.
fn field(file: &str, name: &str) -> Result<Range<usize>, String> {
    let missing = || format!("the file has no field {name} with brackets");
    let named = file.find(name).ok_or_else(missing)?;
    let start = named + file[named..].find('[').ok_or_else(missing)? + 1;
    let length = file[start..].find(']').ok_or_else(missing)?;
    Ok(start..start + length)
}

// A refusal, with the line of the file where the text that starts at `start` is at fault.
fn told(refusal: Refusal, file: &str, start: usize) -> String {
    let Refusal::TextNotAsRequired { byte } = refusal else { return refusal.to_string() };
    let line = 1 + file[..start + byte].matches('\n').count();
    format!("line {line}: {refusal}")
}

fn read_points(text: &str) -> Result<Vec<Point>, Box<dyn Error>> {
    let lines = text.lines().filter_map(|line| line.split('#').next());
    let words = lines.flat_map(|line| line.split([' ', '\t', ',']).filter(|word| !word.is_empty()));
    let numbers = words.map(str::parse).collect::<Result<Vec<f64>, _>>()?;
    Ok(numbers.chunks_exact(3).map(|point| [point[0], point[1], point[2]]).collect())
}

fn write_points(points: &[Point]) -> String {
    points.iter().map(|[x, y, z]| format!("{x} {y} {z}")).collect::<Vec<_>>().join(", ")
}

// The points of the fine mesh. Each vertex of the coarse one keeps its number, and so its point. Of a triangle's four the centre comes
// first, and its corners stand between the first corner and the second, the second and the third, the third and the first.
fn with_midpoints(mut points: Vec<Point>, coarse: &Mesh, fine: &Mesh) -> Vec<Point> {
    points.resize(fine.vertices, Point::default());
    for (corners, four) in coarse.list.chunks(3).zip(fine.list.chunks(12)) {
        for (place, &between) in four[..3].iter().enumerate() {
            let ends = [corners[place], corners[(place + 1) % 3]].map(|corner| points[usize::from(corner)]);
            points[usize::from(between)] = midpoint(ends);
        }
    }
    points
}

fn midpoint([a, b]: [Point; 2]) -> Point {
    std::array::from_fn(|axis| (a[axis] + b[axis]) / 2.0)
}
