//! The error type: document 01's table of refusals, and document 02's 14 and 15.

use crate::shapes::triangle;
use flatcarol::{Asked, Mesh, Refusal, Room};
use std::error::Error;

// The numbers whose place is named.
const PLACED: [u64; 8] = [6, 7, 8, 9, 10, 12, 14, 15];

#[test]
fn each_number_has_its_case() {
    for number in 1..=15 {
        let refusal = Refusal::from_number(number, 77).unwrap();
        assert_eq!(refusal.number(), number);
        assert_eq!(refusal.place(), if PLACED.contains(&number) { 77 } else { 0 }, "{refusal}");
        assert!(refusal.to_string().starts_with(&format!("refusal {number}: ")), "{refusal}");
        assert_eq!(refusal.to_string().contains(" 77"), PLACED.contains(&number), "{refusal}");
    }
    for number in [0, 16, 256, u64::MAX] {
        assert_eq!(Refusal::from_number(number, 0), None);
    }
}

#[test]
fn lesser_numbers_come_first() {
    // Triangle 0 has two equal corners, triangle 1 one that is not below the number of vertices.
    let mesh = Mesh::new(3, [0, 0, 1, 0, 1, 3]);
    assert_eq!(mesh.split(&mut Room::new()), Err(Refusal::CornerNotBelow { triangle: 1 }));
}

#[test]
fn it_is_an_error_like_others() {
    fn undo() -> Result<(), Box<dyn Error>> {
        triangle().undo_one(Asked::Least, &mut Room::new())?;
        Ok(())
    }
    assert_eq!(undo().unwrap_err().to_string(), Refusal::NoReading.to_string());
}
