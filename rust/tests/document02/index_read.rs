//! Request 101: index texts, read.

use flatcarol::{index_entries_at_most, read_index, Counts, Limits, Mesh, Refusal};

const MARK: u16 = 0xABCD;

// The corners that a text names.
fn corners(text: impl AsRef<[u8]>) -> Vec<u16> {
    Mesh::from_index(9, text).unwrap().list
}

// The byte at which a text is at fault.
fn fault(text: impl AsRef<[u8]>) -> usize {
    match Mesh::from_index(9, text) {
        Err(Refusal::TextNotAsRequired { byte }) => byte,
        other => panic!("{other:?}"),
    }
}

// A text of so many faces, each as short as it can be.
fn shortest(faces: usize) -> String {
    vec!["0 1 2"; faces].join(" -1 ")
}

#[test]
fn the_last_close_is_optional() {
    assert_eq!(corners("0 1 2"), [0, 1, 2]);
    assert_eq!(corners("0 1 2 -1"), [0, 1, 2]);
    assert_eq!(corners("0 1 2 -1,3,4,5"), [0, 1, 2, 3, 4, 5]);
    assert_eq!(corners("0 1 2 -1,3,4,5,-1"), [0, 1, 2, 3, 4, 5]);
}

#[test]
fn any_number_of_separators_stands_anywhere() {
    assert_eq!(corners("\t\r\n, 0,,1 \n\n2\r\n-1\t , "), [0, 1, 2]);
    assert_eq!(corners("0,1\t2\r-1\n3 4,5"), [0, 1, 2, 3, 4, 5]);
}

#[test]
fn a_comment_ends_with_its_line() {
    assert_eq!(corners("#a\r0 1 2"), [0, 1, 2]);
    assert_eq!(corners("0 # 7 8\n1 ## 9 -1\r\n2"), [0, 1, 2]);
    // It ends a run, and at the text's end no line end is needed.
    assert_eq!(corners("0 1#\n2#-1"), [0, 1, 2]);
    assert_eq!(fault("0 1 2#-1\r3 4 5"), 9);
    // Its bytes may be any.
    assert_eq!(corners(b"#\xFF\x00\n0 1 2"), [0, 1, 2]);
}

#[test]
fn no_face_is_a_mesh_without_triangles() {
    for text in ["", " ", "\r\n\t,,", "# only this", "#\n#\n"] {
        assert_eq!(Mesh::from_index(9, text), Ok(Mesh::new(9, [])), "{text:?}");
    }
}

#[test]
fn corners_are_missing_at_the_end() {
    assert_eq!(fault("0 1"), 3);
    assert_eq!(fault("0 1 "), 4);
    assert_eq!(fault("0"), 1);
    assert_eq!(fault("0 1 2 -1 3"), 10);
    assert_eq!(fault("0 1 # 2"), 7);
}

#[test]
fn a_close_is_too_early() {
    assert_eq!(fault("-1"), 0);
    assert_eq!(fault("0 -1"), 2);
    assert_eq!(fault("0 1 -1"), 4);
    assert_eq!(fault("0 1 2 -1 -1"), 9);
}

#[test]
fn a_fourth_corner_is_one_too_many() {
    assert_eq!(fault("0 1 2 3"), 6);
    assert_eq!(fault("0 1 2 3 -1"), 6);
    assert_eq!(fault("0 1 2 -1 3 4 5 6"), 15);
}

#[test]
fn corners_go_up_to_65535_and_do_not_wrap() {
    assert_eq!(corners("0 65535 9"), [0, 65_535, 9]);
    for above in ["65536", "99999", "065536", "4294967297", "18446744073709551616", "340282366920938463463374607431768211457"] {
        assert_eq!(fault(format!("0 1 {above}")), 4, "{above}");
    }
    // Leading zeros are no fault, however many.
    assert_eq!(corners("00 0000000000000000000007 0065535"), [0, 7, 65_535]);
    assert_eq!(corners(format!("{} 1 2", "0".repeat(1_000))), [0, 1, 2]);
}

#[test]
fn other_runs_are_at_fault() {
    let runs = [
        "x", "+1", "-2", "-01", "-", "--1", "-1-1", "1-1", "-10", "0x1F", "1.0", "1e0", "[", "]", "0]", "1;", "\u{b}", "\u{c}",
        "\0",
    ];
    for run in runs {
        assert_eq!(fault(format!("0 1 {run}")), 4, "{run:?}");
        assert_eq!(fault(format!("0 1 2 {run}")), 6, "{run:?}");
    }
    // The run is at fault from its first byte on, whichever of its bytes is wrong.
    assert_eq!(fault("0 1 23456x 7"), 4);
    // A byte order mark, a space that does not break, and bytes that are no text.
    assert_eq!(fault("\u{feff}0 1 2"), 0);
    assert_eq!(fault("0\u{a0}1 2 3"), 0);
    assert_eq!(fault(b"0 1 \xFF"), 4);
}

#[test]
fn the_first_fault_is_told() {
    assert_eq!(fault("0 1 x -1 -1"), 4);
    assert_eq!(fault("0 1 2 3 65536"), 6);
    assert_eq!(fault("0 -1 x"), 2);
    // The last face lacks a corner too.
    assert_eq!(fault("0 x"), 2);
}

#[test]
fn fourteen_comes_before_four_and_four_before_five() {
    assert_eq!(Mesh::from_index(40_000, "x"), Err(Refusal::TextNotAsRequired { byte: 0 }));
    assert_eq!(read_index(Limits::VERTICES + 1, b"0 1 2", &mut []), Err(Refusal::TooLarge));
    assert_eq!(read_index(Limits::VERTICES, b"0 1 2", &mut []), Err(Refusal::TooShort));
    assert_eq!(read_index(9, b"0 1", &mut []), Err(Refusal::TextNotAsRequired { byte: 3 }));
}

#[test]
fn the_limits_are_judged() {
    let largest = shortest(Limits::TRIANGLES);
    assert_eq!(Mesh::from_index(3, &largest).unwrap().list.len(), 3 * Limits::TRIANGLES);
    assert_eq!(Mesh::from_index(3, shortest(Limits::TRIANGLES + 1)), Err(Refusal::TooLarge));
    // The fault after as many faces as are allowed is told all the same.
    assert_eq!(fault(largest.clone() + " -1 0 1 2 x"), largest.len() + 10);
    for vertices in [Limits::VERTICES + 1, 65_545, usize::MAX] {
        assert_eq!(Mesh::from_index(vertices, ""), Err(Refusal::TooLarge), "{vertices} vertices");
    }
}

#[test]
fn corners_are_not_judged_against_the_vertices() {
    assert_eq!(Mesh::from_index(0, "7 7 65535"), Ok(Mesh::new(0, [7, 7, 65_535])));
}

#[test]
fn three_entries_are_needed_for_each_face() {
    let mut list = [MARK; 7];
    assert_eq!(read_index(9, b"0 1 2 -1 3 4 5 -1", &mut list[..5]), Err(Refusal::TooShort));
    assert_eq!(read_index(9, b"0 1 2 -1 3 4 5 x", &mut list), Err(Refusal::TextNotAsRequired { byte: 15 }));
    assert_eq!(list, [MARK; 7]);
    assert_eq!(read_index(9, b"0 1 2 -1 3 4 5 -1", &mut list), Ok(Counts { vertices: 9, triangles: 2 }));
    assert_eq!(list, [0, 1, 2, 3, 4, 5, MARK]);
}

#[test]
fn the_room_for_a_text_is_enough_and_at_its_least() {
    for faces in [1, 2, 3, 1_000, Limits::TRIANGLES] {
        let text = shortest(faces);
        assert_eq!(index_entries_at_most(text.as_bytes()), 3 * faces);
        assert_eq!(index_entries_at_most(&text.as_bytes()[1..]), 3 * (faces - 1));
    }
    assert_eq!(index_entries_at_most(shortest(Limits::TRIANGLES + 1).as_bytes()), 3 * Limits::TRIANGLES);
}
