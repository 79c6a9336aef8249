//! Request 101: index texts, written; and read again.

use flatcarol::{write_index, Counts, Limits, Mesh, Refusal, Room, TextCounts};

const MARK: u8 = 0xEF;

fn written(vertices: usize, list: impl Into<Vec<u16>>) -> String {
    String::from_utf8(Mesh::new(vertices, list).to_index().unwrap()).unwrap()
}

#[test]
fn one_blank_stands_between_numbers_and_each_face_is_closed() {
    assert_eq!(written(3, [0, 1, 2]), "0 1 2 -1");
    assert_eq!(written(4, [0, 1, 2, 0, 2, 3]), "0 1 2 -1 0 2 3 -1");
    assert_eq!(written(9, []), "");
}

#[test]
fn numbers_have_as_many_digits_as_they_need() {
    assert_eq!(written(0, [9, 10, 99]), "9 10 99 -1");
    assert_eq!(written(0, [100, 999, 1_000]), "100 999 1000 -1");
    assert_eq!(written(0, [9_999, 10_000, 65_535]), "9999 10000 65535 -1");
}

#[test]
fn as_many_bytes_are_needed_as_are_written() {
    let list = [0, 1, 2, 10, 65_535, 3];
    let mut bytes = [MARK; 23];
    assert_eq!(write_index(9, &list, &mut bytes[..21]), Err(Refusal::TooShort));
    assert_eq!(bytes, [MARK; 23]);
    let text = TextCounts { mesh: Counts { vertices: 9, triangles: 2 }, bytes: 22 };
    assert_eq!(write_index(9, &list, &mut bytes[..22]), Ok(text));
    assert_eq!(write_index(9, &list, &mut bytes), Ok(text));
    assert_eq!(bytes, *b"0 1 2 -1 10 65535 3 -1\xEF");

    assert_eq!(write_index(9, &[], &mut []), Ok(TextCounts { mesh: Counts { vertices: 9, triangles: 0 }, bytes: 0 }));
}

#[test]
fn two_comes_before_four_and_four_before_five() {
    assert_eq!(write_index(usize::MAX, &[0, 1], &mut []), Err(Refusal::NotThrees));
    assert_eq!(write_index(Limits::VERTICES + 1, &[0, 1, 2], &mut []), Err(Refusal::TooLarge));
    assert_eq!(write_index(Limits::VERTICES, &[0, 1, 2], &mut []), Err(Refusal::TooShort));
    assert_eq!(Mesh::new(3, vec![0; 3 * Limits::TRIANGLES + 3]).to_index(), Err(Refusal::TooLarge));
}

#[test]
fn no_text_is_longer_than_21_bytes_a_triangle() {
    let longest = Mesh::new(3, vec![u16::MAX; 3 * Limits::TRIANGLES]);
    let counts = Counts { vertices: 3, triangles: Limits::TRIANGLES };
    let text = longest.to_index().unwrap();
    // No blank after the last face.
    assert_eq!(text.len() + 1, counts.index_bytes_at_most());
    assert_eq!(Mesh::from_index(3, text), Ok(longest));
}

#[test]
fn what_was_written_is_read_as_it_was() {
    let mut room = Room::new();
    let mut mesh = Mesh::new(3, [2, 0, 1]);
    for _ in 0..Limits::LEVELS {
        mesh = mesh.split(&mut room).unwrap().fine;
        assert_eq!(Mesh::from_index(mesh.vertices, mesh.to_index().unwrap()).as_ref(), Ok(&mesh));
    }
    // Every corner that there is, in two meshes.
    for first in [0, 16_384] {
        let mesh = Mesh::new(0, (first..=first + 49_151).collect::<Vec<_>>());
        assert_eq!(Mesh::from_index(0, mesh.to_index().unwrap()), Ok(mesh));
    }
}

#[test]
fn what_was_read_is_written_in_one_spelling() {
    for spelling in ["0,1,2,-1,0,2,3,-1", "00 01 2 -1\r\n0 2 3", "# two\n0 1 2 -1\t0 2 3 -1 #"] {
        let mesh = Mesh::from_index(4, spelling).unwrap();
        assert_eq!(mesh.to_index().unwrap(), b"0 1 2 -1 0 2 3 -1", "{spelling:?}");
    }
}
