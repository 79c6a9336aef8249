//! Document 02, request 101: index texts. Expectations are the request's or worked out by hand: a place is counted byte by byte, from 0.

mod common;

use common::Random;
use reference::{read_index, write_index, FramesAnswer};

/// Room for every text of this file but the long ones.
const ROOM: usize = 30;

fn refused(refusal: u64, place: u64) -> (FramesAnswer, Vec<u16>) {
    (FramesAnswer { refusal, place, vertices: 0, triangles: 0 }, vec![])
}

fn accepted(vertices: u64, list: &[u16]) -> (FramesAnswer, Vec<u16>) {
    (FramesAnswer { refusal: 0, place: 0, vertices, triangles: list.len() as u64 / 3 }, list.to_vec())
}

fn read(text: impl AsRef<[u8]>) -> (FramesAnswer, Vec<u16>) {
    read_index(9, text.as_ref(), ROOM)
}

/// The text is read as these corners.
fn reads(text: impl AsRef<[u8]>, list: &[u16]) {
    let text = text.as_ref();
    assert_eq!(read(text), accepted(9, list), "\"{}\"", text.escape_ascii());
}

/// The text is refused 14 at this place.
fn fails(text: impl AsRef<[u8]>, place: u64) {
    let text = text.as_ref();
    assert_eq!(read(text), refused(14, place), "\"{}\"", text.escape_ascii());
}

const ONE: [u16; 3] = [0, 1, 2];
const TWO: [u16; 6] = [0, 1, 2, 3, 4, 5];

/// The examples of the request, V = 9 and room for 6 entries.
#[test]
fn examples() {
    let read = |text: &str| read_index(9, text.as_bytes(), 6);
    assert_eq!(read("0 1 2"), accepted(9, &ONE));
    assert_eq!(read("0 1 2 -1,3,4,5,-1"), accepted(9, &TWO));
    assert_eq!(read("0 1"), refused(14, 3));
    assert_eq!(read("0 1 "), refused(14, 4));
    assert_eq!(read("-1"), refused(14, 0));
    assert_eq!(read("0 1 2 -1 -1"), refused(14, 9));
    assert_eq!(read("0 1 2 3"), refused(14, 6));
    assert_eq!(read("0 1 65536"), refused(14, 4));
    assert_eq!(read("0 1 2#-1\r3 4 5"), refused(14, 9));
    assert_eq!(read("#a\r0 1 2"), accepted(9, &ONE));
    assert_eq!(read_index(40_000, b"x", 6), refused(14, 0));
    let list = [0, 1, 2, 10, 65_535, 3];
    let (answer, bytes) = write_index(9, &list, 22);
    assert_eq!((answer, bytes.len()), (accepted(9, &list).0, 22));
    assert_eq!(write_index(9, &list, 21), (refused(5, 0).0, vec![]));
}

#[test]
fn separators() {
    for between in [" ", "\t", "\r", "\n", ",", "\r\n", " , ", ",,", "\n\n\t,\r "] {
        reads(["0", "1", "2", "-1", "3", "4", "5", "-1"].join(between), &TWO);
        reads(["0", "1", "2", "-1", "3", "4", "5"].join(between), &TWO);
        reads(["", "0", "1", "2", "-1", ""].join(between), &ONE);
        reads(["", "0", "1", "2", ""].join(between), &ONE);
        reads(between, &[]);
    }
    reads("", &[]);
    // nothing else separates: vertical tab, form feed, a zero byte, a semicolon, a no-break space in Latin-1 and in UTF-8
    for other in [b"\x0b".as_slice(), b"\x0c", b"\0", b";", b"\x1c", b"\x85", b"\xa0", b"\xc2\xa0", b"\xe2\x80\xa8"] {
        fails(other, 0);
        fails([b"0 1 2", other].concat(), 4);
        fails([b"0 1 2 ", other, b" -1"].concat(), 6);
        fails([other, b" 0 1 2"].concat(), 0);
    }
}

/// Each of these is at fault as a corner, as a first run, and where a -1 could stand.
#[test]
fn runs_at_fault() {
    let runs = "-01 -001 +1 -2 -0 --1 -1- -10 -11 - + 0x1F 0X1 1.0 1. .1 1e3 [ ] [0 2] 1-1 -1-1 0-1 1_000 1;2 DEF x _ 1a a1 ½ １ ² ٣ 65536 \
                65537 70000 99999 100000 131072 655350 4294967295 4294967296 4294967297 18446744073709551615 18446744073709551616 \
                18446744073709551617 340282366920938463463374607431768211456 065536 00000000000065536 000004294967296 \u{feff} \u{feff}0";
    for run in runs.split(' ') {
        fails(run, 0);
        fails(format!("0 {run} 2 -1"), 2);
        fails(format!("0 1 {run}#"), 4);
        fails(format!("0 1 2 {run} 3 4 5"), 6);
        fails(format!("0 1 2 -1\r\n{run}"), 10);
        fails(format!("#{run}\n{run}"), run.len() as u64 + 2);
    }
    // digits with the eighth bit set, and the bytes beside them
    for byte in [b'0' | 0x80, b'9' | 0x80, b'/', b':', 0x10, 0x11, 0xff] {
        fails([b'0', b' ', byte], 2);
        fails([b'1', byte, b' ', b'2'], 0);
    }
    // a byte order mark before what would be right
    fails("\u{feff}0 1 2 -1", 0);
    fails("\u{feff} 0 1 2 -1", 0);
}

/// Every number up to 65,535 and many above, their leading zeros in any number.
#[test]
fn numbers() {
    for number in 0..=70_000 {
        let text = format!("{number} 0{number} {number:030}");
        match u16::try_from(number) {
            Ok(corner) => reads(text, &[corner; 3]),
            Err(_) => fails(text, 0),
        }
    }
    reads("0000000000000000000007 00 0000000000000000000000000000000000", &[7, 0, 0]);
    let zeros = "0".repeat(1_000_000);
    reads(format!("{zeros}65535 {zeros} {zeros}1"), &[65_535, 0, 1]);
    fails(format!("0 1 {zeros}65536"), 4);
    fails(format!("0 1 1{zeros}"), 4);
}

/// What would be read wrongly if its value wrapped in 8, 16, 32, 64 or 128 bits.
#[test]
fn numbers_do_not_wrap() {
    for bits in [16, 17, 31, 32, 33, 48, 63, 64, 65, 96, 127] {
        for more in [0, 1, 7, 65_535] {
            fails(format!("1 {}", (1u128 << bits) + more), 2);
        }
    }
    // 2 to the 128 and to the 256, and 7 more
    fails("340282366920938463463374607431768211463", 0);
    fails("115792089237316195423570985008687907853269984665640564039457584007913129639943", 0);
    reads("256 257 511", &[256, 257, 511]);
}

#[test]
fn comments() {
    for line_end in ["\r", "\n", "\r\n", "\n\r", "\r \n"] {
        // inside a face, directly after a run, before all, after all
        reads(format!("0 1#c{line_end}2"), &ONE);
        reads(format!("0#c{line_end}1#{line_end}2#c{line_end}-1#c{line_end}"), &ONE);
        reads(format!("#c{line_end}0 1 2"), &ONE);
        reads(format!("0 1 2 -1 # 3 4 5 -1{line_end}"), &ONE);
        // a run goes on no further than the #
        reads(format!("0 1 2#3{line_end}"), &ONE);
        fails(format!("0 1 2#{line_end}3"), 6 + line_end.len() as u64);
        fails(format!("0 1 2 -#{line_end}1"), 6);
        // a # in a comment, and all that is at fault elsewhere
        reads(format!("# # 3 x [ +1 -1 65536 \u{feff} #, {line_end}0 1 2"), &ONE);
        reads(format!("##{line_end}#{line_end}# {line_end}"), &[]);
    }
    // at the end without a line end
    reads("0 1 2 -1#", &ONE);
    reads("0 1 2#-1", &ONE);
    reads("0 1 2 #3", &ONE);
    reads("#", &[]);
    reads("# 0 1 2", &[]);
    reads(" \t#", &[]);
    // only CR and LF end one
    for other in ["\x0b", "\x0c", "\0", "\u{85}", "\u{2028}", ",", " ", "\\n"] {
        reads(format!("0 1 2 -1 #{other}x"), &ONE);
        fails(format!("0 1 #{other}2"), 6 + other.len() as u64);
    }
    // every byte may stand in one, but for these two
    let bytes: Vec<u8> = (0..=255).filter(|b| !b"\r\n".contains(b)).collect();
    reads([b"0 1#".as_slice(), &bytes, b"\n2"].concat(), &ONE);
    // after the #, what the face would need is not read
    fails("0 1 # 2", 7);
    fails("#0 1 2\n0 1", 10);
}

/// "a fourth corner, an early -1".
#[test]
fn faces() {
    fails("0 -1", 2);
    fails("0 1 -1", 4);
    fails("0,1,-1,2", 4);
    fails("-1 0 1 2 -1", 0);
    fails("  -1", 2);
    fails("0 1 2 -1 -1 3 4 5", 9);
    fails("0 1 2 -1 3 -1", 11);
    fails("0 1 2 -1 3 4 -1", 13);
    fails("0 1 2 -1 #\n-1", 11);
    fails("0 1 2 3 -1", 6);
    fails("0 1 2 3 4 5", 6);
    fails("0 1 2 -1 3 4 5 6 -1", 15);
    fails("0000 0001\n0002,, 0003", 17);
    // the first run at fault counts, whatever is wrong with it
    fails("0 1 2 3 x", 6);
    fails("0 1 x 3 -1", 4);
    fails("0 1 x -1 -1 4 5 6 7", 4);
    fails("-1 x", 0);
    fails("x -1", 0);
    fails("0 1 2 -1 -1 65536", 9);
    fails("0 1 2 x 3", 6);
    fails("0 1 2 65536", 6);
    // three corners after the last -1 need no other, and a corner may be any
    reads("0 1 2 -1 3 4 5", &TWO);
    reads("65535 65535 65535", &[65_535; 3]);
    reads("0 0 0 -1 0 0 0", &[0; 6]);
}

/// "or the text's length if corners are missing".
#[test]
fn missing_corners() {
    for (text, length) in [("0", 1), ("0 1", 3), ("0 1 2 -1 3", 10), ("0 1 2 -1 3 4", 12), (" 0", 2), ("#\n0", 3), ("00,01", 5)] {
        for trailing in ["", " ", ",", "\r\n", " \t\r\n,", "#", "#2", " # 2 -1", "#\n", "#\r\n  ", "#x\n#y"] {
            fails(format!("{text}{trailing}"), length + trailing.len() as u64);
        }
    }
    // a run at fault comes before
    fails("0 x ", 2);
    fails("0 1 2 3 -1 4 ", 6);
}

/// 14 before 4, 4 before 5; F above 16,384 or V above 32,767; room for 3F entries.
#[test]
fn limits() {
    let right = b"0 1 2 -1 3 4 5 -1";
    assert_eq!(read_index(32_767, right, 6), accepted(32_767, &TWO));
    assert_eq!(read_index(0, right, 6), accepted(0, &TWO));
    assert_eq!(read_index(0, right, 1_000), accepted(0, &TWO));
    assert_eq!(read_index(0, right, 5), refused(5, 0));
    assert_eq!(read_index(0, right, 0), refused(5, 0));
    for vertices in [32_768, 40_000, 65_536, 65_537, 1 << 32, (1 << 32) + 9, 1 << 63, u64::MAX] {
        assert_eq!(read_index(vertices, right, 6), refused(4, 0));
        assert_eq!(read_index(vertices, right, 0), refused(4, 0));
        assert_eq!(read_index(vertices, b"", 0), refused(4, 0));
        assert_eq!(read_index(vertices, b"0 1 2 -1 3 4 ", 0), refused(14, 13));
        assert_eq!(read_index(vertices, b"0 1 2 -1 3 4 5 6", 0), refused(14, 15));
    }
    assert_eq!(read_index(32_767, b"", 0), accepted(32_767, &[]));
    assert_eq!(read_index(0, b" #", 0), accepted(0, &[]));
    assert_eq!(read_index(7, b"x", 0), refused(14, 0));
}

#[test]
fn as_many_faces_as_are_allowed() {
    let closed = "1 2 3 -1 ".repeat(16_384);
    let list = [1, 2, 3].repeat(16_384);
    assert_eq!(read_index(5, closed.as_bytes(), 49_152), accepted(5, &list));
    assert_eq!(read_index(5, closed.as_bytes(), 49_151), refused(5, 0));
    assert_eq!(read_index(32_768, closed.as_bytes(), 49_152), refused(4, 0));
    // another face, closed or not, is one too many; a part of one, or a fault in it, is judged before
    assert_eq!(read_index(5, (closed.clone() + "1 2 3").as_bytes(), 60_000), refused(4, 0));
    assert_eq!(read_index(5, (closed.clone() + "1 2 3 -1").as_bytes(), 0), refused(4, 0));
    assert_eq!(read_index(5, (closed.clone() + "1 2").as_bytes(), 60_000), refused(14, 147_459));
    assert_eq!(read_index(5, (closed.clone() + "1 2 -1").as_bytes(), 60_000), refused(14, 147_460));
    assert_eq!(read_index(5, (closed.clone() + "1 2 3 4").as_bytes(), 0), refused(14, 147_462));
    // as many as 16 bits count, and as many again
    assert_eq!(read_index(5, closed.repeat(4).as_bytes(), usize::MAX), refused(4, 0));
    assert_eq!(read_index(5, (closed.repeat(8) + "1 2 3 -1").as_bytes(), usize::MAX), refused(4, 0));
    assert_eq!(read_index(5, (closed.repeat(8) + "1 2 3 -1 x").as_bytes(), usize::MAX), refused(14, 1_179_657));
}

#[test]
fn writing() {
    let written = |list: &[u16], text: &str| {
        let (answer, _) = accepted(9, list);
        assert_eq!(write_index(9, list, text.len()), (answer, text.as_bytes().to_vec()));
        assert_eq!(write_index(9, list, text.len() + 100), (answer, text.as_bytes().to_vec()));
        if let Some(too_few) = text.len().checked_sub(1) {
            assert_eq!(write_index(9, list, too_few), (refused(5, 0).0, vec![]));
        }
    };
    written(&[], "");
    written(&ONE, "0 1 2 -1");
    written(&[0, 1, 2, 0, 2, 3], "0 1 2 -1 0 2 3 -1");
    written(&[0, 1, 2, 10, 65_535, 3], "0 1 2 -1 10 65535 3 -1");
    written(&[9, 10, 99, 100, 999, 1_000, 9_999, 10_000, 65_535], "9 10 99 -1 100 999 1000 -1 9999 10000 65535 -1");
    // 2, then 4, then 5
    for vertices in [0, 32_767, 32_768, u64::MAX] {
        for length in [1, 2, 4, 5, 49_156] {
            assert_eq!(write_index(vertices, &vec![0; length], 0), (refused(2, 0).0, vec![]));
        }
    }
    for vertices in [32_768, 65_536, 1 << 32, u64::MAX] {
        assert_eq!(write_index(vertices, &ONE, 8), (refused(4, 0).0, vec![]));
        assert_eq!(write_index(vertices, &ONE, 7), (refused(4, 0).0, vec![]));
        assert_eq!(write_index(vertices, &[], 0), (refused(4, 0).0, vec![]));
    }
    assert_eq!(write_index(32_767, &[], 0), (accepted(32_767, &[]).0, vec![]));
    assert_eq!(write_index(0, &[0; 49_155], 1_000_000), (refused(4, 0).0, vec![]));
}

/// The longest text: 21 bytes for each of 16,384 faces, "65535 65535 65535 -1 ", without the last blank.
#[test]
fn writing_the_longest() {
    let list = [65_535; 49_152];
    let (answer, bytes) = write_index(32_767, &list, 344_063);
    assert_eq!((answer, bytes.len()), (accepted(32_767, &list).0, 344_063));
    assert_eq!(write_index(32_767, &list, 344_062), (refused(5, 0).0, vec![]));
    assert_eq!(read_index(32_767, &bytes, 49_152), accepted(32_767, &list));
}

/// A corner of one to five digits, each as often as another.
fn corner(r: &mut Random) -> u16 {
    let below = [10, 100, 1_000, 10_000, 65_536][r.below(5)];
    r.below(below) as u16
}

/// How many bytes are written: each number's digits, three blanks and a -1 in each face, and a blank between two faces.
fn bytes_of(list: &[u16]) -> usize {
    let digits = |corner: &u16| match corner {
        0..10 => 1,
        10..100 => 2,
        100..1_000 => 3,
        1_000..10_000 => 4,
        _ => 5,
    };
    let faces = list.len() / 3;
    list.iter().map(digits).sum::<usize>() + 5 * faces + faces.saturating_sub(1)
}

/// "reading what it wrote gives the mesh back", and the writer's byte counts.
#[test]
fn round_trip() {
    let mut r = Random(101);
    for _ in 0..2_000 {
        let (vertices, faces) = (r.below(32_768) as u64, r.below(40));
        let list: Vec<u16> = (0..3 * faces).map(|_| corner(&mut r)).collect();
        let needed = bytes_of(&list);
        let (answer, bytes) = write_index(vertices, &list, needed);
        assert_eq!((answer, bytes.len()), (accepted(vertices, &list).0, needed));
        assert!(needed == 0 || write_index(vertices, &list, needed - 1) == (refused(5, 0).0, vec![]));
        assert_eq!(read_index(vertices, &bytes, list.len()), accepted(vertices, &list));
    }
}

/// The numbers of a list in another spelling: leading zeros, any separators and comments, the last -1 or not.
fn other_spelling(r: &mut Random, list: &[u16]) -> Vec<u8> {
    let separators = [" ", "  ", ",", ", ", "\t", "\n", "\r\n", "\r", "#\n", "#-1 0x\r", " # a, b\r\n"];
    let mut words: Vec<String> = list.chunks(3).flat_map(|t| t.iter().map(u16::to_string).chain(["-1".into()])).collect();
    if r.below(2) == 0 {
        words.pop();
    }
    let mut text = separators[r.below(separators.len())].repeat(r.below(2));
    for word in words {
        let zeros = if word == "-1" { 0 } else { r.below(4) / 3 * r.below(30) };
        text += &("0".repeat(zeros) + &word + separators[r.below(separators.len())]);
    }
    text.into_bytes()
}

/// What is read and written again is the one normal spelling, and doing so again changes nothing.
#[test]
fn normal_spelling() {
    let mut r = Random(102);
    for _ in 0..2_000 {
        let list: Vec<u16> = (0..3 * r.below(12)).map(|_| corner(&mut r)).collect();
        let text = other_spelling(&mut r, &list);
        assert_eq!(read_index(9, &text, list.len()), accepted(9, &list), "\"{}\"", text.escape_ascii());
        let (_, normal) = write_index(9, &list, 10_000);
        let (_, again) = read_index(9, &normal, list.len());
        assert_eq!(write_index(9, &again, 10_000).1, normal);
    }
}
