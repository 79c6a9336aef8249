//! The program `vectors`: the format of README.md, "Vectors". Expectations by hand. `by_hand.txt` is a file of cases in which the comments
//! that begin with `#=` hold the expected answers.

use std::io::Write;
use std::process::{Command, Stdio};

fn run(input: &str) -> String {
    let mut child =
        Command::new(env!("CARGO_BIN_EXE_vectors")).stdin(Stdio::piped()).stdout(Stdio::piped()).spawn().expect("vectors starts");
    child.stdin.take().expect("its input").write_all(input.as_bytes()).expect("it reads");
    String::from_utf8(child.wait_with_output().expect("it ends").stdout).expect("text")
}

const BY_HAND: &str = include_str!("by_hand.txt");

/// The answer is as expected. Of a line that ends in a blank and two dots, only what stands before them is expected.
fn is_as_expected(answer: &str, expected: &str) -> bool {
    expected.strip_suffix(" ..").map_or(answer == expected, |beginning| answer.starts_with(beginning))
}

#[test]
fn by_hand() {
    let expected =
        BY_HAND.split('\n').filter_map(|line| line.strip_prefix("#=")).map(|line| line.strip_prefix(' ').unwrap_or(line));
    let expected: Vec<&str> = expected.collect();
    let answers = run(BY_HAND);
    let answers: Vec<&str> = answers.strip_suffix('\n').expect("lines").split('\n').collect();
    for (line, (answer, expected)) in answers.iter().zip(&expected).enumerate() {
        assert!(is_as_expected(answer, expected), "answer {line}: {answer:?} where {expected:?} was worked out");
    }
    assert_eq!(answers.len(), expected.len());
}

#[test]
fn answers() {
    assert_eq!(run(""), "");
    assert_eq!(run("# a comment"), "");
    assert_eq!(
        run("3 4 0 5 8\n6 0"),
        "split 3 0 0 0 0 0\none 0 3 0 0 0 0 0 0\n\
         several 8 1 0 0 0 0 0 0 0 0 0 0 0 0 0\nseveral 0 3 0 0 0 0 0 0 0 0 0 0 0 0 0\n"
    );
    let text = "# one triangle\n1 3 3\n# its corners\n0 1 2\n3 4 4 6 7 5 0 2 0 2 1 4 0";
    let expected = "split 0 0 6 4 9 6\n12: 3 4 5 0 3 5 1 4 3 2 5 4\n\
                    one 4 0 0 3 1 3 3 0\n3: 0 1 2\n6: 0 1 2 3 4 5\n4: 0 1 2 3\n\
                    several 7 0 0 3 1 3 3 1 0 0 0 0 0 0 0\n3: 0 1 2\n\
                    several 0 0 0 3 1 3 3 0 0 0 0 0 0 0 0\n3: 0 1 2\n\
                    one 0 8 1 0 0 0 0 0\n";
    assert_eq!(run(text), expected);
    assert_eq!(run("1 65535 3 0 1 2 3 1 3 2 0 1 4 4"), "split 4 0 0 0 0 0\none 4 2 0 0 0 0 0 0\n");
    // numbers may begin with zeros and be large; comments may stand after numbers
    assert_eq!(run("000003 # no mesh\n4 18446744073709551609"), "split 3 0 0 0 0 0\none 18446744073709551609 1 0 0 0 0 0 0\n");
    // the bytes of frames may be anything
    assert_eq!(run("8 0 2 #\n8 0 11\n4D00000000\n9"), "read 12 0 0 0\nread 0 0 0 0\n0:\nwrite 0 0 0 0\n4D00000000\n\n");
    // and those of an index text; written, a byte that is as it was lent is a dot
    assert_eq!(
        run("10 9 6 8 0#\n1 2-1\n10 3 3 6\n00,1 2 11 11 11 8 11 7"),
        "read-index 14 5 0 0\nread-index 0 0 3 1\n3: 0 1 2\n\
         write-index 0 0 3 1 8\n0 1 2 -1...\nwrite-index 0 0 3 1 8\n0 1 2 -1\nwrite-index 5 0 0 0 0\n.......\n"
    );
    // at most 344,072 bytes are lent
    for room in ["344072", "344073", "18446744073709551609"] {
        assert_eq!(run(&format!("11 {room}")), format!("write-index 0 0 0 0 0\n{}\n", ".".repeat(344_072)));
    }
    // 96 entries are written out, 97 and more are not
    let split_twice = run("1 3 3 0 1 2 3 3 3");
    assert!(split_twice.lines().nth(3).is_some_and(|line| line.starts_with("48: ") && line.split(' ').count() == 49));
    assert!(split_twice.lines().nth(5).is_some_and(|line| line.starts_with("192: ") && line.split(' ').count() == 8));
}

#[test]
fn wrong_files() {
    for text in [
        "12",
        "0",
        "4",
        "7 0 0",
        "7 9 0 0",
        "8 0 11 4D00000000",
        "8 0 0",
        "10",
        "10 9 0",
        "10 9 0 0",
        "10 9 3 6 0 1 2",
        "11",
        "11 x",
        "1 3",
        "1 3 3 0 1",
        "2 0 1",
        "1 3 1 65536",
        "x",
        "-1",
        "4 18446744073709551610",
        "4 99999999999999999999999999999999999999999999",
        "3,",
        "1 0 49156",
        "3\r\n",
    ] {
        assert!(run(text).ends_with("wrong\n"), "{text:?}");
    }
    assert_eq!(run("3 12 3"), "split 3 0 0 0 0 0\nwrong\n");
    // 49,155 entries are allowed, three more are not
    let mut text = String::from("1 3 49155");
    text += &" 0".repeat(49_155);
    assert_eq!(run(&(text.clone() + " 3")), "split 4 0 0 0 0 0\n");
    assert_eq!(run(&(text + " 2 0 0 0 3")), "wrong\n");
}
