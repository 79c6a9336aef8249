// The comparison itself is tested: a small implementation passes it, and with each of its faults it is caught.
use std::process::{Command, Output};

fn compare(words: &[&str]) -> Output {
    Command::new(env!("CARGO_BIN_EXE_flatcarol-compare")).args(words).output().expect("the comparison starts")
}

fn lines(bytes: &[u8]) -> Vec<String> {
    String::from_utf8_lossy(bytes).lines().map(str::to_string).collect()
}

// The small implementation with a fault, on so many small and large meshes, on a few texts, and without the program.
fn compare_wrong(fault: &str, small: &str, large: &str) -> Output {
    let meshes = ["--wrong", fault, "--small", small, "--large", large];
    let others = ["--frames", "1000", "--index", "1000", "--programs", "0"];
    compare(&[meshes, others].concat())
}

// With fewer cases, but every kind that is expected must occur.
#[test]
fn without_a_fault_it_passes() {
    let run = compare_wrong("None", "10000", "30");
    assert!(run.status.success(), "{}: {}", run.status, lines(&run.stdout).join("\n"));
}

#[test]
fn each_fault_is_caught() {
    for fault in lines(&compare(&["--faults"]).stdout).iter().filter(|fault| *fault != "None") {
        let run = compare_wrong(fault, "3000", "0");
        println!("{fault}: {}", caught_by(&run));
        match fault.as_str() {
            "ReadsPastTheList" => assert_eq!(run.status.code(), None, "{fault} is ended by a signal"),
            _ => assert_eq!(run.status.code(), Some(1), "{fault} is found to differ"),
        }
    }
}

// The case and the call, and what was wrong; for a signal the case.
fn caught_by(run: &Output) -> String {
    let said = lines(&run.stdout);
    let differs: Vec<&String> = said.iter().skip_while(|line| !line.starts_with("compare: seed")).collect();
    match differs[..] {
        [case, call, what, ..] => {
            let [case, call] = [case.split(", which").next(), call.split(", outputs").next()].map(Option::unwrap_or_default);
            format!("{case}: {}: {what}", call.trim_end_matches(':'))
        }
        _ => lines(&run.stderr).join(" "),
    }
}
