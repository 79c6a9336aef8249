// Says which case a thread was at when a call touched memory outside of what it was lent, or something else went wrong.
use std::cell::Cell;
use std::io::Write;
use std::panic;

extern "C" {
    fn signal(number: i32, handler: usize) -> usize;
    fn write(file: i32, bytes: *const u8, length: usize) -> isize;
}

// Linux's numbers.
const BUS_ERROR: i32 = 7;
const SEGMENT_FAULT: i32 = 11;
const DEFAULT: usize = 0;
const STANDARD_ERROR: i32 = 2;

thread_local! {
    static NOW: Cell<(&'static str, usize)> = const { Cell::new(("", 0)) };
}

pub fn at_case(set: &'static str, number: usize) {
    NOW.set((set, number));
}

pub fn name_case_at_end() {
    let report = panic::take_hook();
    panic::set_hook(Box::new(move |what| {
        let (set, case) = NOW.get();
        eprintln!("compare: panic in case {set} {case}");
        report(what);
    }));
    for number in [BUS_ERROR, SEGMENT_FAULT] {
        // SAFETY: the handler only writes to a buffer of its own and to standard error.
        unsafe { signal(number, name_case as extern "C" fn(i32) as usize) };
    }
}

// Then the instruction is tried again, and the signal ends the process.
extern "C" fn name_case(number: i32) {
    let (set, case) = NOW.get();
    let mut line = [0; 200];
    let mut rest = &mut line[..];
    // A line that is too long is cut.
    let _ = writeln!(rest, "compare: signal {number} in case {set} {case}: memory outside of what was lent was touched");
    let left = rest.len();
    // SAFETY: the bytes are those of the line.
    unsafe {
        write(STANDARD_ERROR, line.as_ptr(), line.len() - left);
        signal(number, DEFAULT);
    }
}
