// Compares the proved library with the independent implementation on generated cases: the answers, and every entry of every buffer
// that is lent. Each buffer stands between two stretches of memory without access.
mod boundaries;
mod calls;
mod checker;
mod cover;
mod damage;
mod document;
mod frames;
mod guarded;
mod index;
mod kinds;
mod meshes;
mod options;
mod program;
mod random;
mod room;
mod runner;
mod sets;
mod signals;
mod vectors;
mod wrong;

use std::process::ExitCode;

use calls::{Calls, Library};
use options::Task;
use wrong::{Wrong, FAULTS};

fn main() -> ExitCode {
    match options::of_words(std::env::args().skip(1)) {
        Err(why) => {
            eprintln!("compare: {why}\n\n{}", options::USAGE);
            return ExitCode::from(2);
        }
        Ok(Task::Help) => println!("{}", options::USAGE),
        Ok(Task::Vectors) => print!("{}", vectors::text()),
        Ok(Task::NameFaults) => FAULTS.iter().for_each(|fault| println!("{fault:?}")),
        Ok(Task::Compare(options)) => {
            let calls: Box<dyn Calls> = match options.fault {
                Some(fault) => Box::new(Wrong(fault)),
                None => Box::new(Library),
            };
            return runner::run(calls.as_ref(), &options);
        }
    }
    ExitCode::SUCCESS
}
