// Runs the cases on several threads, and says what they covered.
use std::collections::BTreeMap;
use std::process::ExitCode;
use std::sync::atomic::{AtomicUsize, Ordering};
use std::sync::Mutex;
use std::thread;
use std::time::Instant;

use crate::calls::Calls;
use crate::checker::Checker;
use crate::cover::Cover;
use crate::options::Options;
use crate::program;
use crate::random::Random;
use crate::sets::{self, Set};
use crate::signals;

pub fn run(calls: &dyn Calls, options: &Options) -> ExitCode {
    match compare(calls, options) {
        Ok(()) => {
            println!("compare: no difference");
            ExitCode::SUCCESS
        }
        Err(why) => {
            println!("compare: {why}");
            ExitCode::FAILURE
        }
    }
}

fn compare(calls: &dyn Calls, options: &Options) -> Result<(), String> {
    signals::name_case_at_end();
    let sets = sets::all(&options.sizes);
    if let Some((name, number)) = &options.only {
        let (set_number, set) = numbered(&sets, name)?;
        if *number >= set.cases {
            return Err(format!("'{name}' has {} cases", set.cases));
        }
        return check_case(&mut Checker::new(calls), options.seed, set_number, set, *number);
    }
    for name in &options.sets {
        numbered(&sets, name)?;
    }
    let mut cover = Cover::default();
    for (number, set) in sets.iter().enumerate().filter(|(_, set)| is_chosen(options, set)) {
        if set.name == program::SET && !is_program_there(set)? {
            continue;
        }
        let start = Instant::now();
        cover.add(compare_set(calls, options, number, set)?);
        println!("compare: {} cases '{}' in {:.1} s", set.cases, set.name, start.elapsed().as_secs_f64());
    }
    println!("{cover}");
    if options.sets.is_empty() {
        all_occurred(&cover, &sets)
    } else {
        Ok(())
    }
}

fn numbered<'a>(sets: &'a [Set], name: &str) -> Result<(usize, &'a Set), String> {
    sets.iter().enumerate().find(|(_, set)| set.name == name).ok_or_else(|| format!("no set is named '{name}'"))
}

fn is_chosen(options: &Options, set: &Set) -> bool {
    options.sets.is_empty() || options.sets.iter().any(|name| name == set.name)
}

fn is_program_there(set: &Set) -> Result<bool, String> {
    if set.cases == 0 {
        println!("compare: the program is left out, as was asked");
        return Ok(false);
    }
    let path = program::path();
    if path.exists() {
        Ok(true)
    } else {
        Err(format!("{} is missing: './unsplit' makes it", path.display()))
    }
}

fn all_occurred(cover: &Cover, sets: &[Set]) -> Result<(), String> {
    let with_program = sets.iter().any(|set| set.name == program::SET && set.cases > 0);
    let missing = cover.missing(&sets.iter().flat_map(Set::kinds).collect::<Vec<_>>(), with_program);
    if missing.is_empty() {
        Ok(())
    } else {
        Err(format!("never occurred: {}", missing.join("; ")))
    }
}

// Each thread takes the next case until there is none, or one was found to differ. Of several that differ the first counts, so that
// the same is found whatever the threads do.
fn compare_set(calls: &dyn Calls, options: &Options, set_number: usize, set: &Set) -> Result<Cover, String> {
    let (next, end) = (AtomicUsize::new(0), AtomicUsize::new(set.cases));
    let (covered, differences) = (Mutex::new(Cover::default()), Mutex::new(BTreeMap::new()));
    let work = || {
        let mut checker = Checker::new(calls);
        loop {
            let number = next.fetch_add(1, Ordering::Relaxed);
            if number >= end.load(Ordering::Relaxed) {
                break;
            }
            if let Err(why) = check_case(&mut checker, options.seed, set_number, set, number) {
                end.fetch_min(number, Ordering::Relaxed);
                differences.lock().unwrap().insert(number, why);
            }
        }
        covered.lock().unwrap().add(checker.cover);
    };
    thread::scope(|scope| (0..options.threads.max(1)).for_each(|_| drop(scope.spawn(work))));
    match differences.into_inner().unwrap().pop_first() {
        Some((_, why)) => Err(why),
        None => Ok(covered.into_inner().unwrap()),
    }
}

fn check_case(checker: &mut Checker, seed: u64, set_number: usize, set: &Set, number: usize) -> Result<(), String> {
    signals::at_case(set.name, number);
    let kind = (set.kind)(number);
    checker.random = Random::of_case(seed, set_number, number);
    checker.cover.case(set.name, kind);
    (set.check)(checker, number)
        .map_err(|what| format!("seed {seed}, case '{}' {number} ({kind}), which --only makes again:\n{what}", set.name))
}
