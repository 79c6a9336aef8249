// Links the library's archive for the processor that the app is built for, and has it made where it is missing.
use std::env;
use std::fs::{self, File, OpenOptions};
use std::io::{BufRead, BufReader, Read, Write};
use std::path::{Path, PathBuf};
use std::process::{exit, Command, ExitStatus, Stdio};
use std::time::SystemTime;

const ARCHIVES: &str = "target/app/lib";
const MAKE: &str = "build-for-apps";
const PROCESSORS: [&str; 2] = ["x86_64", "aarch64"];

fn main() {
    let root = PathBuf::from(variable("CARGO_MANIFEST_DIR")).join("..");
    let root = root.canonicalize().unwrap_or(root);
    let (system, processor) = (variable("CARGO_CFG_TARGET_OS"), variable("CARGO_CFG_TARGET_ARCH"));
    let folder = root.join(ARCHIVES).join(&processor);
    let archive = folder.join("libflatcarol.a");
    println!("cargo:rerun-if-changed={}", archive.display());
    println!("cargo:rerun-if-changed={}", root.join("crates").display());

    if system != "linux" || !PROCESSORS.contains(&processor.as_str()) {
        fail(&format!(
            "this app is built for {system} on {processor}, and the library is for Linux on {}.",
            PROCESSORS.join(" or ")
        ));
    }
    if !archive.exists() {
        make(&root, &archive, &processor);
    }
    if changed(&root.join("crates")) > changed(&archive) {
        println!("cargo:warning={} is older than crates/: run '{MAKE}' to link the code as it stands", archive.display());
    }
    println!("cargo:rustc-link-search=native={}", folder.display());
    println!("cargo:rustc-link-lib=static=flatcarol");
}

// Proves the library and writes its archive, or says what is missing for that.
fn make(root: &Path, archive: &Path, processor: &str) {
    let missing = format!("the library's archive is not there yet: {}\n", archive.display());
    if !in_path("rt") {
        fail(&format!(
            "{missing}To make it takes the Rattle kit, whose command 'rt' is not in PATH. Install the kit, or copy libflatcarol.a to that \
             place from a machine that has made it ('{MAKE} {processor}')."
        ));
    }
    let mut command = Command::new(root.join(MAKE));
    command.arg(processor).stdin(Stdio::null()).stdout(Stdio::null()).stderr(Stdio::piped());
    let mut run =
        command.spawn().unwrap_or_else(|error| fail(&format!("{missing}'{MAKE}', which makes it, did not start: {error}")));
    let said = run.stderr.take().map(pass_on).unwrap_or_default();
    match run.wait() {
        Err(error) => fail(&format!("{missing}'{MAKE}', which makes it, was lost: {error}")),
        Ok(status) if !status.success() => fail(&format!("{missing}{}", why(status, &said))),
        Ok(_) if !archive.exists() => fail(&format!("{missing}'{MAKE}' ended well and did not write it.")),
        Ok(_) => {}
    }
}

// Passes on what the script says while it says it, since it may prove for minutes: to standard error, which cargo keeps to itself
// unless it is asked for more (-vv) or the build fails, and to the terminal, if there is one, as a line that renews itself.
fn pass_on(script: impl Read) -> String {
    let mut terminal = OpenOptions::new().write(true).open("/dev/tty").ok();
    let mut said = String::new();
    for line in BufReader::new(script).lines().map_while(Result::ok) {
        eprintln!("{line}");
        renew(&mut terminal, &line);
        said.push_str(&line);
        said.push('\n');
    }
    renew(&mut terminal, "");
    said
}

// Nothing depends on whether the terminal shows it.
fn renew(terminal: &mut Option<File>, line: &str) {
    if let Some(terminal) = terminal {
        let _ = write!(terminal, "\r\x1b[K{line}").and_then(|()| terminal.flush());
    }
}

// Why the archive was not made, by what the script said.
fn why(status: ExitStatus, said: &str) -> String {
    // Errors, and rt's own lines, but for those on what follows from another line.
    let error = |line: &str| line.contains(" error: ") || line.contains(" error[");
    let tells = |line: &&str| error(line) || line.starts_with("rt: ") && !line.contains("its dependency");
    let telling: Vec<&str> = said.lines().filter(tells).collect();
    let reason = if said.contains("logic=not-proved") {
        "It is made of proved code only, and the code below crates/ as it stands is not proved. If you changed nothing there, \
         tell those who keep the library."
    } else {
        "To make it was tried, and failed."
    };
    let shown = if telling.is_empty() { said.to_string() } else { telling.join("\n") };
    format!("{reason}\n'{MAKE}' ended ({status}) and said (target/archive.log has more):\n{shown}")
}

fn in_path(command: &str) -> bool {
    env::var_os("PATH").is_some_and(|path| env::split_paths(&path).any(|folder| folder.join(command).is_file()))
}

// A variable that cargo sets for build scripts.
fn variable(name: &str) -> String {
    env::var(name).unwrap_or_else(|_| fail(&format!("{name} is not set: this is for cargo to run")))
}

// When a file, or the source that was last changed below a folder, was changed. What rt makes stands in folders `out`.
fn changed(path: &Path) -> SystemTime {
    let Ok(entries) = fs::read_dir(path) else {
        return fs::metadata(path).and_then(|file| file.modified()).unwrap_or(SystemTime::UNIX_EPOCH);
    };
    let below = entries.flatten().map(|entry| entry.path());
    let sources = below.filter(|path| path.is_dir() && !path.ends_with("out") || path.extension().is_some_and(|kind| kind == "rt"));
    sources.map(|path| changed(&path)).max().unwrap_or(SystemTime::UNIX_EPOCH)
}

fn fail(why: &str) -> ! {
    eprintln!("flatcarol: {why}");
    exit(1)
}
