//! Runs of the command `cec` of the repository's root, and of a copy of it and of `tools/build` with
//! stand-ins for the programs, the finder, `rt` and `cargo`.

// Each test uses a part of it.
#![allow(dead_code)]

use std::collections::hash_map::DefaultHasher;
use std::env;
use std::fs;
use std::hash::{Hash, Hasher};
use std::ops::Deref;
use std::os::unix::process::CommandExt;
use std::path::{Path, PathBuf};
use std::process::{Command, Stdio};
use std::sync::Once;
use std::thread;
use std::time::{Duration, Instant};

use crate::common::samples;

/// Exit status, standard output and standard error.
pub type Said = (Option<i32>, String, String);

/// The programs that the command runs, each of them a crate.
const PROGRAMS: [&str; 5] = [
    "cec_check",
    "cec_check_large",
    "cec_eval",
    "cec_list",
    "cec_prove",
];

pub const ACCEPTED: &str = "accepted: both lists agree on every pattern";

pub fn root() -> PathBuf {
    Path::new(env!("CARGO_MANIFEST_DIR")).join("../..")
}

/// A folder that a test has for itself, and that goes with it.
pub struct Folder(PathBuf);

impl Folder {
    /// Its name in the folder above.
    pub fn name(&self) -> &str {
        let name = self.0.file_name().expect("it has a name");
        name.to_str().expect("the name is text")
    }
}

impl Deref for Folder {
    type Target = Path;

    fn deref(&self) -> &Path {
        &self.0
    }
}

impl AsRef<Path> for Folder {
    fn as_ref(&self) -> &Path {
        &self.0
    }
}

impl Drop for Folder {
    fn drop(&mut self) {
        // A panic within a panic would hide the first.
        let _ = fs::remove_dir_all(&self.0);
    }
}

/// An empty folder of this name, outside the checkout, where `rt ci` refuses links and any other
/// `crates.txt`. Its place is the same in each run, so that cargo, asked there, has what it built.
pub fn folder(name: &str) -> Folder {
    let mut checkout = DefaultHasher::new();
    env!("CARGO_MANIFEST_DIR").hash(&mut checkout);
    let checkout = checkout.finish();
    let folder = env::temp_dir().join(format!("cec-{checkout:016x}-{name}"));
    if folder.exists() {
        fs::remove_dir_all(&folder).expect("the folder is removed");
    }
    fs::create_dir(&folder).expect("the folder is made");
    Folder(folder)
}

/// The command of this root with these words, in a folder. A program `rt` or `cargo` in the root is
/// found before any other.
pub fn command_of(root: &Path, folder: &Path, words: &[&str]) -> Command {
    let path = env::var("PATH").expect("there is a path");
    let mut command = Command::new(root.join("cec"));
    let command_path = format!("{}:{path}", root.display());
    command.args(words).current_dir(folder);
    command.env("PATH", command_path).stdin(Stdio::null());
    command
}

pub fn said(command: &mut Command) -> Said {
    let ended = command.output().expect("the command runs");
    let text = |bytes| String::from_utf8(bytes).expect("the output is text");
    (ended.status.code(), text(ended.stdout), text(ended.stderr))
}

pub fn run_of(root: &Path, folder: &Path, words: &[&str]) -> Said {
    said(&mut command_of(root, folder, words))
}

pub fn run(folder: &Path, words: &[&str]) -> Said {
    run_of(&root(), folder, words)
}

/// Has the command build the finder, so that no run of a test says that it is built first.
pub fn build_finder() {
    static BUILT: Once = Once::new();
    BUILT.call_once(|| {
        let pair = [samples::GUARD_OLD, samples::GUARD_ONE_PATTERN].map(sample);
        let (_, _, errors) = run(&root(), &["prove", &pair[0], &pair[1]]);
        assert!(!errors.contains("not built"), "{errors}");
    });
}

/// A sample's file, by its path.
pub fn sample(name: &str) -> String {
    let file = samples::file(name);
    file.to_str().expect("the path is text").into()
}

#[track_caller]
pub fn says(said: Said, status: i32, printed: &str) {
    assert_eq!(said, (Some(status), format!("{printed}\n"), String::new()));
}

/// Status 2: nothing is printed, and this is in the message.
#[track_caller]
pub fn fails(said: Said, message: &str) {
    let (status, printed, errors) = said;
    assert_eq!((status, printed.as_str()), (Some(2), ""), "{errors}");
    assert!(errors.contains(message), "{errors}");
}

/// Status 1, and a sentence that begins so.
#[track_caller]
pub fn refuses(said: Said, sentence: &str) {
    let (status, printed, errors) = said;
    assert_eq!((status, errors.as_str()), (Some(1), ""), "{printed}");
    assert!(printed.starts_with(sentence), "{printed}");
    assert!(printed.ends_with('\n'), "{printed}");
}

/// A root of its own, with these stand-ins.
pub fn stand_ins(name: &str, scripts: &[(&str, &str)]) -> Folder {
    let root = folder(name);
    put_stand_ins(&root, scripts);
    root
}

/// The same in a folder that is there.
pub fn put_stand_ins(root: &Path, scripts: &[(&str, &str)]) {
    fs::create_dir_all(root.join("target/bin")).expect("they are made");
    fs::create_dir_all(root.join("tools")).expect("it is made");
    for program in PROGRAMS {
        fs::create_dir_all(root.join("crates").join(program)).expect("they are made");
    }
    for script in ["cec", "tools/build"] {
        let text = fs::read_to_string(self::root().join(script)).expect("it is read");
        make_executable(&root.join(script), &text);
    }
    for (file, script) in scripts {
        let place = root.join(file);
        let place = place.parent().expect("it stands in the root");
        fs::create_dir_all(place).expect("they are made");
        make_executable(&root.join(file), &format!("#!/bin/sh\n{script}\n"));
    }
}

/// Another process writes the file. A file that this one has open for writing cannot be run, and a
/// process that another test starts at that moment would have it open too.
fn make_executable(file: &Path, text: &str) {
    let mut command = Command::new("sh");
    let write = "printf '%s' \"$2\" >\"$1\" && chmod +x \"$1\"";
    let command = command.args(["-c", write, "sh"]).arg(file).arg(text);
    let ended = command.status().expect("the shell runs");
    assert!(ended.success(), "the file is written");
}

/// A built program of this checkout, as a script that becomes it.
pub fn becomes(program: &str) -> String {
    let program = root().join("target/bin").join(program);
    format!("exec {} \"$@\"", program.display())
}

/// Whether a process of this number is at work.
fn runs(process: &str) -> bool {
    let about = fs::read_to_string(format!("/proc/{process}/stat")).unwrap_or_default();
    // The state stands behind the name, which is in brackets; Z is one that has ended.
    let state = about
        .rsplit(") ")
        .next()
        .and_then(|rest| rest.chars().next());
    state.is_some_and(|state| state != 'Z')
}

/// Waits until this holds, for some seconds.
#[track_caller]
fn wait_until(holds: impl Fn() -> bool) {
    let begun = Instant::now();
    while !holds() {
        assert!(
            begun.elapsed() < Duration::from_secs(10),
            "it took too long"
        );
        thread::sleep(Duration::from_millis(20));
    }
}

/// Whether this process ignores a signal, as behind `nohup`, and so does what it starts.
fn ignores(signal: i32) -> bool {
    let about = fs::read_to_string("/proc/self/status").unwrap_or_default();
    let ignored = about.lines().find_map(|line| line.strip_prefix("SigIgn:"));
    let ignored = ignored.and_then(|digits| u64::from_str_radix(digits.trim(), 16).ok());
    ignored.is_some_and(|ignored| ignored >> (signal - 1) & 1 == 1)
}

/// A root's command with these words, ended by a signal to it alone, and by one to all of its group,
/// as a terminal sends it. What it started leaves the number of a process in the file `worker`, and
/// that process ends too.
#[track_caller]
pub fn ends_with_its_command(words: &[&str], make_root: impl Fn() -> Folder) {
    for (signal, group, status) in [("TERM", "", 143), ("INT", "-", 130), ("HUP", "", 129)] {
        if ignores(status - 128) {
            continue;
        }
        let root = make_root();
        let mut command = command_of(&root, &root, words);
        let command = command.stdout(Stdio::null()).stderr(Stdio::null());
        let mut child = command.process_group(0).spawn().expect("it starts");
        let worker = root.join("worker");
        wait_until(|| worker.exists());
        let worker = fs::read_to_string(worker).expect("it is there");
        let worker = worker.trim();
        assert!(runs(worker));
        let to = format!("{group}{}", child.id());
        let kill = Command::new("kill")
            .args(["-s", signal, "--", &to])
            .status();
        assert!(kill.expect("kill runs").success());
        assert_eq!(child.wait().expect("it ends").code(), Some(status));
        wait_until(|| !runs(worker));
    }
}
