//! The README as printed: each of its commands is run and prints what stands there, the contract and
//! the definitions that it shows are those of the source, what it names exists, and the picture of
//! the crates is true.

mod cec;
mod common;

use std::fs;
use std::os::unix::fs::symlink;
use std::path::Path;
use std::process::{Command, Stdio};

use cec::{folder, root, Folder};

/// The gate runs this test, and is not run by it.
const GATE: &str = "bash .ci/run";

/// Where the contract and the definitions that the README shows stand.
const SOURCES: [&str; 4] = [
    "crates/checker/src/lib.rt",
    "crates/checker/specs/Verdicts.antt",
    "crates/laws/specs/Soundness.antt",
    "crates/model/specs/Nets.antt",
];

fn text(file: &str) -> String {
    let file = root().join(file);
    fs::read_to_string(&file).unwrap_or_else(|error| panic!("{}: {error}", file.display()))
}

/// A command, and what is shown behind it.
struct Shown {
    command: String,
    output: String,
}

/// The commands of the README's blocks, in order.
fn commands(readme: &str) -> Vec<Shown> {
    let mut commands: Vec<Shown> = vec![];
    let mut open = false;
    for line in readme.lines() {
        let Some(line) = line.strip_prefix("    ") else {
            open = false;
            continue;
        };
        if let Some(command) = line.strip_prefix("$ ") {
            let (command, output) = (command.to_string(), String::new());
            commands.push(Shown { command, output });
            open = true;
        } else if open {
            let last = commands.last_mut().expect("a command stands before");
            last.output += &format!("{line}\n");
        }
    }
    commands
}

/// What stands between backticks.
fn spans(readme: &str) -> impl Iterator<Item = &str> {
    let prose = readme.lines().filter(|line| !line.starts_with("    "));
    prose.flat_map(|line| line.split('`').skip(1).step_by(2))
}

/// A folder that has all that the repository's has, and keeps what the commands leave.
fn copy_of_root() -> Folder {
    let folder = folder("readme");
    for entry in fs::read_dir(root()).expect("it is there") {
        let entry = entry.expect("it is read");
        if entry.file_name() != "evidence.txt" {
            let file = entry.path().canonicalize().expect("it is there");
            symlink(file, folder.join(entry.file_name())).expect("it is made");
        }
    }
    folder
}

/// Runs a command as a shell does, and gives whether it ended with 0, and what it printed.
fn run(folder: &Path, command: &str) -> (bool, String) {
    let mut shell = Command::new("bash");
    let shell = shell.args(["-c", command]).current_dir(folder);
    let ended = shell.stdin(Stdio::null()).output().expect("it runs");
    let printed = String::from_utf8(ended.stdout).expect("the output is text");
    (ended.status.success(), printed)
}

#[test]
fn each_command_prints_what_is_shown() {
    let readme = text("README.md");
    let folder = copy_of_root();
    let commands = commands(&readme);
    assert!(commands.len() >= 15, "{} commands", commands.len());
    let gates = commands.iter().filter(|shown| shown.command == GATE);
    assert_eq!(gates.count(), 1);
    for Shown { command, output } in &commands {
        if command == GATE {
            continue;
        }
        let (success, printed) = run(&folder, command);
        if output.is_empty() {
            assert!(success, "{command}: {printed}");
        } else {
            assert_eq!(&printed, output, "{command}");
        }
    }
    for command in spans(&readme).filter(|span| span.starts_with("./cec ")) {
        let (success, printed) = run(&folder, command);
        assert!(success && !printed.is_empty(), "{command}: {printed}");
    }
}

/// The two commands stand within the first screen.
#[test]
fn the_two_commands_stand_first() {
    let readme = text("README.md");
    let screen: Vec<&str> = readme.lines().take(24).collect();
    let commands = screen.iter().filter_map(|line| line.strip_prefix("    $ "));
    let commands: Vec<_> = commands.collect();
    assert_eq!(commands.len(), 2);
    assert!(commands[0].starts_with("./cec prove ") && commands[1] == GATE);
}

/// The contract and its definitions, line by line.
#[test]
fn the_theorem_is_the_source() {
    let readme = text("README.md");
    let begin = readme.find("## What is to be trusted").expect("it stands");
    let end = readme.find("## For the laboratory").expect("it stands");
    let shown = readme[begin..end].lines();
    let shown: Vec<_> = shown.filter_map(|line| line.strip_prefix("    ")).collect();
    assert!(shown.iter().any(|line| line.contains("ensures agrees")));
    let sources = SOURCES.map(text);
    for line in shown {
        let mut lines = sources.iter().flat_map(|source| source.lines());
        assert!(lines.any(|of_source| of_source == line), "{line}");
    }
}

#[test]
fn what_is_named_exists() {
    let readme = text("README.md");
    let parts = ["docs/", "samples/", "crates/", "include/", "outside"];
    let mut named: Vec<&str> = spans(&readme)
        .filter(|span| parts.iter().any(|part| span.starts_with(part)) && !span.contains(' '))
        .collect();
    named.extend(
        readme
            .split("](")
            .skip(1)
            .filter_map(|rest| rest.split(')').next()),
    );
    assert!(named.len() >= 20, "{named:?}");
    for file in named {
        assert!(root().join(file).exists(), "{file}");
    }
}

/// The crates of crates.txt, with those of the repository that each rests on.
fn crates() -> Vec<(String, Vec<String>)> {
    let text = text("crates.txt");
    let lines = text.lines().filter(|line| !line.starts_with('#'));
    let pairs = lines.filter_map(|line| line.split_once(':'));
    let all: Vec<(String, Vec<String>)> = pairs
        .map(|(name, uses)| {
            // A static library has a word behind its name that says so.
            let name = name.split(' ').next().expect("it has a name");
            (
                name.into(),
                uses.split_whitespace().map(String::from).collect(),
            )
        })
        .collect();
    let names: Vec<String> = all.iter().map(|(name, _)| name.clone()).collect();
    let own = |uses: Vec<String>| {
        uses.into_iter()
            .filter(|used| names.contains(used))
            .collect()
    };
    all.into_iter()
        .map(|(name, uses)| (name, own(uses)))
        .collect()
}

/// How far down a crate's name stands in the picture; it stands there once.
fn height(picture: &str, name: &str) -> u32 {
    let ending = format!(">{name}</text>");
    let mut lines = picture.lines().filter(|line| line.ends_with(&ending));
    let line = lines.next().unwrap_or_else(|| panic!("{name} is missing"));
    assert!(lines.next().is_none(), "{name} stands twice");
    let (_, behind) = line.split_once(" y=\"").expect("it has a place");
    let (height, _) = behind.split_once('"').expect("it has a place");
    height.parse().expect("it is a number")
}

/// Each crate stands above those that it rests on.
#[test]
fn the_picture_of_the_crates_is_true() {
    let picture = text("docs/crates.svg");
    let crates = crates();
    assert!(crates.len() >= 33);
    for (name, uses) in &crates {
        for used in uses {
            let [above, below] = [name, used].map(|name| height(&picture, name));
            assert!(above < below, "{name} rests on {used}");
        }
        height(&picture, name);
    }
    let about = text("docs/CRATES.md");
    for (name, _) in &crates {
        let row = format!("| `{name}` | ");
        assert_eq!(about.matches(&row).count(), 2, "{name}");
    }
}
