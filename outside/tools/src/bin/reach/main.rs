//! Measures what the finder reaches: pairs of a folder of layouts, sums in two orders, and random
//! lists laid out again. Beside each stands whether the engine has a proof, and ABC's `cec` in the
//! same run. Prints tables in Markdown; `docs/REACH.md` has them. The program `finder` is taken
//! from this program's own folder, so that both are of one build: `outside/reach` makes it.

// Pairs are made as for the tests.
#[path = "../../../../archive/tests/common/mod.rs"]
mod common;

mod abc;
mod measured;
mod tables;

use std::env;
use std::path::Path;
use std::process::ExitCode;

use common::layouts::{self, KINDS};
use common::random::{seed, Random};
use common::relaid::Relaid;
use common::sums::{self, SUMS};
use measured::Measuring;
use tables::Groups;

const USAGE: &str = "usage: reach FOLDER [layouts | sums | random]
Measures the finder on the layouts of FOLDER, on sums and on random lists, and prints tables, of one
part or of all.";

/// How many random lists are laid out again, and the gates with which each row begins and the last
/// one ends.
const RELAID: u64 = 500;
const GATES: [usize; 5] = [10, 50, 100, 150, 210];

/// Each pair of the folder, by kind of change.
fn of_layouts(measuring: &Measuring, folder: &Path) -> Result<Groups, String> {
    let pairs = layouts::pairs(folder)?;
    if pairs.is_empty() {
        return Err(format!("{}: no pairs of layouts", folder.display()));
    }
    let mut groups = Groups::new("Pairs", &KINDS.map(String::from));
    for pair in pairs {
        let measured = measuring.measure(&pair.about, &pair.text)?;
        groups.add(pair.kind, measured);
    }
    Ok(groups)
}

/// Each sum in its orders.
fn of_sums(measuring: &Measuring) -> Result<Groups, String> {
    let names = SUMS.map(|sum| sum.to_string());
    let mut groups = Groups::new("Sum, in two orders", &names);
    for (sum, name) in SUMS.into_iter().zip(&names) {
        for pair in sums::pairs(sum) {
            let measured = measuring.measure(&pair.about, &pair.text())?;
            groups.add(name, measured);
        }
    }
    Ok(groups)
}

/// Random lists laid out again, by the gates of the first list.
fn of_relaid(measuring: &Measuring) -> Result<Groups, String> {
    let rows = GATES.windows(2);
    let names = rows.map(|row| format!("{} to {} gates drawn", row[0], row[1] - 1));
    let names: Vec<String> = names.collect();
    let mut groups = Groups::new("Random lists", &names);
    for case in 0..RELAID {
        let mut random = Random::of_case(seed(), case);
        let gates = GATES[0] + random.below(GATES[4] - GATES[0]);
        let pair = Relaid::any(&mut random, gates);
        let row = GATES.iter().rposition(|&from| from <= gates);
        let name = &names[row.expect("the first row has the fewest")];
        let measured = measuring.measure(&format!("random list {case}"), &pair.text())?;
        groups.add(name, measured);
    }
    Ok(groups)
}

/// A part, under the name that picks it, with its title.
type Part = (
    &'static str,
    &'static str,
    fn(&Measuring, &Path) -> Result<Groups, String>,
);

const PARTS: [Part; 3] = [
    ("layouts", "Layouts", of_layouts),
    ("sums", "Sums", |measuring, _| of_sums(measuring)),
    ("random", "Random lists laid out again", |measuring, _| {
        of_relaid(measuring)
    }),
];

/// Measures and prints the part of this name, or all.
fn run(folder: &Path, name: Option<&str>) -> Result<(), String> {
    let measuring = Measuring::start()?;
    if !measuring.has_abc() {
        println!(
            "{} is not installed here: its columns are left out.\n",
            abc::PROGRAM
        );
    }
    let is_picked = |part: &&Part| name.is_none_or(|name| name == part.0);
    for (_, title, measure) in PARTS.iter().filter(is_picked) {
        println!("## {title}\n\n{}", measure(&measuring, folder)?);
    }
    Ok(())
}

fn main() -> ExitCode {
    let arguments: Vec<String> = env::args().skip(1).collect();
    let words: Vec<&str> = arguments.iter().map(String::as_str).collect();
    let (folder, part) = match *words.as_slice() {
        [folder] => (folder, None),
        [folder, part] if PARTS.iter().any(|(name, ..)| *name == part) => (folder, Some(part)),
        _ => {
            eprintln!("{USAGE}");
            return ExitCode::FAILURE;
        }
    };
    match run(Path::new(folder), part) {
        Ok(()) => ExitCode::SUCCESS,
        Err(fault) => {
            eprintln!("reach: {fault}");
            ExitCode::FAILURE
        }
    }
}
