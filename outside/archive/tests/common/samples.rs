//! The repository's sample lists. samples/README.md says where each comes from.

use std::fs;
use std::path::{Path, PathBuf};

use super::lists::Shape;

pub const ADDER: &str = "adder16";
pub const GUARD_OLD: &str = "guard-old";
pub const GUARD_NEW: &str = "guard-new";

/// The guard with output 3 complemented on `ODD_PATTERN` alone, and the guard with other forms.
pub const GUARD_ONE_PATTERN: &str = "guard-one-pattern";
pub const GUARD_RESYNTHESISED: &str = "guard-resynthesised";
pub const ODD_PATTERN: u64 = 0x02D4_A1F0_9C3E_6B57;

/// The samples of which each pair has the same forms or unlike headers, and their shapes.
pub const ALL: [(&str, Shape); 3] = [
    (ADDER, shape(33, 80, 17)),
    (GUARD_OLD, shape(58, 199, 12)),
    (GUARD_NEW, shape(58, 194, 12)),
];

/// A pattern on which the guard's outputs 3 and 4 are 1. On random patterns they hardly ever are,
/// and on this one's neighbours each output is seen as 1 and as 0.
pub const GUARD_PATTERN: u64 = 0x0200_006C_003F;

const fn shape(inputs: usize, gates: usize, outputs: usize) -> Shape {
    Shape {
        inputs,
        gates,
        outputs,
    }
}

fn folder() -> PathBuf {
    Path::new(env!("CARGO_MANIFEST_DIR")).join("../../samples")
}

pub fn file(sample: &str) -> PathBuf {
    folder().join(sample).with_extension("txt")
}

pub fn text(sample: &str) -> Vec<u8> {
    let file = file(sample);
    fs::read(&file).unwrap_or_else(|error| panic!("{}: {error}", file.display()))
}

/// Each pair of samples: its names, its text, and whether both lists have the same forms. The guard
/// and its renamed copy have; the adder has other inputs than they.
pub fn pairs() -> impl Iterator<Item = (String, Vec<u8>, bool)> {
    let names = || ALL.into_iter().map(|(sample, _)| sample);
    let pairs = names().flat_map(move |left| names().map(move |right| [left, right]));
    pairs.map(|pair| {
        let [left, right] = pair.map(|sample| sample != ADDER);
        (pair.join(" and "), pair.map(text).concat(), left == right)
    })
}

/// The name and the text of every list in the folder.
pub fn every() -> Vec<(String, Vec<u8>)> {
    let files = fs::read_dir(folder()).expect("the folder is there");
    let files = files.map(|file| file.expect("the folder is read").path());
    let lists = files.filter(|file| file.extension().is_some_and(|end| end == "txt"));
    let mut lists: Vec<PathBuf> = lists.collect();
    lists.sort();
    let names = lists.iter().filter_map(|list| list.file_stem()?.to_str());
    names.map(|name| (name.into(), text(name))).collect()
}
