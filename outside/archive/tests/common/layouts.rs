//! Layouts of functions, and the pairs of them that agree. A folder has two writings of a function,
//! FUNCTION_a and FUNCTION_b, and each of these has lists LAYOUT.txt: `plain` as the writing has
//! it, `aigmap` in AND gates alone, and others made from it.

use std::fs;
use std::path::{Path, PathBuf};

/// What was changed between both lists of a pair.
pub const KINDS: [&str; 5] = [
    "renumbered or hashed again",
    "XOR reshaped",
    "one ABC pass",
    "resynthesised",
    "two writings",
];

/// The layouts that every writing has, from which the others are told apart.
const PLAIN: &str = "plain";
const AND_ONLY: &str = "aigmap";

/// Two lists that agree.
pub struct Pair {
    /// One of the kinds.
    pub kind: &'static str,
    pub about: String,
    pub text: Vec<u8>,
}

/// The repository's own layouts.
pub fn samples() -> PathBuf {
    Path::new(env!("CARGO_MANIFEST_DIR")).join("../../samples/layouts")
}

/// What a layout changes against the plain one, by its name.
fn kind(layout: &str) -> &'static str {
    let [renumbered, reshaped, pass, resynthesised, _] = KINDS;
    match layout {
        "renamed" | "strash" => renumbered,
        "balance" | "rewrite" | "dc2" | "fraig" => pass,
        _ if layout.starts_with("y_") => renumbered,
        AND_ONLY => reshaped,
        _ if layout.starts_with("xor_") => reshaped,
        _ => resynthesised,
    }
}

/// A writing of a function, and its layouts by name.
struct Writing {
    name: String,
    layouts: Vec<(String, Vec<u8>)>,
}

impl Writing {
    fn read(folder: &Path) -> Result<Self, String> {
        let lists = entries(folder)?.into_iter();
        let lists = lists.filter(|list| list.extension().is_some_and(|end| end == "txt"));
        let layouts = lists.map(|list| {
            let text = fs::read(&list).map_err(|error| format!("{}: {error}", list.display()))?;
            Ok((name(&list), text))
        });
        Ok(Self {
            name: name(folder),
            layouts: layouts.collect::<Result<_, String>>()?,
        })
    }

    /// Each layout with the plain one and with that in AND gates alone.
    fn pairs(&self) -> Vec<Pair> {
        let mut pairs = Vec::new();
        for (base, left) in &self.layouts {
            for (layout, right) in &self.layouts {
                let is_pair = match base.as_str() {
                    PLAIN => layout != PLAIN,
                    AND_ONLY => layout != PLAIN && layout != AND_ONLY,
                    _ => false,
                };
                if is_pair {
                    pairs.push(Pair {
                        kind: kind(layout),
                        about: format!("{}: {base}, {layout}", self.name),
                        text: [left.as_slice(), right].concat(),
                    });
                }
            }
        }
        pairs
    }

    /// The function, if this is its first writing.
    fn function(&self) -> Option<&str> {
        self.name.strip_suffix("_a")
    }

    /// Both writings in each layout.
    fn pairs_with(&self, other: &Self) -> Vec<Pair> {
        let same = |layout: &str| other.layouts.iter().find(|(name, _)| name == layout);
        let layouts = self.layouts.iter();
        let both = layouts.filter_map(|(layout, left)| Some((layout, left, &same(layout)?.1)));
        both.map(|(layout, left, right)| Pair {
            kind: KINDS[4],
            about: format!("{}, {}: {layout}", self.name, other.name),
            text: [left.as_slice(), right].concat(),
        })
        .collect()
    }
}

/// All pairs of a folder, in the order of names; what cannot be read is the error.
pub fn pairs(folder: &Path) -> Result<Vec<Pair>, String> {
    let folders = entries(folder)?.into_iter().filter(|entry| entry.is_dir());
    let writings = folders.map(|folder| Writing::read(&folder));
    let writings = writings.collect::<Result<Vec<_>, _>>()?;
    let mut pairs = Vec::new();
    for writing in &writings {
        pairs.append(&mut writing.pairs());
        let other = writing.function().map(|function| format!("{function}_b"));
        let other = writings
            .iter()
            .find(|writing| Some(&writing.name) == other.as_ref());
        if let Some(other) = other {
            pairs.append(&mut writing.pairs_with(other));
        }
    }
    Ok(pairs)
}

fn entries(folder: &Path) -> Result<Vec<PathBuf>, String> {
    let fault = |error| format!("{}: {error}", folder.display());
    let entries = fs::read_dir(folder).map_err(fault)?;
    let paths = entries.map(|entry| entry.map(|entry| entry.path()));
    let mut paths = paths.collect::<Result<Vec<_>, _>>().map_err(fault)?;
    paths.sort();
    Ok(paths)
}

fn name(path: &Path) -> String {
    let name = path.file_stem().unwrap_or_default();
    name.to_string_lossy().into_owned()
}
