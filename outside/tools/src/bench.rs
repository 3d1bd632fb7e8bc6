//! The measurements: the archive's calls beside the reference's, both in this process. Each has the
//! same text and is lent the same memory, just enough, and both are timed with clearing it. They
//! take turns, and medians are printed.

mod check;
mod clock;
mod evaluate;
mod measure;
mod pairs;
mod prove;
mod read;
mod table;

use table::Table;

/// A table, under the name that picks it.
type Named = (&'static str, fn() -> Table);

const TABLES: [Named; 5] = [
    ("check", check::proof_lines),
    ("check", check::whole_texts),
    ("evaluate", evaluate::lists),
    ("prove", prove::pairs),
    ("read", read::pairs),
];

/// Measures and prints the tables of this name, or all. Says whether there are any.
pub fn run(name: Option<&str>) -> bool {
    let picked = TABLES
        .iter()
        .filter(|(table, _)| name.is_none_or(|name| name == *table));
    let printed = picked.map(|(_, measure)| println!("{}", measure()));
    printed.count() > 0
}
