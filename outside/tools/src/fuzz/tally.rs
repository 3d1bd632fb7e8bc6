//! Counts of the texts by call and by reply.

use std::fmt;

use super::target::Target;

/// One more than the highest refusal number.
const NUMBERS: usize = 19;

/// By call, and by refusal number, with acceptance as 0.
#[derive(Default)]
pub struct Tally([[u64; NUMBERS]; 4]);

impl Tally {
    pub(super) fn count(&mut self, target: Target, number: u64) {
        self.0[target as usize][number as usize] += 1;
    }

    /// What a call can reply and has not replied.
    fn not_reached(&self, target: Target) -> impl Iterator<Item = String> + '_ {
        let numbers = [0].iter().chain(target.refusals());
        let missing = numbers.filter(move |&&number| self.of(target, number) == 0);
        missing.map(move |&number| format!("{} {number}", target.name()))
    }

    fn of(&self, target: Target, number: u64) -> u64 {
        self.0[target as usize][number as usize]
    }

    /// A row of the table: a name, and what stands in each call's column.
    fn row(name: &str, column: impl Fn(Target) -> String) -> String {
        let columns = Target::ALL.map(column).join(" | ");
        format!("| {name} | {columns} |")
    }
}

impl fmt::Display for Tally {
    fn fmt(&self, out: &mut fmt::Formatter<'_>) -> fmt::Result {
        let total = |target: Target| self.0[target as usize].iter().sum::<u64>().to_string();
        let name = |target: Target| target.name().to_string();
        writeln!(out, "{}", Self::row("Reply", name))?;
        writeln!(out, "{}", Self::row("---", |_| "---:".into()))?;
        writeln!(out, "{}", Self::row("texts", total))?;
        let accepted = |target| self.of(target, 0).to_string();
        writeln!(out, "{}", Self::row("no refusal", accepted))?;
        for number in 2..NUMBERS as u64 {
            let count = |target: Target| match target.refusals().contains(&number) {
                true => self.of(target, number).to_string(),
                false => String::new(),
            };
            writeln!(out, "{}", Self::row(&number.to_string(), count))?;
        }
        let targets = Target::ALL.into_iter();
        let missing: Vec<String> = targets
            .flat_map(|target| self.not_reached(target))
            .collect();
        match missing.as_slice() {
            [] => writeln!(out, "\nEach refusal of each call was reached."),
            _ => writeln!(out, "\nNot reached: {}.", missing.join(", ")),
        }
    }
}
