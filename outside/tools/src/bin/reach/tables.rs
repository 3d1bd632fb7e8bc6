//! What was measured, in groups of pairs, as tables in Markdown.

use std::fmt;

use crate::measured::{Measured, Proof};

/// Groups of pairs, each a row, in the order of their names.
pub struct Groups {
    title: &'static str,
    rows: Vec<(String, Vec<Measured>)>,
}

impl Groups {
    pub fn new(title: &'static str, names: &[String]) -> Self {
        let rows = names.iter().map(|name| (name.clone(), Vec::new()));
        let rows = rows.collect();
        Self { title, rows }
    }

    pub fn add(&mut self, name: &str, measured: Measured) {
        let row = self.rows.iter_mut().find(|(row, _)| row == name);
        row.expect("each group has its row").1.push(measured);
    }

    fn all(&self) -> Vec<&Measured> {
        self.rows.iter().flat_map(|(_, pairs)| pairs).collect()
    }

    /// Each group that has pairs, and all together.
    fn groups(&self) -> Vec<(&str, Vec<&Measured>)> {
        let rows = self.rows.iter();
        let rows = rows.map(|(name, pairs)| (name.as_str(), pairs.iter().collect()));
        let all = ("all", self.all());
        let groups = rows.chain([all]);
        groups
            .filter(|(_, pairs): &(_, Vec<_>)| !pairs.is_empty())
            .collect()
    }

    fn has_abc(&self) -> bool {
        self.all().iter().any(|pair| pair.abc.is_some())
    }
}

impl fmt::Display for Groups {
    fn fmt(&self, out: &mut fmt::Formatter<'_>) -> fmt::Result {
        let columns = ["Number", "Engine", "Finder", "Within `cec_check`"];
        self.table(out, &columns, |pairs| {
            let counts = counts(pairs).into_iter();
            let cells = [pairs.len()].into_iter().chain(counts);
            cells.map(with_commas).collect()
        })?;
        let finder = ["Finder: median, worst"];
        let abc: &[&str] = match self.has_abc() {
            true => &["ABC `cec`: median, worst"],
            false => &[],
        };
        let sizes = ["Lines: median, most", "Clauses", "Bytes"];
        let columns = [&finder[..], abc, &sizes].concat();
        self.table(out, &columns, |pairs| self.costs(pairs))?;
        writeln!(out, "{}", self.summary())?;
        self.unproved(out)
    }
}

impl Groups {
    /// A row for each group, with these cells in it.
    fn table(
        &self,
        out: &mut fmt::Formatter<'_>,
        columns: &[&str],
        cells: impl Fn(&[&Measured]) -> Vec<String>,
    ) -> fmt::Result {
        writeln!(out, "| {} | {} |", self.title, columns.join(" | "))?;
        writeln!(out, "|---|{}", "---:|".repeat(columns.len()))?;
        for (name, pairs) in self.groups() {
            writeln!(out, "| {name} | {} |", cells(&pairs).join(" | "))?;
        }
        writeln!(out)
    }

    /// Times and sizes.
    fn costs(&self, pairs: &[&Measured]) -> Vec<String> {
        let finder = time(pairs.iter().map(|pair| Some(pair.seconds)));
        let abc = self
            .has_abc()
            .then(|| time(pairs.iter().map(|pair| pair.abc)));
        let times = [finder].into_iter().chain(abc);
        times.chain(sizes(pairs)).collect()
    }

    /// The figures that a reader looks for first.
    fn summary(&self) -> String {
        let all = self.all();
        let [_, found, within] = counts(&all);
        let share = |count: usize| 100.0 * count as f64 / all.len() as f64;
        let (found, within) = (share(found), share(within));
        let time = time(all.iter().map(|pair| Some(pair.seconds)));
        let accepted =
            format!("Accepted {found:.1} %, within the limits of `cec_check` {within:.1} %");
        format!("{accepted}; median and worst time {time}.")
    }

    /// The pairs that have no accepted proof.
    fn unproved(&self, out: &mut fmt::Formatter<'_>) -> fmt::Result {
        let all = self.all().into_iter();
        let unproved = all.filter_map(|pair| Some((&pair.about, pair.proof.as_ref().err()?)));
        let unproved: Vec<_> = unproved.collect();
        if unproved.is_empty() {
            return Ok(());
        }
        writeln!(out, "\nWithout a proof:\n")?;
        for (about, said) in unproved {
            writeln!(out, "- {about}: {said}")?;
        }
        Ok(())
    }
}

/// Proved by the engine, by the finder, and by the finder within the checking program's limits.
fn counts(pairs: &[&Measured]) -> [usize; 3] {
    let engine = pairs.iter().filter(|pair| pair.engine).count();
    let found = pairs.iter().filter_map(|pair| pair.proof.as_ref().ok());
    let within = found.clone().filter(|proof| proof.is_within()).count();
    [engine, found.count(), within]
}

/// Median and worst; without an end is worst of all.
fn time(times: impl Iterator<Item = Option<f64>>) -> String {
    let mut times: Vec<f64> = times.map(|time| time.unwrap_or(f64::INFINITY)).collect();
    times.sort_by(f64::total_cmp);
    let [median, worst] = [times[times.len() / 2], times[times.len() - 1]].map(in_words);
    format!("{median}, {worst}")
}

fn in_words(seconds: f64) -> String {
    match seconds {
        _ if seconds.is_infinite() => "none".into(),
        _ if seconds < 0.9995 => format!("{:.0} ms", 1e3 * seconds),
        _ => format!("{seconds:.1} s"),
    }
}

/// Median and most lines, clauses and bytes of the proofs.
fn sizes(pairs: &[&Measured]) -> [String; 3] {
    let sizes: [fn(&Proof) -> usize; 3] = [
        |proof| proof.lines as usize,
        |proof| proof.clauses as usize,
        |proof| proof.bytes,
    ];
    sizes.map(|size| {
        let proofs = pairs.iter().filter_map(|pair| pair.proof.as_ref().ok());
        let mut sizes: Vec<usize> = proofs.map(size).collect();
        sizes.sort_unstable();
        match sizes.last() {
            Some(&most) => {
                let median = sizes[sizes.len() / 2];
                format!("{}, {}", with_commas(median), with_commas(most))
            }
            None => "none".into(),
        }
    })
}

fn with_commas(number: usize) -> String {
    match number {
        0..1_000 => number.to_string(),
        _ => format!("{},{:03}", with_commas(number / 1_000), number % 1_000),
    }
}
