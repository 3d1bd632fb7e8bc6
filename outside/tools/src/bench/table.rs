//! A table of times in Markdown, with what is worst in it.

use std::fmt;

/// What stands in the columns of both sides, worked out of a row and a side's time.
pub type Unit = (&'static str, fn(&Row, f64) -> f64);

/// Of one text.
pub const MICROSECONDS: Unit = ("µs", |row, time| time / 1e3 / row.texts as f64);
pub const MEGABYTES: Unit = ("MB/s", |row, time| 1e3 * row.bytes as f64 / time);

/// Ours and Rust's, in nanoseconds.
type Times = [f64; 2];

pub struct Table {
    title: &'static str,
    unit: Unit,
    rows: Vec<Row>,
}

/// One size of a series, in which each is about twice the one before.
pub struct Row {
    pub series: &'static str,
    /// What a text has so many of, and how many.
    pub unit: &'static str,
    pub size: usize,
    /// How many texts there are, and the bytes of all.
    pub texts: usize,
    pub bytes: usize,
    /// Of all texts.
    pub times: Times,
}

impl Row {
    /// Our time over Rust's.
    fn ratio(&self) -> f64 {
        self.times[0] / self.times[1]
    }

    /// A side's time over that of half as much, which is in the row before if that is of the series.
    /// Where that is not quite the half, it is taken in proportion.
    fn growth(&self, before: Option<&Row>, side: usize) -> Option<f64> {
        let before = before.filter(|before| before.series == self.series)?;
        let [time, half] = [self, before].map(|row| {
            let all = row.texts * row.size;
            row.times[side] / all as f64
        });
        Some(2.0 * time / half)
    }
}

impl Table {
    pub fn new(title: &'static str, unit: Unit) -> Self {
        let rows = Vec::new();
        Self { title, unit, rows }
    }

    pub fn add(&mut self, row: Row) {
        self.rows.push(row);
    }

    /// Each row, and the one before.
    fn rows(&self) -> impl Iterator<Item = (&Row, Option<&Row>)> {
        let before = std::iter::once(None).chain(self.rows.iter().map(Some));
        self.rows.iter().zip(before)
    }

    fn worst_growth(&self, side: usize) -> f64 {
        let growths = self
            .rows()
            .filter_map(|(row, before)| row.growth(before, side));
        growths.fold(0.0, f64::max)
    }

    fn line(&self, row: &Row, before: Option<&Row>) -> String {
        let (_, in_unit) = self.unit;
        let [ours, rust] = row.times.map(|time| in_unit(row, time));
        let [of_ours, of_rust] = [0, 1].map(|side| {
            let growth = row.growth(before, side);
            growth.map_or(String::new(), |growth| format!("{growth:.2}"))
        });
        let is_first = of_ours.is_empty();
        let series = if is_first { row.series } else { "" };
        let (size, unit, ratio) = (with_commas(row.size), row.unit, row.ratio());
        format!(
            "| {series} | {size} {unit} | {ours:.1} | {rust:.1} | {ratio:.2} | {of_ours} | {of_rust} |"
        )
    }
}

impl fmt::Display for Table {
    fn fmt(&self, out: &mut fmt::Formatter<'_>) -> fmt::Result {
        let (title, (unit, _)) = (self.title, self.unit);
        write!(
            out,
            "| {title} | Size | Ours, {unit} | Rust, {unit} | Ratio "
        )?;
        writeln!(out, "| Growth of ours | Growth of Rust |")?;
        writeln!(out, "|---|---:|---:|---:|---:|---:|---:|")?;
        for (row, before) in self.rows() {
            writeln!(out, "{}", self.line(row, before))?;
        }
        let ratio = self.rows.iter().map(Row::ratio).fold(0.0, f64::max);
        let [ours, rust] = [0, 1].map(|side| self.worst_growth(side));
        write!(out, "\nWorst ratio {ratio:.2}, ")?;
        writeln!(out, "worst growth of ours {ours:.2}, of Rust {rust:.2}.")
    }
}

/// A number with commas, as a size is printed.
fn with_commas(number: usize) -> String {
    match number {
        0..1_000 => number.to_string(),
        _ => format!("{},{:03}", with_commas(number / 1_000), number % 1_000),
    }
}
