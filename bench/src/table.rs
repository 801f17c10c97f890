//! Tables of numbers in Markdown, as docs/SPEED.md has them.

use std::fmt::{self, Display, Formatter};

/// A table: its columns after the labels, and its rows.
pub struct Table {
    pub title: String,
    pub columns: Vec<String>,
    pub rows: Vec<Row>,
}

/// A row: its label, and a cell for each column.
pub struct Row {
    pub label: String,
    pub cells: Vec<String>,
}

impl Table {
    /// A table of some columns.
    pub fn new(title: &str, columns: &[&str], rows: Vec<Row>) -> Table {
        Table {
            title: title.to_string(),
            columns: columns.iter().map(|column| column.to_string()).collect(),
            rows,
        }
    }

    /// The same with its rows as columns.
    pub fn turned(self) -> Table {
        let cells = |place: usize| self.rows.iter().map(move |row| row.cells[place].clone());
        let rows = self.columns.iter().enumerate().map(|(place, column)| Row {
            label: column.clone(),
            cells: cells(place).collect(),
        });
        Table {
            rows: rows.collect(),
            columns: self.rows.iter().map(|row| row.label.clone()).collect(),
            title: self.title,
        }
    }
}

impl Display for Table {
    fn fmt(&self, out: &mut Formatter) -> fmt::Result {
        line(out, &self.title, &self.columns)?;
        writeln!(out, "|{}", "---|".repeat(1 + self.columns.len()))?;
        self.rows
            .iter()
            .try_for_each(|row| line(out, &row.label, &row.cells))
    }
}

/// A line of a table.
fn line(out: &mut Formatter, label: &str, cells: &[String]) -> fmt::Result {
    writeln!(out, "| {label} | {} |", cells.join(" | "))
}

/// A ratio with about three digits: `0.94`, `12.3`, `310,000`.
pub fn ratio(value: f64) -> String {
    if value < 10.0 {
        return format!("{value:.2}");
    }
    if value < 100.0 {
        return format!("{value:.1}");
    }
    let digits = value.log10().floor() as i32 - 2;
    let unit = 10_f64.powi(digits.max(0));
    thousands(((value / unit).round() * unit) as u64)
}

/// A number with commas.
pub fn thousands(number: u64) -> String {
    let digits = number.to_string();
    let groups = digits.as_bytes().rchunks(3).rev();
    let groups: Vec<String> = groups
        .map(|group| String::from_utf8_lossy(group).into_owned())
        .collect();
    groups.join(",")
}

/// A time in its fitting unit, with three digits.
pub fn time(seconds: f64) -> String {
    let (value, unit) = match seconds {
        s if s < 1e-6 => (s * 1e9, "ns"),
        s if s < 1e-3 => (s * 1e6, "µs"),
        s if s < 1.0 => (s * 1e3, "ms"),
        s if s < 100.0 => (s, "s"),
        s => (s / 60.0, "min"),
    };
    match value {
        v if v < 10.0 => format!("{v:.2} {unit}"),
        v if v < 100.0 => format!("{v:.1} {unit}"),
        v => format!("{v:.0} {unit}"),
    }
}

/// What stands where nothing was measured.
pub const NOTHING: &str = "";
