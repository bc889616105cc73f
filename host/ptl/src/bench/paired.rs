//! Two calls that are timed on large stores, with labels of two lengths: a line of single calls for
//! either, and a table of their own that sets them beside something else.

use super::single::LABELS;
use super::table::{single_row, Row};
use super::{names, Plan, Sides, Stopped};
use std::io::Write;

/// What two calls take, by the length of labels.
pub trait Paired: Sized {
    /// What stands above the lines of their table.
    const HEAD: &'static str;

    fn measure(sides: Sides, plan: Plan, label: usize) -> Result<Self, Stopped>;

    /// The lines of single calls.
    fn rows(&self) -> [Row; 2];

    /// The line of a side in their table.
    fn line(&self, side: usize, name: &str) -> String;
}

/// Measures, and writes the lines of single calls.
pub fn measure<P: Paired>(
    sides: Sides,
    plan: Plan,
    report: &mut dyn Write,
) -> Result<Vec<P>, Stopped> {
    let mut all = Vec::new();
    for label in LABELS {
        let measured = P::measure(sides, plan, label)?;
        for row in measured.rows() {
            single_row(&row, report)?;
        }
        all.push(measured);
    }
    Ok(all)
}

/// Writes their table.
pub fn table<P: Paired>(sides: Sides, all: &[P], report: &mut dyn Write) -> Result<(), Stopped> {
    writeln!(report, "{}", P::HEAD)?;
    for measured in all {
        for (side, name) in names(sides).into_iter().enumerate() {
            writeln!(report, "{}", measured.line(side, name))?;
        }
    }
    Ok(())
}
