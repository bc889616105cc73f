//! The tables that a bench prints: times are minima, ratios are those of the product to the forms
//! of the baseline.

use super::intake::Answers;
use super::stats::{Quartiles, Summary};
use super::{Names, Plan};
use limits::ACTORS;
use std::io::{self, Write};

/// One line of a table: what was timed, with names or labels of so many bytes.
#[derive(Clone, Debug)]
pub struct Row {
    pub what: &'static str,
    pub bytes: usize,
    /// Used bytes of the store.
    pub used: usize,
    pub summary: Summary,
    /// Copy and compare of the same bytes, in seconds.
    pub floor: f64,
}

const HEAD: &str = "\
The product, through its C interface, against the baseline: Rust with the same checks on the same
state block, in two of its three forms. Plain is ordinary Rust; tuned is the same, but looks for the
00 after a label eight bytes at a time and finds a label's place in the pass that judges the store;
fastest is the fastest form that we know of. There is no exported batch function: taking in is a call
of the C interface for each message. Rounds time the three in turn, in every order. Times are the
shortest of all rounds. /plain and /FORM are the product's time divided by that of the form: the
median of the rounds, and its quartiles. The floor is a plain copy and compare of the bytes that the
calls find used.
";

pub fn head(
    names: Names,
    plan: Plan,
    core: Option<usize>,
    report: &mut dyn Write,
) -> io::Result<()> {
    report.write_all(HEAD.replace("FORM", names[2]).as_bytes())?;
    let pinned = core.map_or("not pinned to a core".to_string(), |core| {
        format!("pinned to core {core}")
    });
    let (intake, single) = (plan.intake_rounds, plan.single_rounds);
    writeln!(
        report,
        "Rounds: {intake} of taking in, {single} of each other call; {pinned}."
    )?;
    if intake < 21 || cfg!(debug_assertions) {
        writeln!(
            report,
            "Too few rounds or no release build: not to be quoted."
        )?;
    }
    Ok(())
}

pub fn intake_head(names: Names, plan: Plan, report: &mut dyn Write) -> io::Result<()> {
    let number = plan.messages;
    let others = ACTORS - 1;
    writeln!(
        report,
        "\nTaking in {number} messages of {others} actors, in ms"
    )?;
    let columns = columns(names);
    writeln!(
        report,
        "labels      name     used {columns}  {:>9}",
        "floor"
    )
}

pub fn single_head(names: Names, report: &mut dyn Write) -> io::Result<()> {
    writeln!(report, "\nOne call, in us")?;
    let columns = columns(names);
    writeln!(
        report,
        "call       label     used {columns}  {:>9}",
        "floor"
    )
}

/// What stands above times and ratios.
pub fn columns(names: Names) -> String {
    let times = names.map(|name| format!("{name:>10}")).concat();
    let ratio = |name| format!("{:>9}  {:<9}", format!("/{name}"), "quartiles");
    let ratios = [names[1], names[2]].map(ratio).concat();
    times + &ratios
}

pub fn intake_row(row: &Row, report: &mut dyn Write) -> io::Result<()> {
    writeln!(report, "{}", line(row, 1e3))?;
    report.flush()
}

/// The answers that each row's messages got.
pub fn answers(rows: &[Row], given: &[Answers], report: &mut dyn Write) -> io::Result<()> {
    writeln!(
        report,
        "\nlabels      name   how often each answer was given"
    )?;
    for (row, answers) in rows.iter().zip(given) {
        let given = answers.iter().enumerate().filter(|(_, count)| **count > 0);
        let given: Vec<String> = given
            .map(|(answer, count)| format!("{answer}: {count}"))
            .collect();
        let (what, bytes, given) = (row.what, row.bytes, given.join(", "));
        writeln!(report, "{what:<10} {bytes:>5}   {given}")?;
    }
    Ok(())
}

pub fn single_row(row: &Row, report: &mut dyn Write) -> io::Result<()> {
    writeln!(report, "{}", line(row, 1e6))?;
    report.flush()
}

/// A line, with so many of its unit in a second.
fn line(row: &Row, unit: f64) -> String {
    let Summary { ratios, minima } = row.summary;
    let times = minima.map(|time| format!("{:>10.3}", time * unit)).concat();
    let ratios = ratios.map(Quartiles::cell).concat();
    format!(
        "{:<10} {:>5} {:>8} {times}  {ratios} {:>9.3}",
        row.what,
        row.bytes,
        row.used,
        row.floor * unit,
    )
}

/// How the cost grows: what each used byte adds to a call, at each size.
pub fn growth(names: Names, rows: &[Row], report: &mut dyn Write) -> io::Result<()> {
    writeln!(
        report,
        "\nGrowth: ns a used byte, above the time of the call on an empty store"
    )?;
    writeln!(
        report,
        "call       label  side     {}",
        "   used        ns".repeat(4)
    )?;
    let same = |one: &Row, other: &Row| (one.what, one.bytes) == (other.what, other.bytes);
    for group in rows.chunk_by(same) {
        let Some((empty, larger)) = group.split_first() else {
            continue;
        };
        for (side, name) in names.into_iter().enumerate() {
            let cell = |row: &Row| format!("{:>7} {:>9.3}", row.used, per_byte(empty, row, side));
            let cells: String = larger.iter().map(cell).collect();
            writeln!(
                report,
                "{:<10} {:>5}  {name:<9}{cells}",
                empty.what, empty.bytes
            )?;
        }
    }
    Ok(())
}

/// Nanoseconds that each used byte adds.
pub fn per_byte(empty: &Row, row: &Row, side: usize) -> f64 {
    let time = row.summary.minima[side] - empty.summary.minima[side];
    time * 1e9 / row.used.max(1) as f64
}

/// The rows with the largest ratio to each form.
pub fn worst(names: Names, of: &str, rows: &[Row], report: &mut dyn Write) -> io::Result<()> {
    for (other, name) in names[1..].iter().enumerate() {
        let ratio = |row: &Row| row.summary.ratios[other].median;
        let largest = rows.iter().max_by(|a, b| ratio(a).total_cmp(&ratio(b)));
        let Some(row) = largest else {
            return Ok(());
        };
        let (what, bytes, used) = (row.what, row.bytes, row.used);
        let ratio = ratio(row);
        writeln!(
            report,
            "Largest ratio to {name} of {of}: {ratio:.2} ({what}, {bytes}, {used} bytes used)"
        )?;
    }
    Ok(())
}
