//! What a person sees who walks past the boxes: which bins their lamps light, and how that ends.

use super::floor::Floor;
use super::goods::{label, part_and_bin, Bin, BOXES, SPRING, SPRING_BIN, WATCHED};
use super::together::SPRING_BOX;

/// What was seen right after the racks moved.
#[derive(Clone, Default)]
pub struct AfterMove {
    /// The bins that each box lit for the gas springs, and those that a terminal showed which asked
    /// the box and the gas springs' own.
    springs: Vec<String>,
    together: Vec<String>,
    /// Boxes that lit a bin which the move had taken away, and those that lit the gas springs'.
    lying: usize,
    lying_springs: usize,
}

impl Floor<'_> {
    /// Walks past the boxes right after the move.
    pub fn see_the_move(&mut self) {
        let springs = label(SPRING, SPRING_BIN);
        let seen = AfterMove {
            springs: (0..BOXES).map(|at| self.lit(at, SPRING)).collect(),
            together: (0..BOXES).map(|at| self.shown_with_springs(at)).collect(),
            lying: self.lighting(&self.gone(&self.moved)),
            lying_springs: self.lighting(&self.gone([&springs])),
        };
        self.after_move = seen;
    }

    /// The bins that a box lights for a part.
    fn lit(&self, at: usize, part: &str) -> String {
        let labels = self.labels.iter();
        let labels = labels.filter(|label| self.stations[at].lights(self.engine, label));
        bins_text(labels.map(Vec::as_slice), part)
    }

    /// The bins of the gas springs on a terminal that asks a box and theirs.
    fn shown_with_springs(&self, at: usize) -> String {
        let entries = self.entries_with_springs(at);
        bins_text(entries.iter().map(|entry| entry.label.0.as_slice()), SPRING)
    }

    /// A line for each box: what it lights in the end for the parts that are watched, and whether
    /// its listing is that of the rules.
    pub fn lamp_table(&self) -> Vec<String> {
        let asked = format!("asked with box {}", SPRING_BOX + 1);
        let mut head = vec!["box".to_string(), format!("{SPRING} after the move"), asked];
        head.extend(WATCHED.map(|part| part.to_string()));
        head.extend(["labels", "own rule", "rule of all"].map(String::from));
        let mut rows = vec![head];
        let agreeing = self.agreeing();
        for (at, station) in self.stations.iter().enumerate() {
            let AfterMove {
                springs, together, ..
            } = &self.after_move;
            let after = [springs, together].map(|seen| seen.get(at).cloned().unwrap_or_default());
            let mut row = vec![(at + 1).to_string()];
            row.extend(after);
            row.extend(WATCHED.map(|part| self.lit(at, part)));
            row.push(station.entries(self.engine).len().to_string());
            row.push(word(self.follows_its_rule(at)));
            row.push(word(agreeing[at]));
            rows.push(row);
        }
        rows.push(self.rule_row());
        aligned(&rows)
    }

    /// What the rule over all messages says.
    fn rule_row(&self) -> Vec<String> {
        let live = self.all.live_pairs();
        let lit = |part| bins_text(live.iter().map(|(label, _)| label.as_slice()), part);
        let mut row = vec!["rule".to_string(), String::new(), String::new()];
        row.extend(WATCHED.map(lit));
        row.push(self.all.listing().1.to_string());
        row
    }

    /// What was seen, in one line.
    pub fn last_line(&self) -> String {
        let (lying, springs) = (self.after_move.lying, self.after_move.lying_springs);
        let (end, agree) = (self.lighting(&self.gone(&self.labels)), self.agree());
        let (labels, messages) = (self.all.listing().1, self.posted.len());
        let verdict = self.verdict();
        format!(
            "Seen: right after the move {lying} of {BOXES} boxes lit a bin that had been taken away \
             ({springs} of them {SPRING_BIN} for the gas springs), at the end {end}; {agree} of {BOXES} \
             list the {labels} labels that the rule gives over all {messages} messages{verdict}."
        )
    }

    /// What went wrong, if anything did.
    fn verdict(&self) -> String {
        let broke = (!self.premise.holds()).then(|| "the premise BROKE".to_string());
        let disagreed = match self.disagreements() {
            0 => None,
            1 => Some("1 box DISAGREED".to_string()),
            some => Some(format!("{some} boxes DISAGREED")),
        };
        let wrong: Vec<String> = broke.into_iter().chain(disagreed).collect();
        match wrong.is_empty() {
            true => String::new(),
            false => format!("; {}, see above", wrong.join(" and ")),
        }
    }
}

/// The bins of a part among these labels, in order.
fn bins_text<'l>(labels: impl Iterator<Item = &'l [u8]>, part: &str) -> String {
    let bins = labels.filter_map(part_and_bin);
    let bins = bins.filter(|(of, _)| *of == part);
    let mut bins: Vec<Bin> = bins.map(|(_, bin)| bin).collect();
    bins.sort();
    bins.dedup();
    let bins: Vec<String> = bins.iter().map(Bin::to_string).collect();
    match bins.is_empty() {
        true => "-".to_string(),
        false => bins.join(" "),
    }
}

fn word(holds: bool) -> String {
    String::from(if holds { "agrees" } else { "DISAGREES" })
}

/// The rows with their columns under each other.
fn aligned(rows: &[Vec<String>]) -> Vec<String> {
    let columns = rows.iter().map(Vec::len).max().unwrap_or(0);
    let width = |column: usize| {
        let cells = rows.iter().filter_map(|row| row.get(column));
        cells.map(String::len).max().unwrap_or(0)
    };
    let widths: Vec<usize> = (0..columns).map(width).collect();
    let line = |row: &Vec<String>| {
        let cells = row.iter().zip(&widths);
        let cells: Vec<String> = cells
            .map(|(cell, width)| format!("{cell:<width$}"))
            .collect();
        cells.join("  ").trim_end().to_string()
    };
    rows.iter().map(line).collect()
}
