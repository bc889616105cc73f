//! The counts of a phase, and its line.

use super::goods::BOXES;
use limits::ANSWERS;

/// What happened in a phase.
#[derive(Clone, Default)]
pub struct Tally {
    pub calls: u64,
    /// Copies sent, a message to a box being one.
    pub sent: u64,
    /// Copies that the radio lost, or that found the box without power.
    pub lost: u64,
    pub twice: u64,
    pub garbled: u64,
    /// Power cuts.
    pub cuts: u64,
    answers: [u64; ANSWERS],
}

impl Tally {
    /// Counts a call and its answer.
    pub fn call(&mut self, answer: u8) {
        self.calls += 1;
        if let Some(count) = self.answers.get_mut(usize::from(answer)) {
            *count += 1;
        }
    }

    /// The names above the columns of the lines.
    pub fn head() -> String {
        let columns = ["calls", "sent", "lost", "twice", "garbled", "power"];
        let columns: String = columns.iter().map(|name| column(name)).collect();
        format!("{:<10}{columns}   agree  answers (number:times)", "phase")
    }

    /// The line of a phase in which so many of the boxes agree in the end.
    pub fn line(&self, phase: &str, agree: usize) -> String {
        let counts = [
            self.calls,
            self.sent,
            self.lost,
            self.twice,
            self.garbled,
            self.cuts,
        ];
        let counts: String = counts.iter().map(|count| column(count)).collect();
        let given = self.answers.iter().enumerate().filter(|(_, n)| **n > 0);
        let given: Vec<String> = given.map(|(a, n)| format!("{a}:{n}")).collect();
        format!(
            "{phase:<10}{counts}   {agree:>2}/{BOXES}  {}",
            given.join(" ")
        )
    }
}

fn column(text: &dyn std::fmt::Display) -> String {
    format!("{:>9}", text.to_string())
}
