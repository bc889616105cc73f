//! How often each answer of each call was met, either end of a page, labels that do not print, merged
//! reads that are no controller's own listing, and controllers that had loaded an image.

use super::pools::is_unprinted;
use super::trial::Held;
use crate::script::{Both, Command, Reply, Worded};
use limits::ANSWERS;
use std::collections::BTreeMap;

/// Each call by its word, with the answers it can give.
const CALLS: [&[(&str, &[u8])]; 2] = [Command::TABLE, Both::TABLE];

/// What a page says of those that follow it, by whether more do.
const ENDS: [&str; 2] = ["ended", "more"];

/// What happens to labels within their rule that do not print.
const UNPRINTED: [&str; 2] = [
    "add of a label that does not print",
    "lookup that finds a label that does not print",
];
/// Whether one of the two controllers lists alone what a merged read lists, by whether it does.
const ALONE: [&str; 2] = ["as neither lists", "as one lists"];

/// What is held to the rule of demand 3 after a load.
const LOADED: &str = "a controller that loaded an image, held to the rule";

/// The counts of a run, and how many calls it is to have.
pub struct Tally {
    wanted: u64,
    done: u64,
    held: Held,
    /// By the call's word.
    met: BTreeMap<&'static str, [u64; ANSWERS]>,
    /// Accepted pages that none follows, and those that more follow.
    pages: [u64; 2],
    /// Of labels that do not print: own adds answered 5, and lookups that found keys.
    unprinted: [u64; 2],
    /// Accepted merged reads that neither controller lists alone, and those that one does.
    merges: [u64; 2],
}

impl Tally {
    pub fn new(wanted: u64) -> Tally {
        Tally {
            wanted,
            done: 0,
            held: Held::default(),
            met: BTreeMap::new(),
            pages: [0; 2],
            unprinted: [0; 2],
            merges: [0; 2],
        }
    }

    /// Counts one call.
    pub fn count(&mut self, call: &impl Worded, reply: &Reply) {
        self.done += 1;
        let answer = usize::from(reply.answer());
        let met = self.met.entry(call.word()).or_default();
        if let Some(count) = met.get_mut(answer) {
            *count += 1;
        }
        if let (0, Reply::Paged(paged)) = (answer, reply) {
            self.pages[usize::from(paged.more)] += 1;
        }
    }

    /// Counts one call on one controller.
    pub fn count_command(&mut self, command: &Command, reply: &Reply) {
        self.count(command, reply);
        match (command, reply) {
            (Command::Add { label, .. }, _) if reply.answer() == 5 && is_unprinted(label) => {
                self.unprinted[0] += 1;
            }
            (Command::Lookup { label }, Reply::Looked(looked)) if is_unprinted(label) => {
                self.unprinted[1] += u64::from(looked.found.len > 0);
            }
            _ => (),
        }
    }

    /// Counts an accepted merged read.
    pub fn merged(&mut self, as_one_lists: bool) {
        self.merges[usize::from(as_one_lists)] += 1;
    }

    /// Counts the calls that were held to the rule of demand 3 from one time to another.
    pub fn held(&mut self, before: Held, after: Held) {
        self.held.all += after.all - before.all;
        self.held.loaded += after.loaded - before.loaded;
    }

    pub fn done(&self) -> u64 {
        self.done
    }

    /// Calls still to be made.
    pub fn left(&self) -> u64 {
        self.wanted.saturating_sub(self.done)
    }

    /// How often each answer of a call was met.
    fn answers(&self, call: &str) -> [u64; ANSWERS] {
        self.met.get(call).copied().unwrap_or_default()
    }

    /// The answers that a call can give and did not, the ends that no page had, what did not happen
    /// to labels that do not print, what no merged read was, and whether no load was held to the rule.
    pub fn unmet(&self) -> Vec<String> {
        let mut unmet = Vec::new();
        for (call, answers) in CALLS.into_iter().flatten() {
            let met = self.answers(call);
            let missing = answers.iter().filter(|a| met[usize::from(**a)] == 0);
            unmet.extend(missing.map(|answer| format!("{call} {answer}")));
        }
        for (call, kinds, counts) in [("page", ENDS, self.pages), ("merge", ALONE, self.merges)] {
            let missing = kinds.iter().zip(counts).filter(|(_, count)| *count == 0);
            unmet.extend(missing.map(|(kind, _)| format!("{call} {kind}")));
        }
        let unprinted = UNPRINTED.iter().zip(&self.unprinted);
        let missing = unprinted.filter(|(_, count)| **count == 0);
        unmet.extend(missing.map(|(what, _)| what.to_string()));
        if self.held.loaded == 0 {
            unmet.push(LOADED.to_string());
        }
        unmet
    }

    /// A line for each call under a line of answer numbers; `-` where the call cannot give one.
    pub fn lines(&self) -> Vec<String> {
        let numbers: String = (0..ANSWERS).map(|number| format!("{number:>9}")).collect();
        let mut lines = vec![format!("{:<12}{numbers}", "answer")];
        for (call, answers) in CALLS.into_iter().flatten() {
            let met = self.answers(call);
            let cell = |(number, count): (usize, &u64)| match answers.contains(&(number as u8)) {
                true => format!("{count:>9}"),
                false => format!("{:>9}", "-"),
            };
            let cells: String = met.iter().enumerate().map(cell).collect();
            lines.push(format!("{call:<12}{cells}"));
        }
        let [ended, more] = self.pages;
        lines.push(format!("accepted pages: {more} more, {ended} ended"));
        let [refused, found] = self.unprinted;
        lines.push(format!(
            "labels that do not print: {refused} own adds refused, {found} lookups that find one"
        ));
        let [neither, one] = self.merges;
        lines.push(format!(
            "accepted merged reads compared with both listings: {neither} as neither lists, {one} as one lists"
        ));
        let Held { all, loaded } = self.held;
        lines.push(format!(
            "held to the rule of demand 3: {all}, of them {loaded} after the load of an image"
        ));
        lines
    }
}
