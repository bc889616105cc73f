//! Pages of a large store: of ten labels, and of the whole listing beside the plain one.

use super::single::{time, LABELS};
use super::starts::{start, NAME};
use super::stats::Quartiles;
use super::{names, Plan, Sides, Stopped, SIDES};
use crate::script::{Command, Rack};
use limits::{DOT_SIZE, LINE_FIXED, STORE_MAX};
use ptl::{Controller, Entry};
use std::io::Write;

/// Bytes of the output of a page.
const ROOM: usize = 4 << 10;
/// Labels of a short page.
const TEN: usize = 10;

/// Times in seconds, product first.
type Times = [f64; SIDES];

/// What reading the whole listing of a store takes.
struct Whole {
    label: usize,
    pages: usize,
    /// The plain listing; all pages; judging the store, on an average of as many times.
    listing: Times,
    paged: Times,
    judging: Times,
    /// Looking up the labels that pages start after.
    lookups: Times,
    /// Of all pages: product to each other side.
    ratios: [Quartiles; SIDES - 1],
}

impl Whole {
    fn measure(sides: Sides, plan: Plan, label: usize) -> Result<Whole, Stopped> {
        let rack = start(label, STORE_MAX).rack;
        let starts = starts(&rack);
        let summary = |commands: Vec<Command>| time(sides, plan, &rack, commands, 1);
        let minima = |commands| summary(commands).map(|summary| summary.minima);
        let (out, pages) = (rack.used(), starts.len());
        let judging = minima(vec![empty_remove(); pages])?;
        let page = |start: &Vec<u8>| Command::Page {
            start: start.clone(),
            out: ROOM,
        };
        let lookup = |label: &Vec<u8>| Command::Lookup {
            label: label.clone(),
        };
        let paged = summary(starts.iter().map(page).collect())?;
        Ok(Whole {
            label,
            pages,
            listing: minima(vec![Command::List { out }])?,
            paged: paged.minima,
            judging: judging.map(|time| time / pages as f64),
            lookups: minima(starts[1..].iter().map(lookup).collect())?,
            ratios: paged.ratios,
        })
    }

    /// The line of a side.
    fn line(&self, side: usize, name: &str) -> String {
        let judging = self.judging[side];
        let listing = self.listing[side] - judging;
        let pages = self.paged[side] - judging * self.pages as f64;
        let finding = self.lookups[side] - judging * (self.pages - 1) as f64;
        let times = [
            judging,
            self.listing[side],
            self.paged[side],
            listing,
            pages,
            finding,
        ];
        let times: String = times.map(|time| format!("{:>10.3}", time * 1e6)).concat();
        let ratio = pages / listing;
        let product = side.checked_sub(1).map(|other| self.ratios[other]);
        let product = product.map_or(String::new(), |ratios| {
            format!("  {}", ratios.cell().trim_end())
        });
        format!(
            "{:>5} {:>6}  {name:<9}{times}{ratio:>8.2}{product}",
            self.label, self.pages
        )
    }
}

/// What stands above the lines.
const HEAD: &str = "
A whole listing of 64 KiB in pages of 4 KiB, in us. Each call judges the store, which is timed by
itself with a message that changes nothing. Finding is what it takes to find where the pages start,
by lookups. The ratio is pages / listing, both without judging. Product is the product's time for
the pages, all of it, divided by that of the form, with quartiles.
                         all of it                     without judging
label  pages  side        judging   listing     pages   listing     pages   finding   ratio  product";

/// Measures and writes the table of whole listings.
pub fn whole_table(sides: Sides, plan: Plan, report: &mut dyn Write) -> Result<(), Stopped> {
    writeln!(report, "{HEAD}")?;
    for label in LABELS {
        let whole = Whole::measure(sides, plan, label)?;
        for (side, name) in names(sides).into_iter().enumerate() {
            writeln!(report, "{}", whole.line(side, name))?;
        }
        report.flush()?;
    }
    Ok(())
}

/// A remove of no dots: it is accepted and changes nothing.
fn empty_remove() -> Command {
    let mut message = b"PTL\x00\x01r".to_vec();
    message.push(NAME.len() as u8);
    message.extend(NAME.as_bytes());
    message.push(0);
    Command::Take { message }
}

/// The labels after which the pages of a listing start; the first is the front.
fn starts(rack: &Rack) -> Vec<Vec<u8>> {
    let (mut starts, mut left) = (vec![Vec::new()], ROOM);
    let mut before = Vec::new();
    for entry in entries(rack) {
        let length = length(&entry);
        if length > left {
            starts.push(before);
            left = ROOM;
        }
        left -= length;
        before = entry.label.0;
    }
    starts
}

/// A page of ten labels, or of all where there are fewer.
pub fn page_of_ten(rack: &Rack, start: Vec<u8>) -> Command {
    let entries = entries(rack).into_iter();
    let after = entries.filter(|entry| entry.label.0 > start);
    let out = after.take(TEN).map(|entry| length(&entry)).sum();
    Command::Page { start, out }
}

/// What a controller lists.
fn entries(rack: &Rack) -> Vec<Entry> {
    let controller = Controller::of_parts(rack.state.clone(), rack.store.clone());
    controller
        .list()
        .map_or(Vec::new(), |listing| listing.entries())
}

/// The bytes of an entry in a listing.
fn length(entry: &Entry) -> usize {
    entry.label.0.len() + LINE_FIXED + DOT_SIZE * entry.dots.len()
}

#[cfg(test)]
mod tests {
    use super::*;
    use crate::engine::{Engine, PLAIN};
    use crate::script::Reply;

    /// What a page gives: its bytes, the number of its labels, whether more follow.
    fn read(rack: &mut Rack, start: Vec<u8>, out: usize) -> (Vec<u8>, usize, bool) {
        let mut bytes = vec![0; out];
        let reply = PLAIN.run(rack, &Command::Page { start, out }, &mut bytes);
        let Reply::Paged(paged) = reply else {
            panic!("{reply:?}");
        };
        assert_eq!(paged.answer, 0);
        bytes.truncate(paged.written);
        (bytes, paged.labels, paged.more)
    }

    #[test]
    fn the_pages_are_those_of_a_whole_listing() {
        for label in LABELS {
            let mut rack = start(label, STORE_MAX).rack;
            let starts = starts(&rack).into_iter();
            let pages: Vec<_> = starts.map(|start| read(&mut rack, start, ROOM)).collect();
            let (last, others) = pages.split_last().expect("at least one");
            assert!(others.len() > 5 && others.iter().all(|page| page.2) && !last.2);
            let joined: Vec<u8> = pages.iter().flat_map(|page| page.0.clone()).collect();
            let listed = Controller::of_parts(rack.state.clone(), rack.store.clone()).list();
            assert_eq!(listed.map(|listing| listing.bytes), Ok(joined));
        }
    }

    #[test]
    fn a_short_page_has_ten_labels() {
        for label in LABELS {
            let start = start(label, STORE_MAX);
            for from in [Vec::new(), start.label] {
                let Command::Page { start: from, out } = page_of_ten(&start.rack, from) else {
                    panic!("no page");
                };
                let (bytes, labels, more) = read(&mut start.rack.clone(), from, out);
                assert_eq!((bytes.len(), labels, more), (out, TEN, true));
            }
        }
    }
}
