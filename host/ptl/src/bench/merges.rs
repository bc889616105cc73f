//! Merged reads of two large stores, and how much longer they take than the listings of both.

use super::paired::Paired;
use super::rounds::{differing_byte, first_difference, rounds, Workload};
use super::single::time;
use super::starts::{alike, NAME};
use super::stats::Summary;
use super::table::Row;
use super::{floor, Plan, Sides, Stopped, SIDES};
use crate::engine::Engine;
use crate::script::{Command, Rack, Reply};
use limits::{label_key_size, STORE_MAX};
use ptl::Controller;

/// What reading two controllers takes, by the length of their labels.
pub struct Merged {
    label: usize,
    /// The listing of either, one after the other, in seconds.
    listings: [f64; SIDES],
    /// Merged reads into an output as long as both stores use, and into one as long as the listing.
    ample: Row,
    exact: Row,
}

/// Two controllers whose stores have half of their keys in common.
fn two(label: usize) -> [Rack; 2] {
    alike(label, STORE_MAX / label_key_size(NAME.len(), label))
}

impl Paired for Merged {
    const HEAD: &'static str = "
Merged reads of two stores of 64 KiB, half of whose keys both have, in us, beside the listings of both.
Merge has an output as long as both stores use; fit has one just as long as what is written. The ratios
are merged read / both listings, all of it judged. All forms of the baseline have one walk over two stores,
an ordinary one: they differ in judging, in the search for a label's end and in the look at the tombstones.
label  side        listings      merge        fit   merge /    fit /";

    fn measure(sides: Sides, plan: Plan, label: usize) -> Result<Merged, Stopped> {
        let racks = two(label);
        let mut listings = [0.0; SIDES];
        for rack in &racks {
            let list = Command::List { out: rack.used() };
            let summary = time(sides, plan, rack, vec![list], 1)?;
            for (sum, time) in listings.iter_mut().zip(summary.minima) {
                *sum += time;
            }
        }
        let used = racks.iter().map(Rack::used);
        let floor = floor::time(&used.clone().collect::<Vec<_>>(), plan.single_rounds);
        let used = used.sum();
        let row = |what, out| {
            let summary = time_merge(sides, plan, &racks, out)?;
            Ok::<Row, Stopped>(Row {
                what,
                bytes: label,
                used,
                summary,
                floor,
            })
        };
        Ok(Merged {
            label,
            listings,
            ample: row("merge", used)?,
            exact: row("merge fit", length(&racks))?,
        })
    }

    fn rows(&self) -> [Row; 2] {
        [self.ample.clone(), self.exact.clone()]
    }

    fn line(&self, side: usize, name: &str) -> String {
        let listings = self.listings[side];
        let merges = [&self.ample, &self.exact].map(|row| row.summary.minima[side]);
        let times = [listings, merges[0], merges[1]];
        let times = times.map(|time| format!("{:>11.3}", time * 1e6)).concat();
        let ratios = merges.map(|time| format!("{:>9.2}", time / listings));
        format!("{:>5}  {name:<9}{times}{}", self.label, ratios.concat())
    }
}

/// The bytes that the merged read of two controllers takes.
fn length(racks: &[Rack; 2]) -> usize {
    let [one, two] = racks
        .each_ref()
        .map(|rack| Controller::of_parts(rack.state.clone(), rack.store.clone()));
    one.merge(&two).map_or(0, |listing| listing.bytes.len())
}

fn time_merge(sides: Sides, plan: Plan, racks: &[Rack; 2], out: usize) -> Result<Summary, Stopped> {
    let start = Buffers {
        racks: racks.clone(),
        out: vec![0xA5; out],
        reply: Reply::Answered(u8::MAX),
    };
    rounds(sides, &Merge { start }, plan.single_rounds)
}

/// One merged read.
struct Merge {
    start: Buffers,
}

/// The controllers, with the output and the reply.
#[derive(Clone)]
struct Buffers {
    racks: [Rack; 2],
    out: Vec<u8>,
    reply: Reply,
}

impl Workload for Merge {
    type Buffers = Buffers;

    fn start(&self) -> &Buffers {
        &self.start
    }

    fn run(&self, engine: &dyn Engine, buffers: &mut Buffers) {
        let [first, second] = &buffers.racks;
        buffers.reply = engine.merge(first, second, &mut buffers.out);
    }

    fn difference(&self, product: &Buffers, other: &Buffers) -> Option<String> {
        let what = match [product.reply, other.reply] {
            [product, baseline] if product != baseline => {
                Some(format!("product {product:?}, baseline {baseline:?}"))
            }
            [reply, _] if reply.answer() != 0 => Some(format!("not accepted, {reply:?}")),
            _ => first_difference("output byte", [&product.out, &other.out]).or_else(|| {
                let mut racks = product.racks.iter().zip(&other.racks);
                racks.find_map(|(product, other)| differing_byte(product, other))
            }),
        };
        what.map(|what| format!("merge: {what}"))
    }
}

#[cfg(test)]
mod tests {
    use super::super::single::LABELS;
    use super::*;
    use crate::engine::PLAIN;
    use std::collections::BTreeSet;

    fn listed(rack: &Rack) -> Controller {
        Controller::of_parts(rack.state.clone(), rack.store.clone())
    }

    /// Half of the keys are common, both stores are full, and a merged read keeps dots of either
    /// kind and drops some that one has removed.
    #[test]
    fn two_stores_have_half_of_their_keys_in_common() {
        for label in LABELS {
            let racks = two(label);
            let size = label_key_size(NAME.len(), label);
            let keys = racks.each_ref().map(|rack| {
                let used = rack.store[..rack.used()].chunks(size);
                used.map(<[u8]>::to_vec).collect::<BTreeSet<_>>()
            });
            for (rack, keys) in racks.iter().zip(&keys) {
                assert_eq!(
                    (rack.used(), keys.len()),
                    (STORE_MAX / size * size, STORE_MAX / size)
                );
                assert!(rack.state.count() > 50);
            }
            let common = keys[0].intersection(&keys[1]).count();
            assert_eq!(common, STORE_MAX / size / 2);
            let [one, other] = racks.each_ref().map(listed);
            let merged = one.merge(&other).expect("both are sound");
            let dots = |entries: Vec<ptl::Entry>| -> usize {
                entries.iter().map(|entry| entry.dots.len()).sum()
            };
            let both = dots(merged.entries());
            let alone = [&one, &other].map(|one| dots(one.list().expect("is sound").entries()));
            let all = keys[0].union(&keys[1]).count();
            assert!(
                both > alone[0] && both > alone[1] && both < all - 100,
                "{both} {alone:?} {all}"
            );
        }
    }

    #[test]
    fn the_output_that_fits_is_the_shortest() {
        let racks = two(LABELS[1]);
        let length = length(&racks);
        let answer = |out: usize| {
            PLAIN
                .merge(&racks[0], &racks[1], &mut vec![0; out])
                .answer()
        };
        assert_eq!([length, length - 1].map(answer), [0, 13]);
    }
}
