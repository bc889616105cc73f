//! Hand-off images of a large store, written and loaded, beside a plain copy of their bytes and the CRC
//! of them alone.

use super::paired::Paired;
use super::single::measure_on;
use super::starts::start_of;
use super::table::Row;
use super::{Plan, Sides, Stopped};
use crate::engine::{Engine, PLAIN};
use crate::script::{Command, Rack, Reply};
use limits::{ACTORS, ACTOR_MAX, IMAGE_MAX, STORE_MAX};
use std::hint::black_box;
use std::time::Instant;

/// What the images of a controller take, by the length of its labels.
pub struct Images {
    label: usize,
    written: Row,
    loaded: Row,
    /// A plain copy of the image and the baseline's CRC of it, in seconds.
    copy: f64,
    crc: f64,
}

/// A controller with a full store that has heard nothing of the last actor.
fn writer(label: usize) -> Rack {
    start_of(label, STORE_MAX, ACTORS - 1).rack
}

/// The image that it writes.
fn image_of(rack: &Rack) -> Vec<u8> {
    let mut image = vec![0; IMAGE_MAX];
    let command = Command::Image { out: IMAGE_MAX };
    let reply = PLAIN.run(&mut rack.clone(), &command, &mut image);
    if let Reply::Wrote(wrote) = reply {
        image.truncate(wrote.written);
    }
    image
}

impl Paired for Images {
    const HEAD: &'static str = "
Hand-off images of a store of 64 KiB, in us: written, and loaded into a store as long. Copy is a plain copy
of the image, CRC the baseline's table-driven CRC-32 of it, alone. The ratios are to the plain copy. All forms
of the baseline write and load in one way: they differ in judging the keys.
label  side            copy        CRC      image       load   image /    load /";

    fn measure(sides: Sides, plan: Plan, label: usize) -> Result<Images, Stopped> {
        let rack = writer(label);
        let image = image_of(&rack);
        let row = |what, command| measure_on(sides, plan, &rack, command, (what, label));
        let load = Command::Load {
            actor: ACTOR_MAX,
            image: image.clone(),
        };
        let mut copied = vec![0; image.len()];
        Ok(Images {
            label,
            written: row("image", Command::Image { out: IMAGE_MAX })?,
            loaded: row("load", load)?,
            copy: shortest(plan, || {
                copied.copy_from_slice(black_box(&image));
                black_box(&mut copied);
            }),
            crc: shortest(plan, || {
                black_box(baseline::crc32(black_box(&image)));
            }),
        })
    }

    fn rows(&self) -> [Row; 2] {
        [self.written.clone(), self.loaded.clone()]
    }

    fn line(&self, side: usize, name: &str) -> String {
        let calls = [&self.written, &self.loaded].map(|row| row.summary.minima[side]);
        let [written, loaded] = calls;
        let times = [self.copy, self.crc, written, loaded];
        let times = times.map(|time| format!("{:>11.3}", time * 1e6)).concat();
        let ratios = calls.map(|time| format!("{:>10.2}", time / self.copy));
        format!("{:>5}  {name:<9}{times}{}", self.label, ratios.concat())
    }
}

/// The shortest time of as many runs as a call has rounds, in seconds.
fn shortest(plan: Plan, mut run: impl FnMut()) -> f64 {
    let times = (0..=plan.single_rounds).map(|_| {
        let start = Instant::now();
        run();
        start.elapsed().as_secs_f64()
    });
    times.fold(f64::INFINITY, f64::min)
}

#[cfg(test)]
mod tests {
    use super::super::single::LABELS;
    use super::*;

    /// The image has all of a full store, and the last actor can load it.
    #[test]
    fn a_full_store_is_handed_off() {
        for label in LABELS {
            let rack = writer(label);
            let image = image_of(&rack);
            assert!(image.len() > rack.used() && rack.used() > STORE_MAX - 200);
            let mut other = Rack::new();
            let load = |actor| Command::Load {
                actor,
                image: image.clone(),
            };
            for (actor, answer) in [(ACTOR_MAX - 1, 15), (ACTOR_MAX, 0)] {
                let reply = PLAIN.run(&mut other, &load(actor), &mut []);
                assert_eq!(reply.answer(), answer);
            }
            assert_eq!(other.store[..other.used()], rack.store[..rack.used()]);
        }
    }
}
