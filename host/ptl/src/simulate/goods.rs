//! Parts, bins and the labels made of both: `SPRING@B7` says that gas springs are in bin 7 of
//! rack B.

use limits::ACTORS;
use std::fmt;

/// The set that all boxes share.
pub const SET: &[u8] = b"RACKS";
/// Boxes at work, each with an actor of its own and a rack. One actor is left, for a box that takes the
/// place of another.
pub const BOXES: usize = ACTORS - 1;
/// Bins of a rack.
pub const BINS: u8 = 12;

/// The apprentice's gas springs. Only the box of their rack touches their labels.
pub const SPRING: &str = "SPRING";
/// The bin of the gas springs in the morning, and the one that they move to at lunch.
pub const SPRING_BIN: Bin = Bin { rack: 1, number: 7 };
pub const SPRING_MOVES_TO: Bin = Bin { rack: 2, number: 2 };

/// What comes back to the goods-in desk: boxes put it in one bin, each time under a dot of their own,
/// until the desk clears the bin.
pub const RETURNS: &str = "RETURNS";
pub const RETURNS_BIN: Bin = Bin {
    rack: 4,
    number: 12,
};

/// The parts that the table shows.
pub const WATCHED: [&str; 5] = [SPRING, "FUSE", "HINGE", "RELAY", "VALVE"];

/// All parts but the gas springs and the returns.
pub const PARTS: [&str; 48] = [
    "BEARING", "BELT", "BOLT-M4", "BOLT-M5", "BOLT-M6", "BOLT-M8", "BRACKET", "BUSHING", "CABLE",
    "CAP", "CHAIN", "CLAMP", "CLIP", "COIL", "CRANK", "DIODE", "FAN", "FILTER", "FLANGE", "FUSE",
    "GASKET", "GEAR", "GRIP", "HANDLE", "HINGE", "HOSE", "LAMP", "LATCH", "LEVER", "MOTOR",
    "NOZZLE", "NUT-M4", "NUT-M5", "NUT-M6", "NUT-M8", "PIN", "PLUG", "PUMP", "RELAY", "RIVET",
    "ROLLER", "SCREW", "SEAL", "SENSOR", "SHAFT", "SWITCH", "VALVE", "WASHER",
];

/// A bin: its rack, 0 and up for A and on, and its number in the rack, from 1.
#[derive(Clone, Copy, PartialEq, Eq, PartialOrd, Ord, Debug)]
pub struct Bin {
    pub rack: u8,
    pub number: u8,
}

impl fmt::Display for Bin {
    fn fmt(&self, f: &mut fmt::Formatter<'_>) -> fmt::Result {
        let letter = char::from(b'A'.saturating_add(self.rack));
        write!(f, "{letter}{}", self.number)
    }
}

/// The label of a part in a bin.
pub fn label(part: &str, bin: Bin) -> Vec<u8> {
    format!("{part}@{bin}").into_bytes()
}

/// The part and the bin of a label; none if it is no such label.
pub fn part_and_bin(label: &[u8]) -> Option<(&str, Bin)> {
    let (part, bin) = std::str::from_utf8(label).ok()?.split_once('@')?;
    let rack = bin.bytes().next()?.checked_sub(b'A')?;
    let number = bin.get(1..)?.parse().ok()?;
    let known = usize::from(rack) < BOXES && (1..=BINS).contains(&number);
    known.then_some((part, Bin { rack, number }))
}
