//! How bad radio and power are in the phases of the day.

/// How bad the radio is, in copies of a hundred, and how bad the power.
#[derive(Clone, Copy, Debug)]
pub struct Weather {
    pub lost: usize,
    pub twice: usize,
    pub late: usize,
    pub garbled: usize,
    /// Power cuts in 10,000 accepted calls, and how many of a hundred cuts are long.
    pub cuts: usize,
    pub long_cuts: usize,
}

impl Weather {
    pub const FAIR: Weather = Weather {
        lost: 12,
        twice: 8,
        late: 8,
        garbled: 4,
        cuts: 15,
        long_cuts: 0,
    };
    pub const ROUGH: Weather = Weather {
        lost: 25,
        twice: 10,
        late: 20,
        garbled: 6,
        cuts: 25,
        long_cuts: 30,
    };
    pub const FOUL: Weather = Weather {
        lost: 45,
        twice: 10,
        late: 30,
        garbled: 10,
        cuts: 30,
        long_cuts: 0,
    };
    pub const CLEARING: Weather = Weather {
        lost: 10,
        twice: 3,
        late: 5,
        garbled: 3,
        cuts: 10,
        long_cuts: 0,
    };
    /// Nothing goes wrong.
    pub const STILL: Weather = Weather {
        lost: 0,
        twice: 0,
        late: 0,
        garbled: 0,
        cuts: 0,
        long_cuts: 0,
    };
}
