//! The arithmetic of rounds: quartiles of the ratios, and minima.

use super::SIDES;

/// The middle of some numbers and the middles of their halves.
#[derive(Clone, Copy, PartialEq, Debug)]
pub struct Quartiles {
    pub low: f64,
    pub median: f64,
    pub high: f64,
}

impl Quartiles {
    /// Of at least one number.
    pub fn of(numbers: impl Iterator<Item = f64>) -> Quartiles {
        let mut sorted: Vec<f64> = numbers.collect();
        sorted.sort_by(f64::total_cmp);
        Quartiles {
            low: quantile(&sorted, 0.25),
            median: quantile(&sorted, 0.5),
            high: quantile(&sorted, 0.75),
        }
    }

    /// How tables show them.
    pub fn cell(self) -> String {
        let Quartiles { low, median, high } = self;
        format!("{median:>7.2}  {low:>5.2}-{high:<5.2}")
    }
}

/// The number at this share of the way through ascending numbers, on the line between its two
/// neighbours; 0 if there are none.
pub fn quantile(sorted: &[f64], share: f64) -> f64 {
    let Some(last) = sorted.len().checked_sub(1) else {
        return 0.0;
    };
    let place = share * last as f64;
    let below = place as usize;
    let above = (below + 1).min(last);
    sorted[below] + (sorted[above] - sorted[below]) * (place - below as f64)
}

/// What the times of rounds say, product first.
#[derive(Clone, Copy, PartialEq, Debug)]
pub struct Summary {
    /// Of the ratios of the product to each other side, round by round.
    pub ratios: [Quartiles; SIDES - 1],
    /// The shortest time of each side.
    pub minima: [f64; SIDES],
}

impl Summary {
    pub fn of(times: &[[f64; SIDES]]) -> Summary {
        let ratios = |side: usize| Quartiles::of(times.iter().map(|time| time[0] / time[side]));
        let minimum = |side: usize| {
            let times = times.iter().map(|time| time[side]);
            times.fold(f64::INFINITY, f64::min)
        };
        Summary {
            ratios: [1, 2].map(ratios),
            minima: [0, 1, 2].map(minimum),
        }
    }

    /// The same for a part of what was timed.
    pub fn share(self, parts: usize) -> Summary {
        let minima = self.minima.map(|time| time / parts as f64);
        Summary { minima, ..self }
    }
}
