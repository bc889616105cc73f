//! The picture of a day, as SVG: how many boxes agree with the rule over all messages so far, and
//! how many lamps are wrong, over the calls of the day, with its phases.

use super::agreement::Sample;
use super::goods::BOXES;
use std::fmt::Write;

const WIDTH: usize = 1000;
const HEIGHT: usize = 600;
/// The field that both curves are drawn in.
const LEFT: usize = 80;
const RIGHT: usize = 970;
const TOP: usize = 95;
const BOTTOM: usize = 530;

/// Where each phase ended.
pub struct Picture {
    seed: u64,
    phases: Vec<(&'static str, u64)>,
}

/// A part of the field with a curve of its own.
struct Panel {
    top: usize,
    bottom: usize,
    /// The number at its top; a multiple of 4.
    most: usize,
    name: &'static str,
    colour: &'static str,
}

impl Picture {
    pub fn new(seed: u64) -> Picture {
        Picture {
            seed,
            phases: Vec::new(),
        }
    }

    /// A phase ended after so many calls.
    pub fn phase(&mut self, name: &'static str, calls: u64) {
        self.phases.push((name, calls));
    }

    /// The picture of what the looks at all boxes showed.
    pub fn svg(&self, samples: &[Sample]) -> String {
        let agree = Panel {
            top: TOP,
            bottom: 310,
            most: fourfold(Some(BOXES)),
            name: "boxes that agree",
            colour: "#1f6f43",
        };
        let wrong = Panel {
            top: 345,
            bottom: BOTTOM,
            most: fourfold(samples.iter().map(|sample| sample.wrong).max()),
            name: "lamps that are wrong",
            colour: "#b03a2e",
        };
        let mut svg = self.front();
        svg += &self.bands();
        svg += &self.calls_axis();
        svg += &agree.lines();
        svg += &self.curve(&agree, samples.iter().map(|s| (s.calls, s.agree)));
        svg += &wrong.lines();
        svg += &self.curve(&wrong, samples.iter().map(|s| (s.calls, s.wrong)));
        svg + "</svg>\n"
    }

    /// Calls of the day; at least 1.
    fn calls(&self) -> u64 {
        self.phases.last().map_or(1, |phase| phase.1.max(1))
    }

    /// How far right the curves are after so many calls.
    fn x(&self, calls: u64) -> usize {
        let share = calls as f64 / self.calls() as f64;
        LEFT + ((RIGHT - LEFT) as f64 * share.min(1.0)) as usize
    }

    fn front(&self) -> String {
        let title = "Fifteen boxes, a spare one and a bad radio: how far they agree";
        let below = format!(
            "with the rule over all messages written so far, computed apart from the boxes; seed {}",
            self.seed
        );
        format!(
            "<svg xmlns=\"http://www.w3.org/2000/svg\" width=\"{WIDTH}\" height=\"{HEIGHT}\" \
             viewBox=\"0 0 {WIDTH} {HEIGHT}\" font-family=\"sans-serif\" font-size=\"14\">\n\
             <title>{title}</title>\n\
             <rect width=\"{WIDTH}\" height=\"{HEIGHT}\" fill=\"white\"/>\n\
             <text x=\"{LEFT}\" y=\"32\" font-size=\"20\">{title}</text>\n\
             <text x=\"{LEFT}\" y=\"54\">{below}</text>\n"
        )
    }

    /// The phases as bands, with their names above.
    fn bands(&self) -> String {
        let mut svg = String::new();
        let mut from = 0;
        for (band, (name, to)) in self.phases.iter().enumerate() {
            let (left, right) = (self.x(from), self.x(*to));
            let (width, height) = (right.saturating_sub(left), BOTTOM - TOP);
            let fill = ["#e6eef7", "#faf4e3"][band % 2];
            let _ = writeln!(
                svg,
                "<rect class=\"phase\" x=\"{left}\" y=\"{TOP}\" width=\"{width}\" \
                 height=\"{height}\" fill=\"{fill}\"/>"
            );
            svg += &text(left + width / 2, TOP - 10, "middle", name);
            from = *to;
        }
        svg
    }

    /// The numbers of calls along the bottom.
    fn calls_axis(&self) -> String {
        let mut svg = String::new();
        for calls in (0..=self.calls()).step_by(round_step(self.calls())) {
            let x = self.x(calls);
            svg += &line((x, BOTTOM), (x, BOTTOM + 6));
            svg += &text(x, BOTTOM + 24, "middle", &calls.to_string());
        }
        let middle = (LEFT + RIGHT) / 2;
        let name = "calls of all boxes: adds, removes, messages taken in, compactions";
        svg + &text(middle, BOTTOM + 52, "middle", name)
    }

    /// A curve that is level from one look at the boxes to the next.
    fn curve(&self, panel: &Panel, values: impl Iterator<Item = (u64, usize)>) -> String {
        let mut last = panel.y(0);
        let mut points = format!("{LEFT},{last}");
        for (calls, value) in values {
            let (x, y) = (self.x(calls), panel.y(value));
            let _ = write!(points, " {x},{last} {x},{y}");
            last = y;
        }
        let colour = panel.colour;
        format!(
            "<polyline points=\"{points} {RIGHT},{last}\" fill=\"none\" stroke=\"{colour}\" \
             stroke-width=\"2\"/>\n"
        )
    }
}

impl Panel {
    /// The height at which a number stands.
    fn y(&self, number: usize) -> usize {
        self.bottom - (self.bottom - self.top) * number.min(self.most) / self.most
    }

    /// Lines across at four numbers and 0, and what they count.
    fn lines(&self) -> String {
        let mut svg = String::new();
        for number in (0..=self.most).step_by(self.most / 4) {
            let y = self.y(number);
            svg += &line((LEFT, y), (RIGHT, y));
            svg += &text(LEFT - 10, y + 5, "end", &number.to_string());
        }
        let (name, middle) = (self.name, (self.top + self.bottom) / 2);
        let _ = writeln!(
            svg,
            "<text transform=\"translate(24 {middle}) rotate(-90)\" text-anchor=\"middle\">{name}</text>"
        );
        svg
    }
}

fn text(x: usize, y: usize, anchor: &str, words: &str) -> String {
    format!("<text x=\"{x}\" y=\"{y}\" text-anchor=\"{anchor}\">{words}</text>\n")
}

fn line(from: (usize, usize), to: (usize, usize)) -> String {
    let ((x1, y1), (x2, y2)) = (from, to);
    format!("<line x1=\"{x1}\" y1=\"{y1}\" x2=\"{x2}\" y2=\"{y2}\" stroke=\"#999\"/>\n")
}

/// Four times a round number, and no smaller than this.
fn fourfold(number: Option<usize>) -> usize {
    let number = number.unwrap_or(0);
    let steps = round_numbers(&[1, 2, 3, 4, 5, 6, 8]).map(|round| 4 * round);
    let mut fitting = steps.filter(|four| *four >= number);
    fitting.next().unwrap_or(usize::MAX / 4 * 4)
}

/// A round number that goes into the calls at most ten times.
fn round_step(calls: u64) -> usize {
    let mut fitting = round_numbers(&[1, 2, 5]).filter(|round| calls / *round as u64 <= 10);
    fitting.next().unwrap_or(usize::MAX)
}

/// Numbers of one of these digits and up to eight zeros, ascending.
fn round_numbers(digits: &[usize]) -> impl Iterator<Item = usize> + '_ {
    let tens = (0..9).map(|zeros| 10usize.pow(zeros));
    tens.flat_map(|ten| digits.iter().map(move |digit| digit * ten))
}
