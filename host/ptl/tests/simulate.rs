//! `ptl simulate` from outside: five days that end well, days that break the premise, the picture, and
//! wrong arguments.

use std::fs;
use std::path::PathBuf;
use std::process::{Command, Output, Stdio};

const PHASES: [&str; 5] = ["morning", "work", "lunch", "afternoon", "evening"];

fn simulate(arguments: &[&str]) -> Output {
    let mut command = Command::new(env!("CARGO_BIN_EXE_ptl"));
    command.arg("simulate").args(arguments).stdin(Stdio::null());
    command.output().expect("ptl runs")
}

fn printed(output: &Output) -> String {
    String::from_utf8(output.stdout.clone()).expect("ASCII")
}

/// The line of a phase.
fn line<'a>(report: &'a str, phase: &str) -> Vec<&'a str> {
    let lines = report
        .lines()
        .skip_while(|line| !line.starts_with("phase "));
    let mut lines = lines.map(|line| line.split_whitespace().collect::<Vec<_>>());
    let found = lines.find(|words| words.first() == Some(&phase));
    found.unwrap_or_default()
}

#[test]
fn five_days_end_with_all_boxes_agreed() {
    for seed in ["1", "2", "3", "4", "5"] {
        let day = simulate(&["--seed", seed]);
        let report = printed(&day);
        assert_eq!(day.status.code(), Some(0), "{report}");
        assert!(day.stderr.is_empty());
        for phase in PHASES {
            assert!(line(&report, phase).len() > 8, "{phase}: {report}");
        }
        assert_eq!(line(&report, "lunch")[7], "0/15", "{report}");
        assert_eq!(line(&report, "evening")[7], "15/15", "{report}");
        let last = report.lines().last().expect("a last line");
        assert!(last.starts_with("Seen: right after the move "), "{last}");
        assert!(
            last.contains(", at the end 0; 15 of 15 list the "),
            "{last}"
        );
        assert!(!report.contains("DISAGREE"), "{report}");
        assert!(longest_context(&report) > 16, "{report}");
        assert!(written_since_the_image(&report) > 0, "{report}");
        let [set_ups, loads, rest @ ..] = checked(&report, "held at every step");
        assert_eq!([set_ups, loads], [15, 1], "{report}");
        assert!(rest.iter().all(|number| *number > 500), "{report}");
    }
}

/// What the line on the premise counts, if it says this of it: set-ups, loads, accepted calls, own adds,
/// adds from elsewhere.
fn checked(report: &str, what: &str) -> [usize; 5] {
    let lines = report.lines();
    let told: Vec<&str> = lines
        .filter(|line| line.starts_with("The premise "))
        .collect();
    assert_eq!(told.len(), 1, "{report}");
    let (said, counts) = told[0].split_once(". Checked: ").expect("counts");
    assert_eq!(said, format!("The premise {what}"));
    let numbers = counts
        .split_whitespace()
        .filter_map(|word| word.parse().ok());
    numbers.collect::<Vec<_>>().try_into().expect("five")
}

/// The clauses that a report tells to be broken, each with phase and box.
fn broken(report: &str) -> Vec<[&str; 3]> {
    let lines = report.lines();
    let lines = lines.filter_map(|line| line.strip_prefix("PREMISE BROKEN: seed "));
    let told = lines.map(|line| {
        let (_, after) = line.split_once(" (").expect("a phase");
        let (phase, after) = after.split_once("), box ").expect("a box");
        let (at, after) = after.split_once(": ").expect("a clause");
        let (clause, _) = after.split_once(": it ").expect("what it does");
        [clause, phase, at]
    });
    told.collect()
}

/// The report of a day that breaks the premise: it fails, tells what came of that, and blames no box.
fn broken_day(option: &str, seed: &str) -> String {
    let day = simulate(&["--seed", seed, option]);
    let report = printed(&day);
    assert_eq!(day.status.code(), Some(1), "{report}");
    let came = "Pairs of boxes that accepted the same messages and list different labels: ";
    let (_, after) = report.split_once(came).expect(option);
    let (number, after) = after.split_once(". For one, boxes").expect("an example");
    assert!(number.parse().is_ok_and(|number: usize| number > 0));
    let dots = after.matches(" (dot ").count();
    assert_eq!(dots, 2, "{report}");
    let last = report.lines().last().expect("a last line");
    assert!(last.contains("; the premise BROKE and "), "{last}");
    assert!(!report.contains("DISAGREEMENT: "), "{report}");
    report
}

/// The box that came back in the evening breaks `goesOn` with its first call, and `made-once` with its
/// own adds. Until then the day is the sound one.
#[test]
fn a_box_that_forgets_own_adds_is_told() {
    for seed in ["1", "2", "3"] {
        let report = broken_day("--forget", seed);
        let sound = printed(&simulate(&["--seed", seed]));
        for phase in &PHASES[..4] {
            assert_eq!(line(&report, phase), line(&sound, phase), "{report}");
        }
        let (_, after) = report.split_once("In the evening box ").expect("told");
        let (at, after) = after.split_once(" came back ").expect("a box");
        let (_, after) = after.split_once(" had forgotten: ").expect("own adds");
        let (own_adds, _) = after.split_once('.').expect("how many");
        let told = ["goesOn", "made-once"].map(|clause| [clause, "evening", at]);
        assert_eq!(broken(&report), told, "{report}");
        let what = format!("BROKE (goesOn 1, made-once {own_adds})");
        assert_eq!(checked(&report, &what)[..2], [15, 1]);
    }
}

/// The load breaks `goesOn`, the next call of the box that has the actor too, and `made-once` what
/// either adds under a dot of the other.
#[test]
fn an_actor_that_is_given_out_twice_is_told() {
    for seed in ["1", "2", "3"] {
        let report = broken_day("--same-actor", seed);
        let dead = report.split("At noon box ").skip(1);
        let dead: Vec<&str> = dead.filter_map(|told| told.split(' ').next()).collect();
        let [first, second] = dead[..] else {
            panic!("{report}");
        };
        let told = broken(&report);
        assert_eq!(told[0], ["goesOn", "lunch", second], "{report}");
        assert!(told.contains(&["goesOn", "lunch", first]), "{report}");
        let made = |told: &&[&str; 3]| told[0] == "made-once" && dead.contains(&told[2]);
        let made = told.iter().filter(made).count();
        assert!(made > 0 && made + 2 == told.len(), "{report}");
    }
}

/// The number of messages that the box which died had written since its image, if the new one agrees.
fn written_since_the_image(report: &str) -> usize {
    let told = report.replace('\n', " ");
    let (_, after) = told.split_once("\u{20}At noon box ").expect("told");
    let (_, after) = after.split_once(" calls old. The ").expect("an image");
    let (number, after) = after.split_once(" messages that box ").expect("a number");
    let (after, _) = after.split_once('.').expect("an end");
    assert!(
        after.ends_with("; at the end it agrees with all"),
        "{after}"
    );
    number.parse().expect("a number")
}

/// The number of dots in the longest context of a day.
fn longest_context(report: &str) -> usize {
    let (_, after) = report
        .split_once("longest context\nof the day has ")
        .expect("told");
    let number = after.split(' ').next().expect("a word");
    number.parse().expect("a number")
}

#[test]
fn every_box_lights_the_new_bin_of_the_gas_springs() {
    let report = printed(&simulate(&[]));
    let rows = report.lines().skip_while(|line| !line.starts_with("box  "));
    let rows: Vec<Vec<&str>> = rows
        .skip(1)
        .map(|row| row.split_whitespace().collect())
        .take(15)
        .collect();
    for (row, number) in rows.iter().zip(1..) {
        assert_eq!(row[0], number.to_string());
        // By the box alone, together with the gas springs' own, and at the end.
        assert!(["B7", "C2"].contains(&row[1]), "{row:?}");
        assert_eq!(row[2..4], ["C2", "C2"]);
        assert_eq!(row[row.len() - 2..], ["agrees", "agrees"]);
    }
    assert_eq!(rows.len(), 15);
    assert!(rows.iter().any(|row| row[1] == "B7"), "{report}");
}

/// Two boxes asked at once show what neither lists alone, and the report tells of it.
#[test]
fn boxes_asked_at_once_are_told_of() {
    let report = printed(&simulate(&["--seed", "2"]));
    let told = report.replace('\n', " ");
    let (before, after) = told
        .split_once(" were what neither box listed alone. For one: at lunch box ")
        .expect("the sentence");
    let news = before.rsplit(' ').next().and_then(|word| word.parse().ok());
    assert!(news.is_some_and(|news: u64| news > 100), "{report}");
    let gone = after.split_once(" and without ").expect("what is gone").1;
    let gone = gone.split(' ').next().and_then(|word| word.parse().ok());
    assert!(gone.is_some_and(|gone: u64| gone > 0), "{report}");
}

#[test]
fn quiet_prints_the_last_line_alone() {
    let (loud, quiet) = (
        simulate(&["--seed", "9"]),
        simulate(&["--quiet", "--seed", "9"]),
    );
    assert_eq!(quiet.status.code(), Some(0));
    let (loud, quiet) = (printed(&loud), printed(&quiet));
    assert_eq!(quiet.lines().count(), 1);
    assert_eq!(loud.lines().last(), quiet.lines().last());
}

#[test]
fn quiet_tells_what_broke_the_premise() {
    let day = simulate(&["--quiet", "--forget"]);
    assert_eq!(day.status.code(), Some(1));
    let report = printed(&day);
    assert_eq!(broken(&report).len() + 1, report.lines().count());
    assert!(report
        .lines()
        .last()
        .is_some_and(|line| line.starts_with("Seen: ")));
}

/// A file of this test's own.
fn place(name: &str) -> PathBuf {
    PathBuf::from(env!("CARGO_TARGET_TMPDIR")).join(name)
}

#[test]
fn the_picture_is_well_formed_and_has_the_phases() {
    let file = place("day.svg");
    let path = file.to_str().expect("text");
    let day = simulate(&["--svg", path, "--quiet"]);
    assert_eq!(day.status.code(), Some(0));
    let svg = fs::read_to_string(&file).expect("a picture");
    assert_eq!(open_elements(&svg), Ok(Vec::new()));
    assert_eq!(svg.matches("class=\"phase\"").count(), PHASES.len());
    for phase in PHASES {
        assert!(svg.contains(&format!(">{phase}</text>")), "{phase}");
    }
    for words in [
        "boxes that agree",
        "lamps that are wrong",
        ">16<",
        "calls of all boxes",
    ] {
        assert!(svg.contains(words), "{words}");
    }
    assert_eq!(svg.matches("<polyline points=\"").count(), 2);
}

#[test]
fn a_picture_that_cannot_be_written_is_told_at_once() {
    let file = place("no such directory").join("day.svg");
    let day = simulate(&["--svg", file.to_str().expect("text")]);
    assert_eq!(day.status.code(), Some(1));
    assert!(day.stdout.is_empty());
    let told = String::from_utf8_lossy(&day.stderr).into_owned();
    assert!(
        told.starts_with("ptl: ") && told.contains("day.svg: "),
        "{told}"
    );
}

/// The elements left open at the end, or what is not well formed. Comments, entities and the like
/// are not in the picture and not read.
fn open_elements(svg: &str) -> Result<Vec<String>, String> {
    let mut open: Vec<String> = Vec::new();
    let mut rest = svg;
    while let Some((words, after)) = rest.split_once('<') {
        if words.contains(['>', '&']) {
            return Err(words.to_string());
        }
        let (tag, after) = after.split_once('>').ok_or("no end of a tag")?;
        rest = after;
        if let Some(name) = tag.strip_prefix('/') {
            if open.pop().as_deref() != Some(name) {
                return Err(tag.to_string());
            }
            continue;
        }
        let (body, closed) = match tag.strip_suffix('/') {
            Some(body) => (body, true),
            None => (tag, false),
        };
        let name = element(body).ok_or(tag)?;
        if !closed {
            open.push(name.to_string());
        }
    }
    match rest.trim().is_empty() {
        true => Ok(open),
        false => Err(rest.to_string()),
    }
}

/// The name of an element, if its attributes are names with quoted values, none twice.
fn element(body: &str) -> Option<&str> {
    let (name, mut rest) = body.split_once(' ').unwrap_or((body, ""));
    let mut seen = Vec::new();
    while !rest.trim().is_empty() {
        let (attribute, after) = rest.split_once("=\"")?;
        let (_, after) = after.split_once('"')?;
        let attribute = attribute.trim();
        if attribute.contains(['"', ' ', '<']) || seen.contains(&attribute) {
            return None;
        }
        seen.push(attribute);
        rest = after;
    }
    name.chars().all(char::is_alphanumeric).then_some(name)
}
