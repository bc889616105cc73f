//! The bench's arithmetic and data, and that it finds a difference.

use super::data::{Labels, NAMES, SETS};
use super::messages::messages;
use super::stats::{quantile, Quartiles, Summary};
use super::table::{per_byte, Row};
use super::{bench, Plan, Sides};
use crate::engine::{Engine, Fault, Faulty, Product, FASTEST, PLAIN, TUNED};
use crate::random::Random;
use limits::{LABEL_MAX, NAME_MAX};
use std::collections::BTreeSet;

/// As little as there can be.
const LEAST: Plan = Plan {
    messages: 150,
    intake_rounds: 1,
    single_rounds: 1,
};

fn quartiles(numbers: &[f64]) -> (f64, f64, f64) {
    let Quartiles { low, median, high } = Quartiles::of(numbers.iter().copied());
    (low, median, high)
}

#[test]
fn quartiles_of_few_numbers() {
    assert_eq!(quartiles(&[7.0]), (7.0, 7.0, 7.0));
    assert_eq!(quartiles(&[3.0, 1.0]), (1.5, 2.0, 2.5));
    assert_eq!(quartiles(&[3.0, 1.0, 2.0]), (1.5, 2.0, 2.5));
    assert_eq!(quartiles(&[4.0, 1.0, 3.0, 2.0]), (1.75, 2.5, 3.25));
    assert_eq!(quartiles(&[5.0, 4.0, 3.0, 2.0, 1.0]), (2.0, 3.0, 4.0));
}

#[test]
fn quartiles_of_many_numbers() {
    let numbers: Vec<f64> = (0..=100).rev().map(f64::from).collect();
    assert_eq!(quartiles(&numbers), (25.0, 50.0, 75.0));
    let one_far_off: Vec<f64> = [1.0; 20].into_iter().chain([1000.0]).collect();
    assert_eq!(quartiles(&one_far_off), (1.0, 1.0, 1.0));
}

#[test]
fn the_ends_of_a_quantile() {
    assert_eq!(quantile(&[], 0.5), 0.0);
    assert_eq!(quantile(&[1.0, 9.0], 0.0), 1.0);
    assert_eq!(quantile(&[1.0, 9.0], 1.0), 9.0);
}

#[test]
fn ratios_are_taken_round_by_round() {
    // The second round was disturbed: all of its times are long, its ratios are as the others.
    let summary = Summary::of(&[[2.0, 4.0, 1.0], [30.0, 60.0, 15.0], [3.0, 6.0, 1.5]]);
    let same = |ratio| Quartiles::of([ratio].into_iter());
    assert_eq!(summary.ratios, [same(0.5), same(2.0)]);
    assert_eq!(summary.minima, [2.0, 4.0, 1.0]);
    assert_eq!(summary.share(2).minima, [1.0, 2.0, 0.5]);
    let crossed = Summary::of(&[[1.0, 2.0, 1.0], [4.0, 1.0, 2.0], [3.0, 3.0, 1.0]]);
    assert_eq!(crossed.ratios.map(|ratios| ratios.median), [1.0, 2.0]);
}

#[test]
fn growth_is_above_the_empty_store() {
    let row = |used, seconds: f64| Row {
        what: "listing",
        bytes: 2,
        used,
        summary: Summary::of(&[[seconds, 2.0 * seconds, 3.0 * seconds]]),
        floor: 0.0,
    };
    let (empty, full) = (row(0, 1e-6), row(1000, 3e-6));
    assert!((per_byte(&empty, &full, 0) - 2.0).abs() < 1e-9);
    assert!((per_byte(&empty, &full, 1) - 4.0).abs() < 1e-9);
    assert!((per_byte(&empty, &full, 2) - 6.0).abs() < 1e-9);
}

#[test]
fn labels_and_names_keep_their_rules() {
    let mut random = Random::new(1);
    for set in SETS {
        let labels: BTreeSet<Vec<u8>> = (0..500).map(|_| set.label(&mut random)).collect();
        assert!(labels.len() > 300, "{set:?}");
        let keeps = |label: &Vec<u8>| (1..=LABEL_MAX).contains(&label.len()) && !label.contains(&0);
        assert!(labels.iter().all(keeps), "{set:?}");
    }
    let deep = Labels::Deep.label(&mut random);
    assert_eq!(
        (deep.len(), NAMES.map(<[u8]>::len)),
        (LABEL_MAX, [2, NAME_MAX])
    );
}

#[test]
fn messages_are_the_same_every_time() {
    let made = |seed| messages(&mut Random::new(seed), Labels::Bins, b"R1", 400);
    assert_eq!(made(2).len(), 400);
    assert_eq!(made(2), made(2));
    assert_ne!(made(2), made(3));
}

/// What a bench says, and whether it passed.
fn said(sides: Sides) -> (bool, String) {
    let mut report = Vec::new();
    let passed = bench(sides, LEAST, &mut report).expect("writes memory");
    (passed, String::from_utf8(report).expect("ASCII"))
}

#[test]
fn equal_engines_pass() {
    for form in [TUNED as &dyn Engine, FASTEST] {
        passes(form);
    }
}

/// The tables with this form beside the plain one.
fn passes(form: &dyn Engine) {
    let (passed, report) = said([&Product, PLAIN, form]);
    assert!(passed, "{report}");
    assert!(report.ends_with("Answers and bytes were equal in every run.\n"));
    // Tables of 8, of 8 again, of 50 and of 12 lines, three lines for each call and label length,
    // three for each whole listing in pages, and five for each call with a context.
    let starting = |words: &str| report.lines().filter(|l| l.starts_with(words)).count();
    assert_eq!(["short ", "mixed ", "bins ", "deep "].map(starting), [4; 4]);
    let calls = [
        "own add ",
        "own remove ",
        "listing ",
        "lookup ",
        "compaction ",
    ];
    assert_eq!(calls.map(starting), [21, 21, 16, 16, 16]);
    assert_eq!(starting("taking in "), 5);
    assert_eq!(["page front ", "page mid "].map(starting), [2; 2]);
    assert_eq!(["merge   ", "merge fit "].map(starting), [2; 2]);
    assert_eq!(["image ", "load "].map(starting), [2; 2]);
    assert_eq!(["    2     ", "   32     "].map(starting), [3; 2]);
    let name = form.name();
    let named =
        [format!(" /{name} "), format!("  {name} ")].map(|name| report.matches(&name).count());
    assert_eq!(named, [4, 19], "{report}");
    // A call that the machine interrupts can take so long that its line is too wide: then another run tells.
    let narrow = |report: &str| report.lines().all(|line| line.len() <= 120);
    let again = || narrow(&said([&Product, PLAIN, form]).1);
    assert!(narrow(&report) || (0..4).any(|_| again()), "{report}");
}

#[test]
fn a_difference_is_found() {
    let faults = [
        (Fault::FreedByteKept, "difference: compact: store byte "),
        (Fault::ListingRunsOn, "difference: list: output byte "),
        (Fault::MergeRunsOn, "difference: merge: output byte "),
        (Fault::ImageForgetsRemoves, "difference: image: product "),
    ];
    for (fault, what) in faults {
        let faulty = Faulty::new(PLAIN, fault);
        let sides: [(Sides, &str); 3] = [
            ([&faulty, PLAIN, TUNED], "(plain form)"),
            ([&Product, &faulty, TUNED], "(plain form)"),
            ([&Product, PLAIN, &faulty], "(faulty form)"),
        ];
        for (sides, form) in sides {
            let (passed, report) = said(sides);
            assert!(!passed && report.contains(what), "{report}");
            assert!(report.ends_with(&format!("{form}\n")), "{report}");
            assert!(!report.contains("were equal"), "{report}");
        }
    }
}
