//! The simulation finds what it is for: boxes with one fault each are told, with seed and call.

use super::floor::Floor;
use super::goods::{label, part_and_bin, Bin, BINS, BOXES};
use super::premise::{Broken, Clause, Life, Premise};
use super::radio::{Cargo, Letter, Radio};
use super::station::Station;
use super::tally::Tally;
use super::weather::Weather;
use super::{simulate, Breach, Options};
use crate::engine::{Engine, Fault, Faulty, Product};
use crate::random::Random;
use crate::script::Command;
use limits::MESSAGE_MAX;
use ptl::{dots_to_bytes, Dot, Listing};
use std::collections::BTreeSet;

/// A run: its exit status, and what was printed.
fn run(engine: &dyn Engine, seed: u64, quiet: bool) -> (u8, String) {
    let mut report = Vec::new();
    let options = Options {
        seed,
        svg: None,
        quiet,
        breach: Breach::default(),
    };
    let status = crate::status(&simulate(engine, &options, &mut report));
    (status, String::from_utf8(report).expect("ASCII"))
}

/// The report of a run with this fault, which must tell of a disagreement.
fn report_of(fault: Fault) -> String {
    let (status, report) = run(&Faulty::new(&Product, fault), 7, false);
    assert_eq!(status, 1, "{fault:?}: {report}");
    let last = report.lines().last().unwrap_or_default();
    assert!(last.starts_with("Seen: "), "{fault:?}: {last}");
    assert!(last.contains("DISAGREED"), "{fault:?}: {last}");
    report
}

/// The disagreements that a report tells of, in order.
fn told_in(report: &str) -> Vec<String> {
    let lines = report.lines();
    let told = lines.filter(|line| line.starts_with("DISAGREEMENT: seed 7, call "));
    told.map(str::to_string).collect()
}

/// Those of a run with this fault.
fn all_told(fault: Fault) -> Vec<String> {
    told_in(&report_of(fault))
}

/// The first of them.
fn told(fault: Fault) -> String {
    let first = all_told(fault).into_iter().next();
    first.expect("a disagreement")
}

#[test]
fn a_removed_dot_that_is_dropped_is_told() {
    let lines = all_told(Fault::RemovedDotDropped);
    let what = "and should not, by the rule of what it accepted";
    let told = |line: &String| line.contains(": lists ") && line.contains(what);
    assert!(lines.iter().any(told), "{lines:?}");
}

#[test]
fn a_message_that_is_forgotten_is_told() {
    let lines = all_told(Fault::MessageForgotten);
    let what = "by the rule of what it accepted";
    assert!(lines.iter().any(|line| line.ends_with(what)), "{lines:?}");
}

#[test]
fn a_message_that_the_rule_misses_is_told() {
    let lines = all_told(Fault::MessageUntold);
    let what = "(dot 1:1) and should, by the rule of what it accepted";
    assert!(lines.iter().any(|line| line.contains(what)), "{lines:?}");
}

#[test]
fn a_live_key_that_compaction_drops_is_told() {
    assert!(told(Fault::LiveKeyDropped).contains("does not list "));
}

#[test]
fn a_compaction_that_leaves_dots_is_told() {
    let line = told(Fault::KeylessDotsStay);
    assert!(
        line.ends_with("compacts and yet has dots in its tombstone"),
        "{line}"
    );
}

#[test]
fn a_lamp_that_is_lit_for_a_dead_label_is_told() {
    assert!(told(Fault::DeadLabelListed).contains("the lamp of "));
}

#[test]
fn a_page_that_is_not_the_rules_is_told() {
    for fault in [Fault::PageEndsEarly, Fault::PageOneShort] {
        let line = told(fault);
        assert!(
            line.ends_with("gives another page, by the rule of what it accepted"),
            "{line}"
        );
    }
}

#[test]
fn pages_that_do_not_join_to_the_listing_are_told() {
    for (fault, told) in [
        (None, vec![]),
        (
            Some(Fault::PageEndsEarly),
            vec!["its pages joined are not its listing"],
        ),
    ] {
        let faulty = fault.map(|fault| Faulty::new(&Product, fault));
        let engine = faulty
            .as_ref()
            .map_or(&Product as &dyn Engine, |faulty| faulty);
        let mut floor = Floor::new(engine, 1);
        for number in 0..20 {
            assert!(floor.own(3, &add(&format!("BOLT@B{number}"), &[])));
        }
        floor.hold_pages(3);
        let faults = floor.new_faults();
        let what = faults.iter().filter_map(|line| line.rsplit(": ").next());
        assert_eq!(what.collect::<Vec<_>>(), told);
    }
}

#[test]
fn a_merged_read_that_is_not_the_rules_is_told() {
    for fault in [Fault::MergeOfOne, Fault::MergeForgetsRemoves] {
        let line = told(fault);
        let what = line.split(": ").last().unwrap_or_default();
        assert!(what.starts_with("with box "), "{line}");
        assert!(
            what.ends_with(", by the rule of what either accepted"),
            "{line}"
        );
    }
}

/// A box takes in a message that another wrote.
fn hear(floor: &mut Floor, at: usize, number: usize) {
    let message = floor.posted[number].bytes.clone();
    let said = floor.act(at, &Command::Take { message });
    assert_eq!(said.map(|said| said.answer), Some(0));
}

/// The labels of a listing.
fn labels(listing: Listing) -> Vec<String> {
    let entries = listing.entries().into_iter();
    entries
        .map(|entry| String::from_utf8(entry.label.0).expect("ASCII"))
        .collect()
}

/// Boxes 3 and 5 have heard nothing of each other; box 4 has heard of the label of box 3, and moved
/// it.
#[test]
fn two_boxes_show_together_what_neither_lists_alone() {
    let mut floor = Floor::new(&Product, 1);
    assert!(floor.own(3, &add("BOLT@B1", &[])));
    assert!(floor.own(5, &add("NUT@B2", &[])));
    hear(&mut floor, 4, 0);
    assert!(floor.own(4, &add("BOLT@C1", &[Dot::from((4, 1))])));
    let merged = |one: usize, two: usize, room| {
        let (one, two) = (&floor.stations[one], &floor.stations[two]);
        one.merged(&Product, two, room)
    };
    assert_eq!(
        merged(3, 5, 99).map(labels),
        Ok(vec!["BOLT@B1".into(), "NUT@B2".into()])
    );
    assert_eq!(merged(3, 4, 99).map(labels), Ok(vec!["BOLT@C1".into()]));
    assert_eq!(merged(4, 3, 19).map(labels), Ok(vec!["BOLT@C1".into()]));
    assert_eq!(merged(4, 3, 18), Err(13));
    floor.hold_together(3);
    floor.hold_together(4);
    assert_eq!(floor.new_faults(), Vec::<String>::new());
}

/// The box that dies has added two labels by its image and moved one of them since; box 2 has heard of
/// all.
#[test]
fn a_box_is_swapped_from_its_last_image() {
    let mut floor = Floor::new(&Product, 1);
    assert!(floor.own(6, &add("BOLT@B1", &[])));
    assert!(floor.own(6, &add("NUT@B2", &[])));
    assert_eq!(floor.stations[6].write_image(&Product), 0);
    assert!(floor.own(6, &add("BOLT@C1", &[Dot::from((7, 1))])));
    for number in 0..3 {
        hear(&mut floor, 2, number);
    }
    let listed = |floor: &Floor, at: usize| floor.stations[at].listing(&Product).map(labels);
    let (old, new) = (["BOLT@B1", "NUT@B2"], ["BOLT@C1", "NUT@B2"]);
    let some = |labels: [&str; 2]| Some(labels.map(String::from).to_vec());
    floor.swap();
    assert_eq!(listed(&floor, 6), some(old), "as the image has it");
    assert_eq!(listed(&floor, 2), some(new));
    assert!(floor.own(6, &add("PIN@B3", &[])));
    let first = floor.posted.last().expect("sent").bytes.clone();
    assert!(first
        .windows(9)
        .any(|dot| dot == Dot::from((16, 1)).to_bytes()));
    hear(&mut floor, 2, 3);
    hear(&mut floor, 6, 2);
    assert_eq!(listed(&floor, 6), listed(&floor, 2));
    floor.hold(6);
    assert_eq!(floor.new_faults(), Vec::<String>::new());
    let line = floor.premise.line();
    let counts = "loads 1 and accepted calls 9 (goesOn), own adds 4 (made-once), \
                  accepted adds from elsewhere 5 (unforged).";
    assert!(line.contains(counts), "{line}");
}

/// What a step broke, if anything: the clause.
fn clause(broken: Option<Broken>) -> Option<Clause> {
    broken.map(|broken| broken.clause)
}

#[test]
fn an_actor_that_was_given_out_breaks_a_clause() {
    let (mut premise, mut life) = (Premise::default(), Life::default());
    assert_eq!(clause(premise.sets_up(1, &mut life)), None);
    assert_eq!(clause(premise.sets_up(2, &mut life)), None);
    assert_eq!(clause(premise.loads(3, &mut life)), None);
    for actor in [1, 2, 3] {
        let step = premise.sets_up(actor, &mut life);
        assert_eq!(clause(step), Some(Clause::SetsUp));
        let step = premise.loads(actor, &mut life);
        assert_eq!(clause(step), Some(Clause::GoesOn));
    }
}

#[test]
fn a_call_from_an_earlier_state_breaks_a_clause() {
    let (mut premise, mut life) = (Premise::default(), Life::default());
    assert_eq!(clause(premise.sets_up(1, &mut life)), None);
    let mut earlier = life;
    assert_eq!(clause(premise.goes_on(1, &mut life)), None);
    assert_eq!(clause(premise.goes_on(1, &mut life)), None);
    // Loaded under an actor of its own it goes on, and the writer too.
    let mut loaded = earlier;
    assert_eq!(clause(premise.loads(2, &mut loaded)), None);
    assert_eq!(clause(premise.goes_on(2, &mut loaded)), None);
    assert_eq!(clause(premise.goes_on(1, &mut life)), None);
    let step = premise.goes_on(1, &mut earlier);
    assert_eq!(clause(step), Some(Clause::GoesOn));
    let step = premise.goes_on(3, &mut life);
    assert_eq!(clause(step), Some(Clause::GoesOn));
}

#[test]
fn a_dot_with_two_labels_and_an_add_that_nobody_wrote_break_a_clause() {
    let mut premise = Premise::default();
    let pair = |label: &str, counter| {
        let dot = reference::Dot::new(1, counter).expect("a dot");
        (label.as_bytes().to_vec(), dot)
    };
    let forged = |premise: &mut Premise, pair| clause(premise.takes_in(&pair));
    assert_eq!(
        forged(&mut premise, pair("BOLT@B1", 1)),
        Some(Clause::Unforged)
    );
    assert_eq!(clause(premise.own_add(&pair("BOLT@B1", 1))), None);
    assert_eq!(clause(premise.own_add(&pair("BOLT@B1", 2))), None);
    assert_eq!(forged(&mut premise, pair("BOLT@B1", 1)), None);
    assert_eq!(
        forged(&mut premise, pair("NUT@B2", 1)),
        Some(Clause::Unforged)
    );
    // The same label once more is no other label.
    assert_eq!(clause(premise.own_add(&pair("BOLT@B1", 1))), None);
    let step = premise.own_add(&pair("NUT@B2", 1));
    assert_eq!(clause(step), Some(Clause::MadeOnce));
    assert_eq!(forged(&mut premise, pair("NUT@B2", 1)), None);
}

/// A box that is none of the workshop writes a message, and one of the workshop takes it in.
#[test]
fn a_forged_add_is_told() {
    let mut floor = Floor::new(&Product, 1);
    let (mut stranger, _) = Station::set_up(&Product, 9);
    let message = stranger.call(&Product, &add("BOLT@B1", &[])).message;
    floor.act(3, &Command::Take { message });
    let what = "PREMISE BROKEN: seed 1, call 1 (set-up), box 4: unforged: it accepts \
                BOLT@B1 (dot 9:1), which no box had written";
    assert_eq!(floor.new_faults(), [what]);
    assert!(!floor.premise.holds());
}

/// Half of the calls are lost in a power cut before they are kept. Their messages were never sent, and
/// their dots go to the labels after them.
#[test]
fn calls_that_were_not_kept_break_no_clause() {
    let mut floor = Floor::new(&Product, 1);
    floor.weather = Weather {
        cuts: 10_000,
        ..Weather::STILL
    };
    let mut put = |number: usize| {
        floor.power_up();
        floor.own(3, &add(&format!("BOLT@B{number}"), &[]))
    };
    let kept = (0..40).filter(|number| put(*number)).count();
    assert!((10..30).contains(&kept), "{kept}");
    assert_eq!(floor.posted.len(), kept);
    assert_eq!(floor.new_faults(), Vec::<String>::new());
    let line = floor.premise.line();
    assert!(line.starts_with("The premise held at every step. "));
    assert!(line.contains(&format!(", own adds {kept} (made-once), ")));
}

/// Of a box with two own adds since its image, which then makes another.
#[test]
fn a_box_that_is_put_back_breaks_the_premise() {
    let mut floor = Floor::new(&Product, 1);
    assert!(floor.own(6, &add("BOLT@B1", &[])));
    assert_eq!(floor.stations[6].write_image(&Product), 0);
    for label in ["NUT@B2", "PIN@B3"] {
        assert!(floor.own(6, &add(label, &[])));
    }
    assert_eq!(floor.stations[6].own_adds_since_image(), Some(2));
    floor.stations[6].put_back(0xff, floor.tick);
    let listed = floor.stations[6].listing(&Product).map(labels);
    assert_eq!(listed, Some(vec!["BOLT@B1".into()]));
    assert!(floor.own(6, &add("CAP@B4", &[])));
    let told = [
        "goesOn: it goes on from another state than the last under actor 7",
        "made-once: it writes CAP@B4 (dot 7:2), and NUT@B2 (dot 7:2) was written before",
    ];
    let told = told.map(|what| format!("PREMISE BROKEN: seed 1, call 4 (set-up), box 7: {what}"));
    assert_eq!(floor.new_faults(), told);
}

/// The box that died at noon, by the report of a day.
fn dead_box(report: &str) -> &str {
    let (_, after) = report.split_once("At noon box ").expect("told");
    after.split(' ').next().unwrap_or_default()
}

#[test]
fn a_swap_that_forgets_removes_is_told() {
    let report = report_of(Fault::ImageForgetsRemoves);
    let line = &told_in(&report)[0];
    let of_box = format!("(lunch), box {}: lists ", dead_box(&report));
    assert!(line.contains(&of_box), "{line}");
    assert!(
        line.ends_with("and should not, by the rule of what it accepted"),
        "{line}"
    );
}

/// The new box gives dots of the dead one a second time, and boxes that have them do not store its
/// labels.
#[test]
fn a_swap_under_the_dead_boxs_actor_is_told() {
    let report = report_of(Fault::LoadKeepsWriter);
    let again = format!("(dot {}:", dead_box(&report));
    let lines = told_in(&report);
    let told = |line: &String| line.contains(": does not list ") && line.contains(&again);
    assert!(
        lines.iter().filter(|line| told(line)).count() > 1,
        "{lines:?}"
    );
    for clause in ["goesOn", "made-once"] {
        let told = format!("box {}: {clause}: it ", dead_box(&report));
        assert!(report.contains(&told), "{report}");
    }
}

#[test]
fn noise_that_is_accepted_is_told() {
    assert!(told(Fault::NoiseAccepted).ends_with("accepts what is no call of the rules"));
}

#[test]
fn an_own_call_that_is_refused_is_told() {
    assert!(told(Fault::MemoryLost).ends_with("answers 8 to its own add"));
}

#[test]
fn boxes_that_never_get_all_messages_are_told() {
    let line = told(Fault::RemovesRefused);
    assert!(
        line.contains("(evening)") && line.contains("has not accepted "),
        "{line}"
    );
}

#[test]
fn a_refusal_that_changes_something_is_told() {
    assert!(told(Fault::RefusalChanges).ends_with("answers 10 and yet changes"));
}

#[test]
fn one_seed_is_one_run() {
    let first = run(&Product, 3, false);
    assert_eq!(first.0, 0, "{}", first.1);
    assert_eq!(run(&Product, 3, false), first);
    let (status, other) = run(&Product, 4, true);
    assert_eq!(status, 0, "{other}");
    assert_ne!(first.1.lines().last(), other.lines().last());
}

/// An add of a label with this context.
fn add(label: &str, context: &[Dot]) -> Command {
    Command::Add {
        label: label.into(),
        context: dots_to_bytes(context),
        out: MESSAGE_MAX,
    }
}

/// A radio to which this message was given many times, to be garbled mostly.
fn garbling(message: &[u8]) -> Radio {
    let (mut radio, mut tally) = (Radio::default(), Tally::default());
    let mut random = Random::new(1);
    let weather = Weather {
        garbled: 90,
        ..Weather::FAIR
    };
    for number in 0..20_000 {
        let letter = Letter {
            to: 3,
            number,
            message,
            tick: 0,
        };
        radio.send(letter, weather, &mut random, &mut tally);
    }
    assert!(radio.mistakable > 100 && tally.garbled > radio.mistakable);
    radio
}

/// What arrives is the message, or noise that the product refuses as the rules say.
#[test]
fn what_the_radio_garbles_is_refused() {
    let (mut author, _) = Station::set_up(&Product, 2);
    let context = [Dot::from((9, 4))];
    let sent = author.call(&Product, &add("SPRING@C2", &context)).message;
    let mut radio = garbling(&sent);
    let mut answers = BTreeSet::new();
    while let Some(flight) = radio.arrives(u64::MAX) {
        let (mut station, _) = Station::set_up(&Product, 4);
        let message = flight.bytes.clone();
        let answer = station.call(&Product, &Command::Take { message }).answer;
        match flight.cargo {
            Cargo::Message(_) => assert_eq!((answer, &flight.bytes), (0, &sent)),
            Cargo::Noise(expected) => assert_eq!(answer, expected),
        }
        answers.insert(answer);
    }
    assert_eq!(answers, BTreeSet::from([0, 2, 3, 4, 5, 6, 7]));
}

#[test]
fn a_power_cut_leaves_what_was_kept() {
    let (mut station, answer) = Station::set_up(&Product, 3);
    assert_eq!(answer, 0);
    let mut put = |name: &str, keep| {
        let said = station.call(&Product, &add(name, &[]));
        assert_eq!(said.answer, 0);
        match keep {
            true => station.keep(),
            false => station.lose_power(0xff, 9),
        }
        let entries = station.entries(&Product);
        let labels = entries.into_iter().map(|entry| entry.label.0);
        (labels.collect::<Vec<_>>(), said.message)
    };
    let (one, two) = (b"SPRING@B7".to_vec(), b"SPRING@C2".to_vec());
    assert_eq!(put("SPRING@B7", true).0, vec![one.clone()]);
    let (left, message) = put("SPRING@C2", false);
    assert_eq!(left, vec![one.clone()]);
    // What was not kept was never sent: the next add may take its dot.
    assert_eq!(put("SPRING@C2", true), (vec![one, two], message));
    assert!(!station.is_on(8) && station.is_on(9));
}

#[test]
fn labels_are_read_as_they_are_written() {
    for rack in 0..BOXES as u8 {
        for number in 1..=BINS {
            let bin = Bin { rack, number };
            assert_eq!(part_and_bin(&label("BOLT-M8", bin)), Some(("BOLT-M8", bin)));
        }
    }
    assert_eq!(Bin { rack: 1, number: 7 }.to_string(), "B7");
    for other in [
        "",
        "B7",
        "SPRING@",
        "SPRING@B",
        "SPRING@B0",
        "SPRING@B13",
        "SPRING@b7",
    ] {
        assert_eq!(part_and_bin(other.as_bytes()), None, "{other}");
    }
}
