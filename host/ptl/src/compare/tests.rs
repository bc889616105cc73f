//! The comparison finds what it is for: engines with one fault each are told from the reference,
//! by a short script that the console shows the same fault with.

use super::episode::Episode;
use super::random::Random;
use super::tally::Tally;
use super::trial::{Act, Held, Step, Trial};
use super::{compare, images, verdict, Engines, FULL_RUN};
use crate::console::console;
use crate::engine::{Engine, Fault, Faulty, Second, FASTEST, PLAIN, TUNED};
use crate::script::{line_to, parse, Both, Command, Line, Reply};
use limits::TOMBSTONE_DOTS_MAX;
use ptl::calls::{Looked, Paged, Span, Wrote};

/// The report of a run that must find a difference.
fn found(engines: Engines) -> String {
    let mut report = Vec::new();
    let equal = compare(engines, 60_000, 7, &mut report).expect("writes memory");
    let report = String::from_utf8(report).expect("ASCII");
    assert!(!equal, "{report}");
    report
}

/// The script in a report.
fn script_of(report: &str) -> Vec<&str> {
    let lines = report
        .lines()
        .skip_while(|line| !line.starts_with("script: "));
    let lines = lines.skip(1);
    lines
        .take_while(|line| !line.starts_with("product: "))
        .collect()
}

/// All that the console says to a script on this engine, then asked for what the first
/// controllers hold.
fn said(engine: &dyn Engine, script: &[&str]) -> String {
    let mut output = Vec::new();
    let looks = ["state", "store", "@1 state", "@1 store"];
    let input = [script, &looks].concat().join("\n");
    console(engine, input.as_bytes(), &mut output).expect("reads and writes memory");
    String::from_utf8(output).expect("ASCII")
}

/// A fault is found, and its script is no longer than this, but for lines that write the bytes of
/// a key, and shows it in the console.
fn shows(fault: Fault, what: &str, most: usize) {
    let faulty = Faulty::new(&Second, fault);
    let report = found([&faulty, &Second]);
    assert!(report.contains(&format!("script: {what}")), "{report}");
    let script = script_of(&report);
    let lines = script.iter().filter(|line| !line.contains("poke byte "));
    assert!((1..=most).contains(&lines.count()), "{report}");
    if what != "outputs differ" {
        let (faulty, sound) = (said(&faulty, &script), said(&Second, &script));
        assert!(faulty != sound, "{report}");
        assert!(!faulty.contains("? "), "{report}");
    }
}

#[test]
fn a_fault_in_the_answer_is_shown() {
    // An own add that a later context counts past stays in the script.
    shows(Fault::DeadLabelListed, "answers or counts differ", 14);
    shows(Fault::OtherAnswer, "answers or counts differ", 2);
    shows(Fault::PageEndsEarly, "answers or counts differ", 10);
    shows(Fault::MergeOfOne, "answers or counts differ", 10);
    shows(Fault::MergeForgetsRemoves, "answers or counts differ", 12);
    shows(Fault::ChecksumUnread, "answers or counts differ", 1);
    shows(Fault::ImageForgetsRemoves, "answers or counts differ", 12);
}

#[test]
fn the_report_names_what_the_product_is_compared_with() {
    let faulty = Faulty::new(&Second, Fault::DeadLabelListed);
    for (other, line) in [
        (&Second as &dyn Engine, "\nreference: lookup "),
        (PLAIN, "\nbaseline:  lookup "),
        (TUNED, "\ntuned:     lookup "),
        (FASTEST, "\nfastest:   lookup "),
    ] {
        let report = found([&faulty, other]);
        assert!(report.contains("\nproduct:   lookup "), "{report}");
        assert!(report.contains(line), "{report}");
    }
}

#[test]
fn a_fault_in_the_state_is_shown() {
    shows(Fault::WholeShiftLost, "states differ", 10);
    shows(Fault::KeylessDotsStay, "states differ", 10);
    shows(Fault::LoadKeepsWriter, "states differ", 1);
}

#[test]
fn a_fault_in_the_store_is_shown() {
    shows(Fault::FreedByteKept, "stores differ", 10);
    // A store of bytes that are not 0, and the load.
    shows(Fault::LoadClearsRest, "stores differ", 2);
}

#[test]
fn a_fault_in_the_output_is_shown() {
    shows(Fault::ListingRunsOn, "outputs differ", 10);
    shows(Fault::PageRunsOn, "outputs differ", 10);
    shows(Fault::MergeRunsOn, "outputs differ", 10);
}

#[test]
fn a_fault_at_a_boundary_is_shown() {
    // The adds that fill the store to its end.
    shows(Fault::StoreOneShort, "answers or counts differ", 20);
    shows(Fault::OnePastPrints, "answers or counts differ", 2);
    shows(Fault::UnprintedNotFound, "answers or counts differ", 2);
    // The labels that fill the output to its end.
    shows(Fault::MergeOneShort, "answers or counts differ", 14);
    // All slots but one, their number, a base, a set-up and the remove.
    let most = TOMBSTONE_DOTS_MAX + 12;
    shows(Fault::TombstoneOneShort, "answers or counts differ", most);
}

#[test]
fn a_fault_in_a_format_is_shown() {
    let report = found([&Faulty::new(&Second, Fault::LeftOverRead), &Second]);
    let script = script_of(&report);
    assert_eq!(script.len(), 1, "{report}");
    assert!(script[0].starts_with("readmessage "), "{report}");
}

#[test]
fn a_fault_that_both_sides_have_breaks_the_rule() {
    for fault in [
        Fault::DeadLabelListed,
        Fault::PageEndsEarly,
        Fault::PageOneShort,
        Fault::KeylessDotsStay,
    ] {
        let faulty = Faulty::new(&Second, fault);
        let report = found([&faulty, &faulty]);
        assert!(
            report.contains("not what the rule of demand 3 says"),
            "{report}"
        );
    }
    for fault in [
        Fault::MergeOfOne,
        Fault::MergeForgetsRemoves,
        Fault::MergeOneShort,
    ] {
        let faulty = Faulty::new(&Second, fault);
        let report = found([&faulty, &faulty]);
        assert!(
            report.contains("not what the rule of demand 3 says of both"),
            "{report}"
        );
    }
}

#[test]
fn images_that_both_sides_get_wrong_are_shown() {
    for (fault, what) in [
        (
            Fault::ImageForgetsRemoves,
            "script: an image loaded and at once written again is another",
        ),
        (
            Fault::LoadKeepsWriter,
            "script: the clock does not see what the rule of demand 3 says",
        ),
    ] {
        let faulty = Faulty::new(&Second, fault);
        let report = found([&faulty, &faulty]);
        assert!(report.contains(what), "{report}");
    }
}

/// A command that is given to a controller of a trial; what it answers.
fn answer(trial: &mut Trial, rack: usize, command: Command) -> u8 {
    let act = Act::Command(command);
    let reply = trial.step(&Step { rack, act });
    reply.expect("the same").expect("a call").answer()
}

/// Loads an image and lists; whether the listing was held to the rule.
fn is_held_after(trial: &mut Trial, actor: u8, image: &[u8]) -> bool {
    let image = image.to_vec();
    assert_eq!(answer(trial, 1, Command::Load { actor, image }), 0);
    let before = trial.held();
    assert_eq!(answer(trial, 1, Command::List { out: 99 }), 0);
    let held = trial.held();
    assert_eq!(held.all - before.all, held.loaded - before.loaded);
    held.loaded > before.loaded
}

/// Demand 3 speaks of images that a controller held to it wrote, and that came unaltered.
#[test]
fn a_loaded_controller_is_held_to_its_writers_history() {
    let mut trial = Trial::new([&Second, &Second]);
    let (actor, name) = (1, b"R1".to_vec());
    assert_eq!(answer(&mut trial, 0, Command::Setup { actor, name }), 0);
    let (label, context, out) = (b"B7".to_vec(), Vec::new(), 99);
    let add = Command::Add {
        label,
        context,
        out,
    };
    assert_eq!(answer(&mut trial, 0, add), 0);
    assert_eq!(answer(&mut trial, 0, Command::Image { out: 294 }), 0);
    let image = trial.out(0).to_vec();
    let altered = images::written_again(&image, 3);
    assert!(is_held_after(&mut trial, 2, &image));
    assert!(!is_held_after(&mut trial, 2, &altered));
    assert!(is_held_after(&mut trial, 16, &image));
}

#[test]
fn a_tally_tells_that_no_load_was_held_to_the_rule() {
    let mut tally = Tally::new(10);
    let what = "a controller that loaded an image, held to the rule";
    let unmet = |tally: &Tally| tally.unmet().iter().any(|unmet| unmet == what);
    let held = |all, loaded| Held { all, loaded };
    tally.held(held(0, 0), held(1, 0));
    assert!(unmet(&tally));
    tally.held(held(1, 0), held(2, 1));
    assert!(!unmet(&tally));
    let lines = tally.lines().join("\n");
    assert!(lines.contains("demand 3: 2, of them 1 after"), "{lines}");
}

/// The script of a difference in a merged read names its controllers from 0 on, and the report has
/// what either side says.
#[test]
fn a_merged_read_is_reported_by_its_own_line() {
    let faulty = Faulty::new(&Second, Fault::MergeOfOne);
    let report = found([&faulty, &Second]);
    let last = script_of(&report).last().copied().unwrap_or_default();
    let line = |start: &str| report.lines().any(|line| line.starts_with(start));
    assert!(last.starts_with("merge @0 @1 "), "{report}");
    assert!(
        line("product:   merge ") && line("reference: merge "),
        "{report}"
    );
}

#[test]
fn an_answer_outside_the_table_is_shown() {
    let faulty = Faulty::new(&Second, Fault::OtherAnswer);
    let report = found([&faulty, &faulty]);
    assert!(
        report.contains("the call cannot give this answer"),
        "{report}"
    );
}

#[test]
fn the_reference_agrees_with_itself() {
    let run = |seed| {
        let mut report = Vec::new();
        let equal = compare([&Second, &Second], 5_000, seed, &mut report);
        (equal.expect("writes memory"), report)
    };
    let (equal, report) = run(3);
    assert!(equal, "{}", String::from_utf8_lossy(&report));
    assert_eq!(run(3), (true, report.clone()), "one seed, one run");
    assert_ne!(run(4), (true, report));
}

#[test]
fn a_tally_tells_what_was_not_met() {
    let mut tally = Tally::new(10);
    let unmet = |tally: &Tally, what: &str| tally.unmet().iter().any(|unmet| unmet == what);
    assert!(unmet(&tally, "setup 5"));
    let all = tally.unmet().len();
    let setup = Command::Setup {
        actor: 0,
        name: Vec::new(),
    };
    tally.count(&setup, &Reply::Answered(5));
    assert!(!unmet(&tally, "setup 5"));
    assert_eq!((tally.unmet().len(), tally.left()), (all - 1, 9));
    let page = Command::Page {
        start: Vec::new(),
        out: 0,
    };
    let paged = |answer, more| {
        let (written, labels) = (0, 0);
        Reply::Paged(Paged {
            answer,
            written,
            labels,
            more,
        })
    };
    tally.count(&page, &paged(13, false));
    assert!(unmet(&tally, "page ended") && unmet(&tally, "page more"));
    tally.count(&page, &paged(0, true));
    assert!(unmet(&tally, "page ended") && !unmet(&tally, "page more"));
    tally.count(&page, &paged(0, false));
    assert!(!unmet(&tally, "page ended") && !unmet(&tally, "page more"));
}

#[test]
fn a_tally_tells_what_happens_to_labels_that_do_not_print() {
    let mut tally = Tally::new(10);
    let unmet = |tally: &Tally, what: &str| {
        let what = format!("{what} a label that does not print");
        tally.unmet().contains(&what)
    };
    let mut add = |label: &[u8], answer| {
        let (label, context, out) = (label.to_vec(), Vec::new(), 0);
        let add = Command::Add {
            label,
            context,
            out,
        };
        tally.count_command(&add, &Reply::Wrote(Wrote { answer, written: 0 }));
        unmet(&tally, "add of")
    };
    assert!(add(b"B7", 5) && add(b"B\0\x7f", 5) && add(b"B\x7f", 1));
    assert!(!add(b"B\x7f", 5));
    let mut lookup = |label: &[u8], len| {
        let label = label.to_vec();
        let found = Span { at: 0, len };
        let (answer, listed) = (0, false);
        let looked = Looked {
            answer,
            found,
            listed,
        };
        tally.count_command(&Command::Lookup { label }, &Reply::Looked(looked));
        unmet(&tally, "lookup that finds")
    };
    assert!(lookup(b"B7", 19) && lookup(b"B\x1f", 0) && !lookup(b"B\x1f", 19));
}

#[test]
fn a_tally_tells_which_merged_reads_were_not_met() {
    let mut tally = Tally::new(10);
    let unmet = |tally: &Tally, what: &str| tally.unmet().iter().any(|unmet| unmet == what);
    let lists = ["merge as neither lists", "merge as one lists"];
    assert_eq!(lists.map(|what| unmet(&tally, what)), [true, true]);
    tally.merged(false);
    assert_eq!(lists.map(|what| unmet(&tally, what)), [false, true]);
    tally.merged(true);
    assert_eq!(lists.map(|what| unmet(&tally, what)), [false, false]);
    let (first, second, out) = (0, 1, 0);
    let merge = Both::Merge { first, second, out };
    assert!(unmet(&tally, "merge 7"));
    tally.count(&merge, &Reply::Answered(7));
    assert!(!unmet(&tally, "merge 7"));
}

#[test]
fn a_full_run_must_meet_every_answer() {
    let mut tally = Tally::new(FULL_RUN);
    let done = Reply::Answered(0);
    for _ in 1..FULL_RUN {
        tally.count(&Command::Compact, &done);
    }
    let said = |tally: &Tally| {
        let mut report = Vec::new();
        let passed = verdict(tally, &mut report).expect("writes memory");
        (passed, String::from_utf8(report).expect("ASCII"))
    };
    let (passed, report) = said(&tally);
    assert!(passed && !report.contains("not met"), "{report}");
    tally.count(&Command::Compact, &done);
    let (passed, report) = said(&tally);
    assert!(!passed && report.contains("not met: compact 1"), "{report}");
    assert!(!report.contains("not met: compact 0"), "{report}");
}

/// Every command of a run that has a line is read from that line again.
#[test]
fn lines_are_read_as_they_are_written() {
    let (mut random, mut lines, mut bare) = (Random::new(5), 0, 0);
    for _ in 0..100 {
        let mut tally = Tally::new(u64::MAX);
        let mut episode = Episode::new([&Second, &Second], &mut random, &mut tally);
        assert_eq!(episode.play(), Ok(()));
        for step in episode.into_script() {
            let (line, asked) = match step.act {
                Act::Command(command) => (line_to(step.rack, &command), Line::Command(command)),
                Act::Both(both) => (line_to(step.rack, &both), Line::Both(both)),
                Act::Tool(tool) => (line_to(step.rack, &tool), Line::Tool(tool)),
                _ => continue,
            };
            match line {
                Ok(line) => {
                    assert_eq!(parse(line.as_bytes()), Ok((step.rack, asked)), "{line}");
                    lines += 1;
                }
                Err(_) => bare += 1,
            }
        }
    }
    assert!(lines > 5_000 && bare > 10, "{lines} {bare}");
}
