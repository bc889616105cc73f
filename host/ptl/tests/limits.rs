//! One set of limits: those of the header, of `limits`, of the second program and of the product
//! are the same, and so are the answers.

use limits::{
    label_key_size, ACTOR_MAX, CONTEXT_DOTS_MAX, HEADER, IMAGE_MAX, KEY_MAX, LABEL_MAX,
    MESSAGE_MAX, NAME_MAX, PRINT_MAX, PRINT_MIN, STORE_MAX, TOMBSTONE_DOTS_MAX, WINDOW,
};
use ptl::{Actor, Answer, Controller, Dot, Label, SetName};
use std::collections::BTreeSet;
use std::path::Path;
use std::process::Command;
use std::{env, fs};

/// A name without its prefix, and its number.
type Named = (String, u64);

/// A file of the repository.
fn file(path: &str) -> String {
    let root = Path::new(env!("CARGO_MANIFEST_DIR")).join("../..");
    fs::read_to_string(root.join(path)).expect(path)
}

/// The names that stand in lines of the header between these words, in order.
fn defined(before: &str, after: &str) -> Vec<String> {
    let header = file("include/ptl.h");
    let names = header.lines().filter_map(|line| {
        let (name, _) = line.strip_prefix(before)?.split_once(after)?;
        Some(name.to_string())
    });
    names.collect()
}

/// The values of these names of the header, by the C compiler.
fn evaluated(program: &str, names: &[String]) -> Vec<Named> {
    let scratch = Path::new(env!("CARGO_TARGET_TMPDIR"));
    let (source, binary) = (scratch.join(format!("{program}.c")), scratch.join(program));
    let print = |name| format!("    printf(\"%llu\\n\", (unsigned long long)(PTL_{name}));\n");
    let prints: String = names.iter().map(print).collect();
    let text = format!("#include <stdio.h>\n#include \"ptl.h\"\nint main(void) {{\n{prints}}}\n");
    fs::write(&source, text).expect("writes");
    let include = Path::new(env!("CARGO_MANIFEST_DIR")).join("../../include");
    let mut cc = Command::new("cc");
    cc.args(["-std=c99", "-Wall", "-Wextra", "-Werror", "-pedantic", "-I"]);
    cc.arg(include).arg("-o").arg(&binary).arg(&source);
    assert!(cc.status().expect("cc runs").success());
    let output = Command::new(&binary).output().expect("the program runs");
    let output = String::from_utf8(output.stdout).expect("ASCII");
    let values = output.lines().map(|line| line.parse().expect("a number"));
    let all: Vec<Named> = names.iter().cloned().zip(values).collect();
    assert_eq!(all.len(), names.len());
    all
}

fn sorted(mut named: Vec<Named>) -> Vec<Named> {
    named.sort();
    named
}

#[test]
fn the_header_has_these_limits_and_no_others() {
    let mut names = defined("#define PTL_", " ");
    names.retain(|name| name != "VERSION");
    let header = evaluated("macros", &names);
    let ours = HEADER
        .iter()
        .map(|(name, value)| (name.to_string(), *value));
    assert_eq!(sorted(header), sorted(ours.collect()));
}

/// What the compiler says of the header under this standard of C, with this flag.
fn said_of_the_header(standard: &str, flag: &str) -> String {
    let header = Path::new(env!("CARGO_MANIFEST_DIR")).join("../../include/ptl.h");
    let mut cc = Command::new("cc");
    cc.args([standard, flag, "-ffreestanding", "-fsyntax-only", "-xc"]);
    let output = cc.arg(header).output().expect("cc runs");
    String::from_utf8(output.stderr).expect("UTF-8")
}

#[test]
fn the_header_compiles_only_where_size_t_has_8_bytes() {
    for standard in ["-std=c99", "-std=c11"] {
        assert_eq!(said_of_the_header(standard, "-m64"), "");
        let said = said_of_the_header(standard, "-m32");
        assert!(said.contains("error") && said.contains("size_t"), "{said}");
    }
}

#[test]
fn the_header_and_the_library_have_one_version() {
    let version = "VERSION".to_string();
    let header = evaluated("version", std::slice::from_ref(&version));
    assert_eq!(header, [(version, u64::from(ptl::calls::version()))]);
}

/// The numbers of documents 01 and 02, and the places in a block that follow from them.
#[test]
fn the_numbers_are_those_of_the_rules() {
    let numbers = [
        ("ACTOR_MAX", 16),
        ("NAME_MAX", 16),
        ("LABEL_MAX", 32),
        ("PRINT_MIN", 0x20),
        ("PRINT_MAX", 0x7E),
        ("CONTEXT_DOTS_MAX", 64),
        ("TOMBSTONE_DOTS_MAX", 128),
        ("STORE_MAX", 65_536),
        ("WINDOW", 64),
        ("ANSWERS", 16),
        ("NUMBER_SIZE", 8),
        ("DOT_SIZE", 9),
        ("CONTEXT_MAX", 576),
        ("KEY_FIXED", 15),
        ("KEY_MAX", 63),
        ("MESSAGE_MAX", 642),
        ("ROW_SIZE", 16),
        ("CLOCK_SIZE", 256),
        ("TOMBSTONE_SIZE", 1152),
        ("IMAGE_MAX", 66_977),
        ("STATE_ACTOR_AT", 0),
        ("STATE_NAME_AT", 1),
        ("STATE_NAME_LENGTH_AT", 17),
        ("STATE_CLOCK_AT", 25),
        ("STATE_TOMBSTONE_AT", 281),
        ("STATE_COUNT_AT", 1433),
        ("STATE_USED_AT", 1441),
        ("STATE_SIZE", 1449),
    ];
    assert_eq!(HEADER, numbers);
}

/// Compares constants that have one name here and in the second program. The names.
macro_rules! same {
    ($($name:ident),*) => {{
        $(assert_eq!(reference::limits::$name as u128, limits::$name as u128);)*
        [$(stringify!($name)),*]
    }};
}

#[test]
fn the_second_program_has_the_same_limits() {
    let same = same!(
        ACTOR_MAX,
        NAME_MAX,
        LABEL_MAX,
        PRINT_MIN,
        PRINT_MAX,
        CONTEXT_DOTS_MAX,
        TOMBSTONE_DOTS_MAX,
        STORE_MAX,
        WINDOW,
        ANSWERS,
        DOT_SIZE,
        TOMBSTONE_SIZE,
        KEY_END,
        KEY_FIXED
    );
    use reference::limits::*;
    assert_eq!(COUNTER_MAX, u128::from(u64::MAX));
    assert_eq!(COUNTER_SIZE, limits::NUMBER_SIZE);
    assert_eq!(ROW_WORDS * size_of::<u64>(), limits::ROW_SIZE);
    assert_eq!(CLOCK_WORDS * size_of::<u64>(), limits::CLOCK_SIZE);
    assert_eq!(KEY_START, limits::KEY_FRONT + limits::KEY_MIDDLE);
    let others = [
        "COUNTER_MAX",
        "COUNTER_SIZE",
        "ROW_WORDS",
        "CLOCK_WORDS",
        "KEY_START",
    ];
    let compared: BTreeSet<&str> = same.into_iter().chain(others).collect();
    let source = file("host/reference/src/limits.rs");
    assert_eq!(compared, constants(&source).map(|(name, _)| name).collect());
}

/// The names of the constants in this source, and what follows them.
fn constants(source: &str) -> impl Iterator<Item = (&str, &str)> {
    let lines = source.lines();
    lines.filter_map(|line| line.strip_prefix("pub const ")?.split_once(": "))
}

/// The answers that a source has as constants, in its order.
fn answers_of(path: &str) -> Vec<Named> {
    let source = file(path);
    let answers = constants(&source).map(|(name, rest)| {
        let number = rest.strip_prefix("u8 = ").and_then(|n| n.strip_suffix(';'));
        let number = number.and_then(|number| number.parse().ok());
        (name.to_string(), number.expect("a number"))
    });
    answers.collect()
}

/// A name in capital letters, its words joined by underscores.
fn in_capitals(name: &str) -> String {
    let before = |c: char| c.is_uppercase().then_some('_');
    let all = name.chars().flat_map(|c| before(c).into_iter().chain([c]));
    let all: String = all.collect();
    all.trim_start_matches('_').to_uppercase()
}

#[test]
fn the_answers_have_one_order_and_one_name_each() {
    let ours = Answer::ALL.map(|answer| {
        let name = in_capitals(&format!("{answer:?}"));
        (name, u64::from(answer.number()))
    });
    assert_eq!(evaluated("answers", &defined("    PTL_", " = ")), ours);
    assert_eq!(answers_of("host/baseline/src/answer.rs"), ours);
    assert_eq!(answers_of("host/reference/src/answer.rs"), ours);
}

/// Dots of one actor, from the first counter on.
fn dots(actor: u8, number: usize) -> Vec<Dot> {
    let counters = 1..=number as u64;
    counters
        .map(|counter| Dot::from((actor, counter)))
        .collect()
}

fn name(length: usize) -> SetName {
    SetName(vec![b'n'; length])
}

fn label(length: usize) -> Label {
    Label(vec![b'x'; length])
}

/// A controller whose name and actor are at their limits, with a store of this length.
fn controller(store: usize) -> Controller {
    let made = Controller::set_up(Actor(ACTOR_MAX), &name(NAME_MAX), vec![0; store]);
    made.expect("keeps the rules")
}

#[test]
fn the_product_takes_what_is_at_a_limit_and_refuses_what_is_past_it() {
    let set_up = |actor, length| Controller::set_up(Actor(actor), &name(length), Vec::new()).err();
    assert_eq!(set_up(ACTOR_MAX + 1, NAME_MAX), Some(Answer::BadName));
    assert_eq!(set_up(ACTOR_MAX, NAME_MAX + 1), Some(Answer::BadName));
    let mut one = controller(STORE_MAX);
    let past = one.own_add(&label(LABEL_MAX + 1), &[]);
    assert_eq!(past, Err(Answer::BadName));
    for byte in [PRINT_MIN - 1, PRINT_MAX + 1] {
        let past = one.own_add(&Label(vec![byte]), &[]);
        assert_eq!(past, Err(Answer::BadName), "{byte:02X}");
    }
    let past = one.own_remove(&dots(1, CONTEXT_DOTS_MAX + 1));
    assert_eq!(past, Err(Answer::BadDot));
    let past = one.own_remove(&[Dot::from((2, WINDOW + 1))]);
    assert_eq!(past, Err(Answer::TooFar));
    assert!(one.own_remove(&[Dot::from((2, WINDOW))]).is_ok());
    let longest = one.own_add(&label(LABEL_MAX), &dots(1, CONTEXT_DOTS_MAX));
    assert_eq!(longest.map(|message| message.len()), Ok(MESSAGE_MAX));
    assert_eq!(one.state().used(), KEY_MAX as u64);
    for byte in [PRINT_MIN, PRINT_MAX] {
        assert!(one.own_add(&Label(vec![byte]), &[]).is_ok(), "{byte:02X}");
    }
    assert_eq!(controller(STORE_MAX + 1).compact(), Err(Answer::Damaged));
}

/// The image of a full store and a full tombstone, under the longest name.
#[test]
fn the_products_longest_image() {
    let mut writer = controller(STORE_MAX);
    let number = STORE_MAX.div_ceil(KEY_MAX);
    let end_of = |key: usize| STORE_MAX * key / number;
    for key in 0..number {
        let length = end_of(key + 1) - end_of(key) - label_key_size(NAME_MAX, 0);
        let text = format!("{key:04}{:x<LABEL_MAX$}", "");
        let label = Label::from(&text[..length]);
        assert!(writer.own_add(&label, &[]).is_ok());
    }
    for context in dots(ACTOR_MAX, TOMBSTONE_DOTS_MAX).chunks(CONTEXT_DOTS_MAX) {
        assert!(writer.own_remove(context).is_ok());
    }
    let image = writer.write_image().expect("is sound");
    assert_eq!(image.len(), IMAGE_MAX);
    let load = |image: &[u8], store| Controller::load_image(Actor(1), image, vec![0; store]);
    assert!(load(&image, STORE_MAX).is_ok());
    assert_eq!(load(&image, STORE_MAX - 1), Err(Answer::StoreFull));
    assert_eq!(load(&image, STORE_MAX + 1), Err(Answer::Damaged));
    let longer = [&image[..], &[0]].concat();
    assert_eq!(load(&longer, STORE_MAX), Err(Answer::BadShape));
}

#[test]
fn the_products_tombstone_takes_its_most_dots() {
    let mut one = controller(0);
    let all = dots(1, TOMBSTONE_DOTS_MAX + 1);
    for dot in &all {
        assert!(one.own_remove(&[*dot]).is_ok(), "joins the clock");
    }
    let (last, first) = all.split_last().expect("some dots");
    for dot in first {
        assert!(one.own_remove(&[*dot]).is_ok(), "joins the tombstone");
    }
    assert_eq!(one.own_remove(&[*last]), Err(Answer::TombstoneFull));
    assert!(one.compact().is_ok(), "leaves the tombstone empty");
    assert!(one.own_remove(&[*last]).is_ok(), "joins the tombstone");
}
