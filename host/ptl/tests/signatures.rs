//! The exported functions have one signature in `crates/capi_c`, in `include/ptl.h` and in the
//! wrapper's `ffi.rs`: the same names, parameters in the same order, types and results.

use std::collections::{BTreeMap, BTreeSet};
use std::fs;

const CAPI: &str = concat!(
    env!("CARGO_MANIFEST_DIR"),
    "/../../crates/capi_c/src/lib.rt"
);
const HEADER: &str = concat!(env!("CARGO_MANIFEST_DIR"), "/../../include/ptl.h");
const WRAPPER: &str = concat!(env!("CARGO_MANIFEST_DIR"), "/src/ffi.rs");

/// Functions by name: each parameter as `name: type`, then the result. Types are those of `ffi.rs`.
type Functions = BTreeMap<String, Vec<String>>;

fn text(path: &str) -> String {
    fs::read_to_string(path).expect("the file is there")
}

/// The text without what stands between these marks.
fn without(text: &str, open: &str, close: &str) -> String {
    let mut pieces = text.split(open);
    let first = pieces.next().unwrap_or_default().to_string();
    let after = |piece: &str| piece.split_once(close).map(|(_, rest)| format!("\n{rest}"));
    pieces
        .filter_map(after)
        .fold(first, |all, rest| all + &rest)
}

/// Words with one space between them.
fn tidy(text: &str) -> String {
    text.split_whitespace().collect::<Vec<_>>().join(" ")
}

/// The items between commas, the last of which may be followed by one.
fn items(list: &str) -> impl Iterator<Item = String> + '_ {
    list.split(',').map(tidy).filter(|item| !item.is_empty())
}

/// Functions in Rust's form behind this mark, with parameters as this function writes them.
fn rust_functions(text: &str, mark: &str, parameter: fn(&str, &str) -> Vec<String>) -> Functions {
    let text = without(text, "//", "\n");
    let mut functions = Functions::new();
    for function in text.split(mark).skip(1) {
        let (head, rest) = function.split_once('(').expect("parameters");
        let (list, rest) = rest.split_once(')').expect("an end of them");
        let name = head.split('<').next().unwrap_or_default().trim();
        let mut signature = Vec::new();
        for item in items(list) {
            let (name, kind) = item.split_once(": ").expect("a type");
            signature.extend(parameter(name, kind));
        }
        let result = rest.trim_start().strip_prefix("->").unwrap_or("()");
        let result = result.trim_start().split([';', ' ', '\n']).next();
        signature.push(result.unwrap_or_default().to_string());
        functions.insert(name.to_string(), signature);
    }
    functions
}

/// The exported functions of `capi_c`.
fn of_capi(text: &str) -> Functions {
    rust_functions(
        text,
        "#[unsafe(no_mangle)]\npub extern \"C\" fn ",
        |name, kind| {
            let plain = kind.replace("'a ", "");
            match plain.as_str() {
                "&[u8]" => slice(name, "const"),
                "&mut [u8]" => slice(name, "mut"),
                "&mut &[u8]" => vec![format!("{name}: *mut Bytes")],
                plain => vec![format!("{name}: {}", plain.replace("&mut ", "*mut "))],
            }
        },
    )
}

fn slice(name: &str, access: &str) -> Vec<String> {
    vec![
        format!("{name}: *{access} u8"),
        format!("{name}_len: usize"),
    ]
}

/// The functions that the wrapper declares.
fn of_wrapper(text: &str) -> Functions {
    rust_functions(text, "pub fn ", |name, kind| {
        vec![format!("{name}: {kind}")]
    })
}

/// The header without comments, directives, typedefs, assertions and functions with a body.
fn declarations(header: &str) -> String {
    let text = without(header, "/*", "*/").replace("\\\n", "");
    let lines = text.lines().filter(|line| !line.starts_with('#'));
    let text = lines.collect::<Vec<_>>().join("\n");
    let text = without(&text, "static inline ", "\n}");
    let text = without(&text, "_Static_assert", ";");
    without(&text, "typedef ", ";")
}

/// The functions that the header declares.
fn of_header(header: &str) -> Functions {
    let mut functions = Functions::new();
    for declaration in declarations(header).split(';') {
        let declaration = declaration.rsplit(['{', '}']).next().unwrap_or_default();
        if let Some((head, list)) = declaration.split_once('(') {
            let (result, name) = head.trim().rsplit_once(' ').expect("a result");
            let list = list.trim().trim_end_matches(')');
            let list = items(list).filter(|item| item != "void");
            let mut signature: Vec<String> = list.map(|item| c_parameter(&item)).collect();
            signature.push(rust_type(result));
            functions.insert(name.to_string(), signature);
        }
    }
    functions
}

/// A parameter or field of C in Rust's form.
fn c_parameter(item: &str) -> String {
    let at = item.rfind([' ', '*']).expect("a name") + 1;
    format!("{}: {}", &item[at..], rust_type(&item[..at]))
}

fn rust_type(c: &str) -> String {
    let (pointed, pointer) = match c.trim().strip_suffix('*') {
        Some(pointed) => (pointed.trim(), true),
        None => (c.trim(), false),
    };
    let (plain, access) = match pointed.strip_prefix("const ") {
        Some(plain) => (plain, "*const "),
        None => (pointed, "*mut "),
    };
    let kind = match plain {
        "size_t" => "usize".into(),
        "void" => "()".into(),
        "struct ptl_bytes" => "Bytes".into(),
        plain => plain
            .replace("uint", "u")
            .replace("int", "i")
            .replace("_t", ""),
    };
    format!("{}{kind}", if pointer { access } else { "" })
}

/// What differs between the three, or is missing in one of them.
fn differences(capi: &str, header: &str, wrapper: &str) -> Vec<String> {
    let all = [of_capi(capi), of_header(header), of_wrapper(wrapper)];
    let names: BTreeSet<&String> = all.iter().flat_map(BTreeMap::keys).collect();
    let differs = |name: &&&String| {
        let [capi, header, wrapper] = all.each_ref().map(|functions| functions.get(**name));
        capi.is_none() || capi != header || capi != wrapper
    };
    let show = |name: &String| format!("{name}: {:?}", all.each_ref().map(|all| all.get(name)));
    names
        .iter()
        .filter(differs)
        .map(|name| show(name))
        .collect()
}

#[test]
fn the_three_agree() {
    let (capi, header, wrapper) = (text(CAPI), text(HEADER), text(WRAPPER));
    assert_eq!(differences(&capi, &header, &wrapper), Vec::<String>::new());
    let exported = capi.matches("#[unsafe(no_mangle)]").count();
    assert_eq!(of_capi(&capi).len(), exported);
    let add = &of_header(&header)["ptl_own_add"];
    assert_eq!(add[4..6], ["label: *const u8", "label_len: usize"]);
    assert_eq!(add[10..], ["written: *mut usize", "u8"]);
}

#[test]
fn a_stretch_has_the_same_fields() {
    let fields = |text: &str, open: &str| {
        let (_, rest) = text.split_once(open).expect("the struct");
        tidy(rest.split('}').next().unwrap_or_default())
    };
    let header = fields(&declarations(&text(HEADER)), "struct ptl_bytes {");
    let header: Vec<String> = header.split_terminator(';').map(c_parameter).collect();
    let wrapper = fields(&text(WRAPPER), "#[repr(C)]\npub struct Bytes {");
    let wrapper: Vec<String> = items(&wrapper)
        .map(|field| field.replace("pub ", ""))
        .collect();
    assert_eq!(header, wrapper);
}

/// Wrong edits of each file, each of which must show.
#[test]
fn wrong_edits_are_found() {
    let files = [text(CAPI), text(HEADER), text(WRAPPER)];
    let found = |[capi, header, wrapper]: &[String; 3]| differences(capi, header, wrapper).len();
    assert_eq!(found(&files), 0);
    let edits = [
        (
            0,
            "label: &[u8],\n    context: &[u8],",
            "context: &[u8],\n    label: &[u8],",
        ),
        (
            0,
            "    store: &[u8],\n    context",
            "    store: &mut [u8],\n    context",
        ),
        (0, "listed: &mut bool", "listed: &mut u8"),
        (
            0,
            "#[unsafe(no_mangle)]\npub extern \"C\" fn ptl_compact",
            "pub fn ptl_compact",
        ),
        (0, "message: &[u8]) -> u8", "message: &[u8]) -> u64"),
        (
            1,
            "const uint8_t *name, size_t name_len, uint8_t *state",
            "uint8_t *name, size_t name_len, uint8_t *state",
        ),
        (
            1,
            "size_t *written, size_t *labels",
            "size_t *labels, size_t *written",
        ),
        (1, "uint64_t *counter);", "uint32_t *counter);"),
        (1, "uint8_t ptl_list(", "uint8_t ptl_listing("),
        (1, "uint8_t ptl_take_in(", "void ptl_take_in("),
        (2, "name: *const u8", "name: *mut u8"),
        (2, "found: *mut Bytes,\n", ""),
        (
            2,
            "actor: u8,\n        counter: u64",
            "counter: u64,\n        actor: u8",
        ),
        (2, "pub fn ptl_read_key(", "fn ptl_read_key("),
        (2, "written: *mut usize", "length: *mut usize"),
    ];
    for (file, from, to) in edits {
        let mut edited = files.clone();
        edited[file] = files[file].replacen(from, to, 1);
        assert_ne!(edited[file], files[file], "{from}");
        assert!((1..=2).contains(&found(&edited)), "{from} to {to}");
    }
}
