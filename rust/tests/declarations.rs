//! The entries are declared in C and in Rust as in the Rattle source: the same
//! ones, with the same arguments in the same order. No compiler sees that: two
//! arguments of one type can change places in a declaration, and every call
//! that goes by its names is then wrong.

use std::fs;
use std::mem::offset_of;
use std::path::Path;

use wistorvan::{Checkpoint, StreamRecord, MAX_WAITING, NOT_BEGUN};
use wistorvan::{CHECKPOINT_WORDS, LONGEST_SHEET, MAX_NODES, MAX_RELEASES, MAX_STREAMS};

/// The checkpoint in the Rattle source: a table of its words.
const CHECKPOINT: &str = "&mut [u32; 774]";

/// A file of the repository.
fn text(name: &str) -> String {
    let path = Path::new(env!("CARGO_MANIFEST_DIR")).join("..").join(name);
    fs::read_to_string(&path).unwrap_or_else(|error| panic!("{name}: {error}"))
}

/// A source on one line, without comments, directives of C and attributes.
fn source(name: &str) -> String {
    let text = text(name);
    let code: Vec<&str> = text
        .lines()
        .filter(|line| !line.trim_start().starts_with('#'))
        .map(|line| line.split("//").next().unwrap_or(""))
        .flat_map(str::split_whitespace)
        .collect();
    without_c_comments(&code.join(" "))
}

fn without_c_comments(text: &str) -> String {
    let mut pieces = text.split("/*");
    let first = pieces.next().unwrap_or("").to_string();
    pieces.fold(first, |kept, piece| {
        kept + piece.split_once("*/").expect("a comment has an end").1
    })
}

/// An entry of the Rattle source: its name, and its arguments with their types.
struct Entry {
    name: String,
    arguments: Vec<(String, String)>,
}

fn argument(text: &str) -> (String, String) {
    let (name, kind) = text.split_once(':').expect("a name and a type");
    // The record is `rec` there, since `bus` is the name of a crate.
    let name = match name.trim() {
        "rec" => "bus",
        other => other,
    };
    (name.to_string(), kind.trim().to_string())
}

fn entries() -> Vec<Entry> {
    let rattle = source("crates/wistorvan/src/lib.rt");
    let heads = rattle.split("pub extern \"C\" fn ").skip(1);
    heads
        .map(|head| {
            let (head, rest) = head.split_once(')').expect("arguments end");
            assert!(rest.starts_with(" -> Answer "), "{head} answers otherwise");
            let (name, arguments) = head.split_once('(').expect("arguments begin");
            let arguments = arguments.split(',').filter(|part| !part.trim().is_empty());
            Entry {
                name: name.to_string(),
                arguments: arguments.map(argument).collect(),
            }
        })
        .collect()
}

fn in_c(entry: &Entry) -> String {
    let arguments = entry
        .arguments
        .iter()
        .map(|(name, kind)| match kind.as_str() {
            "u32" => format!("uint32_t {name}"),
            "&[u32]" => format!("const uint32_t *{name}, size_t {name}_words"),
            "&mut [u32]" => format!("uint32_t *{name}, size_t {name}_words"),
            "&mut [StreamRecord]" => {
                format!("struct wistorvan_stream_record *{name}, size_t {name}_count")
            }
            "&mut Bus" => format!("struct wistorvan_bus *{name}"),
            // A table of a fixed length passes as one pointer.
            CHECKPOINT => format!("struct wistorvan_checkpoint *{name}"),
            _ => panic!("{kind} has no form in C yet"),
        });
    let arguments = arguments.collect::<Vec<_>>().join(", ");
    format!("struct wistorvan_answer {}({arguments})", entry.name)
}

fn in_rust(entry: &Entry) -> String {
    let arguments = entry
        .arguments
        .iter()
        .map(|(name, kind)| match kind.as_str() {
            "u32" => format!("{name}: u32"),
            "&[u32]" => format!("{name}: *const u32, {name}_words: usize"),
            "&mut [u32]" => format!("{name}: *mut u32, {name}_words: usize"),
            "&mut [StreamRecord]" => {
                format!("{name}: *mut StreamRecord, {name}_count: usize")
            }
            "&mut Bus" => format!("{name}: *mut Bus"),
            CHECKPOINT => format!("{name}: *mut Checkpoint"),
            _ => panic!("{kind} has no form in Rust yet"),
        });
    let arguments = arguments.collect::<Vec<_>>().join(", ");
    format!("pub fn {}({arguments}) -> Answer", entry.name)
}

fn sorted(mut declarations: Vec<String>) -> Vec<String> {
    declarations.sort();
    declarations
}

#[test]
fn ten_entries() {
    assert_eq!(entries().len(), 10);
}

/// Six words and then three tables, in this order and with nothing between, as
/// the library reads and writes them.
#[test]
fn the_words_of_a_checkpoint() {
    assert_eq!(CHECKPOINT, format!("&mut [u32; {CHECKPOINT_WORDS}]"));
    assert_eq!(size_of::<Checkpoint>(), 4 * CHECKPOINT_WORDS);
    let places = [
        offset_of!(Checkpoint, horizon),
        offset_of!(Checkpoint, tick),
        offset_of!(Checkpoint, node),
        offset_of!(Checkpoint, turns),
        offset_of!(Checkpoint, releases),
        offset_of!(Checkpoint, waiting),
        offset_of!(Checkpoint, numbers),
        offset_of!(Checkpoint, ticks),
        offset_of!(Checkpoint, streams),
    ];
    assert_eq!(
        places.map(|place| place / 4),
        [0, 1, 2, 3, 4, 5, 6, 262, 518]
    );
}

/// The fields of a struct, in order, with their C types.
fn fields_in_c(name: &str) -> Vec<String> {
    let header = source("include/wistorvan.h");
    let (_, rest) = header.split_once(&format!("struct {name} {{")).expect(name);
    let (fields, _) = rest.split_once('}').expect("it ends");
    let fields = fields.split(';').map(str::trim);
    fields
        .filter(|field| !field.is_empty())
        .map(str::to_string)
        .collect()
}

#[test]
fn the_checkpoint_of_the_header() {
    let numbers = ["horizon", "tick", "node", "turns", "releases", "waiting"];
    let tables = ["numbers", "ticks", "streams"];
    let numbers = numbers.map(|name| format!("uint32_t {name}"));
    let tables = tables.map(|name| format!("uint32_t {name}[WISTORVAN_MAX_WAITING]"));
    let expected = [&numbers[..], &tables].concat();
    assert_eq!(fields_in_c("wistorvan_checkpoint"), expected);
}

/// Three words, in this order and with nothing between.
#[test]
fn the_words_of_a_stream_record() {
    assert_eq!(size_of::<StreamRecord>(), 12);
    let places = [
        offset_of!(StreamRecord, begun),
        offset_of!(StreamRecord, longest),
        offset_of!(StreamRecord, over),
    ];
    assert_eq!(places, [0, 4, 8]);
    let fields = ["begun", "longest", "over"].map(|name| format!("uint32_t {name}"));
    assert_eq!(fields_in_c("wistorvan_stream_record"), fields);
    let rattle = source("crates/model/src/lib.rt");
    let declared = "pub struct StreamRecord { pub begun: u32, pub longest: u32, pub over: u32, }";
    assert!(rattle.contains(declared));
}

#[test]
fn the_header() {
    let header = source("include/wistorvan.h");
    let declared = header.split([';', '{', '}']).map(str::trim);
    let declared = declared.filter(|text| text.contains(" wistorvan_") && text.contains('('));
    assert_eq!(
        sorted(declared.map(str::to_string).collect()),
        sorted(entries().iter().map(in_c).collect())
    );
}

#[test]
fn the_rust_declarations() {
    let raw = source("rust/src/raw.rs");
    let (_, block) = raw.split_once("extern \"C\" {").expect("a block begins");
    let (block, _) = block.split_once('}').expect("it ends");
    let declared = block
        .split(';')
        .map(str::trim)
        .filter(|text| !text.is_empty());
    // A long declaration is laid out on several lines.
    let declared = declared.map(|text| text.replace("( ", "(").replace(", )", ")"));
    assert_eq!(
        sorted(declared.collect()),
        sorted(entries().iter().map(in_rust).collect())
    );
}

#[test]
fn the_header_has_the_same_limits() {
    let header = text("include/wistorvan.h");
    let defined: Vec<&str> = header
        .lines()
        .filter_map(|line| line.strip_prefix("#define WISTORVAN_"))
        .filter(|line| line.contains(' '))
        .collect();
    let expected = [
        format!("NOT_BEGUN UINT32_C({NOT_BEGUN})"),
        format!("MAX_NODES {MAX_NODES}"),
        format!("MAX_STREAMS {MAX_STREAMS}"),
        format!("MAX_RELEASES {MAX_RELEASES}"),
        format!("LONGEST_SHEET {LONGEST_SHEET}"),
        format!("MAX_WAITING {MAX_WAITING}"),
        format!("CHECKPOINT_WORDS {CHECKPOINT_WORDS}"),
        "FRESH_CHECKPOINT {0, 0, 1, 0, 0, 0, {0}, {0}, {0}}".to_string(),
    ];
    assert_eq!(defined, expected);
}
