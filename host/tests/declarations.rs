//! The Rust declarations say what the exports' source says: names, parameters in their sequence,
//! results, and the fields of the answer. Nothing else compares the two.

mod common;

use common::root;
use std::collections::{BTreeMap, BTreeSet};
use std::fs;
use std::path::{Path, PathBuf};
use std::process::Command;

/// A function's parameters, as "name: type", and its result.
type Signature = (Vec<String>, String);

/// The text without comments, with single blanks.
fn plain(text: &str) -> String {
    let code = text.lines().map(|line| line.split("//").next().unwrap_or_default());
    let words: Vec<&str> = code.flat_map(str::split_whitespace).collect();
    words.join(" ")
}

/// The text of every Rattle file below a folder, but for what `rt` made in folders `out`.
fn rattle(folder: &Path) -> String {
    let entries =
        fs::read_dir(folder).unwrap_or_else(|error| panic!("{}: {error}", folder.display()));
    let mut paths: Vec<PathBuf> = entries.map(|entry| entry.expect("an entry").path()).collect();
    paths.sort();
    let text = |path: &PathBuf| match path.extension() {
        _ if path.ends_with("out") => String::new(),
        _ if path.is_dir() => rattle(path),
        Some(ending) if ending == "rt" => fs::read_to_string(path).expect("text"),
        _ => String::new(),
    };
    paths.iter().map(text).collect::<Vec<String>>().join("\n")
}

/// What stands between `open` and the first `close` after it.
fn between<'a>(text: &'a str, open: &str, close: &str) -> &'a str {
    let start = text.find(open).unwrap_or_else(|| panic!("no `{open}` in the text")) + open.len();
    let length = text[start..].find(close).unwrap_or_else(|| panic!("no `{close}` after `{open}`"));
    &text[start..start + length]
}

/// The parts of a list with commas, each with blanks trimmed.
fn parts(list: &str) -> Vec<&str> {
    list.split(',').map(str::trim).filter(|part| !part.is_empty()).collect()
}

/// The functions that follow each `start` in the text, by their names.
fn functions(text: &str, start: &str) -> BTreeMap<String, Signature> {
    let function = |rest: &str| {
        let (name, rest) = rest.split_once('(').expect("parameters");
        let (parameters, rest) = rest.split_once(')').expect("the parameters' end");
        let result = rest.trim_start().strip_prefix("->").expect("each export has a result");
        let result = result.split([';', ' ', '{']).find(|word| !word.is_empty()).expect("a type");
        let result = result.rsplit("::").next().expect("a name").to_string();
        let parameters = parts(parameters).into_iter().map(String::from).collect();
        (name.trim().to_string(), (parameters, result))
    };
    text.split(start).skip(1).map(function).collect()
}

/// A Rattle parameter as Rust declares it: a slice goes as a pointer, then a length.
fn declared(parameter: &str) -> Vec<String> {
    let (name, kind) = parameter.split_once(": ").expect("a name and a type");
    let slice = |pointer: &str, element: &str| {
        vec![format!("{name}: *{pointer} {element}"), format!("{name}_len: usize")]
    };
    let element = |prefix: &str| kind.strip_prefix(prefix)?.strip_suffix(']');
    match (element("&["), element("&mut [")) {
        (Some(element), _) => slice("const", element),
        (_, Some(element)) => slice("mut", element),
        _ => vec![parameter.to_string()],
    }
}

fn exports_in_rattle() -> BTreeMap<String, Signature> {
    let source = |name: &str| plain(&rattle(&root().join(format!("crates/{name}/src"))));
    let crates = ["abi", "abi_carry", "abi_governed", "abi_edit", "abi_verdict", "abi_large"];
    let source = crates.map(source).join(" ");
    let exports = functions(&source, "pub extern \"C\" fn ");
    let in_rust = |(name, (parameters, result)): (String, Signature)| {
        let parameters = parameters.iter().flat_map(|parameter| declared(parameter)).collect();
        (name, (parameters, result))
    };
    exports.into_iter().map(in_rust).collect()
}

fn declarations_in_rust() -> String {
    plain(&fs::read_to_string(root().join("host/src/exports.rs")).expect("the declarations"))
}

#[test]
fn functions_are_those_of_the_exports() {
    let declarations = declarations_in_rust();
    let block = between(&declarations, "extern \"C\" {", "}");
    let declared = functions(block, "fn ");
    assert_eq!(declared, exports_in_rattle());
    assert_eq!(declared.len(), 24);
}

/// The header without comments and directives, with single blanks.
fn header() -> String {
    let text = fs::read_to_string(root().join("host/include/raskjomi.h")).expect("the header");
    let code = text.split("/*").map(|part| part.split_once("*/").map_or(part, |(_, code)| code));
    let code: String = code.collect();
    let lines: Vec<&str> = code.lines().filter(|line| !line.starts_with('#')).collect();
    plain(&lines.join("\n"))
}

/// A type of C as Rust has it.
fn of_c(kind: &str) -> &str {
    match kind {
        "uint8_t" => "u8",
        "uint16_t" => "u16",
        "uint32_t" => "u32",
        "size_t" => "usize",
        other => other,
    }
}

/// A parameter or field of C, as "const uint16_t *game", as Rust declares it.
fn from_c(declared: &str) -> String {
    let (kind, name) = declared.rsplit_once(' ').expect("a type and a name");
    let constant = kind.strip_prefix("const ");
    let element = of_c(constant.unwrap_or(kind));
    match (name.strip_prefix('*'), constant) {
        (Some(name), Some(_)) => format!("{name}: *const {element}"),
        (Some(name), None) => format!("{name}: *mut {element}"),
        _ => format!("{name}: {element}"),
    }
}

#[test]
fn the_header_declares_the_exports() {
    let header = header();
    let prototypes = header.split(';').filter_map(|part| part.split_once('('));
    // Those that answer a text stand beside the proved archives.
    let (texts, prototypes): (Vec<_>, Vec<_>) =
        prototypes.partition(|(head, _)| head.contains('*'));
    assert_eq!(texts.len(), 4);
    let prototype = |(head, rest): (&str, &str)| {
        let (result, name) = head.trim().rsplit_once(' ').expect("a result and a name");
        let parameters = parts(rest.trim_end_matches(')')).into_iter().map(from_c).collect();
        let result = result.rsplit(' ').next().expect("a type");
        (name.to_string(), (parameters, of_c(result).to_string()))
    };
    let declared: BTreeMap<String, Signature> = prototypes.into_iter().map(prototype).collect();
    assert_eq!(declared, exports_in_rattle());
    let fields = between(&header, "typedef struct RaskjomiAnswer {", "}").split(';');
    let fields = fields.map(str::trim).filter(|field| !field.is_empty());
    let fields: Vec<String> = fields.map(|field| format!("pub {}", from_c(field))).collect();
    let declarations = declarations_in_rust();
    assert_eq!(fields, parts(between(&declarations, "pub struct RaskjomiAnswer {", "}")));
}

#[test]
fn answer_has_the_fields_of_the_exports() {
    let head = "pub struct RaskjomiAnswer {";
    let source = plain(&rattle(&root().join("crates")));
    let attributes = "#[repr(C)] #[derive(Clone, Copy)]";
    assert!(source.contains(&format!("{attributes} {head}")), "the answer is laid out as C does");
    let declarations = declarations_in_rust();
    let fields = parts(between(&declarations, head, "}"));
    assert_eq!(fields, parts(between(&source, head, "}")));
    assert_eq!(fields.len(), 11);
}

/// The symbols of every archive, each with its kind as `nm` tells it.
fn symbols() -> BTreeSet<(String, String)> {
    let entries = fs::read_dir(root().join("target/staticlib")).expect("the archives' folder");
    let paths = entries.map(|entry| entry.expect("an entry").path());
    let archives = paths.filter(|path| path.extension().is_some_and(|ending| ending == "a"));
    let listed = Command::new("nm").args(archives).output().expect("nm, of binutils");
    let listed = String::from_utf8(listed.stdout).expect("text");
    let symbol = |line: &str| {
        let mut words = line.split_whitespace().rev().map(String::from);
        Some((words.next()?, words.next()?))
    };
    listed.lines().filter_map(symbol).collect()
}

#[test]
fn the_archives_call_nothing_of_others_and_keep_nothing() {
    let symbols = symbols();
    let of = |kinds: &str| -> BTreeSet<&str> {
        let these = symbols.iter().filter(|(_, kind)| kinds.contains(kind.as_str()));
        these.map(|(name, _)| name.as_str()).collect()
    };
    assert_eq!(of("T"), exports_in_rattle().keys().map(String::as_str).collect());
    assert_eq!(of("U"), BTreeSet::from(["memcpy", "memset"]), "no heap");
    let others: Vec<_> = symbols.iter().filter(|(_, kind)| !"TtURr".contains(kind)).collect();
    assert!(others.is_empty(), "no data that could be written: {others:?}");
}
