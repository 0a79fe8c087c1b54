//! Whether `include/futsamboly.h` says what `ffi.rs` takes it to say.
//!
//! A C compiler has held the types of the wrappers in `header_shim.c` against the header, and gives its structs and numbers. Here the header's
//! prototypes, as text, are held against what `ffi.rs` declares: the types once more, and the names of the parameters in their order, in which
//! no compiler would see two of one type change places.

use crate::ffi;

const HEADER: &str = include_str!("../include/futsamboly.h");
const DECLARED: &str = include_str!("ffi.rs");

/// What disagrees, a line each.
pub fn faults() -> Vec<String> {
    let (said, declared) = (prototypes_of_the_header(), declarations());
    let mut faults: Vec<String> = Vec::new();
    if !ffi::layout_agrees() {
        faults.push("the structs of compare/ffi.rs are not those of include/futsamboly.h".to_string());
    }
    if !ffi::numbers_agree() {
        faults.push("the numbers of compare/ffi.rs, or its fresh issuer, are not those of include/futsamboly.h".to_string());
    }
    faults.extend(said.iter().filter(|one| !declared.contains(one)).map(|one| format!("only include/futsamboly.h has {one}")));
    faults.extend(declared.iter().filter(|one| !said.contains(one)).map(|one| format!("only compare/ffi.rs has {one}")));
    faults
}

/// The functions of the header, spelled as in Rust.
fn prototypes_of_the_header() -> Vec<String> {
    let code: String = without_comments(HEADER).lines().filter(|line| !line.starts_with('#')).map(|line| format!("{line}\n")).collect();
    let prototypes = code.split([';', '{', '}']).filter_map(|piece| piece.split_once('('));
    prototypes.map(|(head, parameters)| prototype(head, parameters)).collect()
}

fn prototype(head: &str, parameters: &str) -> String {
    let (kind, name) = kind_and_name(head);
    let parameters = parameters.trim_end().trim_end_matches(')').split(',').map(|parameter| {
        let (kind, name) = kind_and_name(parameter);
        format!("{name}: {kind}")
    });
    function(name.trim_start_matches("futsamboly_"), parameters, &kind)
}

fn function(name: &str, parameters: impl Iterator<Item = String>, kind: &str) -> String {
    format!("{name}({}) -> {kind}", parameters.collect::<Vec<_>>().join(", "))
}

/// `const uint8_t *key` is `key`, and of the kind `*const u8`.
fn kind_and_name(text: &str) -> (String, String) {
    let spaced = text.replace('*', " * ");
    let words: Vec<&str> = spaced.split_whitespace().collect();
    let kind = match words[..] {
        [kind, _] => named(kind),
        [kind, "*", _] => format!("*mut {}", named(kind)),
        ["const", kind, "*", _] => format!("*const {}", named(kind)),
        _ => "a type that compare/header.rs does not know".to_string(),
    };
    (kind, words.last().map_or(String::new(), |name| name.to_string()))
}

fn named(kind: &str) -> String {
    match kind {
        "uint8_t" => "u8".to_string(),
        "uint16_t" => "u16".to_string(),
        "uint32_t" => "u32".to_string(),
        "size_t" => "usize".to_string(),
        "futsamboly_issuer" => "Issuer".to_string(),
        "futsamboly_nonce" => "Nonce".to_string(),
        "futsamboly_table" => "Table".to_string(),
        "futsamboly_receiver" => "Receiver".to_string(),
        "futsamboly_answer" => "Answer".to_string(),
        other => other.to_string(),
    }
}

fn without_comments(text: &str) -> String {
    let mut pieces = text.split("/*");
    let first = pieces.next().unwrap_or_default();
    let others = pieces.map(|piece| piece.split_once("*/").map_or("", |(_, behind)| behind));
    std::iter::once(first).chain(others).collect()
}

/// The functions that `ffi.rs` declares for the header's, in one spelling.
fn declarations() -> Vec<String> {
    let block = DECLARED.split("extern \"C\" {").nth(1).and_then(|rest| rest.split('}').next()).unwrap_or_default();
    let functions = block.split(';').filter_map(|piece| piece.trim().strip_prefix("pub fn header_")?.split_once('('));
    let spelled = functions.filter_map(|(name, rest)| {
        let (parameters, kind) = rest.split_once(") -> ")?;
        let parameters = parameters.split(',').map(|parameter| parameter.trim().to_string()).filter(|parameter| !parameter.is_empty());
        Some(function(name, parameters, kind))
    });
    spelled.collect()
}
