//! The exports of the library, the header and the crate's own declarations are one list: names, order and arguments.
use std::fs;

fn text(path: &str) -> String {
    fs::read_to_string(format!("{}/{path}", env!("CARGO_MANIFEST_DIR"))).unwrap()
}

/// Each function after `mark`: its name, and its arguments as `each` writes them.
fn functions(text: &str, mark: &str, each: fn(&str) -> Vec<String>) -> Vec<(String, Vec<String>)> {
    let mut found = vec![];
    for part in text.split(mark).skip(1) {
        let (head, _) = part.split_once(')').unwrap();
        let (name, arguments) = head.split_once('(').unwrap();
        let arguments = arguments.split(',').map(str::trim).filter(|a| !a.is_empty());
        found.push((name.to_string(), arguments.flat_map(each).collect()));
    }
    found
}

fn declared(argument: &str) -> Vec<String> {
    vec![argument.to_string()]
}

fn exported(argument: &str) -> Vec<String> {
    let (name, kind) = argument.split_once(": ").unwrap();
    let slice = |pointer: &str| vec![format!("{name}: {pointer} u8"), format!("{name}_len: usize")];
    match kind {
        "&[u8]" => slice("*const"),
        "&mut [u8]" => slice("*mut"),
        _ => declared(argument),
    }
}

fn in_header(argument: &str) -> Vec<String> {
    let (kind, name) = argument.rsplit_once(' ').unwrap();
    let kind = match (kind, name.starts_with('*')) {
        ("const uint8_t", true) => "*const u8",
        ("uint8_t", true) => "*mut u8",
        ("size_t", false) => "usize",
        ("float", false) => "f32",
        ("uint32_t", false) => "u32",
        ("uint8_t", false) => "u8",
        _ => panic!("{argument}"),
    };
    vec![format!("{}: {kind}", name.trim_start_matches('*'))]
}

#[test]
fn one_list() {
    let exports = functions(&text("../crates/seats/src/lib.rt"), "pub extern \"C\" fn ", exported);
    assert!(exports.len() >= 13);
    assert_eq!(functions(&text("src/ffi.rs"), "pub fn ", declared), exports);
    let header: String = text("../include/seats.h").split_whitespace().collect::<Vec<_>>().join(" ");
    // Each after a comment of its own.
    assert_eq!(functions(&header, "*/ int64_t ", in_header), exports);
    assert_eq!(header.matches("int64_t seats_").count(), exports.len());
}
