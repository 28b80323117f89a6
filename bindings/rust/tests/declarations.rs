//! `src/sys.rs` declares what `include/witcall.h` does.

use std::collections::BTreeMap;

const HEADER: &str = include_str!("../../../include/witcall.h");
const DECLARED: &str = include_str!("../src/sys.rs");

/// A type of Rust as the header names it.
fn in_c(of_rust: &str) -> String {
    let names = [
        ("Handle", "witcall_package"),
        ("RawRequest", "witcall_request"),
        ("RawBlock", "witcall_block"),
        ("RawValue", "witcall_value"),
        ("RawCall", "witcall_call"),
        ("RowInfo", "witcall_row_info"),
        ("MemberInfo", "witcall_member_info"),
        ("Status", "witcall_status"),
        ("usize", "size_t"),
        ("u8", "uint8_t"),
        ("u32", "uint32_t"),
        ("u64", "uint64_t"),
    ];
    let (pointer, pointee) = match of_rust.split_once(' ') {
        Some(("*mut", pointee)) => (" *", pointee),
        Some(("*const", pointee)) => (" const *", pointee),
        _ => ("", of_rust),
    };
    let name = names.iter().find(|(rust, _)| *rust == pointee).unwrap_or_else(|| panic!("no type {pointee} of C"));
    format!("{}{pointer}", name.1)
}

/// The type of a parameter of C, whose name is its last word; `const` is put after the type.
fn type_of_c(parameter: &str) -> String {
    let name = parameter.rfind(|letter: char| !letter.is_alphanumeric() && letter != '_').map_or(0, |at| at + 1);
    let before = parameter[..name].trim();
    match before.strip_prefix("const ") {
        Some(rest) => rest.replace(" *", " const *"),
        None => before.to_owned(),
    }
}

/// The functions of the header: for each the types of its parameters and of its result.
fn functions_of_header() -> BTreeMap<String, Vec<String>> {
    let mut found = BTreeMap::new();
    for part in HEADER.split(';') {
        let Some(start) = part.find("\nwitcall_status witcall_").or_else(|| part.find("\nvoid witcall_")) else {
            continue;
        };
        let (result, rest) = part[start + 1..].split_once(' ').unwrap();
        let (name, parameters) = rest.split_once('(').unwrap();
        let types = parameters.trim_end_matches(')').split(',').map(|it| type_of_c(it.trim()));
        found.insert(name.to_owned(), types.chain([result.to_owned()]).collect());
    }
    found
}

/// The functions that `src/sys.rs` declares, in the same form.
fn functions_of_rust() -> BTreeMap<String, Vec<String>> {
    let block = DECLARED.split_once("extern \"C\" {").and_then(|(_, rest)| rest.split_once("\n}")).unwrap().0;
    let mut found = BTreeMap::new();
    for words in block.split(';').map(|it| it.split_whitespace().collect::<Vec<_>>().join(" ")) {
        let Some((name, rest)) = words.strip_prefix("fn ").and_then(|it| it.split_once('(')) else { continue };
        let (parameters, result) = rest.split_once(')').unwrap();
        let types = parameters.split(", ").filter_map(|it| it.trim_end_matches(',').split_once(": "));
        let result = result.strip_prefix(" -> ").map_or("void".to_owned(), in_c);
        found.insert(name.to_owned(), types.map(|(_, it)| in_c(it)).chain([result]).collect());
    }
    found
}

#[test]
fn functions_are_those_of_the_header() {
    let (of_header, mut declared) = (functions_of_header(), functions_of_rust());
    assert_eq!(declared.remove("witcall_abi").unwrap(), ["uint32_t"]);
    assert!(HEADER.contains("uint32_t witcall_abi(void);"));
    assert_eq!(declared.len(), 34);
    for (name, types) in declared {
        assert_eq!(types, of_header[&name], "{name}");
    }
}

#[test]
fn numbers_are_those_of_the_header() {
    for name in [
        "ABI",
        "MAX_VALUES",
        "DONE",
        "REFUSED",
        "TRAP",
        "BAD_JSON",
        "NOT_THIS_TYPE",
        "NO_FUNCTION",
        "NOT_OPEN",
        "NO_ROOM",
        "NOT_THERE",
    ] {
        let defined =
            HEADER.lines().find_map(|line| line.strip_prefix(&format!("#define WITCALL_{name} ")[..])).unwrap();
        let number = defined.split_whitespace().next().unwrap();
        let is_declared =
            |line: &str| line.starts_with(&format!("pub const {name}: ")) && line.ends_with(&format!("= {number};"));
        assert!(DECLARED.lines().any(is_declared), "{name}");
    }
}
