//! Packages, and what they have.

use std::path::Path;
use std::{fs, thread};
use witcall::{explain, CoreType, Error, Fault, Function, Kind, Owner, Package, Place};

const TEXT: &str = "package a:b;\n\ninterface c {\n  f: func(x: u32) -> u32;\n}\n";

fn file(path: &str) -> Vec<u8> {
    fs::read(Path::new("../..").join(path)).unwrap()
}

#[test]
fn a_package_is_written_and_opened_again() -> Result<(), Error> {
    let package = Package::open(TEXT)?;
    let again = Package::open(package.to_binary()?)?;
    assert_eq!([package.to_text()?, again.to_text()?], [TEXT, TEXT]);
    let told = witcall::version()?;
    let (version, commit) = told.split_once('+').unwrap_or((&told, "next"));
    let is_commit = commit.len() == 12 && commit.bytes().all(|digit| matches!(digit, b'0'..=b'9' | b'a'..=b'f'));
    assert_eq!(version, env!("CARGO_PKG_VERSION"));
    assert!(is_commit || commit == "next", "{told}");
    assert_eq!(file("VERSION"), format!("{}\n", env!("CARGO_PKG_VERSION")).as_bytes());
    Ok(())
}

#[test]
fn what_is_refused_has_its_number_and_its_line() {
    let refused = Package::open("package a:b; interface c { f: func(x: size); }").unwrap_err();
    assert_eq!(refused, Error::Refused { number: 41, line: "error 41 unknown size".to_owned(), hint: None });
    let none: [&[u8]; 0] = [];
    assert_eq!(Package::open_set(&none).unwrap_err().to_string(), "error 74 bad lengths");
    let name = format!("{}:{}", "a".repeat(200), "b".repeat(200));
    let line = Package::open(format!("package a:b; interface c {{ use {name}/d.{{t}}; }}")).unwrap_err().to_string();
    assert!(line.starts_with(&format!("error 47 no package {name}")), "{line}");
}

#[test]
fn a_module_has_its_world() -> Result<(), Error> {
    let module = |name: &str| file(&format!("tests/explain/files/modules/{name}.wasm"));
    let package = Package::open_module(module("echo"))?;
    let world = "demo:echo/guest@1.0.0";
    assert_eq!(package.worlds()?, [world]);
    assert_eq!(package.find_import(world, "ask")?.lowered.results, [CoreType::I32]);
    assert_eq!(package.find("demo:echo/echo@1.0.0", "upper")?.lifted.parameters, [CoreType::I32; 2]);
    for name in ["carrying", "world", "package"] {
        assert_eq!(Package::open_module(module(name))?.worlds()?[0], "demo:greet/guest@0.1.0");
    }
    for name in ["none", "guest", "cut", "old"] {
        let refused = Package::open_module(module(name)).unwrap_err();
        assert_eq!(refused, Error::Refused { number: 44, line: "error 44 not this shape".to_owned(), hint: None });
    }
    let message = "the module has no section `component-type`, at byte 8";
    assert_eq!(explain(&[module("none")])?[0].message, message);
    let [fault] = &explain(&[module("carrying"), module("package")])?[..] else { panic!("one fault") };
    assert_eq!((fault.text, fault.number), (1, Some(48)));
    assert_eq!(fault.message, "error 48 same package demo:greet@0.1.0");
    Ok(())
}

#[test]
fn a_long_text_is_written_whole() -> Result<(), Error> {
    let functions: String = (0..1000).map(|number| format!("  g{number}: func();\n")).collect();
    let text = format!("package a:b;\n\ninterface c {{\n{functions}}}\n");
    assert_eq!(Package::open(&text)?.to_text()?, text);
    Ok(())
}

#[test]
fn types_have_their_layouts() -> Result<(), Error> {
    let package = Package::open(file("examples/c/shop.wit"))?;
    let types = package.types()?;
    let line = types.iter().find(|it| it.name.as_deref() == Some("line")).unwrap();
    assert_eq!(line.owner, Some(Owner::Interface("demo:shop/desk".to_owned())));
    assert_eq!((line.ty.kind, line.ty.size, line.ty.alignment), (Kind::Record, 12, 4));
    let members: Vec<_> = line.members.iter().map(|it| (it.name.as_str(), it.offset, it.ty.unwrap().kind)).collect();
    assert_eq!(members, [("item", 0, Kind::String), ("count", 8, Kind::U16)]);

    let order = package.find("demo:shop/desk", "order")?;
    let lines = package.definition(order.parameters[1].ty.unwrap())?.unwrap();
    assert_eq!((lines.ty.kind, lines.target), (Kind::List, Some(line.ty)));
    assert_eq!(package.definition(order.parameters[0].ty.unwrap())?, None);
    assert_eq!(order.lifted.parameters, [CoreType::I32; 4]);
    assert_eq!(package.functions()?, [order]);
    Ok(())
}

#[test]
fn a_package_is_described() -> Result<(), Error> {
    let text =
        "package a:b@1.0.0; interface c { f: func(x: list<u8>) -> u64; } world w { import c; export g: func(); }";
    let wanted = concat!(
        r#"{"packages":["a:b@1.0.0"],"#,
        r#""interfaces":[{"name":"a:b/c@1.0.0","package":0,"uses":[],"types":[],"functions":[1]}],"#,
        r#""worlds":[{"name":"a:b/w@1.0.0","package":0,"imports":[{"interface":0}],"exports":[{"function":2}]}],"#,
        r#""rows":[{"kind":"list","name":null,"owner":null,"size":8,"align":4,"flat":["i32","i32"],"type":"u8"},"#,
        r#"{"kind":"function","name":"f","owner":{"interface":0},"#,
        r#""parameters":[{"name":"x","type":0,"size":8,"align":4,"offset":0}],"#,
        r#""result":{"type":"u64","size":8,"align":8},"record":null,"area":null,"#,
        r#""export":{"parameters":["i32","i32"],"results":["i64"]},"import":{"parameters":["i32","i32"],"results":["i64"]}},"#,
        r#"{"kind":"function","name":"g","owner":{"world":0},"parameters":[],"result":null,"record":null,"area":null,"#,
        r#""export":{"parameters":[],"results":[]},"import":{"parameters":[],"results":[]}}]}"#,
    );
    assert_eq!(Package::open(text)?.describe()?, wanted);
    Ok(())
}

#[test]
fn functions_of_worlds_and_of_sets_are_found() -> Result<(), Error> {
    let package = Package::open("package a:b; world w { import f: func(); export f: func(x: u64) -> u64; }")?;
    let [import, export] = [package.find_import("a:b/w", "f")?, package.find_export("a:b/w", "f")?];
    assert_eq!(import.owner, Owner::World("a:b/w".to_owned()));
    assert_eq!(export.lowered.results, [CoreType::I64]);
    let refused = package.find("a:b/w", "f").unwrap_err().to_string();
    assert_eq!(refused, "error 63 no function: `a:b/w` is a world: find_import and find_export look there");

    let set =
        Package::open_set(&["clocks", "random", "cli", "app"].map(|name| file(&format!("examples/wasi/{name}.wit"))))?;
    let has_notes = |owner: &Owner| *owner == Owner::Interface("demo:diary/notes@1.0.0".to_owned());
    assert!(set.functions()?.iter().any(|it| has_notes(&it.owner)));
    Ok(())
}

/// What is told of a function that is not there.
fn hint_of(found: Result<Function, Error>) -> String {
    let refused = found.unwrap_err();
    let Error::Refused { number: 63, line, hint: Some(hint) } = &refused else { panic!("{refused:?}") };
    assert_eq!(line, "error 63 no function");
    assert_eq!(refused.to_string(), format!("{line}: {hint}"));
    hint.clone()
}

#[test]
fn a_function_that_is_not_there_is_told_with_the_nearest() -> Result<(), Error> {
    let package = Package::open(
        "package a:b@1.0.0; interface c { upper: func(); lower: func(); } interface d { other: func(); }
        world w { import tell: func(); export ask: func(); import c; }",
    )?;
    let find = |owner: &str, name: &str| hint_of(package.find(owner, name));
    assert_eq!(find("a:b/c@1.0.0", "uper"), "no `uper` in `a:b/c@1.0.0`; the nearest is `upper`");
    assert_eq!(find("a:b/c@1.0.0", "towel"), "no `towel` in `a:b/c@1.0.0`; the nearest is `lower`");
    assert_eq!(find("a:b/c@1.0.0", "other"), "no `other` in `a:b/c@1.0.0`; it is in `a:b/d@1.0.0`");
    let missing = "has functions here; the nearest is";
    assert_eq!(find("a:b/c", "uper"), format!("no interface `a:b/c` {missing} `upper` in `a:b/c@1.0.0`"));
    assert_eq!(find("x:b/c", "other"), format!("no interface `x:b/c` {missing} `other` in `a:b/d@1.0.0`"));
    assert_eq!(find("", "uper"), "`uper` has no interface; the nearest is `a:b/c@1.0.0#upper`");
    assert_eq!(find("a:b/c@1.0.0", "a\n\u{200b}ä"), "no `a\\n\\u{200b}ä` in `a:b/c@1.0.0`; the nearest is `upper`");
    let [import, export] = ["tel", "asks"];
    let hint = hint_of(package.find_import("a:b/w@1.0.0", import));
    assert_eq!(hint, "no `tel` in `a:b/w@1.0.0`; the nearest is `tell`");
    let hint = hint_of(package.find_export("a:b/w@1.0.0", export));
    assert_eq!(hint, "no `asks` in `a:b/w@1.0.0`; the nearest is `ask`");
    let empty = Package::open("package a:b; interface c { type t = u8; }")?;
    assert_eq!(hint_of(empty.find("a:b/c", "f")), "no `f` in `a:b/c`: no interface here has functions");
    Ok(())
}

#[test]
fn a_package_goes_to_another_thread() -> Result<(), Error> {
    let package = Package::open(TEXT)?;
    assert_eq!(thread::spawn(move || package.to_text()).join().unwrap()?, TEXT);
    Ok(())
}

#[test]
fn what_is_wrong_has_its_place_and_what_to_do() -> Result<(), Error> {
    let broken = "package a:b; interface c { f: func(x: strng); }";
    let faults = explain(&[broken])?;
    let (start, end) = (Place { line: 1, column: 39 }, Place { line: 1, column: 44 });
    let fault = Fault {
        text: 0,
        number: Some(41),
        message: "error 41 unknown strng".to_owned(),
        hint: Some("no `strng` here; did you mean `string`?".to_owned()),
        place: Some(start..end),
    };
    assert_eq!(faults, [fault]);
    assert_eq!(faults[0].to_string(), "1:39: error 41 unknown strng (no `strng` here; did you mean `string`?)");
    let good = "package a:b; interface c { type t = u8; }";
    let user = "package d:e; interface f { use a:b/c.{t}; }";
    assert_eq!(explain(&[user, good])?, []);
    let none: [&str; 0] = [];
    assert_eq!(explain(&none)?, []);
    let [first, second] = &explain(&[user, broken])?[..] else { panic!("one fault of each") };
    assert_eq!((first.text, first.number), (1, Some(41)));
    assert_eq!(second.to_string(), "not checked: it depends on a:b, which has a fault");
    Ok(())
}
