//! A component calls functions of the host, with values.

use witcall::{ArrayMemory, Error, Import, Json, Memory, Package, Step, Trap, TrapKind, Value};

const SHOP: &str = "package demo:shop;
interface desk {
    record line { name: string, count: u8 }
    lines: func(most: u8, word: string) -> list<line>;
    sum: func(a: s32, b: s64) -> s64;
    note: func(word: string);
}";

/// A memory with a word at 8, and a return area at 0.
fn memory() -> ArrayMemory {
    let mut memory = ArrayMemory::new(256);
    memory.put(&[0; 8], 4).unwrap();
    memory.put("grün".as_bytes(), 1).unwrap();
    memory
}

const LINES: [Value; 4] = [Value::I32(3), Value::I32(8), Value::I32(5), Value::I32(0)];

fn served(
    name: &str,
    values: &[Value],
    memory: &mut ArrayMemory,
    serve: impl FnOnce(&[Json]) -> Option<Json>,
) -> Result<Option<Value>, Error> {
    let package = Package::open(SHOP)?;
    let function = package.find("demo:shop/desk", name)?;
    Import::new(&package, &function, 256).serve(values, memory, serve)
}

fn line(name: &str, count: u32) -> Json {
    Json::object([("count", Json::from(count)), ("name", name.into())])
}

fn not_run(_: &[Json]) -> Option<Json> {
    panic!("the function runs")
}

#[test]
fn values_come_and_go() {
    let mut memory = memory();
    let back = served("lines", &LINES, &mut memory, |arguments| {
        assert_eq!(arguments, [Json::from(3), Json::from("grün")]);
        Some(Json::Array(vec![line("tea", 1), line("", 255)]))
    });
    assert_eq!(back, Ok(None));
    let package = Package::open(SHOP).unwrap();
    let lines = package.find("demo:shop/desk", "lines").unwrap();
    let text = package.read_json(&lines, &[Value::I32(0)], memory.bytes(), 256).unwrap();
    assert_eq!(text.parse(), Ok(Json::Array(vec![line("tea", 1), line("", 255)])));
}

#[test]
fn a_flat_result_is_a_core_value() {
    let sum = |arguments: &[Json]| Some(Json::Number(arguments[0].as_number()? + arguments[1].as_number()?));
    let values = [Value::I32(u32::MAX), Value::I64(0)];
    assert_eq!(served("sum", &values, &mut memory(), sum), Ok(Some(Value::I64(u64::MAX))));
}

#[test]
fn a_function_without_a_result_gives_nothing() {
    let note = |arguments: &[Json]| {
        assert_eq!(arguments, [Json::from("grün")]);
        None
    };
    assert_eq!(served("note", &[Value::I32(8), Value::I32(5)], &mut memory(), note), Ok(None));
}

#[test]
fn core_values_that_are_no_arguments_are_a_trap() {
    let trap_of = |kind: TrapKind| Err(Error::Trap(Trap { kind, step: Step::LiftArguments }));
    let called = |values: &[Value]| served("note", values, &mut memory(), not_run);
    assert_eq!(called(&[Value::I32(252), Value::I32(5)]), trap_of(TrapKind::Bounds));
    assert_eq!(called(&[Value::I32(8), Value::I32(3)]), trap_of(TrapKind::Utf8));
    assert_eq!(called(&[Value::I32(8)]), trap_of(TrapKind::CoreSignature));
}

#[test]
fn what_is_no_result_is_refused() {
    let number_of =
        |name: &str, values: &[Value], result: Option<Json>| match served(name, values, &mut memory(), |_| result) {
            Err(Error::Refused { number, .. }) => number,
            Err(Error::NotThisType { .. }) => 62,
            other => panic!("{other:?}"),
        };
    assert_eq!(number_of("lines", &LINES, Some(7.into())), 62);
    assert_eq!(number_of("lines", &LINES, None), 62);
    assert_eq!(number_of("lines", &LINES, Some(Json::Array(vec![line(&"x".repeat(300), 1)]))), 76);
    assert_eq!(number_of("note", &[Value::I32(8), Value::I32(5)], Some(7.into())), 62);
}

/// A package with a function of each of these types, which takes and returns it.
fn package_of(types: &[&str]) -> Package {
    let functions: String =
        types.iter().enumerate().map(|(number, ty)| format!("f{number}: func(x: {ty}) -> {ty}; ")).collect();
    let declared = "type text = string; record row { first: u8, second: list<option<s8>> }
        variant shape { none-yet, dot(tuple<u8, s64>), named(text) }
        enum color { red, green, blue, c4, c5, c6, c7, c8, c9 } flags marks { a, b, c }";
    Package::open(format!("package a:b; interface c {{ {declared} {functions} none: func(); }}")).unwrap()
}

/// For each type texts of JSON, of which the first says a value of it and the others none.
const TEXTS: [(&str, &[&str]); 17] = [
    ("bool", &["true", "1", "\"true\""]),
    ("s8", &["-128", "-129", "128", "true"]),
    ("u16", &["65535", "65536", "-1", "[]"]),
    ("s32", &["2147483647", "2147483648", "-2147483649"]),
    ("u32", &["4294967295", "4294967296"]),
    ("s64", &["-9223372036854775808", "9223372036854775808"]),
    ("u64", &["18446744073709551615", "-1", "{\"b\":1,\"a\":2}"]),
    ("char", &["\"ä\"", "\"\"", "\"ab\"", "7"]),
    ("text", &["\"grün\"", "7", "[\"\\u0001\\n\\t\\b\\f\\r\\\"\\\\/\"]"]),
    ("list<u8>", &["[1,255]", "[1,256]", "\"ab\"", "{}"]),
    ("tuple<u8, list<text>>", &["[1,[\"a\"]]", "[1]", "[1,[],2]", "[1,[\"\",1]]"]),
    (
        "row",
        &[
            r#"{"second":["none",{"some":1}],"first":1}"#,
            r#"{"first":1}"#,
            r#"{"first":256,"second":[1]}"#,
            r#"{"first":1,"second":[{"some":300}]}"#,
            r#"{"first":1,"second":[],"third":1}"#,
            r#"{"first":1,"first":2}"#,
        ],
    ),
    (
        "shape",
        &[
            r#"{"dot":[1,2]}"#,
            r#""dot""#,
            r#"{"none-yet":true}"#,
            r#""late""#,
            r#"{"dot":[1,"2"]}"#,
            r#"{"dot":[1,2],"named":"x"}"#,
        ],
    ),
    ("color", &["\"red\"", "\"yellow\"", "{\"red\":1}"]),
    ("marks", &["[\"a\",\"c\"]", "[\"c\",\"a\"]", "[\"a\",\"a\"]", "\"a\"", "[1]"]),
    ("option<option<u8>>", &["{\"some\":\"none\"}", "{\"some\":{\"some\":256}}", "7", "\"some\""]),
    ("result<_, text>", &["\"ok\"", "{\"ok\":1}", "{\"error\":1}", "\"error\""]),
];

/// The place and the words of an error for a value that is not of its type.
fn place_and_words(refused: Option<Error>) -> Option<(String, String)> {
    match refused? {
        Error::NotThisType { path, fault } => Some((path, fault)),
        other => panic!("{other:?}"),
    }
}

#[test]
fn a_result_of_another_type_is_told_as_arguments_are() {
    let package = package_of(&TEXTS.map(|(ty, _)| ty));
    for (number, (ty, texts)) in TEXTS.iter().enumerate() {
        let function = package.find("a:b/c", &format!("f{number}")).unwrap();
        let import = Import::new(&package, &function, 256);
        for (place, text) in texts.iter().enumerate() {
            let told = place_and_words(import.result_requests(text).err());
            assert_eq!(told.is_none(), place == 0, "{ty}: {text}");
            let arguments = package.json_requests(&function, &format!("[{text}]"), 256).err();
            let wanted = place_and_words(arguments).map(|(path, fault)| (path.replacen("[0]", "result", 1), fault));
            let is_shown_as_another = told.as_ref().is_some_and(|(_, fault)| fault.contains("9223372036854775808`"));
            assert!(told == wanted || is_shown_as_another, "{ty}: {told:?} {wanted:?}");
        }
    }
}

#[test]
fn a_served_result_of_another_type_is_told_with_its_place() {
    let lines = Json::Array(vec![line("tea", 1), line("tea", 256)]);
    let error = served("lines", &LINES, &mut memory(), |_| Some(lines)).unwrap_err();
    let fault = "a `u8` is a whole number from 0 to 255, and not `256`";
    assert_eq!(error, Error::NotThisType { path: "result[1].count".to_owned(), fault: fault.to_owned() });
    assert_eq!(error.to_string(), format!("error 62 not this type at result[1].count: {fault}"));
    let error = served("note", &[Value::I32(8), Value::I32(5)], &mut memory(), |_| Some(7.into())).unwrap_err();
    let fault = "a function without a result gives nothing, and not `7`";
    assert_eq!(error.to_string(), format!("error 62 not this type at result: {fault}"));
    let error = served("lines", &LINES, &mut memory(), |_| None).unwrap_err();
    assert_eq!(error.to_string(), "error 62 not this type at result: a list is an array, and not nothing");
}

#[test]
fn what_no_json_of_a_value_says_has_its_place_too() {
    let package = Package::open(SHOP).unwrap();
    let told = |name: &str, text: &str| {
        let function = package.find("demo:shop/desk", name).unwrap();
        Import::new(&package, &function, 256).result_requests(text).unwrap_err().to_string()
    };
    for text in ["null", "1.5", "-0", "1e300", "-1E-2", "170141183460469231731687303715884105728"] {
        let wanted =
            format!("error 62 not this type at result: a `s64` is a whole number of 64 bits, and not `{text}`");
        assert_eq!(told("sum", text), wanted);
        let lines = format!(r#"[{{"name":{text},"count":1}}]"#);
        let wanted = format!("error 62 not this type at result[0].name: a `string` is a text, and not `{text}`");
        assert_eq!(told("lines", &lines), wanted);
    }
    let wanted = "error 62 not this type at result: a list is an array, and not `{\"a\":[null,1.5]}`";
    assert_eq!(told("lines", r#"{"a":[null,1.5]}"#), wanted);
    for text in ["nul", "1.5.5", "+1", "--1", ".5", "[01]"] {
        assert_eq!(told("sum", text), "error 61 bad JSON");
    }
}

#[test]
fn a_result_within_too_many_others_has_its_place() {
    let deep = (0..200).fold(Json::from(1), |inner, _| Json::Array(vec![inner]));
    let error = served("lines", &LINES, &mut memory(), |_| Some(deep)).unwrap_err();
    let Error::NotThisType { path, fault } = error else { panic!("{error:?}") };
    assert_eq!(path, "result[0]");
    assert!(fault.ends_with(&format!(", and not `{}..`", "[".repeat(60))), "{fault}");
}

#[test]
fn a_result_needs_its_place() {
    let trap_of = |kind: TrapKind| Err(Error::Trap(Trap { kind, step: Step::Place }));
    let called = |area: u32, name: &str| {
        let values = [LINES[0], LINES[1], LINES[2], Value::I32(area)];
        served("lines", &values, &mut memory(), |_| Some(Json::Array(vec![line(name, 1)])))
    };
    assert_eq!(called(250, ""), trap_of(TrapKind::Align));
    assert_eq!(called(252, ""), trap_of(TrapKind::Bounds));
    assert_eq!(called(0, &"x".repeat(240)), trap_of(TrapKind::Full));
}

#[test]
fn the_steps_stand_by_themselves() {
    let package = Package::open(SHOP).unwrap();
    let lines = package.find("demo:shop/desk", "lines").unwrap();
    let import = Import::new(&package, &lines, 256);
    let mut memory = memory();
    assert_eq!(import.arguments_json(&LINES, memory.bytes()).unwrap(), "[3,\"grün\"]");
    let json = r#"[{"name":"tea","count":1}]"#;
    let asked = import.result_requests(json).unwrap();
    assert_eq!(asked.iter().map(|it| (it.alignment, it.size)).collect::<Vec<_>>(), [(4, 12), (1, 3)]);
    let blocks = witcall::granted(&mut memory, &asked);
    assert_eq!(import.answer_json(&LINES, json, memory.bytes(), &blocks), Ok(None));
    assert_eq!(memory.get(0, 8), b"\x10\0\0\0\x01\0\0\0");
    assert_eq!(memory.get(16, 15), b"\x1c\0\0\0\x03\0\0\0\x01\0\0\0tea");
    let mut text = String::new();
    let note = package.find("demo:shop/desk", "note").unwrap();
    let keep = |arguments: &str| {
        text.push_str(arguments);
        String::new()
    };
    assert_eq!(Import::new(&package, &note, 256).serve_json(&LINES[1..3], &mut memory, keep), Ok(None));
    assert_eq!(text, "[\"grün\"]");
}
