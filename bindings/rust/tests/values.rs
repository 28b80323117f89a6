//! A component's functions are called with values of the host.

use witcall::{ArrayMemory, Error, Export, Json, Memory, NoJson, Package, Step, Trap, TrapKind, Value};

const SHOP: &str = "package demo:shop;
interface desk {
    record line { name: string, count: u8 }
    variant state { open, paid(u64) }
    total: func(lines: list<line>, state: state) -> option<string>;
    close: func();
}";

type Core<'call> = dyn FnMut(&mut ArrayMemory, &[Value]) -> Option<Vec<Value>> + 'call;

fn called(name: &str, arguments: &str, limit: u64, core: &mut Core<'_>) -> Result<Option<Json>, Error> {
    let package = Package::open(SHOP)?;
    let function = package.find("demo:shop/desk", name)?;
    let export = Export::new(&package, &function, limit);
    let mut memory = ArrayMemory::new(1024);
    let mut body = |memory: &mut ArrayMemory, values: &[Value]| core(memory, values);
    let Ok(Json::Array(values)) = arguments.parse() else {
        let answered = export.call_json(arguments, &mut memory, &mut body)?;
        return Ok(answered.parse().ok());
    };
    export.call(&values, &mut memory, &mut body)
}

fn no_core(_: &mut ArrayMemory, _: &[Value]) -> Option<Vec<Value>> {
    panic!("the core function runs")
}

/// The core function of `total`: it answers the names, one after another.
fn names(memory: &mut ArrayMemory, values: &[Value]) -> Option<Vec<Value>> {
    assert_eq!(values[2..], [Value::I32(1), Value::I64(12)]);
    let number = |at: u32| Some(u32::from_le_bytes(memory.get(at, 4).try_into().ok()?));
    let mut text = Vec::new();
    for line in 0..values[1].address()? {
        let at = values[0].address()? + 12 * line;
        text.extend_from_slice(memory.get(number(at)?, number(at + 4)?));
        assert_eq!(u32::from(memory.get(at + 8, 1)[0]), line + 1);
    }
    let text_at = memory.put(&text, 1)?;
    let some = [1, text_at, text.len() as u32].map(u32::to_le_bytes).concat();
    Some(vec![Value::I32(memory.put(&some, 4)?)])
}

#[test]
fn values_go_into_the_memory_and_come_back() {
    let line = |name: &str, count: u32| Json::object([("name", Json::from(name)), ("count", count.into())]);
    let state = Json::object([("paid", Json::from(12u32))]);
    let arguments = Json::Array(vec![Json::Array(vec![line("tea ", 1), line("\"ä\"", 2)]), state]);
    let answer = called("total", &arguments.to_string(), 1024, &mut names).unwrap().unwrap();
    assert_eq!(answer.get("some").and_then(Json::as_text), Some("tea \"ä\""));
}

#[test]
fn a_function_without_a_result_answers_nothing() {
    assert_eq!(called("close", "[]", 0, &mut |_, _| Some(Vec::new())), Ok(None));
}

#[test]
fn what_is_no_argument_is_refused_before_the_core_function_runs() {
    let number_of = |arguments: &str, limit: u64| match called("total", arguments, limit, &mut no_core) {
        Err(Error::Refused { number, .. }) => number,
        Err(Error::NotThisType { .. }) => 62,
        other => panic!("{other:?}"),
    };
    assert_eq!(number_of("[", 1024), 61);
    assert_eq!(number_of("[[]]", 1024), 62);
    assert_eq!(number_of(r#"[[{"name":"tea"}],"open"]"#, 1024), 62);
    assert_eq!(number_of(r#"[[{"name":"tea","count":256}],"open"]"#, 1024), 62);
    // a line of 12 bytes, and a text of three
    assert_eq!(number_of(r#"[[{"name":"tea","count":1}],"open"]"#, 14), 76);
}

#[test]
fn an_argument_of_another_type_is_refused_with_its_place() {
    let rows = [
        ("[[]]", "", ""),
        ("{}", "", ""),
        (r#"[[{"name":"tea"}],"open"]"#, "[0][0]", "record"),
        (r#"[[{"name":"tea","count":1},{"name":"tea","count":256}],"open"]"#, "[0][1].count", "u8"),
        (r#"[[],{"paid":"12"}]"#, "[1].paid", "u64"),
        (r#"[[],"late"]"#, "[1]", "variant"),
    ];
    for (arguments, wanted, ty) in rows {
        let error = called("total", arguments, 1024, &mut no_core).unwrap_err();
        let Error::NotThisType { path, fault } = &error else { panic!("{error:?}") };
        assert_eq!(path, wanted, "{arguments}");
        assert!(fault.contains(ty), "{fault}");
        let place = if wanted.is_empty() { String::new() } else { format!(" at {wanted}") };
        assert_eq!(error.to_string(), format!("error 62 not this type{place}: {fault}"));
    }
}

#[test]
fn an_argument_within_too_many_others_has_its_place() {
    let package = Package::open(SHOP).unwrap();
    let total = package.find("demo:shop/desk", "total").unwrap();
    let deep = (0..200).fold(Json::from(1), |inner, _| Json::Array(vec![inner]));
    let (mut memory, export) = (ArrayMemory::new(64), Export::new(&package, &total, 64));
    let error = export.call(&[deep, "open".into()], &mut memory, &mut no_core).unwrap_err();
    assert!(matches!(error, Error::NotThisType { path, .. } if path == "[0][0]"));
}

#[test]
fn a_memory_without_room_is_a_trap() {
    let arguments = format!(r#"[[{{"name":"{}","count":1}}],"open"]"#, "x".repeat(1020));
    let trap = Trap { kind: TrapKind::Full, step: Step::Place };
    assert_eq!(called("total", &arguments, 4096, &mut no_core), Err(Error::Trap(trap)));
    assert_eq!(trap.to_string(), "trap K6 full in place");
}

#[test]
fn an_answer_that_is_no_value_is_a_trap() {
    let answers = |answer: Vec<Value>| called("total", r#"[[],"open"]"#, 1024, &mut move |_, _| Some(answer.clone()));
    let trap_of = |kind: TrapKind| Err(Error::Trap(Trap { kind, step: Step::LiftResult }));
    assert_eq!(answers(vec![Value::I32(1)]), trap_of(TrapKind::Align));
    assert_eq!(answers(vec![Value::I32(1024)]), trap_of(TrapKind::Bounds));
    assert_eq!(answers(vec![Value::I64(0)]), trap_of(TrapKind::CoreSignature));
}

#[test]
fn texts_of_json_are_read_as_they_are_written() {
    let read = |text: &str| text.parse::<Json>();
    let all = Json::object([
        ("a", Json::from(vec![true, false])),
        ("b\n", Json::Number(i128::from(u64::MAX))),
        ("", Json::from(i64::MIN)),
        ("c", Json::from("\u{1f600}\u{0}\"\\")),
        ("d", Json::Array(Vec::new())),
        ("e", Json::Object(Vec::new())),
    ]);
    assert_eq!(read(&all.to_string()), Ok(all));
    assert_eq!(read(" [ 1 , \"\\ud83d\\ude00\\u00e4\\n\" ] "), Ok(Json::Array(vec![1.into(), "\u{1f600}ä\n".into()])));
    assert_eq!(read(r#"{"a":1,"a":2}"#).unwrap().get("a").and_then(Json::as_number), Some(2));
    for text in [
        "",
        "[",
        "[1,]",
        "[,1]",
        "[1 2]",
        "{\"a\"}",
        "{a:1}",
        "1.0",
        "1e2",
        "-",
        "null",
        "\"",
        "\"\\x\"",
        "\"\\ud800\"",
        "\"\\u+041\"",
        "\"\\u 041\"",
        "\"\\u004\"",
        "\"\\ud83d\\u+e00\"",
        "01",
        "00",
        "-01",
        "-0",
        "--1",
        "+1",
        "1-",
        "[1,02]",
        "[1]]",
    ] {
        assert_eq!(read(text), Err(NoJson), "{text}");
    }
    assert!(read(&format!("{}{}", "[".repeat(127), "]".repeat(127))).is_ok());
    assert_eq!(read(&"[".repeat(100_000)), Err(NoJson));
}

#[test]
fn the_steps_stand_by_themselves() {
    let package = Package::open(SHOP).unwrap();
    let total = package.find("demo:shop/desk", "total").unwrap();
    let json = r#"[[{"name":"tea","count":1}],"open"]"#;
    let asked = package.json_requests(&total, json, 64).unwrap();
    assert_eq!(asked.iter().map(|it| (it.alignment, it.size)).collect::<Vec<_>>(), [(4, 12), (1, 3)]);
    let mut memory = ArrayMemory::new(64);
    let blocks = witcall::granted(&mut memory, &asked);
    let handed = package.fill_json(&total, json, memory.bytes(), &blocks).unwrap();
    assert_eq!(handed, [Value::I32(0), Value::I32(1), Value::I32(0), Value::I64(0)]);
    assert_eq!(memory.get(0, 15), b"\x0c\0\0\0\x03\0\0\0\x01\0\0\0tea");
    let none = memory.put(&[0; 12], 4).unwrap();
    assert_eq!(package.read_json(&total, &[Value::I32(none)], memory.bytes(), 64).unwrap(), "\"none\"");
}
