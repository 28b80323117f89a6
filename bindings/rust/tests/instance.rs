//! Instances of a guest that carries its world, over an engine in Rust.

mod relay;

use relay::{
    change, exported, host, join, made, post_return, relay, stopped, Relay, AREA, GUEST, HOST, MODULE, PAGE, WORLD,
};
use std::slice;
use std::sync::{Arc, Mutex};
use witcall::{Error, Imports, Instance, Json, Package, Served, Step, Stop, Trap, TrapKind, Value};

const VALUE: &str = r#"{"bytes":[0,255],"color":"green-yellow","done":{"error":"late"},"large":18446744073709551615,
    "marks":["first","third"],"nested":{"some":"none"},"none":"none","pairs":[[1,"a"],[65535,""]],
    "shape":{"dot":[7,-9223372036854775808]},"sign":"ß","small":-128,"some":{"some":4711},"text":"grün \"x\"\n",
    "truth":true}"#;
const REALLOC: &str = "cabi_realloc";

fn value() -> Json {
    VALUE.parse().unwrap()
}

/// The same value with something else under a label.
fn with(label: &str, other: Json) -> Json {
    let Json::Object(members) = value() else { panic!("a record") };
    let change = |(key, it): (String, Json)| if key == label { (key, other.clone()) } else { (key, it) };
    Json::Object(members.into_iter().map(change).collect())
}

/// The members of objects in one order.
fn sorted(value: &Json) -> Json {
    match value {
        Json::Object(members) => {
            let mut members: Vec<_> = members.iter().map(|(key, it)| (key.clone(), sorted(it))).collect();
            members.sort_by(|one, other| one.0.cmp(&other.0));
            Json::Object(members)
        }
        Json::Array(elements) => Json::Array(elements.iter().map(sorted).collect()),
        other => other.clone(),
    }
}

fn trap(kind: TrapKind, step: Step) -> Error {
    Error::Trap(Trap { kind, step })
}

const STOPPED: Error = Error::Trap(Trap { kind: TrapKind::Body, step: Step::Body });

/// A function of the host in place of one that gives what it gets.
fn hosting(name: &str, function: impl FnMut(&[Json]) -> Option<Json> + Send + 'static) -> Imports {
    host().serve(HOST, name, function)
}

#[test]
fn values_of_every_kind_go_to_the_host_and_come_back() {
    let got = Arc::new(Mutex::new(Vec::new()));
    let kept = got.clone();
    let same = move |arguments: &[Json]| {
        kept.lock().unwrap().extend_from_slice(arguments);
        arguments.first().cloned()
    };
    let mut instance = relay(hosting("same", same), Vec::new());
    let answer = instance.call(GUEST, "same", &[value()]).unwrap().unwrap();
    assert_eq!(sorted(&answer), sorted(&value()));
    assert_eq!(got.lock().unwrap().iter().map(sorted).collect::<Vec<_>>(), [sorted(&value())]);
    for shape in [r#""none-yet""#, r#"{"dot":[255,-1]}"#, r#"{"named":"grün 🙂"}"#] {
        let shape: Json = shape.parse().unwrap();
        assert_eq!(instance.call(GUEST, "next", slice::from_ref(&shape)), Ok(Some(shape)));
    }
    assert_eq!(instance.call(WORLD, "tell", &[u32::MAX.into()]), Ok(Some("4294967295".into())));
    assert_eq!(instance.call(GUEST, "note", &["two\0memories".into()]), Ok(None));
    for number in [0, u64::MAX] {
        let mut instance = relay(hosting("now", move |_| Some(number.into())), Vec::new());
        assert_eq!(instance.call(GUEST, "now", &[]), Ok(Some(number.into())));
    }
    assert_eq!(instance.world(), WORLD);
}

#[test]
fn the_memory_grows_for_arguments_and_results() {
    let mut instance = relay(hosting("join", |it| Some(it[0].as_array()?[0].as_text()?.repeat(2).into())), Vec::new());
    let text = "grün ".repeat(40000);
    assert_eq!(join(&mut instance, &[&text]), Ok(text.repeat(2)));
    assert!(instance.engine().bytes.len() > 3 * text.len());
}

#[test]
fn a_memory_that_grows_in_the_body_is_read_anew() {
    let body = |guest: &mut Relay, _: &[Value]| {
        let at = guest.bytes.len() as u32;
        guest.bytes.extend(std::iter::repeat(b'x').take(PAGE as usize));
        guest.put(AREA, &[at.to_le_bytes(), 3_u32.to_le_bytes()].concat());
        Ok(vec![Value::I32(AREA)])
    };
    assert_eq!(join(&mut relay(host(), change(exported("join"), body)), &[]), Ok("xxx".to_owned()));
}

#[test]
fn the_post_return_runs_once_after_the_answer_was_lifted() {
    let post = |guest: &mut Relay, values: &[Value]| {
        assert_eq!(values, [Value::I32(AREA)]);
        guest.bytes.fill(0);
        Ok(Vec::new())
    };
    let mut instance = relay(host(), change(post_return("join"), post));
    for words in [["two ", "memories"], ["a", "gain"]] {
        assert_eq!(join(&mut instance, &words), Ok(words.concat()));
        let ran = std::mem::take(&mut instance.engine().ran);
        let [list, first, second, body, answer, post] = &ran[..] else { panic!("{ran:?}") };
        assert!([list, first, second, answer].into_iter().all(|it| it == REALLOC));
        assert_eq!((body, post), (&exported("join"), &post_return("join")));
    }
}

/// What a call of `join` ends in, which stands: each later call ends in the same trap, and no code runs.
fn end_of(changes: relay::Changes) -> (Error, Vec<String>) {
    let mut instance = relay(host(), changes);
    let error = join(&mut instance, &["ab", "c"]).unwrap_err();
    let ran = instance.engine().ran.clone();
    let stands = if matches!(error, Error::Trap(_)) { error.clone() } else { STOPPED };
    for _ in 0..2 {
        assert_eq!(instance.call(WORLD, "tell", &[7.into()]), Err(stands.clone()));
        assert_eq!(instance.call(GUEST, "now", &["no argument".into()]), Err(stands.clone()));
    }
    assert_eq!(instance.engine().ran, ran);
    (error, ran)
}

#[test]
fn a_guest_that_stops_in_each_step_ends_in_a_trap_which_stands() {
    let stops = |name: String| end_of(change(name, |_, _| Err(stopped())));
    let (error, ran) = stops(exported("join"));
    assert_eq!((error, ran.last()), (trap(TrapKind::Body, Step::Body), Some(&exported("join"))));
    let (error, ran) = stops(post_return("join"));
    assert_eq!((error, ran.last()), (trap(TrapKind::Body, Step::PostReturn), Some(&post_return("join"))));
    let (error, ran) = stops(REALLOC.to_owned());
    assert_eq!((error, &ran[..]), (trap(TrapKind::Full, Step::Place), &[REALLOC.to_owned()][..]));
    // the block of the result, which the import's answer needs
    let late = |guest: &mut Relay, values: &[Value]| match guest.ran.len() {
        ..=4 => guest.allocated(values),
        _ => Err(stopped()),
    };
    assert_eq!(end_of(change(REALLOC.to_owned(), late)).0, trap(TrapKind::Full, Step::Place));
}

#[test]
fn the_engines_own_words_of_a_trap_are_kept() {
    let mut instance = relay(host(), change(exported("note"), |_, _| Err(stopped())));
    assert_eq!(instance.cause(), None);
    assert_eq!(instance.call(GUEST, "note", &["x".into()]), Err(STOPPED));
    assert_eq!(instance.cause(), Some("unreachable"));
}

#[test]
fn answers_that_are_none_end_the_call_and_are_not_freed() {
    let rows: [(TrapKind, Vec<Value>); 5] = [
        (TrapKind::Align, vec![Value::I32(2)]),
        (TrapKind::Bounds, vec![Value::I32(PAGE)]),
        (TrapKind::CoreSignature, vec![]),
        (TrapKind::CoreSignature, vec![Value::I64(8)]),
        (TrapKind::CoreSignature, vec![Value::I32(8); 2]),
    ];
    for (kind, answer) in rows {
        let (error, ran) = end_of(change(exported("join"), move |_, _| Ok(answer.clone())));
        assert_eq!(error, trap(kind, Step::LiftResult));
        assert_eq!(ran.last(), Some(&exported("join")));
    }
    let no_text = |guest: &mut Relay, _: &[Value]| {
        guest.put(512, b"\xc0\x80");
        guest.put(AREA, &[512_u32.to_le_bytes(), 2_u32.to_le_bytes()].concat());
        Ok(vec![Value::I32(AREA)])
    };
    assert_eq!(end_of(change(exported("join"), no_text)).0, trap(TrapKind::Utf8, Step::LiftResult));
}

#[test]
fn arguments_of_imports_that_are_none() {
    let shape = |case, at, area| vec![Value::I32(case), Value::I32(at), Value::I64(1), Value::I32(area)];
    let rows = [
        (TrapKind::Case, Step::LiftArguments, shape(3, 0, AREA)),
        (TrapKind::Bounds, Step::LiftArguments, shape(2, PAGE, AREA)),
        (TrapKind::CoreSignature, Step::LiftArguments, vec![Value::I32(0)]),
        (TrapKind::Align, Step::Place, shape(0, 0, AREA + 1)),
        (TrapKind::Bounds, Step::Place, shape(0, 0, PAGE)),
    ];
    for (kind, step, flats) in rows {
        let asks = move |guest: &mut Relay, _: &[Value]| Ok(guest.ask("next", &flats)?.into_iter().collect());
        assert_eq!(end_of(change(exported("join"), asks)).0, trap(kind, step));
    }
}

#[test]
fn allocators_that_grant_no_blocks() {
    let granting = |answer: Vec<Value>| end_of(change(REALLOC.to_owned(), move |_, _| Ok(answer.clone()))).0;
    for at in [PAGE, u32::MAX - 7, 2] {
        let Error::Refused { number, .. } = granting(vec![Value::I32(at)]) else { panic!("no refusal") };
        assert_eq!(number, 72);
    }
    for answer in [vec![], vec![Value::I64(8)], vec![Value::I32(8); 2]] {
        let wanted = format!("cabi_realloc answered {answer:?}, which is no i32");
        assert_eq!(granting(answer).to_string(), wanted);
    }
}

#[test]
fn limits_bound_both_ways() {
    let answering = |count| hosting("join", move |_| Some("x".repeat(count).into()));
    let above = |ended: Result<String, Error>| matches!(ended, Err(Error::Refused { number: 76, .. }));
    let mut instance = made(answering(9), Vec::new(), 24).unwrap();
    assert!(above(join(&mut instance, &["a", "b", "ccccccccc"])));
    assert!(instance.engine().ran.is_empty());
    assert_eq!(join(&mut instance, &["a", "b"]), Ok("x".repeat(9)));
    let mut instance = made(answering(25), Vec::new(), 24).unwrap();
    assert!(above(join(&mut instance, &["a"])));
    assert_eq!(join(&mut instance, &["a"]), Err(STOPPED));
}

#[test]
fn what_a_function_of_the_host_fails_with_comes_out_of_the_call() {
    let imports = host().try_serve(HOST, "join", |_| Err("no words today"));
    let mut instance = relay(imports, Vec::new());
    assert_eq!(join(&mut instance, &[]), Err(Error::Host("no words today".to_owned())));
    // the guest's code was left somewhere in it
    assert_eq!(join(&mut instance, &[]), Err(STOPPED));
    assert_eq!(instance.cause(), None);
    let imports = host().try_serve(HOST, "note", |it| if it.is_empty() { Err(Error::OutOfMemory) } else { Ok(None) });
    assert_eq!(relay(imports, Vec::new()).call(GUEST, "note", &["x".into()]), Ok(None));
}

#[test]
fn a_function_of_the_host_does_not_enter_the_guest_again() {
    let shared: Arc<Mutex<Option<Instance<Inner>>>> = Arc::default();
    let own = shared.clone();
    let imports = hosting("join", move |_| Some(own.try_lock().map_or("it runs", |_| "it is idle").into()));
    *shared.lock().unwrap() = Some(Inner::instance(imports));
    let mut locked = shared.lock().unwrap();
    let instance = locked.as_mut().unwrap();
    assert_eq!(instance.call(GUEST, "join", &[Json::Array(Vec::new())]), Ok(Some("it runs".into())));
}

/// An engine that may go to another thread.
struct Inner {
    imports: Vec<Served>,
    bytes: Vec<u8>,
}

impl Inner {
    fn instance(imports: Imports) -> Instance<Inner> {
        let engine = |_: &[u8], served: &[Served]| {
            Ok::<_, String>(Inner { imports: served.to_vec(), bytes: vec![0; PAGE as usize] })
        };
        Instance::new(MODULE, imports, 1024, engine).unwrap()
    }
}

impl witcall::Engine for Inner {
    fn exports(&mut self, name: &str) -> bool {
        name != "_initialize" && !name.starts_with("cabi_post_")
    }

    fn call(&mut self, name: &str, _: &[Value]) -> Result<Vec<Value>, Stop> {
        if name == REALLOC {
            return Ok(vec![Value::I32(1024)]);
        }
        let served = self.imports.iter().find(|it| it.name() == "join").cloned().unwrap();
        served.call(self, &[0, 0, AREA].map(Value::I32))?;
        Ok(vec![Value::I32(AREA)])
    }

    fn memory(&mut self) -> &mut [u8] {
        &mut self.bytes
    }
}

#[test]
fn an_instance_and_what_it_serves_may_go_to_another_thread() {
    fn may_go<T: Send>(it: T) -> T {
        it
    }
    fn may_be_shared<T: Send + Sync + 'static>(_: &T) {}
    let mut instance = may_go(Inner::instance(hosting("join", |_| Some("there".into()))));
    instance.engine().imports.iter().for_each(may_be_shared);
    may_be_shared(instance.package());
    let called = std::thread::spawn(move || instance.call(GUEST, "join", &[Json::Array(Vec::new())]));
    assert_eq!(called.join().unwrap(), Ok(Some("there".into())));
}

#[test]
fn allocators_and_post_returns_call_no_import() {
    for name in [REALLOC.to_owned(), post_return("join")] {
        let leaves = |guest: &mut Relay, values: &[Value]| {
            guest.ask("now", &[])?;
            if values.len() == 4 {
                guest.allocated(values)
            } else {
                Ok(Vec::new())
            }
        };
        assert_eq!(end_of(change(name, leaves)).0, STOPPED);
    }
}

#[test]
fn initialize_is_called_first() {
    let name = || "_initialize".to_owned();
    let words = Arc::new(Mutex::new(Vec::new()));
    let kept = words.clone();
    let note = move |arguments: &[Json]| {
        kept.lock().unwrap().extend_from_slice(arguments);
        None
    };
    let asks = |guest: &mut Relay, _: &[Value]| Ok(guest.ask("note", &[0, 0].map(Value::I32))?.into_iter().collect());
    let mut instance = relay(hosting("note", note), change(name(), asks));
    assert_eq!(*words.lock().unwrap(), ["".into()]);
    assert_eq!(instance.engine().ran, [name()]);
    assert_eq!(made(host(), change(name(), |_, _| Err(stopped())), 1024).unwrap_err(), STOPPED);
}

#[test]
fn what_the_engine_fails_with_is_told() {
    let ended = Instance::<Relay>::new(MODULE, host(), 0, |_, _| Err("no such import"));
    assert_eq!(ended.unwrap_err(), Error::Engine("no such import".to_owned()));
}

// ---- values that are none

/// Values that are no `u64`, and what the error shows.
fn no_numbers() -> Vec<(Json, &'static str)> {
    vec![
        (Json::Number(-1), "`-1`"),
        (Json::Number(1 << 64), "`18446744073709551616`"),
        (Json::Number(i128::MAX), "`170141183460469231731687303715884105727`"),
        (true.into(), "`true`"),
        ("1".into(), "`\"1\"`"),
        (Json::Array(Vec::new()), "`[]`"),
        (Json::Object(Vec::new()), "`{}`"),
    ]
}

/// Asserts that an error says the place, what has to stand there, and what does.
fn assert_told(ended: Result<Option<Json>, Error>, at: &str, wanted: &str, shown: &str) {
    let error = ended.unwrap_err();
    let Error::NotThisType { path, fault } = &error else { panic!("{error:?}") };
    assert_eq!(path, at, "{fault}");
    assert_eq!(fault, &format!("{wanted}, and not {shown}"));
    assert_eq!(error.to_string(), format!("error 62 not this type at {at}: {fault}"));
}

const NUMBER: &str = "a `u64` is a whole number of 64 bits, from 0 on";

#[test]
fn arguments_that_are_none_are_told_before_the_guest_runs() {
    let mut instance = relay(host(), Vec::new());
    for (number, shown) in no_numbers() {
        // The library reads a number of more than 64 bits as one with a fraction.
        if !matches!(number, Json::Number(18_446_744_073_709_551_616..)) {
            let ended = instance.call(GUEST, "same", &[with("large", number)]);
            assert_told(ended, "[0].large", NUMBER, shown);
        }
    }
    let ended = instance.call(GUEST, "join", &[Json::Array(vec!["a".into(), 7.into()])]);
    assert_told(ended, "[0][1]", "a `string` is a text", "`7`");
    let deep = (0..200).fold(Json::from(1), |inner, _| Json::Array(vec![inner]));
    let ended = instance.call(GUEST, "join", &[deep]);
    assert_told(ended, "[0][0]", "a `string` is a text", &format!("`{}..`", "[".repeat(60)));
    for arguments in [&[][..], &[Json::Array(Vec::new()), 7.into()]] {
        let error = instance.call(GUEST, "join", arguments).unwrap_err();
        assert!(matches!(error, Error::NotThisType { path, .. } if path.is_empty()));
    }
    assert!(instance.engine().ran.is_empty());
    assert_eq!(join(&mut instance, &["still ", "there"]), Ok("still there".to_owned()));
}

#[test]
fn answers_that_are_none_are_told() {
    for (number, shown) in no_numbers() {
        let given = number.clone();
        let mut instance = relay(hosting("now", move |_| Some(given.clone())), Vec::new());
        assert_told(instance.call(GUEST, "now", &[]), "result", NUMBER, shown);
        assert_eq!(instance.call(GUEST, "now", &[]), Err(STOPPED));
        let given = with("large", number);
        let mut instance = relay(hosting("same", move |_| Some(given.clone())), Vec::new());
        assert_told(instance.call(GUEST, "same", &[value()]), "result.large", NUMBER, shown);
    }
    let mut instance = relay(hosting("join", |_| None), Vec::new());
    assert_told(instance.call(GUEST, "join", &[Json::Array(Vec::new())]), "result", "a `string` is a text", "nothing");
    let mut instance = relay(hosting("note", |_| Some(7.into())), Vec::new());
    let nothing = "a function without a result gives nothing";
    assert_told(instance.call(GUEST, "note", &["x".into()]), "result", nothing, "`7`");
    let mut instance =
        relay(hosting("join", |_| Some((0..200).fold(1.into(), |inner, _| Json::Array(vec![inner])))), Vec::new());
    let ended = instance.call(GUEST, "join", &[Json::Array(Vec::new())]);
    assert_told(ended, "result", "a `string` is a text", &format!("`{}..`", "[".repeat(60)));
}

// ---- what is not there

#[test]
fn imports_that_are_lacking_are_told() {
    let lacking = |imports: Imports| made(imports, Vec::new(), 1024).unwrap_err();
    let told = |name: &str| Error::Lacking(format!("the imports have no function `{name}`"));
    assert_eq!(lacking(Imports::new()), told(&format!("{HOST}#same")));
    assert_eq!(lacking(Imports::new().serve(GUEST, "same", |_| None)), told(&format!("{HOST}#same")));
    let of_host = ["same", "next", "join", "note", "now"];
    let all = of_host.into_iter().fold(Imports::new(), |imports, name| imports.serve(HOST, name, |_| None));
    assert_eq!(lacking(all.serve(HOST, "ask", |_| None)), told("ask"));
    let more = host().serve("demo:other/host", "f", |_| None).serve(HOST, "other", |_| None);
    let mut instance = relay(more, Vec::new());
    let names: Vec<(&str, &str)> = instance.engine().imports.iter().map(|it| (it.module(), it.name())).collect();
    assert_eq!(names, [&of_host.map(|name| (HOST, name))[..], &[("$root", "ask")]].concat());
    let next = &instance.engine().imports[1];
    assert_eq!((next.signature().parameters.len(), next.signature().results.len()), (4, 0));
}

#[test]
fn exports_that_are_lacking_are_told() {
    let without = |name: &str| made(host(), vec![(name.to_owned(), None)], 1024);
    let told = |name: &str| Error::Lacking(format!("the guest exports no function `{name}`"));
    for name in [exported("now"), "tell".to_owned()] {
        assert_eq!(without(&name).unwrap_err(), told(&name));
    }
    let mut instance = without(REALLOC).unwrap();
    assert_eq!(join(&mut instance, &["a"]), Err(told(REALLOC)));
    assert_eq!(instance.call(GUEST, "now", &[]), Ok(Some(7.into())));
    assert_eq!(join(&mut without(&post_return("join")).unwrap(), &["a"]), Ok("a".to_owned()));
}

#[test]
fn names_that_the_world_does_not_export_are_told() {
    let mut instance = relay(host(), Vec::new());
    let mut told = |owner: &str, name: &str| instance.call(owner, name, &[]).unwrap_err().to_string();
    let line = "error 63 no function";
    assert_eq!(told(GUEST, "jion"), format!("{line}: no `jion` in `{GUEST}`; the nearest is `join`"));
    assert_eq!(told(GUEST, "tell"), format!("{line}: no `tell` in `{GUEST}`; it is in `{WORLD}`"));
    assert_eq!(
        told(HOST, "join"),
        format!("{line}: no interface `{HOST}` has functions here; the nearest is `join` in `{GUEST}`")
    );
    assert_eq!(told(WORLD, "ask"), format!("{line}: no `ask` in `{WORLD}`; the nearest is `tell`"));
}

#[test]
fn names_that_other_languages_have_are_names() {
    let replaced = [("same", "copy"), ("join", "keys"), ("now", "get"), ("ask", "pop"), ("next", "drop")];
    let mut module = MODULE.to_vec();
    for (name, other) in replaced {
        let places: Vec<usize> =
            (0..module.len() - name.len()).filter(|at| module[*at..].starts_with(name.as_bytes())).collect();
        places.into_iter().for_each(|at| module[at..][..other.len()].copy_from_slice(other.as_bytes()));
    }
    let package = Package::open_module(&module).unwrap();
    let names: Vec<String> = package.imports(WORLD).unwrap().into_iter().map(|it| it.name).collect();
    assert_eq!(names, ["copy", "drop", "keys", "note", "get", "pop"]);
    assert_eq!(package.exports(WORLD).unwrap().len(), 6);
    assert!(matches!(package.imports("demo:relay/other"), Err(Error::Refused { number: 75, .. })));
}

#[test]
fn modules_that_carry_no_world_are_refused() {
    for module in [&b""[..], &MODULE[..8], b"package a:b; interface c { }"] {
        let ended = Instance::<Relay>::new(module, host(), 0, |_, _| Err("not asked"));
        assert!(matches!(ended.unwrap_err(), Error::Refused { number: 44, .. }));
    }
}
