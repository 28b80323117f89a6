//! Makes calls that are said on standard input, one a line, and tells what each did, one a line.
//!
//! The lines are those of `examples/c/vectors.c`, so that `examples/c/vectors.py` compares what they do with the stored
//! answers of `crates/vectors`.

mod words;

use std::io::{self, BufRead};
use witcall::{Body, Error, Link, Memory, Package, Step, Trap, TrapKind, Value};
use words::{bytes_of, digits_of, parts, values_of, NO_LIMIT};

const KINDS: [TrapKind; 8] = [
    TrapKind::Char,
    TrapKind::Case,
    TrapKind::Align,
    TrapKind::Bounds,
    TrapKind::Utf8,
    TrapKind::Full,
    TrapKind::Body,
    TrapKind::CoreSignature,
];

/// Words between commas, or `-` if there is none.
fn listed(words: impl Iterator<Item = String>) -> String {
    let all = words.collect::<Vec<_>>().join(",");
    if all.is_empty() {
        "-".to_owned()
    } else {
        all
    }
}

fn flats_line(values: &[Value]) -> String {
    listed(values.iter().map(|value| match value {
        Value::I32(number) => format!("i32:{number}"),
        Value::I64(number) => format!("i64:{number}"),
    }))
}

/// A memory whose allocator grants above a top, or gives answers in turn, with a log of both.
struct LoggedMemory {
    bytes: Vec<u8>,
    top: u64,
    script: Option<std::vec::IntoIter<Option<u32>>>,
    log: Vec<String>,
}

impl LoggedMemory {
    fn new(bytes: &str, allocator: &str) -> LoggedMemory {
        let (kind, words) = allocator.split_once(':').expect("an allocator's kind");
        let answers = || parts(words).map(|word| word.parse().ok()).collect::<Vec<_>>().into_iter();
        let script = (kind == "script").then(answers);
        let top = words.parse().unwrap_or_default();
        LoggedMemory { bytes: bytes_of(bytes), top, script, log: Vec::new() }
    }

    fn answer(&mut self, alignment: u32, size: u32) -> Option<u32> {
        if let Some(script) = &mut self.script {
            return script.next().flatten();
        }
        let start = self.top.next_multiple_of(alignment.into());
        if start + u64::from(size) > self.bytes.len() as u64 {
            return None;
        }
        self.top = start + u64::from(size);
        Some(start as u32)
    }

    fn line(&self) -> String {
        let digits = digits_of(&self.bytes);
        let bytes = if digits.is_empty() { "-" } else { &digits };
        format!("{bytes} {}", listed(self.log.iter().cloned()))
    }
}

impl Memory for LoggedMemory {
    fn bytes(&mut self) -> &mut [u8] {
        &mut self.bytes
    }

    fn allocate(&mut self, alignment: u32, size: u32) -> Option<u32> {
        let address = self.answer(alignment, size);
        let answer = address.map_or("none".to_owned(), |at| at.to_string());
        self.log.push(format!("{alignment}:{size}:{answer}"));
        address
    }
}

/// A body that logs what it got, writes bytes, and answers or stops.
struct LoggedBody<'line> {
    answer: Vec<Value>,
    writes: Option<(usize, Vec<u8>)>,
    stop: &'line str,
    got: Option<String>,
    post_got: Option<String>,
}

impl<M: Memory> Body<M> for LoggedBody<'_> {
    fn run(&mut self, memory: &mut M, values: &[Value]) -> Option<Vec<Value>> {
        self.got = Some(flats_line(values));
        if let Some((at, bytes)) = &self.writes {
            memory.bytes()[*at..][..bytes.len()].copy_from_slice(bytes);
        }
        (self.stop != "body").then(|| self.answer.clone())
    }

    fn post_return(&mut self, _: &mut M, answer: &[Value]) -> Option<()> {
        self.post_got = Some(flats_line(answer));
        (self.stop != "post").then_some(())
    }
}

/// A function that is called, and what its body does.
struct Called<'line> {
    name: &'line str,
    flats: Vec<Value>,
    body: LoggedBody<'line>,
}

impl<'line> Called<'line> {
    fn new(name: &'line str, flats: &str, answer: &str, stop: &'line str) -> Called<'line> {
        let body = LoggedBody { answer: values_of(answer), writes: None, stop, got: None, post_got: None };
        Called { name, flats: values_of(flats), body }
    }

    fn made(&mut self, package: &Package, interface: &str, sides: &mut Sides) -> Result<Option<Value>, Error> {
        let function = package.find(interface, self.name)?;
        let link = Link::new(package, &function, NO_LIMIT);
        link.call(&self.flats, &mut sides.caller, &mut sides.callee, &mut self.body)
    }

    /// Makes the call, and tells how it ended and what the body and the post-return got.
    fn told(mut self, package: &Package, interface: &str, sides: &mut Sides) -> String {
        let outcome = outcome_word(self.made(package, interface, sides));
        let [got, post_got] = [self.body.got, self.body.post_got].map(|it| it.unwrap_or("none".to_owned()));
        format!("{outcome} {got} {post_got}")
    }
}

/// Both memories.
struct Sides {
    caller: LoggedMemory,
    callee: LoggedMemory,
}

fn step_word(step: Step) -> &'static str {
    match step {
        Step::Place => "place",
        Step::LiftArguments => "lift-args",
        Step::LowerArguments => "lower-args",
        Step::Body => "body",
        Step::LiftResult => "lift-result",
        Step::LowerResult => "lower-result",
        Step::PostReturn => "post",
    }
}

fn trap_word(trap: Trap) -> String {
    let number = KINDS.iter().position(|kind| *kind == trap.kind).expect("a kind of traps") + 1;
    format!("trap:K{number}:{}", step_word(trap.step))
}

fn outcome_word(outcome: Result<Option<Value>, Error>) -> String {
    match outcome {
        Ok(back) => format!("ok:{}", flats_line(back.as_slice())),
        Err(Error::Trap(trap)) => trap_word(trap),
        Err(Error::Refused { number, .. }) => format!("refused:{number}"),
        Err(error) => format!("refused:{error}"),
    }
}

/// What a body writes, and where: an address and bytes.
fn writes_of(word: &str) -> Option<(usize, Vec<u8>)> {
    let (at, bytes) = word.split_once(':')?;
    Some((at.parse().expect("an address"), bytes_of(bytes)))
}

fn told(line: &str) -> String {
    let words: Vec<&str> = line.split(' ').collect();
    let [package, interface, name, flats, caller, grants, callee, its_grants, answer, stop, ref rest @ ..] = words[..]
    else {
        panic!("a word is missing");
    };
    let [writes, next, next_flats, next_answer] = rest[..] else { panic!("a call has fourteen words") };
    let mut sides = Sides { caller: LoggedMemory::new(caller, grants), callee: LoggedMemory::new(callee, its_grants) };
    let mut first = Called::new(name, flats, answer, stop);
    first.body.writes = writes_of(writes);
    let next = (next != "-").then(|| Called::new(next, next_flats, next_answer, "no"));
    let (first, next) = match Package::open(bytes_of(package)) {
        Ok(package) => (
            first.told(&package, interface, &mut sides),
            next.map_or(String::new(), |it| format!(" {}", it.told(&package, interface, &mut sides))),
        ),
        Err(error) => (format!("{} none none", outcome_word(Err(error))), String::new()),
    };
    format!("{first} {} {}{next}", sides.caller.line(), sides.callee.line())
}

fn main() -> io::Result<()> {
    for line in io::stdin().lock().lines() {
        println!("{}", told(&line?));
    }
    Ok(())
}
