//! Takes steps over a host's memory that are said on standard input, one a line, and tells what each did, one a line.
//!
//! The lines are those of `examples/c/json_vectors.c`, so that `examples/c/json_vectors.py` compares what they do with
//! the stored answers of `crates/vectors`. The room for core values is always that of the crate.

mod words;

use std::io::{self, BufRead};
use witcall::{Block, Error, Function, Import, Package, Request, Value};
use words::{bytes_of, digits_of, parts, values_of, NO_LIMIT};

/// What a place for a core value has before one is put there.
const UNSET: Value = Value::I64(u64::MAX);

/// The function of a step, and the memory that it begins with.
struct Host {
    package: Package,
    function: Function,
    memory: Vec<u8>,
}

fn number(word: &str) -> u32 {
    word.parse().expect("a number")
}

fn text_of(word: &str) -> String {
    String::from_utf8(bytes_of(word)).expect("UTF-8")
}

fn block(part: &str) -> Block {
    let numbers: Vec<u32> = part.split(':').map(number).collect();
    let [alignment, size, address] = numbers[..] else { panic!("a block has three numbers") };
    Block { request: Request { alignment, size }, address }
}

fn listed(parts: impl Iterator<Item = String>) -> String {
    format!("[{}]", parts.collect::<Vec<_>>().join(","))
}

/// Why nothing was done, as a member.
fn error_told(error: &Error) -> String {
    match error {
        Error::Trap(trap) => format!("\"trap\":\"{trap}\""),
        Error::NotThisType { .. } => "\"refused\":\"error 62 not this type\"".to_owned(),
        other => format!("\"refused\":\"{other}\""),
    }
}

/// The core values up to the last that was put.
fn handed_told(values: &[Value]) -> String {
    let count = values.iter().rposition(|value| *value != UNSET).map_or(0, |at| at + 1);
    listed(values[..count].iter().map(|value| match value {
        Value::I32(bits) => format!("[\"i32\",{bits}]"),
        Value::I64(bits) => format!("[\"i64\",{bits}]"),
    }))
}

/// The bytes up to the last that is not 0.
fn memory_told(memory: &[u8]) -> String {
    let length = memory.iter().rposition(|byte| *byte != 0).map_or(0, |at| at + 1);
    digits_of(&memory[..length])
}

/// The blocks that are asked for, or why none are told.
fn asked_told(asked: Result<Vec<Request>, Error>) -> String {
    match asked {
        Ok(asked) => {
            let asked = asked.iter().map(|it| format!("[{},{}]", it.alignment, it.size));
            format!("{{\"asks\":{}}}", listed(asked))
        }
        Err(error) => format!("{{{}}}", error_told(&error)),
    }
}

impl Host {
    fn of(package: &str, interface: &str, name: &str, front: &str, length: &str) -> Result<Host, Error> {
        let package = Package::open(bytes_of(package))?;
        let function = package.find(interface, name)?;
        let mut memory = bytes_of(front);
        memory.resize(number(length) as usize, 0);
        Ok(Host { package, function, memory })
    }

    fn asks(&self, json: &str) -> String {
        asked_told(self.package.json_requests(&self.function, json, NO_LIMIT))
    }

    fn answer_asks(&self, json: &str) -> String {
        asked_told(Import::new(&self.package, &self.function, NO_LIMIT).result_requests(json))
    }

    fn fills(&mut self, json: &str, blocks: &[Block]) -> String {
        let filled = self.package.fill_json(&self.function, json, &mut self.memory, blocks);
        let handed = handed_told(filled.as_deref().unwrap_or_default());
        let told = filled.map_or_else(|error| error_told(&error), |it| format!("\"filled\":{}", it.len()));
        format!("{{{told},\"handed\":{handed},\"memory\":\"{}\"}}", memory_told(&self.memory))
    }

    fn reads(&mut self, answer: &[Value], limit: u64) -> String {
        let before = self.memory.clone();
        let read = self.package.read_json(&self.function, answer, &mut self.memory, limit);
        assert!(self.memory == before, "the memory was written to");
        match read {
            Ok(text) if text.is_empty() => "\"nothing\"".to_owned(),
            Ok(text) => format!("{{\"read\":{text}}}"),
            Err(error) => format!("{{{}}}", error_told(&error)),
        }
    }
}

fn told(line: &str) -> Result<String, Error> {
    let words: Vec<&str> = line.split(' ').collect();
    let [package, interface, name, front, length, ref step @ ..] = words[..] else {
        panic!("a word is missing");
    };
    let mut host = Host::of(package, interface, name, front, length)?;
    Ok(match *step {
        ["asks", json] => host.asks(&text_of(json)),
        ["answer-asks", json] => host.answer_asks(&text_of(json)),
        ["fills", json, blocks, _] => host.fills(&text_of(json), &parts(blocks).map(block).collect::<Vec<_>>()),
        ["reads", answer, "-"] => host.reads(&values_of(answer), NO_LIMIT),
        ["reads", answer, limit] => host.reads(&values_of(answer), limit.parse().expect("a limit")),
        _ => panic!("no step: {step:?}"),
    })
}

fn main() -> io::Result<()> {
    for line in io::stdin().lock().lines() {
        println!("{}", told(&line?).map_err(io::Error::other)?);
    }
    Ok(())
}
