//! What the library says if it does not do what it was asked for.

#![forbid(unsafe_code)]

use crate::names::{self, Named};
use crate::sys::{self, Status};
use std::error;
use std::fmt;

/// The room that the line of a status needs.
const MAX_STATUS_LINE: usize = 64;
/// Bytes that most names and lines have room in.
const ROOM: usize = 256;
const NO_MEMORY: u32 = 66;

/// Why a trap came: its kinds are K1 to K8 of docs/ERRORS.md.
#[derive(Clone, Copy, Debug, PartialEq, Eq, Hash)]
pub enum TrapKind {
    /// K1: a `char` that is no Unicode scalar value
    Char,
    /// K2: a case that a variant doesn't have
    Case,
    /// K3: an address that is not aligned
    Align,
    /// K4: an address outside its memory
    Bounds,
    /// K5: a text that is not UTF-8
    Utf8,
    /// K6: an allocator without room
    Full,
    /// K7: a component that stopped
    Body,
    /// K8: core values that are not those of the signature
    CoreSignature,
}

/// In which step a trap came.
#[derive(Clone, Copy, Debug, PartialEq, Eq, Hash)]
pub enum Step {
    /// Values of the host, arguments or a result, are put into a component's memory.
    Place,
    /// The arguments are read in the caller.
    LiftArguments,
    /// The arguments are written in the callee.
    LowerArguments,
    /// The callee's core function runs.
    Body,
    /// The answer is read in the callee.
    LiftResult,
    /// The answer is written in the caller.
    LowerResult,
    /// The callee's post-return runs.
    PostReturn,
}

const KINDS: [TrapKind; 8] = [
    TrapKind::Char,
    TrapKind::Case,
    TrapKind::Align,
    TrapKind::Bounds,
    TrapKind::Utf8,
    TrapKind::Full,
    TrapKind::Body,
    TrapKind::CoreSignature,
];

/// The steps with their numbers.
const STEPS: [(u32, Step); 7] = [
    (0, Step::Place),
    (2, Step::LiftArguments),
    (3, Step::LowerArguments),
    (4, Step::Body),
    (5, Step::LiftResult),
    (6, Step::LowerResult),
    (7, Step::PostReturn),
];

/// The end of a call between two components. The callee is not to run again after it.
#[derive(Clone, Copy, Debug, PartialEq, Eq, Hash)]
pub struct Trap {
    /// Why it came.
    pub kind: TrapKind,
    /// Where it came.
    pub step: Step,
}

impl Trap {
    /// The trap of a component that stopped in its body.
    pub(crate) const STOPPED: Trap = Trap { kind: TrapKind::Body, step: Step::Body };
}

/// Why the library did not do what it was asked for. It is displayed as the library's line; of [`Error::NotThisType`] the
/// place and the rest follow.
#[derive(Clone, Debug, PartialEq, Eq)]
#[non_exhaustive]
pub enum Error {
    /// A refusal, by its number in docs/ERRORS.md, and its line.
    Refused {
        /// the number of the error
        number: u32,
        /// the library's line, as `error 41 unknown size`
        line: String,
        /// what to do about it, if anything is known: of `63 no function` the nearest one
        hint: Option<String>,
    },
    /// JSON that is no array of a function's arguments, or no result of it: 62.
    NotThisType {
        /// the first place that is wrong, as `[0].lines[2].count`; empty if the JSON is no array of as many values. That
        /// of a result is as `result.lines[2].count`
        path: String,
        /// what has to stand there, and what does
        fault: String,
    },
    /// A trap of a call.
    Trap(Trap),
    /// The library is out of memory.
    OutOfMemory,
    /// What a function of the host failed with, which a guest called
    /// ([`Imports::try_serve`](crate::Imports::try_serve)).
    Host(String),
    /// What an engine failed with, or answered that no engine does.
    Engine(String),
    /// What the imports, a guest or its module lack.
    Lacking(String),
    /// The library that was linked has another binary interface, of this number.
    OtherInterface(u32),
    /// The library wrote this text, and it is no JSON of a value.
    Unread(String),
}

impl Error {
    /// A status that is not done.
    pub(crate) fn of(status: Status) -> Error {
        let refused = || Error::Refused { number: status.number, line: status_line(status), hint: None };
        match status.code {
            sys::REFUSED => refused(),
            sys::TRAP => trap_of(status).map_or_else(refused, Error::Trap),
            _ => Error::OutOfMemory,
        }
    }

    /// What is wrong in JSON, from the library's line: the place and the rest, if there is a place.
    pub(crate) fn not_this_type(line: String) -> Error {
        match line.split_once(": ").filter(|(place, _)| place.starts_with('[')) {
            Some((path, fault)) => Error::NotThisType { path: path.to_owned(), fault: fault.to_owned() },
            None => Error::NotThisType { path: String::new(), fault: line },
        }
    }

    /// The same error, with what to do if no function has a name, and that can be told.
    pub(crate) fn with_hint(self, hint_of: impl FnOnce() -> Result<String, Error>) -> Error {
        match self {
            Error::Refused { number: sys::NO_FUNCTION, line, .. } => {
                Error::Refused { number: sys::NO_FUNCTION, line, hint: hint_of().ok() }
            }
            other => other,
        }
    }

    /// The error for a name that none of these functions has, which are of interfaces and of worlds.
    pub(crate) fn no_function(owner: &str, name: &str, there: &[Named]) -> Error {
        let status = Status { code: sys::REFUSED, number: sys::NO_FUNCTION, ..Default::default() };
        Error::of(status).with_hint(|| Ok(names::hint(owner, name, there, "interface")))
    }

    /// The trap of a component that stopped in a step.
    pub(crate) fn stopped(step: Step) -> Error {
        Error::Trap(Trap { kind: TrapKind::Body, step })
    }

    /// The trap, if it is one.
    pub(crate) fn trap(&self) -> Option<Trap> {
        match self {
            Error::Trap(trap) => Some(*trap),
            _ => None,
        }
    }
}

fn trap_of(status: Status) -> Option<Trap> {
    let kind = *KINDS.get((status.number as usize).checked_sub(1)?)?;
    let (_, step) = *STEPS.iter().find(|(number, _)| *number == status.step)?;
    Some(Trap { kind, step })
}

/// The status that the library has for a trap.
fn status_of(trap: Trap) -> Status {
    let number = KINDS.iter().position(|it| *it == trap.kind).unwrap_or_default() as u32 + 1;
    let step = STEPS.iter().find(|(_, it)| *it == trap.step).map_or(0, |(number, _)| *number);
    Status { code: sys::TRAP, number, step, count: 0 }
}

fn status_line(status: Status) -> String {
    let mut line = [0; MAX_STATUS_LINE];
    let count = sys::status_line(status, &mut line).count as usize;
    String::from_utf8_lossy(&line[..count.min(MAX_STATUS_LINE)]).into_owned()
}

impl fmt::Display for Trap {
    fn fmt(&self, out: &mut fmt::Formatter<'_>) -> fmt::Result {
        out.write_str(&status_line(status_of(*self)))
    }
}

impl fmt::Display for Error {
    fn fmt(&self, out: &mut fmt::Formatter<'_>) -> fmt::Result {
        match self {
            Error::Refused { line, hint: None, .. } => out.write_str(line),
            Error::Refused { line, hint: Some(hint), .. } => write!(out, "{line}: {hint}"),
            Error::NotThisType { path, fault } => {
                let place = if path.is_empty() { "" } else { " at " };
                write!(out, "error {} not this type{place}{path}: {fault}", sys::NOT_THIS_TYPE)
            }
            Error::Trap(trap) => trap.fmt(out),
            Error::OutOfMemory => write!(out, "error {NO_MEMORY} no memory"),
            Error::Host(text) | Error::Engine(text) | Error::Lacking(text) => out.write_str(text),
            Error::OtherInterface(abi) => {
                write!(out, "the library's binary interface is {abi}, and this crate needs {}", sys::ABI)
            }
            Error::Unread(text) => write!(out, "the library wrote no JSON of a value: {text}"),
        }
    }
}

impl error::Error for Trap {}

impl error::Error for Error {}

/// The count of a status that is done.
pub(crate) fn checked(status: Status) -> Result<usize, Error> {
    if status.code == sys::DONE {
        Ok(status.count as usize)
    } else {
        Err(Error::of(status))
    }
}

/// Gives an array as much room as a call needs.
fn grow(bytes: &mut Vec<u8>, size: usize) -> Result<(), Error> {
    bytes.try_reserve_exact(size.saturating_sub(bytes.len())).map_err(|_| Error::OutOfMemory)?;
    bytes.resize(size, 0);
    Ok(())
}

/// The bytes that a call writes into an array, which has as much room as it needs.
pub(crate) fn told(mut ask: impl FnMut(&mut [u8]) -> Status) -> Result<Vec<u8>, Error> {
    let mut bytes = Vec::new();
    grow(&mut bytes, ROOM)?;
    let mut status = ask(&mut bytes);
    if status.number == sys::NO_ROOM {
        grow(&mut bytes, status.count as usize)?;
        status = ask(&mut bytes);
    }
    bytes.truncate(checked(status)?);
    Ok(bytes)
}

/// A text that a call writes, which is UTF-8.
pub(crate) fn told_text(ask: impl FnMut(&mut [u8]) -> Status) -> Result<String, Error> {
    let bytes = told(ask)?;
    Ok(String::from_utf8(bytes).unwrap_or_else(|error| String::from_utf8_lossy(error.as_bytes()).into_owned()))
}
