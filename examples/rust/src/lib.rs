//! Safe functions over `include/witcall.h`, for a host in plain Rust that keeps both linear memories itself.
//!
//! A `Package` is opened once, and its functions are called in halves, between two slices. What the header asks of its caller holds by
//! Rust's own rules: slices that are borrowed for writing never overlap, each pointer goes with the length of its slice, a package is
//! borrowed for each call and closed where it is dropped. That `header.rs` declares what the header does is not tested.

mod header;

use header::{DONE, Handle, MAX_VALUES, REFUSED, Status, TRAP};
use std::error;
use std::fmt;
use std::ptr;

pub use header::{Block, Request, Value};

/// The value of an i32.
pub fn i32_value(number: u32) -> Value {
    Value { kind: 0, bits: u64::from(number) }
}

/// Why the library did not do what it was asked for. It is displayed as the program's line (docs/ERRORS.md).
#[derive(Clone, Debug, PartialEq)]
pub enum Error {
    /// A refusal, by its number.
    Refused {
        number: u32,
        line: String,
    },
    /// A trap of the call, by its kind (1 to 8 for K1 to K8) and its step.
    Trap {
        kind: u32,
        step: u32,
        line: String,
    },
    NoMemory,
    /// The library has another binary interface than `header.rs` declares: its version.
    OtherInterface(String),
}

impl fmt::Display for Error {
    fn fmt(&self, out: &mut fmt::Formatter<'_>) -> fmt::Result {
        match self {
            Error::Refused { line, .. } | Error::Trap { line, .. } => write!(out, "{line}"),
            Error::NoMemory => write!(out, "error 66 no memory"),
            Error::OtherInterface(version) => write!(out, "witcall {version} has another binary interface"),
        }
    }
}

impl error::Error for Error {}

/// The text that something puts at the front of an array, of which it tells how long it is.
fn line(tell: impl FnOnce(&mut [u8]) -> Status) -> String {
    let mut bytes = [0; 512];
    let status = tell(&mut bytes);
    let len = if status.code == DONE { status.count as usize } else { 0 };
    String::from_utf8_lossy(&bytes[..len]).into_owned()
}

impl Status {
    /// How many things the library told, or which one, where it did what it was asked for.
    fn count(self) -> Result<u32, Error> {
        // SAFETY: the pointer and the length are those of one slice, borrowed for the call.
        let line = |status| line(|out| unsafe { header::witcall_status_line(status, out.as_mut_ptr(), out.len()) });
        match self.code {
            DONE => Ok(self.count),
            REFUSED => Err(Error::Refused { number: self.number, line: line(self) }),
            TRAP => Err(Error::Trap { kind: self.number, step: self.step, line: line(self) }),
            _ => Err(Error::NoMemory),
        }
    }
}

/// The version of the library.
pub fn version() -> String {
    // SAFETY: the pointer and the length are those of one slice.
    line(|out| unsafe { header::witcall_version(out.as_mut_ptr(), out.len()) })
}

/// Whether the library has the binary interface that `header.rs` declares.
fn is_this_interface() -> Result<(), Error> {
    // SAFETY: the call takes nothing.
    if unsafe { header::witcall_abi() } == header::ABI { Ok(()) } else { Err(Error::OtherInterface(version())) }
}

/// A package that the library holds.
pub struct Package {
    handle: Handle,
}

/// A function of a package.
#[derive(Clone, Copy, Debug, PartialEq)]
pub struct Function(u32);

impl Package {
    /// Opens a text or a binary.
    pub fn open(bytes: &[u8]) -> Result<Package, Error> {
        Package::open_set(&[bytes])
    }

    /// Opens the last of these texts or binaries. Each may use interfaces of those before it.
    pub fn open_set(inputs: &[&[u8]]) -> Result<Package, Error> {
        is_this_interface()?;
        let (bytes, lengths) = (inputs.concat(), inputs.iter().map(|input| input.len()).collect::<Vec<usize>>());
        let mut handle = Handle { at: ptr::null_mut(), is_open: 0 };
        // SAFETY: each pointer goes with the length of its slice, and the handle is a place of this function's own.
        let status = unsafe { header::witcall_open_set(bytes.as_ptr(), bytes.len(), lengths.as_ptr(), lengths.len(), &mut handle) };
        let mut package = Package { handle };
        match status.count() {
            Ok(_) => Ok(package),
            Err(Error::Refused { number, .. }) => Err(Error::Refused { number, line: package.line() }),
            Err(error) => Err(error),
        }
    }

    /// Why it was refused, as the program says it.
    fn line(&mut self) -> String {
        // SAFETY: the handle is that of `witcall_open`, and the pointer and the length are those of one slice.
        line(|out| unsafe { header::witcall_line(&mut self.handle, out.as_mut_ptr(), out.len()) })
    }

    /// The function of this name in the interface of this full name.
    pub fn function(&mut self, interface: &str, name: &str) -> Result<Function, Error> {
        // SAFETY: the handle is open, and each pointer goes with the length of its slice.
        let status = unsafe { header::witcall_find(&mut self.handle, interface.as_ptr(), interface.len(), name.as_ptr(), name.len()) };
        status.count().map(Function)
    }

    /// The blocks that the arguments need in the callee, in the order in which its allocator is to grant them. `limit` is the
    /// greatest size of the callee's memory. If the blocks are larger together, this is 76.
    pub fn enter_requests(
        &mut self,
        function: Function,
        flats: &[Value],
        caller: &mut [u8],
        limit: u64,
    ) -> Result<Vec<Request>, Error> {
        // SAFETY: the handle is open, and each pointer goes with the length of its slice, which is borrowed for the call.
        asked(limit, |requests| unsafe {
            header::witcall_enter_requests(
                &mut self.handle,
                function.0,
                flats.as_ptr(),
                flats.len(),
                caller.as_mut_ptr(),
                caller.len(),
                requests.as_mut_ptr(),
                requests.len(),
                limit,
            )
        })
    }

    /// Puts the arguments into the callee's blocks: the values for its core function.
    pub fn enter(
        &mut self,
        function: Function,
        flats: &[Value],
        caller: &mut [u8],
        callee: &mut [u8],
        blocks: &[Block],
    ) -> Result<Vec<Value>, Error> {
        // SAFETY: as above; both memories are borrowed for writing, so they do not overlap.
        told(|handed| unsafe {
            header::witcall_enter(
                &mut self.handle,
                function.0,
                flats.as_ptr(),
                flats.len(),
                caller.as_mut_ptr(),
                caller.len(),
                callee.as_mut_ptr(),
                callee.len(),
                blocks.as_ptr(),
                blocks.len(),
                handed.as_mut_ptr(),
                handed.len(),
            )
        })
    }

    /// The blocks that what the core function answered needs in the caller. `limit` is the greatest size of the caller's memory.
    pub fn leave_requests(
        &mut self,
        function: Function,
        answer: &[Value],
        callee: &mut [u8],
        limit: u64,
    ) -> Result<Vec<Request>, Error> {
        // SAFETY: as above.
        asked(limit, |requests| unsafe {
            header::witcall_leave_requests(
                &mut self.handle,
                function.0,
                answer.as_ptr(),
                answer.len(),
                callee.as_mut_ptr(),
                callee.len(),
                requests.as_mut_ptr(),
                requests.len(),
                limit,
            )
        })
    }

    /// Puts what the core function answered into the caller's blocks and its return area: the values for the caller. `flats`
    /// are those that `enter` was given.
    pub fn leave(
        &mut self,
        function: Function,
        flats: &[Value],
        answer: &[Value],
        callee: &mut [u8],
        caller: &mut [u8],
        blocks: &[Block],
    ) -> Result<Vec<Value>, Error> {
        // SAFETY: as above.
        told(|back| unsafe {
            header::witcall_leave(
                &mut self.handle,
                function.0,
                flats.as_ptr(),
                flats.len(),
                answer.as_ptr(),
                answer.len(),
                callee.as_mut_ptr(),
                callee.len(),
                caller.as_mut_ptr(),
                caller.len(),
                blocks.as_ptr(),
                blocks.len(),
                back.as_mut_ptr(),
                back.len(),
            )
        })
    }
}

impl Drop for Package {
    fn drop(&mut self) {
        // SAFETY: the handle is that of `witcall_open`.
        unsafe { header::witcall_close(&mut self.handle) }
    }
}

/// The most requests within a limit. Each is that of an address and a length, 8 bytes, which are core values, or lie in a record of
/// at most 16,777,216 bytes or in another block.
fn most_requests(limit: u64) -> u64 {
    limit / 8 + 16_777_216 / 8 + MAX_VALUES as u64
}

/// Room for so many requests, if the limit allows them and there is memory.
fn room_for(count: usize, limit: u64) -> Result<Vec<Request>, Error> {
    let mut requests = Vec::new();
    if count as u64 > most_requests(limit) || requests.try_reserve_exact(count).is_err() {
        return Err(Error::NoMemory);
    }
    requests.resize(count, Request::default());
    Ok(requests)
}

/// The blocks that something asks for. Where they are more than there is room for at first, it is asked again.
fn asked(limit: u64, mut ask: impl FnMut(&mut [Request]) -> Status) -> Result<Vec<Request>, Error> {
    let mut requests = room_for(16, limit)?;
    let count = ask(&mut requests).count()? as usize;
    if count > requests.len() {
        requests = room_for(count, limit)?;
        ask(&mut requests).count()?;
    }
    requests.truncate(count);
    Ok(requests)
}

/// The core values that something puts into an array that has room for all of them.
fn told(tell: impl FnOnce(&mut [Value]) -> Status) -> Result<Vec<Value>, Error> {
    let mut values = vec![Value::default(); MAX_VALUES];
    let count = tell(&mut values).count()? as usize;
    values.truncate(count);
    Ok(values)
}
