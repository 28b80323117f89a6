//! A call between two memories, in halves.

#![forbid(unsafe_code)]

use crate::error::{checked, Error};
use crate::package::Package;
use crate::sys::{RawBlock, RawCall, RawRequest, RawValue, Status, MAX_VALUES};
use crate::table::Function;

/// Requests that have room at first.
const FEW: usize = 32;

/// A core value.
#[derive(Clone, Copy, Debug, PartialEq, Eq, Hash)]
pub enum Value {
    /// a value of 32 bits, such as an address or a length
    I32(u32),
    /// a value of 64 bits
    I64(u64),
}

impl Value {
    /// The value as an address or a length, if it has 32 bits.
    pub fn address(self) -> Option<u32> {
        match self {
            Value::I32(number) => Some(number),
            Value::I64(_) => None,
        }
    }
}

/// A block that is asked for: of `size` bytes, at a multiple of `alignment`.
#[derive(Clone, Copy, Debug, PartialEq, Eq, Hash)]
pub struct Request {
    /// the multiple that its address is to be of
    pub alignment: u32,
    /// its bytes
    pub size: u32,
}

/// A block that an allocator granted.
#[derive(Clone, Copy, Debug, PartialEq, Eq, Hash)]
pub struct Block {
    /// what was asked for
    pub request: Request,
    /// its address in the memory
    pub address: u32,
}

fn raw_value(value: &Value) -> RawValue {
    match *value {
        Value::I32(number) => RawValue { kind: 0, bits: number.into() },
        Value::I64(bits) => RawValue { kind: 1, bits },
    }
}

pub(crate) fn raw_values(values: &[Value]) -> Vec<RawValue> {
    values.iter().map(raw_value).collect()
}

/// The library writes 0 into the upper half of an i32.
fn value_of(raw: &RawValue) -> Value {
    if raw.kind == 0 {
        Value::I32(raw.bits as u32)
    } else {
        Value::I64(raw.bits)
    }
}

pub(crate) fn raw_blocks(blocks: &[Block]) -> Vec<RawBlock> {
    let raw = |it: &Block| RawBlock { align: it.request.alignment, size: it.request.size, at: it.address };
    blocks.iter().map(raw).collect()
}

/// The requests that a call of the library tells, in an array that has as much room as it needs.
pub(crate) fn requests(mut ask: impl FnMut(&mut [RawRequest]) -> Status) -> Result<Vec<Request>, Error> {
    let mut requests = vec![RawRequest::default(); FEW];
    let count = checked(ask(&mut requests))?;
    if count > FEW {
        requests.try_reserve_exact(count - FEW).map_err(|_| Error::OutOfMemory)?;
        requests.resize(count, RawRequest::default());
        checked(ask(&mut requests))?;
    }
    let mut found = Vec::new();
    found.try_reserve_exact(count).map_err(|_| Error::OutOfMemory)?;
    found.extend(requests.iter().take(count).map(|raw| Request { alignment: raw.align, size: raw.size }));
    Ok(found)
}

/// The core values that a call of the library tells.
pub(crate) fn values(ask: impl FnOnce(&mut [RawValue; MAX_VALUES]) -> Status) -> Result<Vec<Value>, Error> {
    let mut told = [RawValue::default(); MAX_VALUES];
    let count = checked(ask(&mut told))?;
    Ok(told[..count].iter().map(value_of).collect())
}

/// A call of a function, which is made in halves (docs/C.md).
///
/// 1. [`enter_requests`](Call::enter_requests) asks which blocks the arguments need, and the callee's allocator
///    grants them.
/// 2. [`enter`](Call::enter) puts the arguments there, and returns the values for the callee's core function.
/// 3. The core function runs.
/// 4. [`leave_requests`](Call::leave_requests) asks which blocks the answer needs, and the caller's allocator grants
///    them.
/// 5. [`leave`](Call::leave) puts the answer there, and returns the values for the caller.
///
/// A limit is the greatest size of the memory that is asked for blocks. If these have more bytes together, this is
/// `76 above the limit`. An allocator that has no room ends its blocks there, and the next step is a trap then.
///
/// ```
/// # use witcall::{Block, Package, Value};
/// let package = Package::open("package a:b; interface c { length: func(s: string) -> u32; }")?;
/// let function = package.find("a:b/c", "length")?;
/// let (mut caller, mut callee) = (*b"seven..", [0; 64]);
///
/// let call = package.call(&function, &[Value::I32(0), Value::I32(7)])?;
/// let asked = call.enter_requests(&mut caller, 64)?;
/// let blocks = [Block { request: asked[0], address: 16 }];
/// let handed = call.enter(&mut caller, &mut callee, &blocks)?;
/// assert_eq!(handed, [Value::I32(16), Value::I32(7)]);
/// assert_eq!(&callee[16..23], b"seven..");
///
/// let answer = [Value::I32(7)];
/// assert!(call.leave_requests(&answer, &mut callee, 7)?.is_empty());
/// assert_eq!(call.leave(&answer, &mut callee, &mut caller, &[])?, answer);
/// # Ok::<(), witcall::Error>(())
/// ```
pub struct Call<'package> {
    package: &'package Package,
    raw: RawCall,
}

impl<'package> Call<'package> {
    pub(crate) fn begin(package: &'package Package, function: &Function, values: &[Value]) -> Result<Self, Error> {
        let mut raw = RawCall::default();
        checked(package.ask(|handle| handle.begin(function.number, &raw_values(values), &mut raw)))?;
        Ok(Call { package, raw })
    }

    fn requests(&self, answer: Option<&[RawValue]>, memory: &mut [u8], limit: u64) -> Result<Vec<Request>, Error> {
        requests(|room| self.package.ask(|handle| handle.requests(&self.raw, answer, memory, room, limit)))
    }

    fn carry(
        &self,
        answer: Option<&[RawValue]>,
        memories: [&mut [u8]; 2],
        blocks: &[Block],
    ) -> Result<Vec<Value>, Error> {
        values(|told| self.package.ask(|handle| handle.carry(&self.raw, answer, memories, &raw_blocks(blocks), told)))
    }

    /// The blocks that the arguments need in the callee, in this order.
    pub fn enter_requests(&self, caller: &mut [u8], limit: u64) -> Result<Vec<Request>, Error> {
        self.requests(None, caller, limit)
    }

    /// Puts the arguments into the callee's blocks: the values for its core function.
    pub fn enter(&self, caller: &mut [u8], callee: &mut [u8], blocks: &[Block]) -> Result<Vec<Value>, Error> {
        self.carry(None, [caller, callee], blocks)
    }

    /// The blocks that the core function's answer needs in the caller, in this order.
    pub fn leave_requests(&self, answer: &[Value], callee: &mut [u8], limit: u64) -> Result<Vec<Request>, Error> {
        self.requests(Some(&raw_values(answer)), callee, limit)
    }

    /// Puts the answer into the caller's blocks and its return area: the values for the caller.
    pub fn leave(
        &self,
        answer: &[Value],
        callee: &mut [u8],
        caller: &mut [u8],
        blocks: &[Block],
    ) -> Result<Vec<Value>, Error> {
        self.carry(Some(&raw_values(answer)), [callee, caller], blocks)
    }
}
