//! Two components, of which the one calls a function of the other.

#![forbid(unsafe_code)]

use crate::call::{Block, Request, Value};
use crate::error::{Error, Step};
use crate::package::Package;
use crate::table::Function;

/// A component's memory, and its allocator.
pub trait Memory {
    /// The memory's bytes. They are asked for anew at each step, since a memory may grow.
    fn bytes(&mut self) -> &mut [u8];

    /// The address of a new block; none if there is no room.
    fn allocate(&mut self, alignment: u32, size: u32) -> Option<u32>;
}

/// The callee's core function. A closure over the callee's memory and the core values is one.
pub trait Body<M: ?Sized> {
    /// Runs the core function; none if the component stops, which ends the call in a trap.
    fn run(&mut self, memory: &mut M, values: &[Value]) -> Option<Vec<Value>>;

    /// Runs the post-return on what the core function answered.
    fn post_return(&mut self, memory: &mut M, answer: &[Value]) -> Option<()> {
        let _ = (memory, answer);
        Some(())
    }
}

impl<M: ?Sized, F: FnMut(&mut M, &[Value]) -> Option<Vec<Value>>> Body<M> for F {
    fn run(&mut self, memory: &mut M, values: &[Value]) -> Option<Vec<Value>> {
        self(memory, values)
    }
}

/// Has an allocator grant blocks in turn, up to the first one that it has no room for.
pub fn granted<M: Memory + ?Sized>(memory: &mut M, asked: &[Request]) -> Vec<Block> {
    let grant = |request: &Request| {
        let address = memory.allocate(request.alignment, request.size)?;
        Some(Block { request: *request, address })
    };
    asked.iter().map_while(grant).collect()
}

/// A function of the callee, as a caller imports it. The crate's first page has an example.
pub struct Link<'package> {
    package: &'package Package,
    function: Function,
    limit: u64,
}

impl<'package> Link<'package> {
    /// Links a function of a package. `limit` is the greatest size of both memories, in bytes: if the blocks of a half
    /// have more bytes together, a call is refused with `76 above the limit`.
    pub fn new(package: &'package Package, function: &Function, limit: u64) -> Self {
        Link { package, function: function.clone(), limit }
    }

    /// Makes a call with the core values that the caller hands in: the one value that it gets, if there is one.
    ///
    /// ```
    /// # use witcall::{ArrayMemory, Link, Package, Value};
    /// let package = Package::open("package a:b; interface c { add: func(a: u32, b: u32) -> u32; }")?;
    /// let add = package.find("a:b/c", "add")?;
    /// let (mut caller, mut callee) = (ArrayMemory::new(0), ArrayMemory::new(0));
    /// let mut body = |_: &mut ArrayMemory, values: &[Value]| {
    ///     Some(vec![Value::I32(values[0].address()? + values[1].address()?)])
    /// };
    /// let link = Link::new(&package, &add, 0);
    /// let sum = link.call(&[Value::I32(3), Value::I32(4)], &mut caller, &mut callee, &mut body)?;
    /// assert_eq!(sum, Some(Value::I32(7)));
    ///
    /// let mut stops = |_: &mut ArrayMemory, _: &[Value]| None;
    /// let trap = link.call(&[Value::I32(3), Value::I32(4)], &mut caller, &mut callee, &mut stops).unwrap_err();
    /// assert_eq!(trap.to_string(), "trap K7 body in body");
    /// # Ok::<(), witcall::Error>(())
    /// ```
    pub fn call<Caller: Memory + ?Sized, Callee: Memory + ?Sized>(
        &self,
        values: &[Value],
        caller: &mut Caller,
        callee: &mut Callee,
        body: &mut impl Body<Callee>,
    ) -> Result<Option<Value>, Error> {
        let call = self.package.call(&self.function, values)?;
        let blocks = granted(callee, &call.enter_requests(caller.bytes(), self.limit)?);
        let handed = call.enter(caller.bytes(), callee.bytes(), &blocks)?;
        let answer = body.run(callee, &handed).ok_or_else(|| Error::stopped(Step::Body))?;
        let blocks = granted(caller, &call.leave_requests(&answer, callee.bytes(), self.limit)?);
        let back = call.leave(&answer, callee.bytes(), caller.bytes(), &blocks)?;
        body.post_return(callee, &answer).ok_or_else(|| Error::stopped(Step::PostReturn))?;
        Ok(back.first().copied())
    }
}

/// A memory of the host, whose allocator puts each block above all earlier ones.
#[derive(Clone, Debug)]
pub struct ArrayMemory {
    bytes: Vec<u8>,
    top: u64,
}

impl ArrayMemory {
    /// A memory of so many bytes, all zero.
    pub fn new(size: usize) -> Self {
        ArrayMemory { bytes: vec![0; size], top: 0 }
    }

    /// Puts bytes into a new block: its address, or none if there is no room.
    ///
    /// # Panics
    /// If the alignment is 0.
    pub fn put(&mut self, bytes: &[u8], alignment: u32) -> Option<u32> {
        let address = self.allocate(alignment, u32::try_from(bytes.len()).ok()?)?;
        self.bytes[address as usize..][..bytes.len()].copy_from_slice(bytes);
        Some(address)
    }

    /// The bytes at an address.
    ///
    /// # Panics
    /// If they are outside of the memory. [`checked_get`](ArrayMemory::checked_get) is for addresses of a component.
    pub fn get(&self, address: u32, length: u32) -> &[u8] {
        &self.bytes[address as usize..][..length as usize]
    }

    /// The bytes at an address; none if they are not all in the memory.
    ///
    /// ```
    /// let memory = witcall::ArrayMemory::new(16);
    /// assert_eq!(memory.checked_get(12, 4), Some(&[0; 4][..]));
    /// assert_eq!(memory.checked_get(12, 5), None);
    /// assert_eq!(memory.checked_get(u32::MAX, u32::MAX), None);
    /// ```
    pub fn checked_get(&self, address: u32, length: u32) -> Option<&[u8]> {
        self.bytes.get(address as usize..)?.get(..length as usize)
    }
}

impl Memory for ArrayMemory {
    fn bytes(&mut self) -> &mut [u8] {
        &mut self.bytes
    }

    fn allocate(&mut self, alignment: u32, size: u32) -> Option<u32> {
        let start = self.top.next_multiple_of(alignment.into());
        let end = start + u64::from(size);
        if end > self.bytes.len() as u64 {
            return None;
        }
        self.top = end;
        u32::try_from(start).ok()
    }
}
