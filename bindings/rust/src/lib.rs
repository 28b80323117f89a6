//! WIT packages of WebAssembly's component model, their layouts, and calls between two memories.
//!
//! A [`Package`] is opened from texts or binaries. It says which functions and types it has, and how their values lie
//! in memory. A [`Link`] makes calls of one function between two [`Memory`]s: it has the allocators grant blocks,
//! carries the values, and runs the callee's core function between both halves. A [`Call`] has the steps one by one. An
//! [`Export`] calls a component's function with values of the host, as [`Json`], and an [`Import`] serves a component
//! that calls a function of the host.
//!
//! ```
//! use witcall::{ArrayMemory, Link, Memory, Package, Value};
//!
//! let package = Package::open("package demo:text; interface letters { upper: func(s: string) -> string; }")?;
//! let upper = package.find("demo:text/letters", "upper")?;
//! let (mut caller, mut callee) = (ArrayMemory::new(65536), ArrayMemory::new(65536));
//!
//! let text = "two memories";
//! let address = caller.put(text.as_bytes(), 1).unwrap();
//! let area = caller.allocate(4, 8).unwrap();
//! let values = [Value::I32(address), Value::I32(text.len() as u32), Value::I32(area)];
//!
//! // The callee's core function: it answers where the address and the length of its text are.
//! let mut body = |memory: &mut ArrayMemory, values: &[Value]| {
//!     let text = memory.get(values[0].address()?, values[1].address()?).to_ascii_uppercase();
//!     let pair = [memory.put(&text, 1)?.to_le_bytes(), (text.len() as u32).to_le_bytes()].concat();
//!     Some(vec![Value::I32(memory.put(&pair, 4)?)])
//! };
//! Link::new(&package, &upper, 65536).call(&values, &mut caller, &mut callee, &mut body)?;
//!
//! let [address, length] = [0, 4].map(|at| u32::from_le_bytes(caller.get(area + at, 4).try_into().unwrap()));
//! assert_eq!(caller.get(address, length), b"TWO MEMORIES");
//! # Ok::<(), witcall::Error>(())
//! ```
//!
//! Only the module `sys` has unsafe code. The library's code is proved; this crate is tested.

#![deny(unsafe_code)]

mod call;
mod error;
mod export;
mod fault;
mod fits;
mod import;
mod instance;
mod json;
mod link;
mod names;
mod package;
#[allow(unsafe_code)]
mod sys;
mod table;

pub use call::{Block, Call, Request, Value};
pub use error::{Error, Step, Trap, TrapKind};
pub use export::Export;
pub use fault::{explain, Fault, Place};
pub use import::Import;
pub use instance::{Engine, Imports, Instance, Served, Stop};
pub use json::{Json, NoJson};
pub use link::{granted, ArrayMemory, Body, Link, Memory};
pub use package::{version, Package};
pub use table::{CoreType, Definition, Function, Kind, Member, Owner, Signature, Type};

/// The code of the crate's page.
#[cfg(doctest)]
#[doc = include_str!("../README.md")]
struct Readme;
