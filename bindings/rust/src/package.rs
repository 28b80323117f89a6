//! Packages: they are opened, asked for what they have, and written.

#![forbid(unsafe_code)]

use crate::call::{self, Block, Call, Request, Value};
use crate::error::{checked, told, told_text, Error};
use crate::names;
use crate::sys::{self, Handle, Place, Status};
use crate::table::{self, Definition, Function, Owner, Type};
use std::fmt;
use std::sync::{Mutex, PoisonError};

/// What the library says of its version, as `0.3.0+0123456789ab`: after the `+` is the beginning of the commit that it was
/// made of, if the library says it.
pub fn version() -> Result<String, Error> {
    told_text(sys::version)
}

/// A package that is open, with those that it depends on. Threads may share it. One at a time asks it, and others wait.
///
/// ```
/// let package = witcall::Package::open("package a:b; interface c { f: func(x: u32) -> u32; }")?;
/// assert_eq!(package.functions()?[0].name, "f");
/// assert_eq!(witcall::Package::open(package.to_binary()?)?.to_text()?, package.to_text()?);
/// # Ok::<(), witcall::Error>(())
/// ```
pub struct Package {
    handle: Mutex<Handle>,
}

impl fmt::Debug for Package {
    fn fmt(&self, out: &mut fmt::Formatter<'_>) -> fmt::Result {
        out.debug_struct("Package").finish_non_exhaustive()
    }
}

/// Inputs one after another, and their lengths.
pub(crate) fn joined<Input: AsRef<[u8]>>(inputs: &[Input]) -> (Vec<u8>, Vec<usize>) {
    let bytes: Vec<&[u8]> = inputs.iter().map(AsRef::as_ref).collect();
    (bytes.concat(), bytes.iter().map(|input| input.len()).collect())
}

impl Package {
    /// Opens a package that depends on no other, from its text or its binary.
    ///
    /// ```
    /// let refused = witcall::Package::open("package a:b; interface c { f: func(x: size); }").unwrap_err();
    /// assert_eq!(refused.to_string(), "error 41 unknown size");
    /// ```
    pub fn open(input: impl AsRef<[u8]>) -> Result<Package, Error> {
        Package::open_set(&[input])
    }

    /// Opens the last of several packages, which may use those before it.
    pub fn open_set<Input: AsRef<[u8]>>(inputs: &[Input]) -> Result<Package, Error> {
        let (bytes, lengths) = joined(inputs);
        Package::opened(|| Handle::open(&bytes, &lengths))
    }

    /// Opens the package that a module carries, with those that it depends on: a core module with a world in a section
    /// `component-type..`, or a component as other tools write a world or a package. If it carries none, this is
    /// `44 not this shape`, and [`explain`](crate::explain) of the same bytes says why.
    ///
    /// ```
    /// let refused = witcall::Package::open_module(b"\0asm\x01\0\0\0").unwrap_err();
    /// assert_eq!(refused.to_string(), "error 44 not this shape");
    /// ```
    pub fn open_module(module: impl AsRef<[u8]>) -> Result<Package, Error> {
        Package::opened(|| Handle::open_module(module.as_ref()))
    }

    fn opened(open: impl FnOnce() -> (Handle, Status)) -> Result<Package, Error> {
        if sys::abi() != sys::ABI {
            return Err(Error::OtherInterface(sys::abi()));
        }
        let (handle, status) = open();
        match checked(status) {
            Ok(_) => Ok(Package { handle: Mutex::new(handle) }),
            Err(error) => Err(refusal(handle, error)),
        }
    }

    /// Makes a call of the library with the handle.
    pub(crate) fn ask<Answer>(&self, ask: impl FnOnce(&mut Handle) -> Answer) -> Answer {
        ask(&mut self.handle.lock().unwrap_or_else(PoisonError::into_inner))
    }

    /// A text that a call of the library writes of this package.
    pub(crate) fn text(&self, mut ask: impl FnMut(&mut Handle, &mut [u8]) -> Status) -> Result<String, Error> {
        told_text(|room| self.ask(|handle| ask(handle, room)))
    }

    fn found(&self, place: Place, owner: &str, name: &str) -> Result<Function, Error> {
        let number = checked(self.ask(|handle| handle.find(place, owner, name)))
            .map_err(|error| error.with_hint(|| self.hint(place, owner, name)))?;
        table::function(self, number as u32)
    }

    /// What to do about a function that is not found.
    fn hint(&self, place: Place, owner: &str, name: &str) -> Result<String, Error> {
        let is_interface = matches!(place, Place::Interface);
        if is_interface && self.worlds()?.iter().any(|it| it == owner) {
            return Ok(format!("`{owner}` is a world: find_import and find_export look there"));
        }
        let mut there = Vec::new();
        for it in self.functions()? {
            match it.owner {
                Owner::Interface(its_owner) if is_interface => there.push((its_owner, it.name)),
                Owner::World(its_owner) if !is_interface => there.push((its_owner, it.name)),
                _ => {}
            }
        }
        Ok(names::hint(owner, name, &there, if is_interface { "interface" } else { "world" }))
    }

    /// The function of this name, by the full name of its interface, as `a:b/c@1.0.0`. If there is none, this is
    /// `63 no function`, whose hint names the nearest.
    ///
    /// ```
    /// let package = witcall::Package::open("package a:b; interface c { upper: func(); }")?;
    /// let refused = package.find("a:b/c", "uper").unwrap_err();
    /// assert_eq!(refused.to_string(), "error 63 no function: no `uper` in `a:b/c`; the nearest is `upper`");
    /// # Ok::<(), witcall::Error>(())
    /// ```
    pub fn find(&self, interface: &str, name: &str) -> Result<Function, Error> {
        self.found(Place::Interface, interface, name)
    }

    /// The function that a world itself imports, by the full name of the world.
    pub fn find_import(&self, world: &str, name: &str) -> Result<Function, Error> {
        self.found(Place::Import, world, name)
    }

    /// The function that a world itself exports, by the full name of the world.
    pub fn find_export(&self, world: &str, name: &str) -> Result<Function, Error> {
        self.found(Place::Export, world, name)
    }

    /// The functions of the package and of those that it depends on.
    pub fn functions(&self) -> Result<Vec<Function>, Error> {
        table::functions(self)
    }

    /// Their types, each with its layout.
    pub fn types(&self) -> Result<Vec<Definition>, Error> {
        table::types(self)
    }

    /// The full names of the worlds of the package and of those that it depends on. A module has one.
    pub fn worlds(&self) -> Result<Vec<String>, Error> {
        table::worlds(self)
    }

    /// The functions that a world imports: those of interfaces, and those that it imports itself. The world is given by
    /// its full name.
    ///
    /// ```
    /// let text = "package a:b; interface c { f: func(); } world w { import c; import g: func(); export h: func(); }";
    /// let package = witcall::Package::open(text)?;
    /// let names: Vec<String> = package.imports("a:b/w")?.into_iter().map(|it| it.name).collect();
    /// assert_eq!(names, ["f", "g"]);
    /// # Ok::<(), witcall::Error>(())
    /// ```
    pub fn imports(&self, world: &str) -> Result<Vec<Function>, Error> {
        table::world_functions(self, world, "imports")
    }

    /// The functions that a world exports, in the same ways.
    pub fn exports(&self, world: &str) -> Result<Vec<Function>, Error> {
        table::world_functions(self, world, "exports")
    }

    /// What a type of this package is made of; none if it is a primitive or `string`.
    pub fn definition(&self, ty: Type) -> Result<Option<Definition>, Error> {
        ty.row.map(|row| table::definition(self, row)).transpose()
    }

    /// The package as a text. Of several it is the last one, which opens again after the others.
    pub fn to_text(&self) -> Result<String, Error> {
        self.text(Handle::write_text)
    }

    /// The package as a binary. Of several it is the last one, which opens again after the others.
    pub fn to_binary(&self) -> Result<Vec<u8>, Error> {
        told(|room| self.ask(|handle| handle.write_binary(room)))
    }

    /// The package and those that it depends on as one JSON document, of which `docs/package.schema.json` is the schema.
    ///
    /// ```
    /// let described = witcall::Package::open("package a:b; interface c { type d = u32; }")?.describe()?;
    /// assert!(described.starts_with(r#"{"packages":["a:b"],"interfaces":[{"name":"a:b/c","#));
    /// # Ok::<(), witcall::Error>(())
    /// ```
    pub fn describe(&self) -> Result<String, Error> {
        self.text(Handle::describe)
    }

    /// The same error; of JSON that is none of the arguments the one that says where.
    fn located(&self, function: &Function, json: &str, error: Error) -> Error {
        match error {
            Error::Refused { number: sys::NOT_THIS_TYPE, .. } => self
                .text(|handle, room| handle.json_fault(function.number, json, room))
                .map_or_else(|other| other, Error::not_this_type),
            other => other,
        }
    }

    /// The blocks that arguments need in the memory of the component that is called. They are a JSON array of one value
    /// for each parameter (docs/FORMATS.md). `limit` is the greatest size of that memory.
    pub fn json_requests(&self, function: &Function, json: &str, limit: u64) -> Result<Vec<Request>, Error> {
        call::requests(|room| self.ask(|handle| handle.json_requests(function.number, json, room, limit)))
            .map_err(|error| self.located(function, json, error))
    }

    /// Puts the same arguments into the blocks: the values for the core function.
    pub fn fill_json(
        &self,
        function: &Function,
        json: &str,
        memory: &mut [u8],
        blocks: &[Block],
    ) -> Result<Vec<Value>, Error> {
        let blocks = call::raw_blocks(blocks);
        call::values(|told| self.ask(|handle| handle.fill_json(function.number, json, memory, &blocks, told)))
            .map_err(|error| self.located(function, json, error))
    }

    /// The result that a core function answered, as JSON; an empty text if the function has none. `limit` bounds the
    /// time, as that of [`Call::leave_requests`].
    pub fn read_json(
        &self,
        function: &Function,
        answer: &[Value],
        memory: &mut [u8],
        limit: u64,
    ) -> Result<String, Error> {
        let answer = call::raw_values(answer);
        self.text(|handle, room| handle.read_json(function.number, &answer, memory, room, limit))
    }

    /// Begins a call of a function with the core values that the caller hands in.
    pub fn call(&self, function: &Function, values: &[Value]) -> Result<Call<'_>, Error> {
        Call::begin(self, function, values)
    }
}

/// Why a package was refused: the whole line, if the handle stands for the refusal.
fn refusal(mut handle: Handle, error: Error) -> Error {
    let Error::Refused { number, line, hint } = error else { return error };
    match told_text(|room| handle.line(room)) {
        Ok(line) => Error::Refused { number, line, hint },
        Err(Error::Refused { number: sys::NOT_OPEN, .. }) => Error::Refused { number, line, hint },
        Err(other) => other,
    }
}
