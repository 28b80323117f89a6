//! A function of the host, which a component imports, with values.

#![forbid(unsafe_code)]

use crate::call::{self, Block, Request, Value};
use crate::error::Error;
use crate::fits;
use crate::json::{Json, Tree};
use crate::link::{granted, Memory};
use crate::package::Package;
use crate::sys;
use crate::table::Function;

/// A function of the host that a component imports, with values as [`Json`].
///
/// ```
/// use witcall::{ArrayMemory, Import, Json, Package, Value};
///
/// let package = Package::open("package demo:text; interface letters { upper: func(s: string) -> string; }")?;
/// let upper = package.find("demo:text/letters", "upper")?;
/// let import = Import::new(&package, &upper, 65536);
///
/// // The component passes the address and the length of its text, and where the result goes.
/// let mut memory = ArrayMemory::new(65536);
/// let text = memory.put(b"one memory", 1).unwrap();
/// let area = memory.put(&[0; 8], 4).unwrap();
/// let values = [Value::I32(text), Value::I32(10), Value::I32(area)];
///
/// let serve = |arguments: &[Json]| arguments[0].as_text().map(|text| Json::from(text.to_uppercase()));
/// assert_eq!(import.serve(&values, &mut memory, serve)?, None);
/// let [address, length] = [0, 4].map(|at| u32::from_le_bytes(memory.get(area + at, 4).try_into().unwrap()));
/// assert_eq!(memory.get(address, length), b"ONE MEMORY");
/// # Ok::<(), witcall::Error>(())
/// ```
pub struct Import<'package> {
    package: &'package Package,
    function: Function,
    limit: u64,
}

impl<'package> Import<'package> {
    /// A function of a package. `limit` is the greatest size of the component's memory, in bytes: if the arguments, or the
    /// blocks of the result, have more bytes together, a call is refused with `76 above the limit`.
    pub fn new(package: &'package Package, function: &Function, limit: u64) -> Self {
        Import { package, function: function.clone(), limit }
    }

    /// The arguments of a call as JSON, an array of one value for each parameter. `values` are the core values that the
    /// component passed, the return area's address last if the result does not go flat. The memory is only read.
    pub fn arguments_json(&self, values: &[Value], memory: &mut [u8]) -> Result<String, Error> {
        let (func, values) = (self.function.number, call::raw_values(values));
        self.package.text(|handle, room| handle.read_arguments_json(func, &values, memory, room, self.limit))
    }

    /// The blocks that a result needs in the component's memory. It is the JSON of one value, or an empty text if the
    /// function has no result. If it is not of its type, this is [`Error::NotThisType`], which says where.
    pub fn result_requests(&self, json: &str) -> Result<Vec<Request>, Error> {
        let func = self.function.number;
        call::requests(|room| self.package.ask(|handle| handle.result_json_requests(func, json, room, self.limit)))
            .map_err(|error| self.located(error, json, None))
    }

    /// The same error; of what is no result the one that says where. `value` is what the text was made of, if it is no
    /// text of the host's: the library reads none that nests too deep.
    fn located(&self, error: Error, json: &str, value: Option<&Json>) -> Error {
        let tree = match (&error, value) {
            (Error::Refused { number: sys::NOT_THIS_TYPE, .. }, None) => Tree::read(json).ok(),
            (Error::Refused { number: sys::BAD_JSON, .. }, Some(value)) => Some(value.into()),
            _ => return error,
        };
        match (self.function.result, tree) {
            (None, _) => fits::no_result(json),
            (Some(ty), Some(tree)) => fits::result(self.package, ty, &tree).ok().flatten().unwrap_or(error),
            (Some(_), None) => error,
        }
    }

    /// Puts the same result into the blocks and the return area: the one value that the component gets, if there is one.
    /// `values` are those of the call.
    pub fn answer_json(
        &self,
        values: &[Value],
        json: &str,
        memory: &mut [u8],
        blocks: &[Block],
    ) -> Result<Option<Value>, Error> {
        let (func, flats, blocks) = (self.function.number, call::raw_values(values), call::raw_blocks(blocks));
        let told = |told: &mut _| {
            self.package.ask(|handle| handle.fill_result_json(func, (&flats, json), memory, &blocks, told))
        };
        Ok(call::values(told).map_err(|error| self.located(error, json, None))?.first().copied())
    }

    /// Puts a result into the component's memory, whose allocator grants the blocks.
    fn put<M: Memory + ?Sized>(&self, values: &[Value], json: &str, memory: &mut M) -> Result<Option<Value>, Error> {
        let blocks = granted(memory, &self.result_requests(json)?);
        self.answer_json(values, json, memory.bytes(), &blocks)
    }

    /// Serves a call of the component with the core values that it passed: the one value that it gets, if there is one.
    /// `serve` gets the arguments as JSON, and returns the result as JSON, or an empty text if the function has none. The
    /// memory's allocator grants the blocks of the result.
    pub fn serve_json<M: Memory + ?Sized>(
        &self,
        values: &[Value],
        memory: &mut M,
        serve: impl FnOnce(&str) -> String,
    ) -> Result<Option<Value>, Error> {
        let result = serve(&self.arguments_json(values, memory.bytes())?);
        self.put(values, &result, memory)
    }

    /// Serves a call with values. `serve` returns none if the function has no result.
    pub fn serve<M: Memory + ?Sized>(
        &self,
        values: &[Value],
        memory: &mut M,
        serve: impl FnOnce(&[Json]) -> Option<Json>,
    ) -> Result<Option<Value>, Error> {
        let result = serve(&self.arguments(values, memory.bytes())?);
        self.answer(values, memory, result)
    }

    /// The arguments of a call.
    pub(crate) fn arguments(&self, values: &[Value], memory: &mut [u8]) -> Result<Vec<Json>, Error> {
        let text = self.arguments_json(values, memory)?;
        match text.parse() {
            Ok(Json::Array(arguments)) => Ok(arguments),
            _ => Err(Error::Unread(text)),
        }
    }

    /// Puts what a function of the host gave into the component's memory.
    pub(crate) fn answer<M: Memory + ?Sized>(
        &self,
        values: &[Value],
        memory: &mut M,
        result: Option<Json>,
    ) -> Result<Option<Value>, Error> {
        let Some(value) = result else {
            return match self.function.result {
                Some(ty) => Err(fits::nothing(self.package, ty)?),
                None => self.put(values, "", memory),
            };
        };
        let text = value.to_string();
        self.put(values, &text, memory).map_err(|error| self.located(error, &text, Some(&value)))
    }
}
