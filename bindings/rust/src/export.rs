//! A component's functions, called with values.

#![forbid(unsafe_code)]

use crate::error::{Error, Step};
use crate::fits;
use crate::json::Json;
use crate::link::{granted, Body, Memory};
use crate::package::Package;
use crate::sys;
use crate::table::Function;

/// A function of a component, which the host calls with values as [`Json`].
///
/// ```
/// use witcall::{ArrayMemory, Export, Json, Package, Value};
///
/// let package = Package::open("package demo:text; interface letters { upper: func(s: string) -> string; }")?;
/// let upper = package.find("demo:text/letters", "upper")?;
/// let mut memory = ArrayMemory::new(65536);
///
/// // The component's core function: it answers where the address and the length of its text are.
/// let mut body = |memory: &mut ArrayMemory, values: &[Value]| {
///     let text = memory.get(values[0].address()?, values[1].address()?).to_ascii_uppercase();
///     let pair = [memory.put(&text, 1)?.to_le_bytes(), (text.len() as u32).to_le_bytes()].concat();
///     Some(vec![Value::I32(memory.put(&pair, 4)?)])
/// };
/// let export = Export::new(&package, &upper, 65536);
/// assert_eq!(export.call(&["one memory".into()], &mut memory, &mut body)?, Some(Json::from("ONE MEMORY")));
/// assert_eq!(export.call_json(r#"["one memory"]"#, &mut memory, &mut body)?, r#""ONE MEMORY""#);
/// # Ok::<(), witcall::Error>(())
/// ```
pub struct Export<'package> {
    package: &'package Package,
    function: Function,
    limit: u64,
}

impl<'package> Export<'package> {
    /// A function of a package. `limit` is the greatest size of the component's memory, in bytes: if the blocks of the
    /// arguments have more bytes together, a call is refused with `76 above the limit`. It also bounds the time that an
    /// answer takes.
    pub fn new(package: &'package Package, function: &Function, limit: u64) -> Self {
        Export { package, function: function.clone(), limit }
    }

    /// Calls the function with a JSON array of one value for each parameter: the result as JSON, or an empty text if it
    /// has none. The memory's allocator grants the blocks for the arguments, and `body` is the core function.
    pub fn call_json<M: Memory + ?Sized>(
        &self,
        arguments: &str,
        memory: &mut M,
        body: &mut impl Body<M>,
    ) -> Result<String, Error> {
        let blocks = granted(memory, &self.package.json_requests(&self.function, arguments, self.limit)?);
        let handed = self.package.fill_json(&self.function, arguments, memory.bytes(), &blocks)?;
        let answer = body.run(memory, &handed).ok_or_else(|| Error::stopped(Step::Body))?;
        let result = self.package.read_json(&self.function, &answer, memory.bytes(), self.limit)?;
        body.post_return(memory, &answer).ok_or_else(|| Error::stopped(Step::PostReturn))?;
        Ok(result)
    }

    /// Calls the function with values.
    pub fn call<M: Memory + ?Sized>(
        &self,
        arguments: &[Json],
        memory: &mut M,
        body: &mut impl Body<M>,
    ) -> Result<Option<Json>, Error> {
        let text = Json::Array(arguments.to_vec()).to_string();
        let result = self.call_json(&text, memory, body).map_err(|error| self.located(error, arguments))?;
        if result.is_empty() {
            return Ok(None);
        }
        result.parse().map(Some).map_err(|_| Error::Unread(result))
    }

    /// The same error; of values within more others than the library reads the one that says where.
    fn located(&self, error: Error, arguments: &[Json]) -> Error {
        let Error::Refused { number: sys::BAD_JSON, .. } = error else { return error };
        fits::arguments(self.package, &self.function.parameters, arguments).ok().flatten().unwrap_or(error)
    }
}
