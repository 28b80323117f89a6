//! Wasmi's engine for [`witcall::Instance`], by the crate `wasmi`.
//!
//! It is written for the signatures that `wasmi` 0.40 publishes. The tests of this repository have no such crate, and
//! do not compile it. In a host's Cargo.toml:
//!
//! ```toml
//! wasmi = "0.40"
//! witcall = { path = "../witcall/bindings/rust" }
//! ```
//!
//! ```ignore
//! let imports = Imports::new().serve("demo:echo/host@1.0.0", "upper", upper);
//! let imports = imports.serve("demo:echo/guest@1.0.0", "ask", ask);
//! let mut instance = witcall::Instance::new(&module, imports, 1 << 24, Wasmi::new)?;
//! instance.call("demo:echo/echo@1.0.0", "upper", &["two memories".into()])?;
//! ```

#![forbid(unsafe_code)]

use std::fmt;
use wasmi::core::HostError;
use wasmi::{AsContextMut, Caller, Error, Extern, Func, FuncType, Instance, Linker, Module, Store, Val};
use witcall::{Engine, Served, Stop, Value};

/// An instance of a core module in wasmi.
pub struct Wasmi {
    store: Store<()>,
    instance: Instance,
}

/// The same while its code calls an import.
struct Calling<'call> {
    caller: Caller<'call, ()>,
}

/// An error of an import, which wasmi takes through the guest's code.
#[derive(Debug)]
struct Carried(witcall::Error);

impl fmt::Display for Carried {
    fn fmt(&self, out: &mut fmt::Formatter<'_>) -> fmt::Result {
        self.0.fmt(out)
    }
}

impl HostError for Carried {}

fn val(value: &Value) -> Val {
    match *value {
        Value::I32(number) => Val::I32(number as i32),
        Value::I64(number) => Val::I64(number as i64),
    }
}

/// A core value of a function of the Canonical ABI; others have none here.
fn value(val: &Val) -> Result<Value, Error> {
    match val {
        Val::I32(number) => Ok(Value::I32(*number as u32)),
        Val::I64(number) => Ok(Value::I64(*number as u64)),
        other => Err(Error::new(format!("{other:?} is neither an i32 nor an i64"))),
    }
}

fn values(vals: &[Val]) -> Result<Vec<Value>, Error> {
    vals.iter().map(value).collect()
}

/// What ended a call: an error of an import, which comes out of it as it went in, or a trap.
fn stop(error: Error) -> Stop {
    let words = error.to_string();
    match error.downcast::<Carried>() {
        Some(Carried(own)) => Stop::Served(own),
        None => Stop::Trap(words),
    }
}

fn called(mut store: impl AsContextMut, function: Option<Func>, given: &[Value]) -> Result<Vec<Value>, Error> {
    let function = function.ok_or_else(|| Error::new("the guest exports no such function".to_owned()))?;
    let given: Vec<Val> = given.iter().map(val).collect();
    let mut answer = vec![Val::I32(0); function.ty(&store).results().len()];
    function.call(&mut store, &given, &mut answer)?;
    values(&answer)
}

fn import(store: &mut Store<()>, ty: FuncType, served: Served) -> Func {
    Func::new(store, ty, move |caller: Caller<'_, ()>, given: &[Val], answer: &mut [Val]| {
        let back =
            served.call(&mut Calling { caller }, &values(given)?).map_err(|error| Error::host(Carried(error)))?;
        answer.iter_mut().zip(&back).for_each(|(place, it)| *place = val(it));
        Ok(())
    })
}

/// What a module imports, as far as it is served. Wasmi tells what is not.
fn linker(store: &mut Store<()>, module: &Module, served: &[Served]) -> Result<Linker<()>, Error> {
    let mut linker = Linker::new(store.engine());
    for asked in module.imports() {
        let own = served.iter().find(|it| it.module() == asked.module() && it.name() == asked.name());
        if let Some((own, ty)) = own.zip(asked.ty().func().cloned()) {
            let function = import(store, ty, own.clone());
            linker.define(asked.module(), asked.name(), function).map_err(|error| Error::new(error.to_string()))?;
        }
    }
    Ok(linker)
}

impl Wasmi {
    /// Makes an instance of a module's bytes over what it imports.
    pub fn new(module: &[u8], served: &[Served]) -> Result<Wasmi, Error> {
        let mut store = Store::new(&wasmi::Engine::default(), ());
        let module = Module::new(store.engine(), module)?;
        let linker = linker(&mut store, &module, served)?;
        let instance = linker.instantiate(&mut store, &module)?.start(&mut store)?;
        Ok(Wasmi { store, instance })
    }
}

impl Engine for Wasmi {
    fn exports(&mut self, name: &str) -> bool {
        self.instance.get_func(&self.store, name).is_some()
    }

    fn call(&mut self, name: &str, values: &[Value]) -> Result<Vec<Value>, Stop> {
        let function = self.instance.get_func(&self.store, name);
        called(&mut self.store, function, values).map_err(stop)
    }

    fn memory(&mut self) -> &mut [u8] {
        match self.instance.get_memory(&self.store, "memory") {
            Some(memory) => memory.data_mut(&mut self.store),
            None => &mut [],
        }
    }
}

impl Engine for Calling<'_> {
    fn exports(&mut self, name: &str) -> bool {
        matches!(self.caller.get_export(name), Some(Extern::Func(_)))
    }

    fn call(&mut self, name: &str, values: &[Value]) -> Result<Vec<Value>, Stop> {
        let function = self.caller.get_export(name).and_then(Extern::into_func);
        called(&mut self.caller, function, values).map_err(stop)
    }

    fn memory(&mut self) -> &mut [u8] {
        match self.caller.get_export("memory").and_then(Extern::into_memory) {
            Some(memory) => memory.data_mut(&mut self.caller),
            None => &mut [],
        }
    }
}
