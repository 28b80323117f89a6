//! Wasmtime's engine for [`witcall::Instance`], by the crate `wasmtime`.
//!
//! It is written for the signatures that `wasmtime` 25 publishes. The tests of this repository have no such crate, and
//! do not compile it. In a host's Cargo.toml:
//!
//! ```toml
//! wasmtime = "25"
//! witcall = { path = "../witcall/bindings/rust" }
//! ```
//!
//! ```ignore
//! let imports = Imports::new().serve("demo:echo/host@1.0.0", "upper", upper);
//! let imports = imports.serve("demo:echo/guest@1.0.0", "ask", ask);
//! let mut instance = witcall::Instance::new(&module, imports, 1 << 24, Wasmtime::new)?;
//! instance.call("demo:echo/echo@1.0.0", "upper", &["two memories".into()])?;
//! ```

#![forbid(unsafe_code)]

use wasmtime::{AsContextMut, Caller, Extern, Func, FuncType, Instance, Module, Store, Val};
use witcall::{Engine, Served, Stop, Value};

/// An instance of a core module in wasmtime.
pub struct Wasmtime {
    store: Store<()>,
    instance: Instance,
}

/// The same while its code calls an import.
struct Calling<'call> {
    caller: Caller<'call, ()>,
}

fn val(value: &Value) -> Val {
    match *value {
        Value::I32(number) => Val::I32(number as i32),
        Value::I64(number) => Val::I64(number as i64),
    }
}

/// A core value of a function of the Canonical ABI; others have none here.
fn value(val: &Val) -> wasmtime::Result<Value> {
    match val {
        Val::I32(number) => Ok(Value::I32(*number as u32)),
        Val::I64(number) => Ok(Value::I64(*number as u64)),
        other => Err(wasmtime::Error::msg(format!("{other:?} is neither an i32 nor an i64"))),
    }
}

fn values(vals: &[Val]) -> wasmtime::Result<Vec<Value>> {
    vals.iter().map(value).collect()
}

/// What ended a call: an error of an import, which comes out of it as it went in, or a trap.
fn stop(error: wasmtime::Error) -> Stop {
    match error.downcast::<witcall::Error>() {
        Ok(own) => Stop::Served(own),
        Err(other) => Stop::Trap(format!("{other:#}")),
    }
}

fn called(mut store: impl AsContextMut, function: Option<Func>, given: &[Value]) -> wasmtime::Result<Vec<Value>> {
    let function = function.ok_or_else(|| wasmtime::Error::msg("the guest exports no such function"))?;
    let given: Vec<Val> = given.iter().map(val).collect();
    let mut answer = vec![Val::I32(0); function.ty(&store).results().len()];
    function.call(&mut store, &given, &mut answer)?;
    values(&answer)
}

/// The functions that a module imports, in its order.
fn imports(store: &mut Store<()>, module: &Module, served: &[Served]) -> wasmtime::Result<Vec<Extern>> {
    let mut found = Vec::new();
    for asked in module.imports() {
        let is_it = |it: &&Served| it.module() == asked.module() && it.name() == asked.name();
        let own = served.iter().find(is_it).zip(asked.ty().func().cloned());
        let none = || wasmtime::Error::msg(format!("no function {} {} to import", asked.module(), asked.name()));
        let (own, ty) = own.ok_or_else(none)?;
        found.push(import(store, ty, own.clone()).into());
    }
    Ok(found)
}

fn import(store: &mut Store<()>, ty: FuncType, served: Served) -> Func {
    Func::new(store, ty, move |caller: Caller<'_, ()>, given: &[Val], answer: &mut [Val]| {
        let back = served.call(&mut Calling { caller }, &values(given)?)?;
        answer.iter_mut().zip(&back).for_each(|(place, it)| *place = val(it));
        Ok(())
    })
}

impl Wasmtime {
    /// Makes an instance of a module's bytes over what it imports.
    pub fn new(module: &[u8], served: &[Served]) -> wasmtime::Result<Wasmtime> {
        let mut store = Store::new(&wasmtime::Engine::default(), ());
        let module = Module::new(store.engine(), module)?;
        let imports = imports(&mut store, &module, served)?;
        let instance = Instance::new(&mut store, &module, &imports)?;
        Ok(Wasmtime { store, instance })
    }
}

impl Engine for Wasmtime {
    fn exports(&mut self, name: &str) -> bool {
        self.instance.get_func(&mut self.store, name).is_some()
    }

    fn call(&mut self, name: &str, values: &[Value]) -> Result<Vec<Value>, Stop> {
        let function = self.instance.get_func(&mut self.store, name);
        called(&mut self.store, function, values).map_err(stop)
    }

    fn memory(&mut self) -> &mut [u8] {
        match self.instance.get_memory(&mut self.store, "memory") {
            Some(memory) => memory.data_mut(&mut self.store),
            None => &mut [],
        }
    }
}

impl Engine for Calling<'_> {
    fn exports(&mut self, name: &str) -> bool {
        matches!(self.caller.get_export(name), Some(Extern::Func(_)))
    }

    fn call(&mut self, name: &str, values: &[Value]) -> Result<Vec<Value>, Stop> {
        let function = self.caller.get_export(name).and_then(Extern::into_func);
        called(&mut self.caller, function, values).map_err(stop)
    }

    fn memory(&mut self) -> &mut [u8] {
        match self.caller.get_export("memory").and_then(Extern::into_memory) {
            Some(memory) => memory.data_mut(&mut self.caller),
            None => &mut [],
        }
    }
}
