//! A guest that carries its world, over any engine.

#![forbid(unsafe_code)]

use crate::call::Value;
use crate::error::{Error, Step, Trap};
use crate::export::Export;
use crate::import::Import;
use crate::json::Json;
use crate::link::{Body, Memory};
use crate::package::Package;
use crate::table::{Function, Owner, Signature};
use std::collections::BTreeMap;
use std::fmt;
use std::sync::atomic::{AtomicBool, Ordering};
use std::sync::{Arc, Mutex};

/// The module that a core module imports a function of a world itself from.
const ROOT: &str = "$root";
const ALLOCATOR: &str = "cabi_realloc";
const INITIALIZE: &str = "_initialize";

/// One instance of a core module, in any engine.
///
/// An adapter of an engine implements it for an instance, and for one whose code is calling an import.
pub trait Engine {
    /// Whether the module exports a function of this name.
    fn exports(&mut self, name: &str) -> bool;

    /// Calls an exported function with core values: what it answers.
    fn call(&mut self, name: &str, values: &[Value]) -> Result<Vec<Value>, Stop>;

    /// The bytes of the exported `memory`, as it is now; no bytes if there is none.
    fn memory(&mut self) -> &mut [u8];
}

/// Why a guest's function did not answer.
#[derive(Clone, Debug, PartialEq, Eq)]
pub enum Stop {
    /// The engine stopped the guest's code: a trap, in the engine's words.
    Trap(String),
    /// What [`Served::call`] failed with. The engine took it through the guest's code.
    Served(Error),
}

impl From<Error> for Stop {
    fn from(error: Error) -> Stop {
        Stop::Served(error)
    }
}

type Own = Box<dyn FnMut(&[Json]) -> Result<Option<Json>, String> + Send>;

/// The functions of the host that a guest imports.
#[derive(Default)]
pub struct Imports {
    functions: BTreeMap<(String, String), Own>,
}

impl Imports {
    /// No functions.
    pub fn new() -> Imports {
        Imports::default()
    }

    /// With one function more. `owner` is the full name of the interface, or that of the world which itself imports the
    /// function. It gets the arguments, and returns none if the function has no result.
    #[must_use]
    pub fn serve(
        self,
        owner: &str,
        name: &str,
        mut function: impl FnMut(&[Json]) -> Option<Json> + Send + 'static,
    ) -> Imports {
        self.try_serve(owner, name, move |arguments| Ok::<_, String>(function(arguments)))
    }

    /// The same of a function that may fail, which ends the guest's call with [`Error::Host`].
    #[must_use]
    pub fn try_serve<Failure: fmt::Display>(
        mut self,
        owner: &str,
        name: &str,
        mut function: impl FnMut(&[Json]) -> Result<Option<Json>, Failure> + Send + 'static,
    ) -> Imports {
        let own = move |arguments: &[Json]| function(arguments).map_err(|failure| failure.to_string());
        self.functions.insert((owner.to_owned(), name.to_owned()), Box::new(own));
        self
    }
}

/// A function that the world imports, with the host's own one.
struct Imported {
    function: Function,
    own: Mutex<Own>,
}

/// What an instance has in common with the functions that it imports.
struct Shared {
    package: Package,
    imports: Vec<Imported>,
    limit: u64,
    /// Whether the guest's allocator or a post-return runs, which calls no import.
    stays: AtomicBool,
}

/// A function that a guest imports, as its engine hands it out.
#[derive(Clone)]
pub struct Served {
    shared: Arc<Shared>,
    place: usize,
}

impl Served {
    fn imported(&self) -> &Imported {
        &self.shared.imports[self.place]
    }

    /// The module that a core module imports it from: the full name of the interface, or `$root`.
    pub fn module(&self) -> &str {
        match &self.imported().function.owner {
            Owner::Interface(name) => name,
            Owner::World(_) => ROOT,
        }
    }

    /// Its name.
    pub fn name(&self) -> &str {
        &self.imported().function.name
    }

    /// What it takes and answers.
    pub fn signature(&self) -> &Signature {
        &self.imported().function.lowered
    }

    /// Serves a call of the guest with the core values that it passed: the one value that it gets, if there is one. An
    /// engine ends the guest's code if this fails, and its own call fails with [`Stop::Served`] then.
    pub fn call<E: Engine + ?Sized>(&self, guest: &mut E, values: &[Value]) -> Result<Option<Value>, Error> {
        let Shared { package, limit, stays, .. } = &*self.shared;
        if stays.load(Ordering::Relaxed) {
            return Err(Error::stopped(Step::Body));
        }
        let Imported { function, own } = self.imported();
        let mut guest = Guest::new(guest, stays);
        let import = Import::new(package, function, *limit);
        let arguments = import.arguments(values, guest.bytes())?;
        // Only a call of this function within itself finds it locked.
        let result = match own.try_lock() {
            Ok(mut own) => own(&arguments).map_err(Error::Host)?,
            Err(_) => return Err(Error::stopped(Step::Body)),
        };
        let answered = import.answer(values, &mut guest, result);
        guest.fault.map_or(answered, Err)
    }
}

/// An instance whose code runs, with its allocator.
struct Guest<'call, E: ?Sized> {
    engine: &'call mut E,
    stays: &'call AtomicBool,
    was_run: bool,
    /// What the engine said of a trap.
    cause: Option<String>,
    /// Why a function did not answer, if that is no trap.
    fault: Option<Error>,
}

impl<'call, E: Engine + ?Sized> Guest<'call, E> {
    fn new(engine: &'call mut E, stays: &'call AtomicBool) -> Self {
        Guest { engine, stays, was_run: false, cause: None, fault: None }
    }

    /// Runs a function of the guest's.
    fn run(&mut self, name: &str, values: &[Value]) -> Option<Vec<Value>> {
        self.was_run = true;
        match self.engine.call(name, values) {
            Ok(answer) => return Some(answer),
            Err(Stop::Trap(words)) => self.cause = Some(words),
            Err(Stop::Served(error)) => self.fault = Some(error),
        }
        None
    }

    /// Runs a function that calls no import meanwhile.
    fn stay(&mut self, name: &str, values: &[Value]) -> Option<Vec<Value>> {
        let before = self.stays.swap(true, Ordering::Relaxed);
        let answer = self.run(name, values);
        self.stays.store(before, Ordering::Relaxed);
        answer
    }
}

impl<E: Engine + ?Sized> Memory for Guest<'_, E> {
    fn bytes(&mut self) -> &mut [u8] {
        self.engine.memory()
    }

    fn allocate(&mut self, alignment: u32, size: u32) -> Option<u32> {
        if !self.engine.exports(ALLOCATOR) {
            self.fault = Some(lacking_export(ALLOCATOR));
            return None;
        }
        let answer = self.stay(ALLOCATOR, &[0, 0, alignment, size].map(Value::I32))?;
        if let [Value::I32(address)] = answer[..] {
            return Some(address);
        }
        self.fault = Some(Error::Engine(format!("{ALLOCATOR} answered {answer:?}, which is no i32")));
        None
    }
}

/// A function that a guest exports.
struct Exported {
    function: Function,
    name: String,
    /// The name of its post-return, if it has one.
    post: Option<String>,
}

impl<E: Engine + ?Sized> Body<Guest<'_, E>> for &Exported {
    fn run(&mut self, guest: &mut Guest<'_, E>, values: &[Value]) -> Option<Vec<Value>> {
        guest.run(&self.name, values)
    }

    fn post_return(&mut self, guest: &mut Guest<'_, E>, answer: &[Value]) -> Option<()> {
        self.post.as_ref().map_or(Some(()), |name| guest.stay(name, answer).map(|_| ()))
    }
}

fn owner(function: &Function) -> &str {
    match &function.owner {
        Owner::Interface(name) | Owner::World(name) => name,
    }
}

/// The name that a core module exports a function by, which is also how it is told.
fn core_name(function: &Function) -> String {
    match &function.owner {
        Owner::Interface(interface) => format!("{interface}#{}", function.name),
        Owner::World(_) => function.name.clone(),
    }
}

fn lacking_export(name: &str) -> Error {
    Error::Lacking(format!("the guest exports no function `{name}`"))
}

/// A guest that carries its world. No text of WIT is needed.
///
/// ```
/// use witcall::{Engine, Imports, Instance, Json, Served, Stop, Value};
///
/// /// Stands for an engine. Adapters of engines are in `examples/engines`.
/// struct Mine {
///     imports: Vec<Served>,
///     memory: Vec<u8>,
/// }
///
/// impl Engine for Mine {
///     fn exports(&mut self, name: &str) -> bool {
///         !name.starts_with("cabi_post_") && name != "_initialize"
///     }
///
///     /// Each function hands its arguments to the import `ask`, and gives what that answers.
///     fn call(&mut self, _: &str, values: &[Value]) -> Result<Vec<Value>, Stop> {
///         let ask = self.imports.iter().find(|it| it.name() == "ask").cloned();
///         let ask = ask.ok_or_else(|| Stop::Trap("unreachable".to_owned()))?;
///         Ok(ask.call(self, values)?.into_iter().collect())
///     }
///
///     fn memory(&mut self) -> &mut [u8] {
///         &mut self.memory
///     }
/// }
///
/// let world = "demo:echo/guest@1.0.0";
/// let imports = Imports::new()
///     .serve("demo:echo/host@1.0.0", "upper", |arguments| Some(arguments[0].as_text()?.to_uppercase().into()))
///     .serve(world, "ask", |arguments| Some(Json::Number(arguments[0].as_number()? + 1)));
/// let mine = |imports: &[Served]| Mine { imports: imports.to_vec(), memory: vec![0; 65536] };
/// let engine = |_: &[u8], imports: &[Served]| Ok::<_, String>(mine(imports));
/// # let module = include_bytes!("../../../tests/explain/files/modules/echo.wasm");
/// let mut instance = Instance::new(module, imports, 65536, engine)?;
/// assert_eq!(instance.call(world, "tell", &[41.into()])?, Some(Json::from(42)));
/// # Ok::<(), witcall::Error>(())
/// ```
pub struct Instance<E> {
    engine: E,
    shared: Arc<Shared>,
    world: String,
    exports: Vec<Exported>,
    /// The trap that stands, and what the engine said of it.
    ended: Option<Trap>,
    cause: Option<String>,
}

impl<E> fmt::Debug for Instance<E> {
    fn fmt(&self, out: &mut fmt::Formatter<'_>) -> fmt::Result {
        out.debug_struct("Instance").field("world", &self.world).finish_non_exhaustive()
    }
}

impl<E: Engine> Instance<E> {
    /// Makes an instance of a core module that carries its world.
    ///
    /// `engine` makes the engine's own instance of the module's bytes and of what it imports. `limit` is the greatest
    /// size of the guest's memory, in bytes. If the module carries no world, this is `44 not this shape`. If `imports`
    /// lacks a
    /// function that the world imports, or the guest one that the world exports, this is [`Error::Lacking`]. If the
    /// guest exports `_initialize`, that is called first.
    pub fn new<Failure: fmt::Display>(
        module: impl AsRef<[u8]>,
        imports: Imports,
        limit: u64,
        engine: impl FnOnce(&[u8], &[Served]) -> Result<E, Failure>,
    ) -> Result<Instance<E>, Error> {
        let package = Package::open_module(module.as_ref())?;
        let world = package.worlds()?.into_iter().next();
        let world = world.ok_or_else(|| Error::Lacking("the module has no world".to_owned()))?;
        let imports = imported(package.imports(&world)?, imports)?;
        let shared = Arc::new(Shared { package, imports, limit, stays: AtomicBool::new(false) });
        let served: Vec<Served> =
            (0..shared.imports.len()).map(|place| Served { shared: shared.clone(), place }).collect();
        let mut engine = engine(module.as_ref(), &served).map_err(|failure| Error::Engine(failure.to_string()))?;
        let exports = exported(shared.package.exports(&world)?, &mut engine)?;
        let mut instance = Instance { engine, shared, world, exports, ended: None, cause: None };
        if instance.engine.exports(INITIALIZE) {
            instance.entered(|_, guest| {
                let answer = guest.run(INITIALIZE, &[]);
                answer.map(|_| ()).ok_or_else(|| Error::stopped(Step::Body))
            })?;
        }
        Ok(instance)
    }

    /// Calls a function of the guest with values. `owner` is the full name of the interface, or that of the world which
    /// itself exports the function. If the world exports none of this name, this is `63 no function`.
    ///
    /// A call that ends after code of the guest ran ends the instance: each later one is the same trap again, or
    /// `K7 body`
    /// if it was no trap, and runs no code.
    pub fn call(&mut self, owner: &str, name: &str, arguments: &[Json]) -> Result<Option<Json>, Error> {
        let place = self.place(owner, name)?;
        self.entered(|(shared, exports), guest| {
            let mut body = &exports[place];
            Export::new(&shared.package, &body.function, shared.limit).call(arguments, guest, &mut body)
        })
    }

    /// The place of a function among the exports.
    fn place(&self, of: &str, name: &str) -> Result<usize, Error> {
        let is_it = |it: &Exported| owner(&it.function) == of && it.function.name == name;
        let named = |it: &Exported| (owner(&it.function).to_owned(), it.function.name.clone());
        let there = || self.exports.iter().map(named).collect::<Vec<_>>();
        self.exports.iter().position(is_it).ok_or_else(|| Error::no_function(of, name, &there()))
    }

    /// Runs code of the guest, if no earlier call ended in it.
    fn entered<Answer>(
        &mut self,
        run: impl FnOnce((&Shared, &[Exported]), &mut Guest<'_, E>) -> Result<Answer, Error>,
    ) -> Result<Answer, Error> {
        if let Some(trap) = self.ended {
            return Err(Error::Trap(trap));
        }
        let mut guest = Guest::new(&mut self.engine, &self.shared.stays);
        let answer = run((&self.shared, &self.exports), &mut guest);
        let Guest { was_run, cause, fault, .. } = guest;
        let answer = fault.map_or(answer, Err);
        if let (Err(error), true) = (&answer, was_run) {
            self.ended = Some(error.trap().unwrap_or(Trap::STOPPED));
            self.cause = cause;
        }
        answer
    }

    /// What the module carries.
    pub fn package(&self) -> &Package {
        &self.shared.package
    }

    /// The full name of its world.
    pub fn world(&self) -> &str {
        &self.world
    }

    /// The instance of the core module.
    pub fn engine(&mut self) -> &mut E {
        &mut self.engine
    }

    /// What the engine said of the trap in which an earlier call ended.
    pub fn cause(&self) -> Option<&str> {
        self.cause.as_deref()
    }
}

/// The functions that a world imports, with those of the host.
fn imported(functions: Vec<Function>, mut imports: Imports) -> Result<Vec<Imported>, Error> {
    let found = |function: Function| {
        let own = imports.functions.remove(&(owner(&function).to_owned(), function.name.clone()));
        let lacking = || Error::Lacking(format!("the imports have no function `{}`", core_name(&function)));
        let own = Mutex::new(own.ok_or_else(lacking)?);
        Ok(Imported { function, own })
    };
    functions.into_iter().map(found).collect()
}

/// The functions that a world exports, if the guest does.
fn exported<E: Engine>(functions: Vec<Function>, engine: &mut E) -> Result<Vec<Exported>, Error> {
    let mut found = Vec::new();
    for function in functions {
        let name = core_name(&function);
        if !engine.exports(&name) {
            return Err(lacking_export(&name));
        }
        let post = format!("cabi_post_{name}");
        let post = engine.exports(&post).then_some(post);
        found.push(Exported { function, name, post });
    }
    Ok(found)
}
