//! The guest of `examples/engines/relay.wasm` in Rust, as an engine for the tests.

use std::collections::BTreeMap;
use std::rc::Rc;
use witcall::{Engine, Error, Imports, Instance, Json, Served, Stop, Value};

pub const MODULE: &[u8] = include_bytes!("../../../../examples/engines/relay.wasm");
pub const HOST: &str = "demo:relay/host@1.0.0";
pub const GUEST: &str = "demo:relay/guest@1.0.0";
pub const WORLD: &str = "demo:relay/relay@1.0.0";
pub const PAGE: u32 = 65536;
pub const AREA: u32 = 64;

pub type Answer = Result<Vec<Value>, Stop>;
type Own = Rc<dyn Fn(&mut Relay, &[Value]) -> Answer>;
/// Exports in place of the guest's own ones, or none for one that is not there.
pub type Changes = Vec<(String, Option<Own>)>;

/// What the guest has, and which of its functions ran.
pub struct Relay {
    pub imports: Vec<Served>,
    pub bytes: Vec<u8>,
    pub ran: Vec<String>,
    functions: BTreeMap<String, Own>,
    top: u32,
}

/// The name of an export of the guest's interface.
pub fn exported(name: &str) -> String {
    format!("{GUEST}#{name}")
}

pub fn post_return(name: &str) -> String {
    format!("cabi_post_{}", exported(name))
}

pub fn stopped() -> Stop {
    Stop::Trap("unreachable".to_owned())
}

/// A function that asks an import, whose answer goes to the area if there is one.
fn relaying(name: &'static str, has_area: bool) -> Own {
    Rc::new(move |guest, values| {
        let area = has_area.then_some(Value::I32(AREA));
        let flats: Vec<Value> = values.iter().copied().chain(area).collect();
        let answer = guest.ask(name, &flats)?;
        Ok(area.or(answer).into_iter().collect())
    })
}

impl Relay {
    fn new(imports: &[Served], changes: Changes) -> Relay {
        let names = [("same", true), ("next", true), ("join", true), ("note", false), ("now", false)];
        let mut functions: BTreeMap<String, Own> =
            names.into_iter().map(|(name, has_area)| (exported(name), relaying(name, has_area))).collect();
        functions.insert("tell".to_owned(), relaying("ask", true));
        functions.insert(post_return("join"), Rc::new(|_, _| Ok(Vec::new())));
        functions.insert("cabi_realloc".to_owned(), Rc::new(|guest, values| guest.allocated(values)));
        for (name, change) in changes {
            functions.remove(&name);
            functions.extend(change.map(|own| (name, own)));
        }
        let bytes = vec![0; PAGE as usize];
        Relay { imports: imports.to_vec(), bytes, ran: Vec::new(), functions, top: 1024 }
    }

    /// Calls an import.
    pub fn ask(&mut self, name: &str, values: &[Value]) -> Result<Option<Value>, Error> {
        let served = self.imports.iter().find(|it| it.name() == name).expect("an import").clone();
        served.call(self, values)
    }

    /// The allocator: each block is above all earlier ones, and the memory grows, and moves.
    pub fn allocated(&mut self, values: &[Value]) -> Answer {
        let [alignment, size] = [2, 3].map(|place| values[place].address().expect("an i32"));
        let address = self.top.next_multiple_of(alignment);
        self.top = address + size;
        let pages = self.top.div_ceil(PAGE).max(self.bytes.len() as u32 / PAGE);
        let mut moved = vec![0; (pages * PAGE) as usize];
        moved[..self.bytes.len()].copy_from_slice(&self.bytes);
        self.bytes = moved;
        Ok(vec![Value::I32(address)])
    }

    pub fn put(&mut self, at: u32, bytes: &[u8]) {
        self.bytes[at as usize..][..bytes.len()].copy_from_slice(bytes);
    }
}

impl Engine for Relay {
    fn exports(&mut self, name: &str) -> bool {
        self.functions.contains_key(name)
    }

    fn call(&mut self, name: &str, values: &[Value]) -> Answer {
        self.ran.push(name.to_owned());
        let own = self.functions.get(name).cloned().expect("an export");
        own(self, values)
    }

    fn memory(&mut self) -> &mut [u8] {
        &mut self.bytes
    }
}

/// The host's functions, each of which gives what it gets.
pub fn host() -> Imports {
    Imports::new()
        .serve(HOST, "same", |arguments| arguments.first().cloned())
        .serve(HOST, "next", |arguments| arguments.first().cloned())
        .serve(HOST, "join", |arguments| {
            let words = arguments[0].as_array()?.iter().filter_map(Json::as_text);
            Some(words.collect::<String>().into())
        })
        .serve(HOST, "note", |_| None)
        .serve(HOST, "now", |_| Some(7.into()))
        .serve(WORLD, "ask", |arguments| Some(arguments[0].as_number()?.to_string().into()))
}

/// A change of an export.
pub fn change(name: String, own: impl Fn(&mut Relay, &[Value]) -> Answer + 'static) -> Changes {
    vec![(name, Some(Rc::new(own)))]
}

/// An instance, with these exports in place of the guest's own ones.
pub fn made(imports: Imports, changes: Changes, limit: u64) -> Result<Instance<Relay>, Error> {
    Instance::new(MODULE, imports, limit, |_, served| Ok::<_, String>(Relay::new(served, changes)))
}

pub fn relay(imports: Imports, changes: Changes) -> Instance<Relay> {
    made(imports, changes, 1 << 24).expect("an instance")
}

/// Calls `join` of the guest with words.
pub fn join(instance: &mut Instance<Relay>, words: &[&str]) -> Result<String, Error> {
    let words = Json::from(words.to_vec());
    let joined = instance.call(GUEST, "join", &[words])?;
    Ok(joined.as_ref().and_then(Json::as_text).expect("a text").to_owned())
}
