//! Times storing and loading: the proved library, the same walk in plain Rust, and a loop over native slices.
//!
//! Each run checks that all three write the same bytes, and that what is loaded is what was stored.

mod clock;

use clock::time_of;
use std::hint::black_box;

/// The length of each memory.
const LEN: usize = 16_777_216;
/// How many times each time is taken; the least counts.
const RUNS: usize = 15;

unsafe extern "C" {
    fn bench_store(kind: u32, count: u32, rounds: u32, bytes: *mut u8, len: usize) -> bool;
    fn bench_load(kind: u32, count: u32, rounds: u32, bytes: *mut u8, len: usize) -> bool;
}

/// A function that the library exports.
type Export = unsafe extern "C" fn(u32, u32, u32, *mut u8, usize) -> bool;

/// A value as the library's tree has it, as far as the benchmark needs it.
#[derive(Debug, PartialEq)]
enum Val {
    U8(u8),
    U16(u16),
    U32(u32),
    String(String),
    List(Vec<Val>),
    Record(Vec<Val>),
}

/// A type, with its size and alignment in bytes.
struct Type {
    size: usize,
    align: usize,
    shape: Shape,
}

enum Shape {
    U8,
    U16,
    U32,
    String,
    List(Box<Type>),
    Record(Vec<Type>),
}

fn scalar(shape: Shape, size: usize) -> Type {
    let align = size;
    Type { size, align, shape }
}

fn text_type() -> Type {
    let shape = Shape::String;
    Type { size: 8, align: 4, shape }
}

fn row_type() -> Type {
    let members = vec![scalar(Shape::U8, 1), scalar(Shape::U32, 4), scalar(Shape::U16, 2)];
    let shape = Shape::Record(members);
    Type { size: 12, align: 4, shape }
}

fn list_type(element: Type) -> Type {
    let shape = Shape::List(Box::new(element));
    Type { size: 8, align: 4, shape }
}

/// A memory that hands out what lies above a top.
struct Memory {
    bytes: Vec<u8>,
    top: usize,
}

impl Memory {
    /// A memory of zeros, each page of it touched, with a block for what is stored at address 0.
    fn new() -> Memory {
        let mut bytes = vec![1; LEN];
        black_box(&mut bytes).fill(0);
        Memory { bytes, top: 8 }
    }

    fn alloc(&mut self, align: usize, size: usize) -> Option<usize> {
        let start = self.top.next_multiple_of(align);
        let end = start.checked_add(size)?;
        if end > self.bytes.len() {
            return None;
        }
        self.top = end;
        Some(start)
    }

    fn write(&mut self, at: usize, bytes: &[u8]) {
        self.bytes[at..at + bytes.len()].copy_from_slice(bytes);
    }

    fn write_header(&mut self, at: usize, start: usize, len: usize) {
        self.write(at, &(start as u32).to_le_bytes());
        self.write(at + 4, &(len as u32).to_le_bytes());
    }

    /// The block of an alignment and a size at an address.
    fn block(&self, start: usize, align: usize, size: usize) -> Option<&[u8]> {
        if !start.is_multiple_of(align) {
            return None;
        }
        self.bytes.get(start..start.checked_add(size)?)
    }

    /// The `N` bytes at an address.
    fn array<const N: usize>(&self, at: usize) -> Option<[u8; N]> {
        self.bytes.get(at..at + N)?.try_into().ok()
    }

    fn number(&self, at: usize) -> Option<usize> {
        Some(u32::from_le_bytes(self.array(at)?) as usize)
    }
}

// The walk of a value's tree, as the library makes it.

fn store(ty: &Type, value: &Val, memory: &mut Memory, at: usize) -> Option<()> {
    match (&ty.shape, value) {
        (Shape::U8, Val::U8(byte)) => memory.write(at, &[*byte]),
        (Shape::U16, Val::U16(number)) => memory.write(at, &number.to_le_bytes()),
        (Shape::U32, Val::U32(number)) => memory.write(at, &number.to_le_bytes()),
        (Shape::String, Val::String(text)) => {
            let start = memory.alloc(1, text.len())?;
            memory.write(start, text.as_bytes());
            memory.write_header(at, start, text.len());
        }
        (Shape::List(element), Val::List(items)) => {
            let start = memory.alloc(element.align, items.len().saturating_mul(element.size))?;
            memory.write_header(at, start, items.len());
            for (index, item) in items.iter().enumerate() {
                store(element, item, memory, start + index * element.size)?;
            }
        }
        (Shape::Record(members), Val::Record(fields)) => {
            let mut end = at;
            for (member, field) in members.iter().zip(fields) {
                let place = end.next_multiple_of(member.align);
                store(member, field, memory, place)?;
                end = place + member.size;
            }
        }
        _ => return None,
    }
    Some(())
}

fn load(ty: &Type, memory: &Memory, at: usize) -> Option<Val> {
    match &ty.shape {
        Shape::U8 => Some(Val::U8(u8::from_le_bytes(memory.array(at)?))),
        Shape::U16 => Some(Val::U16(u16::from_le_bytes(memory.array(at)?))),
        Shape::U32 => Some(Val::U32(u32::from_le_bytes(memory.array(at)?))),
        Shape::String => {
            let bytes = memory.block(memory.number(at)?, 1, memory.number(at + 4)?)?;
            Some(Val::String(std::str::from_utf8(bytes).ok()?.to_owned()))
        }
        Shape::List(element) => {
            let (start, count) = (memory.number(at)?, memory.number(at + 4)?);
            memory.block(start, element.align, count * element.size)?;
            let mut items = Vec::new();
            for index in 0..count {
                items.push(load(element, memory, start + index * element.size)?);
            }
            Some(Val::List(items))
        }
        Shape::Record(members) => {
            let mut fields = Vec::new();
            let mut end = at;
            for member in members {
                let place = end.next_multiple_of(member.align);
                fields.push(load(member, memory, place)?);
                end = place + member.size;
            }
            Some(Val::Record(fields))
        }
    }
}

// The same values as native types.

#[derive(Debug, PartialEq)]
struct Row {
    a: u8,
    b: u32,
    c: u16,
}

#[derive(Debug, PartialEq)]
enum Native {
    Bytes(Vec<u8>),
    Numbers(Vec<u32>),
    Rows(Vec<Row>),
    Texts(Vec<String>),
    Text(String),
}

/// Asks for the block of a list at address 0, and writes its header.
fn list_block(memory: &mut Memory, align: usize, size: usize, count: usize) -> Option<usize> {
    let start = memory.alloc(align, size * count)?;
    memory.write_header(0, start, count);
    Some(start)
}

fn store_native(value: &Native, memory: &mut Memory) -> Option<()> {
    match value {
        Native::Bytes(items) => {
            let start = list_block(memory, 1, 1, items.len())?;
            memory.write(start, items);
        }
        Native::Numbers(items) => {
            let start = list_block(memory, 4, 4, items.len())?;
            let block = &mut memory.bytes[start..start + items.len() * 4];
            for (place, item) in block.as_chunks_mut().0.iter_mut().zip(items) {
                *place = item.to_le_bytes();
            }
        }
        Native::Rows(items) => {
            let start = list_block(memory, 4, 12, items.len())?;
            let block = &mut memory.bytes[start..start + items.len() * 12];
            for (place, item) in block.as_chunks_mut::<12>().0.iter_mut().zip(items) {
                place[0] = item.a;
                place[4..8].copy_from_slice(&item.b.to_le_bytes());
                place[8..10].copy_from_slice(&item.c.to_le_bytes());
            }
        }
        Native::Texts(items) => {
            let start = list_block(memory, 4, 8, items.len())?;
            for (index, item) in items.iter().enumerate() {
                let block = memory.alloc(1, item.len())?;
                memory.write(block, item.as_bytes());
                memory.write_header(start + index * 8, block, item.len());
            }
        }
        Native::Text(text) => {
            let start = list_block(memory, 1, 1, text.len())?;
            memory.write(start, text.as_bytes());
        }
    }
    Some(())
}

fn text_in(memory: &Memory, at: usize) -> Option<String> {
    let bytes = memory.block(memory.number(at)?, 1, memory.number(at + 4)?)?;
    Some(std::str::from_utf8(bytes).ok()?.to_owned())
}

fn load_native(kind: Kind, memory: &Memory) -> Option<Native> {
    let (start, count) = (memory.number(0)?, memory.number(4)?);
    match kind {
        Kind::Bytes => Some(Native::Bytes(memory.block(start, 1, count)?.to_vec())),
        Kind::Numbers => {
            let block = memory.block(start, 4, count * 4)?.as_chunks().0;
            Some(Native::Numbers(block.iter().map(|place| u32::from_le_bytes(*place)).collect()))
        }
        Kind::Rows => {
            let block = memory.block(start, 4, count * 12)?.as_chunks::<12>().0;
            let row = |place: &[u8; 12]| Row {
                a: place[0],
                b: u32::from_le_bytes([place[4], place[5], place[6], place[7]]),
                c: u16::from_le_bytes([place[8], place[9]]),
            };
            Some(Native::Rows(block.iter().map(row).collect()))
        }
        Kind::Texts => {
            memory.block(start, 4, count * 8)?;
            let texts = (0..count).map(|index| text_in(memory, start + index * 8));
            Some(Native::Texts(texts.collect::<Option<_>>()?))
        }
        Kind::Text => Some(Native::Text(text_in(memory, 0)?)),
    }
}

// What is measured.

/// The kinds of values, numbered as the library numbers them.
#[derive(Clone, Copy)]
enum Kind {
    Bytes,
    Numbers,
    Rows,
    Texts,
    Text,
}

/// Of each kind its name, how many elements a value has or how many times 16 bytes a text, and how many times a value
/// is stored in one memory.
const KINDS: [(Kind, &str, u32, u32); 5] = [
    (Kind::Bytes, "`list<u8>`", 65_536, 250),
    (Kind::Numbers, "`list<u32>`", 16_384, 250),
    (Kind::Rows, "`list<row>`", 8_192, 160),
    (Kind::Texts, "`list<string>`", 4_096, 140),
    (Kind::Text, "`string`, for a byte", 65_536, 15),
];

fn number(index: u32) -> u32 {
    index.wrapping_mul(2_654_435_761)
}

fn byte(index: u32) -> u8 {
    (index % 251) as u8
}

fn half(index: u32) -> u16 {
    (number(index) % 65_521) as u16
}

fn text(index: u32) -> String {
    format!("element {}", number(index))
}

impl Kind {
    fn name(self) -> &'static str {
        KINDS[self as usize].1
    }

    fn count(self) -> u32 {
        KINDS[self as usize].2
    }

    fn rounds(self) -> u32 {
        KINDS[self as usize].3
    }

    /// By how many a round's time is divided.
    fn elements(self) -> u32 {
        match self {
            Kind::Text => self.count() * 16,
            _ => self.count(),
        }
    }

    fn ty(self) -> Type {
        match self {
            Kind::Bytes => list_type(scalar(Shape::U8, 1)),
            Kind::Numbers => list_type(scalar(Shape::U32, 4)),
            Kind::Rows => list_type(row_type()),
            Kind::Texts => list_type(text_type()),
            Kind::Text => text_type(),
        }
    }

    fn value(self) -> Val {
        let indices = 0..self.count();
        let row = |index| vec![Val::U8(byte(index)), Val::U32(number(index)), Val::U16(half(index))];
        match self {
            Kind::Bytes => Val::List(indices.map(|index| Val::U8(byte(index))).collect()),
            Kind::Numbers => Val::List(indices.map(|index| Val::U32(number(index))).collect()),
            Kind::Rows => Val::List(indices.map(|index| Val::Record(row(index))).collect()),
            Kind::Texts => Val::List(indices.map(|index| Val::String(text(index))).collect()),
            Kind::Text => Val::String("0123456789abcdef".repeat(indices.len())),
        }
    }

    fn native(self) -> Native {
        let indices = 0..self.count();
        let row = |index| Row { a: byte(index), b: number(index), c: half(index) };
        match self {
            Kind::Bytes => Native::Bytes(indices.map(byte).collect()),
            Kind::Numbers => Native::Numbers(indices.map(number).collect()),
            Kind::Rows => Native::Rows(indices.map(row).collect()),
            Kind::Texts => Native::Texts(indices.map(text).collect()),
            Kind::Text => Native::Text("0123456789abcdef".repeat(indices.len())),
        }
    }
}

/// The least of several.
fn least(mut time: impl FnMut() -> f64) -> f64 {
    (0..RUNS).map(|_| time()).fold(f64::INFINITY, f64::min)
}

/// Calls an export.
fn call(export: Export, kind: Kind, rounds: u32, bytes: &mut [u8]) {
    // SAFETY: the exports require nothing of their arguments, and the slice is borrowed for the call.
    let done = unsafe { export(kind as u32, kind.count(), rounds, bytes.as_mut_ptr(), bytes.len()) };
    assert!(done, "the library refuses {}", kind.name());
}

/// The nanoseconds of a round of an export, without what it takes to run none. The bytes are those of the rounds.
fn round_of(export: Export, kind: Kind, bytes: &mut [u8]) -> f64 {
    let (mut none, mut all) = (f64::INFINITY, f64::INFINITY);
    for _ in 0..RUNS {
        none = none.min(time_of(|| call(export, kind, 0, bytes)));
        all = all.min(time_of(|| call(export, kind, kind.rounds(), bytes)));
    }
    (all - none) / f64::from(kind.rounds())
}

/// The nanoseconds of a round of storing, each in a new memory, and the bytes of the last.
fn round_of_storing(kind: Kind, mut store: impl FnMut(&mut Memory) -> Option<()>) -> (f64, Vec<u8>) {
    let mut bytes = Vec::new();
    let all = least(|| {
        let mut memory = Memory::new();
        let time = time_of(|| {
            for _ in 0..kind.rounds() {
                black_box(store(black_box(&mut memory))).expect("stored");
            }
        });
        bytes = memory.bytes;
        time
    });
    (all / f64::from(kind.rounds()), bytes)
}

/// The nanoseconds of a round of loading, and what was loaded last.
fn round_of_loading<T>(kind: Kind, memory: &Memory, load: impl Fn(&Memory) -> Option<T>) -> (f64, T) {
    let mut last = load(memory).expect("loaded");
    let all = least(|| {
        time_of(|| {
            for _ in 0..kind.rounds() {
                last = black_box(load(black_box(memory))).expect("loaded");
            }
        })
    });
    (all / f64::from(kind.rounds()), last)
}

/// Prints a row: nanoseconds an element.
fn print_row(kind: Kind, what: &str, times: [f64; 3]) {
    let [library, tree, native] = times.map(|time| time / f64::from(kind.elements()));
    let name = kind.name();
    println!("| {name} | {what} | {library:.3} | {tree:.3} | {native:.3} | {:.1} |", library / tree);
}

fn bench_storing(kind: Kind) {
    let (ty, value, native) = (kind.ty(), kind.value(), kind.native());
    let mut bytes = vec![1; LEN];
    let library = round_of(bench_store, kind, &mut bytes);
    let (tree, tree_bytes) = round_of_storing(kind, |memory| store(&ty, &value, memory, 0));
    let (slices, native_bytes) = round_of_storing(kind, |memory| store_native(&native, memory));
    assert!(bytes == tree_bytes, "{}: other bytes than those of the tree", kind.name());
    assert!(bytes == native_bytes, "{}: other bytes than those of the slices", kind.name());
    print_row(kind, "store", [library, tree, slices]);
}

fn bench_loading(kind: Kind) {
    let (ty, value, native) = (kind.ty(), kind.value(), kind.native());
    let mut memory = Memory::new();
    store(&ty, &value, &mut memory, 0).expect("stored");
    let mut bytes = vec![1; LEN];
    let library = round_of(bench_load, kind, &mut bytes);
    let (tree, last_value) = round_of_loading(kind, &memory, |memory| load(&ty, memory, 0));
    let (slices, last_native) = round_of_loading(kind, &memory, |memory| load_native(kind, memory));
    assert!(bytes == memory.bytes, "{}: the library loads another value", kind.name());
    assert!(last_value == value, "{}: the tree's walk loads another value", kind.name());
    assert!(last_native == native, "{}: the slices' loop loads another value", kind.name());
    print_row(kind, "load", [library, tree, slices]);
}

fn main() {
    println!("| type | | witcall | tree | slices | witcall / tree |");
    println!("|---|---|---|---|---|---|");
    for (kind, ..) in KINDS {
        bench_storing(kind);
        bench_loading(kind);
    }
}
