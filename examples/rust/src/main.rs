//! One call between two vectors of bytes: `greet: func(name: string) -> string`.

use std::error;
use witcall_host::{Block, Package, Request, Value, i32_value};

const TEXT: &str = "package demo:hello; interface door { greet: func(name: string) -> string; }";

/// A linear memory with an allocator that goes up.
struct Memory {
    bytes: Vec<u8>,
    top: u32,
}

impl Memory {
    fn new() -> Memory {
        Memory { bytes: vec![0; 256], top: 0 }
    }

    /// The greatest size of the memory, which doesn't grow.
    fn limit(&self) -> u64 {
        self.bytes.len() as u64
    }

    /// The address of a new block; none if there is no room.
    fn alloc(&mut self, align: u32, size: u32) -> Option<u32> {
        let at = self.top.checked_next_multiple_of(align)?;
        let top = at.checked_add(size).filter(|&top| u64::from(top) <= self.limit())?;
        self.top = top;
        Some(at)
    }

    /// Grants the blocks that are asked for, in turn, up to the first that has no room. The half then ends in K6.
    fn granted(&mut self, requests: &[Request]) -> Vec<Block> {
        let grant = |&Request { align, size }: &Request| Some(Block { align, size, at: self.alloc(align, size)? });
        requests.iter().map_while(grant).collect()
    }

    fn put(&mut self, at: u32, bytes: &[u8]) {
        self.bytes[at as usize..at as usize + bytes.len()].copy_from_slice(bytes);
    }

    fn word(&self, at: u32) -> u32 {
        let at = at as usize;
        u32::from_le_bytes(self.bytes[at..at + 4].try_into().expect("four bytes"))
    }

    fn text(&self, at: u32, len: u32) -> String {
        let at = at as usize;
        String::from_utf8_lossy(&self.bytes[at..at + len as usize]).into_owned()
    }

    /// A block with this text; none if there is no room.
    fn put_text(&mut self, text: &str) -> Option<u32> {
        let at = self.alloc(1, u32::try_from(text.len()).ok()?)?;
        self.put(at, text.as_bytes());
        Some(at)
    }
}

/// The callee's core function: the address of the answer's own address and length. None if its memory is full.
fn greeting(callee: &mut Memory, name: &[Value]) -> Option<u32> {
    let text = format!("Hello, {}!", callee.text(name[0].bits as u32, name[1].bits as u32));
    let at = callee.put_text(&text)?;
    let answer = callee.alloc(4, 8)?;
    callee.put(answer, &at.to_le_bytes());
    callee.put(answer + 4, &(text.len() as u32).to_le_bytes());
    Some(answer)
}

fn main() -> Result<(), Box<dyn error::Error>> {
    let mut package = Package::open(TEXT.as_bytes())?;
    let greet = package.function("demo:hello/door", "greet")?;
    let (mut caller, mut callee) = (Memory::new(), Memory::new());

    // The core values that the caller hands in: its text, and where its result goes.
    let name = "Wörld";
    let at = caller.put_text(name).ok_or("the caller's memory is full")?;
    let area = caller.alloc(4, 8).ok_or("the caller's memory is full")?;
    let flats = [i32_value(at), i32_value(name.len() as u32), i32_value(area)];

    let requests = package.enter_requests(greet, &flats, &mut caller.bytes, callee.limit())?;
    let blocks = callee.granted(&requests);
    let handed = package.enter(greet, &flats, &mut caller.bytes, &mut callee.bytes, &blocks)?;
    let answer = [i32_value(greeting(&mut callee, &handed).ok_or("the callee's memory is full")?)];

    let requests = package.leave_requests(greet, &answer, &mut callee.bytes, caller.limit())?;
    let blocks = caller.granted(&requests);
    package.leave(greet, &flats, &answer, &mut callee.bytes, &mut caller.bytes, &blocks)?;
    println!("{}", caller.text(caller.word(area), caller.word(area + 4)));

    // The name has six bytes, which is more than a memory of five has room for.
    if let Err(error) = package.enter_requests(greet, &flats, &mut caller.bytes, 5) {
        println!("{error}");
    }
    // A text that is no UTF-8 is a trap of the caller's, and a text that is no package is refused.
    caller.put(at, &[0xc0, 0x80]);
    if let Err(error) = package.enter_requests(greet, &flats, &mut caller.bytes, callee.limit()) {
        println!("{error}");
    }
    if let Err(error) = Package::open(b"package demo:hello; interface door { greet: func(name: text); }") {
        println!("{error}");
    }
    Ok(())
}
