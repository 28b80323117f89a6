//! Without memory of the host a call is `66 no memory`: it does not abort.

use std::alloc::{GlobalAlloc, Layout, System};
use std::sync::atomic::{AtomicUsize, Ordering};
use witcall::{Error, Package};

/// The greatest block that is granted.
static MOST: AtomicUsize = AtomicUsize::new(usize::MAX);

struct Limited;

// SAFETY: each block is one of the system, or none.
unsafe impl GlobalAlloc for Limited {
    unsafe fn alloc(&self, layout: Layout) -> *mut u8 {
        if layout.size() > MOST.load(Ordering::Relaxed) {
            return std::ptr::null_mut();
        }
        // SAFETY: the layout is the caller's.
        unsafe { System.alloc(layout) }
    }

    unsafe fn dealloc(&self, block: *mut u8, layout: Layout) {
        // SAFETY: the block is of `alloc`, which is the system's.
        unsafe { System.dealloc(block, layout) }
    }
}

#[global_allocator]
static ALLOCATOR: Limited = Limited;

/// Runs with no block of more than so many bytes.
fn limited<Answer>(most: usize, run: impl FnOnce() -> Answer) -> Answer {
    MOST.store(most, Ordering::Relaxed);
    let answer = run();
    MOST.store(usize::MAX, Ordering::Relaxed);
    answer
}

#[test]
fn a_long_answer_without_memory_is_an_error() -> Result<(), Error> {
    let functions: String = (0..1000).map(|number| format!("  g{number}: func(xs: list<string>);\n")).collect();
    let text = format!("package a:b;\n\ninterface c {{\n{functions}}}\n");
    let package = Package::open(&text)?;
    let mut memory = [8_u32.to_le_bytes(), 1_u32.to_le_bytes()].concat().repeat(4000);
    let values = [witcall::Value::I32(0), witcall::Value::I32(4000)];
    let call = package.call(&package.find("a:b/c", "g0")?, &values)?;

    let written = limited(8192, || [package.to_text().err(), package.describe().err(), package.to_binary().err()]);
    let asked = limited(8192, || call.enter_requests(&mut memory, 1 << 20).err());
    assert_eq!(
        written.map(|it| it.map(|error| error.to_string())),
        [0; 3].map(|_| Some("error 66 no memory".to_owned()))
    );
    assert_eq!(asked, Some(Error::OutOfMemory));

    assert_eq!(package.to_text()?, text);
    assert_eq!(call.enter_requests(&mut memory, 1 << 20)?.len(), 4001);
    Ok(())
}
