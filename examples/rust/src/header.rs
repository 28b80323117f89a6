//! What `include/witcall.h` declares. `Package::open` compares the number of the binary interface, and the compiler the sizes of the
//! structs. Nothing else is compared.

use std::ffi::c_void;
use std::mem::size_of;

/// The most core values that a core function takes.
pub const MAX_VALUES: usize = 17;

/// What a status tells; any other code is want of memory.
pub const DONE: u32 = 0;
pub const REFUSED: u32 = 1;
pub const TRAP: u32 = 2;

/// A core value: an i32, the low 32 bits of `bits`, where `kind` is 0, and else an i64.
#[repr(C)]
#[derive(Clone, Copy, Debug, Default, PartialEq)]
pub struct Value {
    pub kind: u32,
    pub bits: u64,
}

/// A block that is asked for: of `size` bytes, at a multiple of `align`.
#[repr(C)]
#[derive(Clone, Copy, Debug, Default, PartialEq)]
pub struct Request {
    pub align: u32,
    pub size: u32,
}

/// A block that an allocator has granted.
#[repr(C)]
#[derive(Clone, Copy, Debug, Default, PartialEq)]
pub struct Block {
    pub align: u32,
    pub size: u32,
    pub at: u32,
}

/// A handle on a package that the library holds.
#[repr(C)]
pub struct Handle {
    pub at: *mut c_void,
    pub is_open: u32,
}

/// What a call of the library answers.
#[repr(C)]
#[derive(Clone, Copy)]
pub struct Status {
    pub code: u32,
    pub number: u32,
    pub step: u32,
    pub count: u32,
}

/// The number of the binary interface that this file declares.
pub const ABI: u32 = 2;

// The sizes of the structs, as the header asserts them.
const _: () = assert!(size_of::<Value>() == 16 && size_of::<Request>() == 8 && size_of::<Block>() == 12);
const _: () = assert!(size_of::<Handle>() == 16 && size_of::<Status>() == 16);

extern "C" {
    pub fn witcall_abi() -> u32;
    pub fn witcall_version(version: *mut u8, version_len: usize) -> Status;
    pub fn witcall_open_set(
        bytes: *const u8,
        bytes_len: usize,
        lengths: *const usize,
        lengths_len: usize,
        package: *mut Handle,
    ) -> Status;
    pub fn witcall_close(package: *mut Handle);
    pub fn witcall_line(package: *mut Handle, line: *mut u8, line_len: usize) -> Status;
    pub fn witcall_status_line(status: Status, line: *mut u8, line_len: usize) -> Status;
    pub fn witcall_find(
        package: *mut Handle,
        interface: *const u8,
        interface_len: usize,
        function: *const u8,
        function_len: usize,
    ) -> Status;
    pub fn witcall_enter_requests(
        package: *mut Handle,
        func: u32,
        flats: *const Value,
        flats_len: usize,
        caller: *mut u8,
        caller_len: usize,
        requests: *mut Request,
        requests_len: usize,
        limit: u64,
    ) -> Status;
    pub fn witcall_enter(
        package: *mut Handle,
        func: u32,
        flats: *const Value,
        flats_len: usize,
        caller: *mut u8,
        caller_len: usize,
        callee: *mut u8,
        callee_len: usize,
        blocks: *const Block,
        blocks_len: usize,
        handed: *mut Value,
        handed_len: usize,
    ) -> Status;
    pub fn witcall_leave_requests(
        package: *mut Handle,
        func: u32,
        answer: *const Value,
        answer_len: usize,
        callee: *mut u8,
        callee_len: usize,
        requests: *mut Request,
        requests_len: usize,
        limit: u64,
    ) -> Status;
    pub fn witcall_leave(
        package: *mut Handle,
        func: u32,
        flats: *const Value,
        flats_len: usize,
        answer: *const Value,
        answer_len: usize,
        callee: *mut u8,
        callee_len: usize,
        caller: *mut u8,
        caller_len: usize,
        blocks: *const Block,
        blocks_len: usize,
        back: *mut Value,
        back_len: usize,
    ) -> Status;
}
