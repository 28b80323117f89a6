//! What `include/witcall.h` declares, and functions over it that take slices.
//!
//! What the header asks of a host holds by Rust's rules. A pointer goes with the length of its slice. Slices that are
//! borrowed for writing do not overlap. A handle is borrowed for writing in each call, and closed once.
//! `tests/declarations.rs` compares the declarations with the header.

use std::ffi::c_void;
use std::mem::size_of;
use std::ptr;

/// The binary interface that this file declares.
pub const ABI: u32 = 2;
/// The most core values that a core function takes.
pub const MAX_VALUES: usize = 17;

pub const DONE: u32 = 0;
pub const REFUSED: u32 = 1;
pub const TRAP: u32 = 2;
pub const BAD_JSON: u32 = 61;
pub const NOT_THIS_TYPE: u32 = 62;
pub const NO_FUNCTION: u32 = 63;
pub const NOT_OPEN: u32 = 70;
pub const NO_ROOM: u32 = 71;
pub const NOT_THERE: u32 = 75;

#[repr(C)]
#[derive(Clone, Copy, Debug, Default, PartialEq)]
pub struct Status {
    pub code: u32,
    pub number: u32,
    pub step: u32,
    pub count: u32,
}

/// A handle that owns what it stands for.
#[repr(C)]
pub struct Handle {
    at: *mut c_void,
    is_open: u32,
}

// SAFETY: the header says that a handle may go to another thread.
unsafe impl Send for Handle {}

impl Drop for Handle {
    fn drop(&mut self) {
        // SAFETY: the handle is none, or was written by an opening.
        unsafe { witcall_close(self) }
    }
}

#[repr(C)]
#[derive(Clone, Copy, Default)]
pub struct RawRequest {
    pub align: u32,
    pub size: u32,
}

#[repr(C)]
#[derive(Clone, Copy, Default)]
pub struct RawBlock {
    pub align: u32,
    pub size: u32,
    pub at: u32,
}

#[repr(C)]
#[derive(Clone, Copy, Default)]
pub struct RawValue {
    pub kind: u32,
    pub bits: u64,
}

#[repr(C)]
#[derive(Clone, Copy, Default)]
pub struct RawCall {
    func: u32,
    count: u32,
    flats: [RawValue; MAX_VALUES],
}

#[repr(C)]
#[derive(Clone, Copy, Default)]
pub struct TypeInfo {
    pub kind: u32,
    pub row: u32,
    pub size: u32,
    pub align: u32,
}

#[repr(C)]
#[derive(Clone, Copy, Default)]
pub struct RowInfo {
    pub ty: TypeInfo,
    pub target: TypeInfo,
    pub owner_kind: u32,
    pub owner: u32,
    pub members: u32,
}

#[repr(C)]
#[derive(Clone, Copy, Default)]
pub struct MemberInfo {
    pub ty: TypeInfo,
    pub offset: u32,
}

// The sizes of the structs, as the header asserts them.
const _: () = assert!(size_of::<Status>() == 16 && size_of::<Handle>() == 16);
const _: () = assert!(size_of::<RawRequest>() == 8 && size_of::<RawBlock>() == 12 && size_of::<RawValue>() == 16);
const _: () = assert!(size_of::<RawCall>() == 280 && size_of::<TypeInfo>() == 16);
const _: () = assert!(size_of::<RowInfo>() == 44 && size_of::<MemberInfo>() == 20);

extern "C" {
    fn witcall_abi() -> u32;
    fn witcall_version(version: *mut u8, version_len: usize) -> Status;
    fn witcall_open_set(
        bytes: *const u8,
        bytes_len: usize,
        lengths: *const usize,
        lengths_len: usize,
        package: *mut Handle,
    ) -> Status;
    fn witcall_open_module(bytes: *const u8, bytes_len: usize, package: *mut Handle) -> Status;
    fn witcall_explain(
        bytes: *const u8,
        bytes_len: usize,
        lengths: *const usize,
        lengths_len: usize,
        json: *mut u8,
        json_len: usize,
    ) -> Status;
    fn witcall_close(package: *mut Handle);
    fn witcall_line(package: *mut Handle, line: *mut u8, line_len: usize) -> Status;
    fn witcall_status_line(status: Status, line: *mut u8, line_len: usize) -> Status;
    fn witcall_find(
        package: *mut Handle,
        interface: *const u8,
        interface_len: usize,
        function: *const u8,
        function_len: usize,
    ) -> Status;
    fn witcall_find_import(
        package: *mut Handle,
        world: *const u8,
        world_len: usize,
        function: *const u8,
        function_len: usize,
    ) -> Status;
    fn witcall_find_export(
        package: *mut Handle,
        world: *const u8,
        world_len: usize,
        function: *const u8,
        function_len: usize,
    ) -> Status;
    fn witcall_row(package: *mut Handle, number: u32, row: *mut RowInfo) -> Status;
    fn witcall_member(package: *mut Handle, row: u32, index: u32, member: *mut MemberInfo) -> Status;
    fn witcall_row_name(package: *mut Handle, row: u32, name: *mut u8, name_len: usize) -> Status;
    fn witcall_member_name(package: *mut Handle, row: u32, index: u32, name: *mut u8, name_len: usize) -> Status;
    fn witcall_owner_name(package: *mut Handle, owner_kind: u32, owner: u32, name: *mut u8, name_len: usize) -> Status;
    fn witcall_to_binary(package: *mut Handle, bytes: *mut u8, bytes_len: usize) -> Status;
    fn witcall_to_text(package: *mut Handle, text: *mut u8, text_len: usize) -> Status;
    fn witcall_describe(package: *mut Handle, json: *mut u8, json_len: usize) -> Status;
    fn witcall_lifted_params(package: *mut Handle, func: u32, kinds: *mut u32, kinds_len: usize) -> Status;
    fn witcall_lifted_result(package: *mut Handle, func: u32, kinds: *mut u32, kinds_len: usize) -> Status;
    fn witcall_lowered_params(package: *mut Handle, func: u32, kinds: *mut u32, kinds_len: usize) -> Status;
    fn witcall_lowered_result(package: *mut Handle, func: u32, kinds: *mut u32, kinds_len: usize) -> Status;
    fn witcall_begin(
        package: *mut Handle,
        func: u32,
        flats: *const RawValue,
        flats_len: usize,
        call: *mut RawCall,
    ) -> Status;
    fn witcall_call_enter_requests(
        package: *mut Handle,
        call: *const RawCall,
        caller: *mut u8,
        caller_len: usize,
        requests: *mut RawRequest,
        requests_len: usize,
        limit: u64,
    ) -> Status;
    fn witcall_call_enter(
        package: *mut Handle,
        call: *const RawCall,
        caller: *mut u8,
        caller_len: usize,
        callee: *mut u8,
        callee_len: usize,
        blocks: *const RawBlock,
        blocks_len: usize,
        handed: *mut RawValue,
        handed_len: usize,
    ) -> Status;
    fn witcall_call_leave_requests(
        package: *mut Handle,
        call: *const RawCall,
        answer: *const RawValue,
        answer_len: usize,
        callee: *mut u8,
        callee_len: usize,
        requests: *mut RawRequest,
        requests_len: usize,
        limit: u64,
    ) -> Status;
    fn witcall_call_leave(
        package: *mut Handle,
        call: *const RawCall,
        answer: *const RawValue,
        answer_len: usize,
        callee: *mut u8,
        callee_len: usize,
        caller: *mut u8,
        caller_len: usize,
        blocks: *const RawBlock,
        blocks_len: usize,
        back: *mut RawValue,
        back_len: usize,
    ) -> Status;
    fn witcall_json_requests(
        package: *mut Handle,
        func: u32,
        json: *const u8,
        json_len: usize,
        requests: *mut RawRequest,
        requests_len: usize,
        limit: u64,
    ) -> Status;
    fn witcall_fill_json(
        package: *mut Handle,
        func: u32,
        json: *const u8,
        json_len: usize,
        memory: *mut u8,
        memory_len: usize,
        blocks: *const RawBlock,
        blocks_len: usize,
        handed: *mut RawValue,
        handed_len: usize,
    ) -> Status;
    fn witcall_json_fault(
        package: *mut Handle,
        func: u32,
        json: *const u8,
        json_len: usize,
        line: *mut u8,
        line_len: usize,
    ) -> Status;
    fn witcall_read_json(
        package: *mut Handle,
        func: u32,
        answer: *const RawValue,
        answer_len: usize,
        memory: *mut u8,
        memory_len: usize,
        json: *mut u8,
        json_len: usize,
        limit: u64,
    ) -> Status;
    fn witcall_read_arguments_json(
        package: *mut Handle,
        func: u32,
        flats: *const RawValue,
        flats_len: usize,
        memory: *mut u8,
        memory_len: usize,
        json: *mut u8,
        json_len: usize,
        limit: u64,
    ) -> Status;
    fn witcall_result_json_requests(
        package: *mut Handle,
        func: u32,
        json: *const u8,
        json_len: usize,
        requests: *mut RawRequest,
        requests_len: usize,
        limit: u64,
    ) -> Status;
    fn witcall_fill_result_json(
        package: *mut Handle,
        func: u32,
        flats: *const RawValue,
        flats_len: usize,
        json: *const u8,
        json_len: usize,
        memory: *mut u8,
        memory_len: usize,
        blocks: *const RawBlock,
        blocks_len: usize,
        back: *mut RawValue,
        back_len: usize,
    ) -> Status;
}

/// What a name of a package is of.
#[derive(Clone, Copy)]
pub enum Name {
    Row(u32),
    Member(u32, u32),
    Owner(u32, u32),
}

/// Where a function is looked for.
#[derive(Clone, Copy)]
pub enum Place {
    Interface,
    Import,
    Export,
}

/// A side of a core signature.
#[derive(Clone, Copy)]
pub enum Side {
    LiftedParameters,
    LiftedResults,
    LoweredParameters,
    LoweredResults,
}

pub fn abi() -> u32 {
    // SAFETY: the call takes nothing.
    unsafe { witcall_abi() }
}

pub fn version(version: &mut [u8]) -> Status {
    // SAFETY: the pointer and the length are those of one slice.
    unsafe { witcall_version(version.as_mut_ptr(), version.len()) }
}

pub fn status_line(status: Status, line: &mut [u8]) -> Status {
    // SAFETY: as above.
    unsafe { witcall_status_line(status, line.as_mut_ptr(), line.len()) }
}

/// What is wrong with texts, which `bytes` has one after another.
pub fn explain(bytes: &[u8], lengths: &[usize], json: &mut [u8]) -> Status {
    let (texts, count) = (lengths.as_ptr(), lengths.len());
    // SAFETY: each pointer goes with the length of its slice.
    unsafe { witcall_explain(bytes.as_ptr(), bytes.len(), texts, count, json.as_mut_ptr(), json.len()) }
}

impl Handle {
    /// Opens a package from its inputs, which `bytes` has one after another.
    pub fn open(bytes: &[u8], lengths: &[usize]) -> (Handle, Status) {
        let mut handle = Handle { at: ptr::null_mut(), is_open: 0 };
        let (inputs, count) = (lengths.as_ptr(), lengths.len());
        // SAFETY: each pointer goes with the length of its slice. The handle stands for nothing before.
        let status = unsafe { witcall_open_set(bytes.as_ptr(), bytes.len(), inputs, count, &mut handle) };
        (handle, status)
    }

    /// Opens the package that a module carries.
    pub fn open_module(module: &[u8]) -> (Handle, Status) {
        let mut handle = Handle { at: ptr::null_mut(), is_open: 0 };
        // SAFETY: the pointer and the length are those of one slice. The handle stands for nothing before.
        let status = unsafe { witcall_open_module(module.as_ptr(), module.len(), &mut handle) };
        (handle, status)
    }

    pub fn line(&mut self, line: &mut [u8]) -> Status {
        // SAFETY: the pointer and the length are those of one slice.
        unsafe { witcall_line(self, line.as_mut_ptr(), line.len()) }
    }

    pub fn find(&mut self, place: Place, owner: &str, name: &str) -> Status {
        let find = match place {
            Place::Interface => witcall_find,
            Place::Import => witcall_find_import,
            Place::Export => witcall_find_export,
        };
        // SAFETY: each pointer goes with the length of its slice.
        unsafe { find(self, owner.as_ptr(), owner.len(), name.as_ptr(), name.len()) }
    }

    pub fn row(&mut self, number: u32, row: &mut RowInfo) -> Status {
        // SAFETY: the row is borrowed for the call.
        unsafe { witcall_row(self, number, row) }
    }

    pub fn member(&mut self, row: u32, index: u32, member: &mut MemberInfo) -> Status {
        // SAFETY: the member is borrowed for the call.
        unsafe { witcall_member(self, row, index, member) }
    }

    pub fn name(&mut self, of: Name, name: &mut [u8]) -> Status {
        let (at, len) = (name.as_mut_ptr(), name.len());
        // SAFETY: the pointer and the length are those of one slice.
        unsafe {
            match of {
                Name::Row(row) => witcall_row_name(self, row, at, len),
                Name::Member(row, index) => witcall_member_name(self, row, index, at, len),
                Name::Owner(kind, owner) => witcall_owner_name(self, kind, owner, at, len),
            }
        }
    }

    pub fn write_binary(&mut self, bytes: &mut [u8]) -> Status {
        // SAFETY: the pointer and the length are those of one slice.
        unsafe { witcall_to_binary(self, bytes.as_mut_ptr(), bytes.len()) }
    }

    pub fn write_text(&mut self, text: &mut [u8]) -> Status {
        // SAFETY: as above.
        unsafe { witcall_to_text(self, text.as_mut_ptr(), text.len()) }
    }

    pub fn describe(&mut self, json: &mut [u8]) -> Status {
        // SAFETY: as above.
        unsafe { witcall_describe(self, json.as_mut_ptr(), json.len()) }
    }

    pub fn kinds(&mut self, side: Side, func: u32, kinds: &mut [u32]) -> Status {
        let ask = match side {
            Side::LiftedParameters => witcall_lifted_params,
            Side::LiftedResults => witcall_lifted_result,
            Side::LoweredParameters => witcall_lowered_params,
            Side::LoweredResults => witcall_lowered_result,
        };
        // SAFETY: the pointer and the length are those of one slice.
        unsafe { ask(self, func, kinds.as_mut_ptr(), kinds.len()) }
    }

    pub fn begin(&mut self, func: u32, flats: &[RawValue], call: &mut RawCall) -> Status {
        // SAFETY: the pointer and the length are those of one slice, and the call is borrowed for this call.
        unsafe { witcall_begin(self, func, flats.as_ptr(), flats.len(), call) }
    }

    /// What a half asks for. Without an answer it is the first half.
    pub fn requests(
        &mut self,
        call: &RawCall,
        answer: Option<&[RawValue]>,
        memory: &mut [u8],
        requests: &mut [RawRequest],
        limit: u64,
    ) -> Status {
        let (from, from_len) = (memory.as_mut_ptr(), memory.len());
        let (asked, room) = (requests.as_mut_ptr(), requests.len());
        // SAFETY: each pointer goes with the length of its slice, and those that are written do not overlap.
        unsafe {
            match answer {
                None => witcall_call_enter_requests(self, call, from, from_len, asked, room, limit),
                Some(answer) => {
                    let (values, count) = (answer.as_ptr(), answer.len());
                    witcall_call_leave_requests(self, call, values, count, from, from_len, asked, room, limit)
                }
            }
        }
    }

    /// Carries values from one memory into blocks of another one. Without an answer it is the first half.
    pub fn carry(
        &mut self,
        call: &RawCall,
        answer: Option<&[RawValue]>,
        [from, to]: [&mut [u8]; 2],
        blocks: &[RawBlock],
        told: &mut [RawValue; MAX_VALUES],
    ) -> Status {
        let (from, from_len, to, to_len) = (from.as_mut_ptr(), from.len(), to.as_mut_ptr(), to.len());
        let (granted, count, told) = (blocks.as_ptr(), blocks.len(), told.as_mut_ptr());
        // SAFETY: as above; both memories are borrowed for writing, so they do not overlap.
        unsafe {
            match answer {
                None => witcall_call_enter(self, call, from, from_len, to, to_len, granted, count, told, MAX_VALUES),
                Some(answer) => {
                    let (at, len) = (answer.as_ptr(), answer.len());
                    witcall_call_leave(
                        self, call, at, len, from, from_len, to, to_len, granted, count, told, MAX_VALUES,
                    )
                }
            }
        }
    }

    /// What arguments as JSON ask for.
    pub fn json_requests(&mut self, func: u32, json: &str, requests: &mut [RawRequest], limit: u64) -> Status {
        let (asked, room) = (requests.as_mut_ptr(), requests.len());
        // SAFETY: each pointer goes with the length of its slice.
        unsafe { witcall_json_requests(self, func, json.as_ptr(), json.len(), asked, room, limit) }
    }

    /// Puts arguments as JSON into blocks of a memory.
    pub fn fill_json(
        &mut self,
        func: u32,
        json: &str,
        memory: &mut [u8],
        blocks: &[RawBlock],
        told: &mut [RawValue; MAX_VALUES],
    ) -> Status {
        let (to, to_len) = (memory.as_mut_ptr(), memory.len());
        let (granted, count, told) = (blocks.as_ptr(), blocks.len(), told.as_mut_ptr());
        // SAFETY: each pointer goes with the length of its slice, and no two slices overlap.
        unsafe {
            witcall_fill_json(self, func, json.as_ptr(), json.len(), to, to_len, granted, count, told, MAX_VALUES)
        }
    }

    /// What is wrong in JSON that is none of the arguments, as a line.
    pub fn json_fault(&mut self, func: u32, json: &str, line: &mut [u8]) -> Status {
        let (to, room) = (line.as_mut_ptr(), line.len());
        // SAFETY: each pointer goes with the length of its slice, and no two slices overlap.
        unsafe { witcall_json_fault(self, func, json.as_ptr(), json.len(), to, room) }
    }

    /// Writes the result that a core function answered as JSON.
    pub fn read_json(
        &mut self,
        func: u32,
        answer: &[RawValue],
        memory: &mut [u8],
        json: &mut [u8],
        limit: u64,
    ) -> Status {
        let (values, count) = (answer.as_ptr(), answer.len());
        let (from, from_len) = (memory.as_mut_ptr(), memory.len());
        // SAFETY: each pointer goes with the length of its slice, and no two slices overlap.
        unsafe { witcall_read_json(self, func, values, count, from, from_len, json.as_mut_ptr(), json.len(), limit) }
    }

    /// Writes the arguments that a component passed to its import as JSON.
    pub fn read_arguments_json(
        &mut self,
        func: u32,
        flats: &[RawValue],
        memory: &mut [u8],
        json: &mut [u8],
        limit: u64,
    ) -> Status {
        let (values, count) = (flats.as_ptr(), flats.len());
        let (from, from_len) = (memory.as_mut_ptr(), memory.len());
        let (to, room) = (json.as_mut_ptr(), json.len());
        // SAFETY: each pointer goes with the length of its slice, and no two slices overlap.
        unsafe { witcall_read_arguments_json(self, func, values, count, from, from_len, to, room, limit) }
    }

    /// What a result as JSON asks for.
    pub fn result_json_requests(&mut self, func: u32, json: &str, requests: &mut [RawRequest], limit: u64) -> Status {
        let (asked, room) = (requests.as_mut_ptr(), requests.len());
        // SAFETY: each pointer goes with the length of its slice.
        unsafe { witcall_result_json_requests(self, func, json.as_ptr(), json.len(), asked, room, limit) }
    }

    /// Puts a result as JSON into blocks and the return area of a memory.
    pub fn fill_result_json(
        &mut self,
        func: u32,
        (flats, json): (&[RawValue], &str),
        memory: &mut [u8],
        blocks: &[RawBlock],
        told: &mut [RawValue; MAX_VALUES],
    ) -> Status {
        let (values, count) = (flats.as_ptr(), flats.len());
        let (text, len) = (json.as_ptr(), json.len());
        let (to, to_len) = (memory.as_mut_ptr(), memory.len());
        let (granted, granted_len, told) = (blocks.as_ptr(), blocks.len(), told.as_mut_ptr());
        // SAFETY: each pointer goes with the length of its slice, and no two slices overlap.
        unsafe {
            witcall_fill_result_json(
                self,
                func,
                values,
                count,
                text,
                len,
                to,
                to_len,
                granted,
                granted_len,
                told,
                MAX_VALUES,
            )
        }
    }
}
