/* witcall for C hosts: typed calls between two linear memories that the host keeps where they are. docs/C.md is its manual.
 *
 * A call is made in halves, so that no code of a component runs within the library:
 *   1. witcall_enter_requests tells which blocks the arguments need in the callee, whose allocator grants them;
 *   2. witcall_enter puts the arguments into these blocks, and tells the values for the core function;
 *   3. the host runs the core function;
 *   4. witcall_leave_requests, the caller's allocator, and witcall_leave carry what it answered into the caller;
 *   5. the host runs post-return.
 *
 * A witcall_call keeps the function and the core values of a call from one half to the other: witcall_begin writes it, and
 * witcall_call_enter, witcall_call_leave and their requests take it in place of both.
 *
 * A host that is the caller itself has values as texts of JSON, and one memory: witcall_json_requests and witcall_fill_json are the first half,
 * and witcall_read_json is the second. So has a host that is called: witcall_read_arguments_json is its first half, and
 * witcall_result_json_requests and witcall_fill_result_json are the second.
 *
 * What the host owes. No test of the library can find a break of these:
 *   - Each pointer is good for its length, and of length 0 it may be null. A pointer to a handle, a call, a row or a member is not null.
 *     (A pointer doesn't tell what it points to.)
 *   - No two arrays of one call overlap, the memories too. (The library writes one while it reads another, and compares no addresses.)
 *   - A handle is WITCALL_NONE, or was written by witcall_open, witcall_open_set or witcall_open_module. Of copies of a handle one is used. (An
 *     address tells nothing of who wrote it.)
 *   - One call at a time uses a handle, and calls of two threads are ordered; see below. (A call doesn't know of others.)
 *   - Each block was free in the memory that it is in. (Only that memory's allocator knows which bytes are free.)
 *   - func is the function that the host runs, and answer is what its core function returned. (Other values of the same kinds look the same.)
 *   - The flats of witcall_leave are those of witcall_enter, and those of witcall_fill_result_json those of witcall_read_arguments_json. (The
 *     library keeps nothing between the halves; their number and kinds are tested.) A witcall_call has this done. It is as witcall_begin wrote it.
 *   - Between the halves only the allocators and the core function change the memories. (The library doesn't see them then.)
 *   - malloc, realloc and free are of one allocator. malloc and realloc align a block to each power of two up to 16 that divides its size.
 *     (They are the program's.)
 *   - The stack has room for 1 MiB more when a call begins. (A call doesn't see where the stack ends.)
 *   - No call is made from a signal handler, or in the forked child of a process with threads. (A call may hold the allocator's lock.)
 * All else is tested, and told in the status.
 *
 * Threads. A handle may go to another thread, as is proved. If two threads use it, a lock, the start or the join of a thread, or a sequentially
 * consistent atomic puts their calls in order: no proof says that two may read a package at once. Two handles share nothing, so that threads
 * with handles of their own call at the same time. witcall_status_line may be called by any thread at any time. */
#ifndef WITCALL_H
#define WITCALL_H

#include <stddef.h>
#include <stdint.h>

/* The version of this header, and the number of the binary interface that it declares. witcall_version and witcall_abi return those of the
 * library. A host may use a library whose interface has the same number. */
#define WITCALL_VERSION "0.3.0"
#define WITCALL_ABI 2

#ifdef __cplusplus
extern "C" {
#endif

/* The most core values that a core function takes. */
#define WITCALL_MAX_VALUES 17

/* The most bytes of the line of a status (witcall_status_line). */
#define WITCALL_MAX_STATUS_LINE 64

/* The most bytes of the name of a row and of the label of a member (witcall_row_name, witcall_member_name). */
#define WITCALL_MAX_LABEL 255

/* The code of a status. */
#define WITCALL_DONE 0      /* done; count tells how many things were told, if any */
#define WITCALL_REFUSED 1   /* refused: number is that of docs/ERRORS.md; of 71 count is how many are needed, and of 73 the block's index */
#define WITCALL_TRAP 2      /* a trap of the call: number is its kind, 1 to 8 (K1 to K8), and step where it was found */
#define WITCALL_NO_MEMORY 3 /* the library had no memory; number is 66, of witcall_open also 21, 35, 46 or 52 */

/* The steps of a trap. WITCALL_PLACE is that of values as JSON that are put into a memory. */
#define WITCALL_PLACE 0
#define WITCALL_LIFT_ARGS 2
#define WITCALL_LOWER_ARGS 3
#define WITCALL_LIFT_RESULT 5
#define WITCALL_LOWER_RESULT 6

/* Refusals of this library alone, and of texts of JSON. */
#define WITCALL_BAD_JSON 61      /* the text is no UTF-8, no JSON, or nests more than 127 deep */
#define WITCALL_NOT_THIS_TYPE 62 /* the JSON is no array of the function's arguments, and witcall_json_fault tells where; or it is no result */
#define WITCALL_NO_FUNCTION 63 /* no function has this name or this number */
#define WITCALL_NOT_OPEN 70    /* the handle is WITCALL_NONE, closed, or stands for a package that was refused */
#define WITCALL_NO_ROOM 71     /* an array has less room than count */
#define WITCALL_BAD_BLOCK 72   /* a block is misaligned, outside, or meets another one or the return area; nothing was written */
#define WITCALL_OTHER_BLOCK 73 /* the block of index count has another size or alignment than was asked for */
#define WITCALL_BAD_LENGTHS 74 /* the lengths of a set's inputs are not together that of their bytes, or there is no input */
#define WITCALL_NOT_THERE 75   /* no row, no member, no interface or no world has this number */
#define WITCALL_ABOVE_LIMIT 76 /* the requests ask together for more bytes than limit */

/* The kind of a type. Those from WITCALL_LIST on are kinds of rows. */
#define WITCALL_NO_TYPE 0 /* a case without payload, a label of flags, a function without result */
#define WITCALL_BOOL 1
#define WITCALL_S8 2
#define WITCALL_U8 3
#define WITCALL_S16 4
#define WITCALL_U16 5
#define WITCALL_S32 6
#define WITCALL_U32 7
#define WITCALL_S64 8
#define WITCALL_U64 9
#define WITCALL_CHAR 10
#define WITCALL_STRING 11
#define WITCALL_LIST 12
#define WITCALL_OPTION 13
#define WITCALL_RESULT 14
#define WITCALL_TUPLE 15
#define WITCALL_RECORD 16
#define WITCALL_VARIANT 17
#define WITCALL_ENUM 18
#define WITCALL_FLAGS 19
#define WITCALL_ALIAS 20 /* type a = b; */
#define WITCALL_USE 21   /* a name that another interface declares */
#define WITCALL_FUNCTION 22

/* Where a row has its name. */
#define WITCALL_NO_OWNER 0 /* a type without a name, which stands inside another one or in a function */
#define WITCALL_INTERFACE 1
#define WITCALL_WORLD 2

typedef struct {
    uint32_t code;
    uint32_t number;
    uint32_t step;
    uint32_t count; /* 4294967295 stands for as many or more */
} witcall_status;

/* A handle on a package that the library holds, or on why it was refused; WITCALL_NONE stands for nothing. The host doesn't read or change
 * what is in it. */
typedef struct {
    void *at;
    uint32_t is_open;
} witcall_package;

#define WITCALL_NONE {0, 0}

/* A block that is asked for: of size bytes, at a multiple of align. */
typedef struct {
    uint32_t align;
    uint32_t size;
} witcall_request;

/* A block that an allocator has granted. */
typedef struct {
    uint32_t align;
    uint32_t size;
    uint32_t at;
} witcall_block;

/* A core value: an i32, the low 32 bits of bits, if kind is 0, and otherwise an i64. The library writes the kinds 0 and 1, and 0 into the upper
 * half of an i32. */
typedef struct {
    uint32_t kind;
    uint64_t bits;
} witcall_value;

/* A call between its halves: the function's number, and its core values, the first count of flats. The host doesn't change what is in it. */
typedef struct {
    uint32_t func;
    uint32_t count;
    witcall_value flats[WITCALL_MAX_VALUES];
} witcall_call;

/* How a parameter or a result lies in memory, in bytes. offset is its place in the record of all parameters; 0 for a result. */
typedef struct {
    uint32_t size;
    uint32_t align;
    uint32_t offset;
} witcall_part;

/* A type: its kind, the number of its row if it has one, and its size and alignment in a memory, in bytes. All are 0 of WITCALL_NO_TYPE. */
typedef struct {
    uint32_t kind;
    uint32_t row;
    uint32_t size;
    uint32_t align;
} witcall_type_info;

/* A row of a package's table, which has one for each type and each function. type is the row itself: size and align of a function are those of
 * the record of its parameters. target is the element of a list, the type that an alias or a used name stands for, or the result of a function.
 * owner is the number of the interface or of the world, if owner_kind says that there is one. members is the number of fields, of a tuple's
 * elements, of cases, of labels or of parameters. */
typedef struct {
    witcall_type_info type;
    witcall_type_info target;
    uint32_t owner_kind;
    uint32_t owner;
    uint32_t members;
} witcall_row_info;

/* A member of a row: a field, an element of a tuple, a case, a label or a parameter. offset is its place in the row, in bytes; of a case it is
 * the place of the payload, which is one for all cases. The number of a case is its index, and label k is bit k. */
typedef struct {
    witcall_type_info type;
    uint32_t offset;
} witcall_member_info;

/* The number of the library's binary interface: WITCALL_ABI, if it is that of this header. */
uint32_t witcall_abi(void);

/* The library's version, as WITCALL_VERSION, then `+` and the commit that the release was made of, with no end: count bytes.
 * WITCALL_MAX_STATUS_LINE bytes are room for it. */
witcall_status witcall_version(uint8_t *version, size_t version_len);

/* Opens a package from its text or its binary. The handle is written in any case, and is to be closed; what it stood for is forgotten, so
 * close it before. If the package is refused, witcall_line tells the whole line. */
witcall_status witcall_open(const uint8_t *bytes, size_t bytes_len, witcall_package *package);

/* Opens the last package of a set, which may use interfaces of the packages before it. The inputs are texts or binaries, dependencies first.
 * Their bytes stand one after another, and lengths has the length of each, in bytes. The handle is written in any case, and is to be closed,
 * as that of witcall_open. If the lengths are not together bytes_len, or there is none, this is 74, and the handle is WITCALL_NONE. */
witcall_status witcall_open_set(const uint8_t *bytes, size_t bytes_len, const size_t *lengths, size_t lengths_len,
                                witcall_package *package);

/* Opens the package that a binary of another tool carries, with those that it depends on, of which it has what is used: the world of a core
 * module, or a component with a world or with interfaces (docs/FORMATS.md, "Binaries of other tools"). The handle is written in any case, and
 * is to be closed, as that of witcall_open. The world of a module has the number 0: witcall_owner_name tells its full name (WITCALL_WORLD),
 * and witcall_describe what it imports and exports. If the binary carries no package, this is 44, and witcall_explain of its bytes says why. */
witcall_status witcall_open_module(const uint8_t *bytes, size_t bytes_len, witcall_package *package);

/* Frees what a handle stands for, and makes it WITCALL_NONE. Closing it again does nothing. */
void witcall_close(witcall_package *package);

/* The line of the refusal of a handle, as the program writes it, with no line end: count bytes, 0 if it is open. It is as long as the names in
 * it: if there is no room, this is 71, count is its length, and its front is written. */
witcall_status witcall_line(witcall_package *package, uint8_t *line, size_t line_len);

/* The line of a status, of one that is done 0 bytes; WITCALL_MAX_STATUS_LINE bytes are room for each. A refusal by witcall_open has more to
 * tell: see witcall_line. */
witcall_status witcall_status_line(witcall_status status, uint8_t *line, size_t line_len);

/* Finds a function by the full name of its interface (a:b/c, or a:b/c@1.0.0) and its own; count is its number. */
witcall_status witcall_find(witcall_package *package, const uint8_t *interface, size_t interface_len,
                            const uint8_t *function, size_t function_len);

/* Finds a function that a world itself imports or exports, by the full name of the world (a:b/w, or a:b/w@1.0.0) and the function's own; count is
 * its number. It is called as any other. A function of an interface that the world names is found by witcall_find. */
witcall_status witcall_find_import(witcall_package *package, const uint8_t *world, size_t world_len,
                                   const uint8_t *function, size_t function_len);
witcall_status witcall_find_export(witcall_package *package, const uint8_t *world, size_t world_len,
                                   const uint8_t *function, size_t function_len);

/* What a package has: the rows of its table, from 0, and the members of each row, from 0. If there is none of this number, each of these is 75,
 * and what it would write is as it was. The number of a function is that of its row. Of a set the table has all packages. */
witcall_status witcall_row(witcall_package *package, uint32_t number, witcall_row_info *row);
witcall_status witcall_member(witcall_package *package, uint32_t row, uint32_t index, witcall_member_info *member);

/* The name of a row, and the label of a member: count bytes of UTF-8, with no end. A row with no owner and an element of a tuple have 0 bytes. The
 * cases of an option are called none and some, those of a result ok and error. WITCALL_MAX_LABEL bytes are room for each. */
witcall_status witcall_row_name(witcall_package *package, uint32_t row, uint8_t *name, size_t name_len);
witcall_status witcall_member_name(witcall_package *package, uint32_t row, uint32_t index, uint8_t *name, size_t name_len);

/* The full name of an interface (WITCALL_INTERFACE) or of a world (WITCALL_WORLD), as a:b/c or a:b/c@1.0.0: count bytes. Both have numbers from
 * 0. If there is no room, this is 71, and count is the length. */
witcall_status witcall_owner_name(witcall_package *package, uint32_t owner_kind, uint32_t owner, uint8_t *name, size_t name_len);

/* The package as a binary, and as a text: count bytes. If there is no room, this is 71, and count is the length. Of a set it is the last package,
 * which opens again behind the others. If it would have more than 1,048,576 bytes, this is 17 of a binary, and 36 of a text. */
witcall_status witcall_to_binary(witcall_package *package, uint8_t *bytes, size_t bytes_len);
witcall_status witcall_to_text(witcall_package *package, uint8_t *text, size_t text_len);

/* The package as one JSON document, with all packages of a set: interfaces, worlds, and each row of the table with its members, sizes, alignments,
 * offsets and core signatures. docs/package.schema.json is its schema. count bytes; if there is no room, this is 71, and count is the length. */
witcall_status witcall_describe(witcall_package *package, uint8_t *json, size_t json_len);

/* What is wrong with the packages of WIT texts, or of binaries as of witcall_open_module, in any order, as one JSON array. The texts' bytes stand one after another, as those of
 * witcall_open_set; texts of one package are its files. A fault is an object, as `wit-explain check --json` has it: file is the index of the text,
 * in digits, of a binary with a colon and the name of its package behind it; line, column, endLine and endColumn are its place, if it has one; error is its number, and message its words; hint says what to do.
 * The array is empty if nothing is wrong. count bytes; if there is no room, this is 71, and count is the length. */
witcall_status witcall_explain(const uint8_t *bytes, size_t bytes_len, const size_t *lengths, size_t lengths_len, uint8_t *json, size_t json_len);

/* How the parameters and the result of a function lie in memory; count parts. */
witcall_status witcall_parameters(witcall_package *package, uint32_t func, witcall_part *parts, size_t parts_len);
witcall_status witcall_result(witcall_package *package, uint32_t func, witcall_part *parts, size_t parts_len);

/* The core signature of the callee's function (lifted) and of the caller's import (lowered): count kinds, 0 for an i32 and 1
 * for an i64. */
witcall_status witcall_lifted_params(witcall_package *package, uint32_t func, uint32_t *kinds, size_t kinds_len);
witcall_status witcall_lifted_result(witcall_package *package, uint32_t func, uint32_t *kinds, size_t kinds_len);
witcall_status witcall_lowered_params(witcall_package *package, uint32_t func, uint32_t *kinds, size_t kinds_len);
witcall_status witcall_lowered_result(witcall_package *package, uint32_t func, uint32_t *kinds, size_t kinds_len);

/* Tells the blocks that witcall_enter will ask the callee for, in order: count in all, of which as many are told as there is room
 * for. So a host may ask with no room first. flats are those of a whole call, the return area's address behind the arguments.
 *
 * limit is the most bytes that all of them may have together, and bounds the time of the call (docs/C.md). Pass the greatest
 * size of the callee's memory. As soon as the blocks have more bytes, this is 76, so arguments that are no values may be 76 too,
 * before their trap is found. If this is not done, requests says nothing. */
witcall_status witcall_enter_requests(witcall_package *package, uint32_t func, const witcall_value *flats, size_t flats_len,
                                      uint8_t *caller, size_t caller_len, witcall_request *requests, size_t requests_len,
                                      uint64_t limit);

/* Puts the arguments into the callee's blocks: count values for its core function. The caller is only read. handed has room for
 * WITCALL_MAX_VALUES, whatever the function. The number and kinds of flats are tested first, and then the blocks, before a byte is
 * written. If there are fewer blocks than requests, this is K6. */
witcall_status witcall_enter(witcall_package *package, uint32_t func, const witcall_value *flats, size_t flats_len,
                             uint8_t *caller, size_t caller_len, uint8_t *callee, size_t callee_len,
                             const witcall_block *blocks, size_t blocks_len, witcall_value *handed, size_t handed_len);

/* Tells the blocks that witcall_leave will ask the caller for, in the same way, and limit is the greatest size of the caller's
 * memory. answer is what the core function answered. */
witcall_status witcall_leave_requests(witcall_package *package, uint32_t func, const witcall_value *answer, size_t answer_len,
                                      uint8_t *callee, size_t callee_len, witcall_request *requests, size_t requests_len,
                                      uint64_t limit);

/* Puts what the core function answered into the caller's blocks and its return area: count values for the caller. flats are those
 * that witcall_enter was given: if their number or their kinds are not the function's, this is K8 in step WITCALL_LOWER_RESULT, and no
 * byte is written. The callee is only read. back has room for WITCALL_MAX_VALUES. */
witcall_status witcall_leave(witcall_package *package, uint32_t func, const witcall_value *flats, size_t flats_len,
                             const witcall_value *answer, size_t answer_len, uint8_t *callee, size_t callee_len,
                             uint8_t *caller, size_t caller_len, const witcall_block *blocks, size_t blocks_len,
                             witcall_value *back, size_t back_len);

/* Calls with values as texts of JSON (docs/FORMATS.md), over the memory of the component that is called. A text is UTF-8, with no end.
 *
 * Tells the blocks that witcall_fill_json will ask for, in order, in the same way as witcall_enter_requests. json is an array of one value
 * for each parameter. If it is none, this is 61 or 62. If a text or a list in it needs more than 16,777,216 bytes, this is K4 in step
 * WITCALL_PLACE. limit is the most bytes that the blocks may have together, and with more of them this is 76: pass the greatest size of the
 * memory. If this is not done, requests is as it was. */
witcall_status witcall_json_requests(witcall_package *package, uint32_t func, const uint8_t *json, size_t json_len,
                                     witcall_request *requests, size_t requests_len, uint64_t limit);

/* Puts the arguments that the text says into the memory's blocks: count values for the core function. handed has room for WITCALL_MAX_VALUES,
 * whatever the function. The text is tested first, then the room, and then the blocks, before a byte is written. If there are fewer blocks
 * than requests, this is K6 in step WITCALL_PLACE. */
witcall_status witcall_fill_json(witcall_package *package, uint32_t func, const uint8_t *json, size_t json_len,
                                 uint8_t *memory, size_t memory_len, const witcall_block *blocks, size_t blocks_len,
                                 witcall_value *handed, size_t handed_len);

/* After 62: what is wrong in the text, as one line with no line end: count bytes of UTF-8. It begins with the first place, as [0].lines[2].count,
 * and says behind ": " what has to stand there, and what does. If the text is no array of as many values, the line has no place, and begins
 * with a letter. If the text is an array of the arguments, this is 0 bytes. If there is no room, this is 71, and count is the length. */
witcall_status witcall_json_fault(witcall_package *package, uint32_t func, const uint8_t *json, size_t json_len,
                                  uint8_t *line, size_t line_len);

/* The result that the core function answered, as compact JSON: count bytes, 0 if the function has no result. It is the value alone, with no
 * array around it. The memory is only read. If there is no room, this is 71, and count is the length. limit is as that of
 * witcall_leave_requests, and bounds the time and the memory of the call (docs/C.md). */
witcall_status witcall_read_json(witcall_package *package, uint32_t func, const witcall_value *answer, size_t answer_len,
                                 uint8_t *memory, size_t memory_len, uint8_t *json, size_t json_len, uint64_t limit);

/* Calls of a host's own function by a guest that imports it, with values as texts of JSON, over the memory of the guest. flats are the core values
 * that the guest passed to its import: those of the arguments, and behind them the return area's address, if the result does not go flat.
 *
 * The arguments that the guest passed, as compact JSON: an array of one value for each parameter, in count bytes. The memory is only read. If the
 * number or the kinds of flats are not the function's, this is K8 in step WITCALL_LIFT_ARGS. If there is no room, this is 71, and count is the
 * length. limit is as that of witcall_enter_requests, and bounds the time and the memory of the call (docs/C.md). */
witcall_status witcall_read_arguments_json(witcall_package *package, uint32_t func, const witcall_value *flats, size_t flats_len,
                                           uint8_t *memory, size_t memory_len, uint8_t *json, size_t json_len, uint64_t limit);

/* Tells the blocks that witcall_fill_result_json will ask for, in order, in the same way as witcall_json_requests. json is the value of the result,
 * with no array around it, and of 0 bytes if the function has no result. If it is no such value, this is 61 or 62. The return area is no block. */
witcall_status witcall_result_json_requests(witcall_package *package, uint32_t func, const uint8_t *json, size_t json_len,
                                            witcall_request *requests, size_t requests_len, uint64_t limit);

/* Puts the result that the text says into the guest's blocks and its return area: count values for the guest, at most one. back has room for
 * WITCALL_MAX_VALUES, whatever the function. The text is tested first, then the room, then flats as by witcall_read_arguments_json, and then the
 * blocks, before a byte is written: a block that meets the return area is 72. Then the return area is tested, and if it is misaligned or not
 * inside, this is K3 or K4 in step WITCALL_PLACE. If there are fewer blocks than requests, this is K6 in step WITCALL_PLACE. */
witcall_status witcall_fill_result_json(witcall_package *package, uint32_t func, const witcall_value *flats, size_t flats_len,
                                        const uint8_t *json, size_t json_len, uint8_t *memory, size_t memory_len,
                                        const witcall_block *blocks, size_t blocks_len, witcall_value *back, size_t back_len);

/* Begins a call of a function with these flats, and writes it. If their number or their kinds are not the function's, this is K8 in step
 * WITCALL_LIFT_ARGS. If it is not done, the call is as it was. */
witcall_status witcall_begin(witcall_package *package, uint32_t func, const witcall_value *flats, size_t flats_len, witcall_call *call);

/* The halves of a call that was begun, and what they will ask for: as the functions of these names above, of its function and its flats. */
witcall_status witcall_call_enter_requests(witcall_package *package, const witcall_call *call, uint8_t *caller, size_t caller_len,
                                           witcall_request *requests, size_t requests_len, uint64_t limit);
witcall_status witcall_call_enter(witcall_package *package, const witcall_call *call, uint8_t *caller, size_t caller_len,
                                  uint8_t *callee, size_t callee_len, const witcall_block *blocks, size_t blocks_len,
                                  witcall_value *handed, size_t handed_len);
witcall_status witcall_call_leave_requests(witcall_package *package, const witcall_call *call, const witcall_value *answer,
                                           size_t answer_len, uint8_t *callee, size_t callee_len, witcall_request *requests,
                                           size_t requests_len, uint64_t limit);
witcall_status witcall_call_leave(witcall_package *package, const witcall_call *call, const witcall_value *answer, size_t answer_len,
                                  uint8_t *callee, size_t callee_len, uint8_t *caller, size_t caller_len,
                                  const witcall_block *blocks, size_t blocks_len, witcall_value *back, size_t back_len);

#ifdef __cplusplus
}
#endif

/* The sizes of the structs, as the library has them. */
#if defined(__cplusplus)
#define WITCALL_HAS_SIZE(type, size) static_assert(sizeof(type) == (size), "another size than the library's")
#elif defined(__STDC_VERSION__) && __STDC_VERSION__ >= 201112L
#define WITCALL_HAS_SIZE(type, size) _Static_assert(sizeof(type) == (size), "another size than the library's")
#else
#define WITCALL_HAS_SIZE(type, size) struct witcall_has_size
#endif
WITCALL_HAS_SIZE(witcall_status, 16);
WITCALL_HAS_SIZE(witcall_package, 16);
WITCALL_HAS_SIZE(witcall_request, 8);
WITCALL_HAS_SIZE(witcall_block, 12);
WITCALL_HAS_SIZE(witcall_value, 16);
WITCALL_HAS_SIZE(witcall_call, 280);
WITCALL_HAS_SIZE(witcall_part, 12);
WITCALL_HAS_SIZE(witcall_type_info, 16);
WITCALL_HAS_SIZE(witcall_row_info, 44);
WITCALL_HAS_SIZE(witcall_member_info, 20);
#undef WITCALL_HAS_SIZE

#endif
