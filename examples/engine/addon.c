/* The library for Node: the functions of witcall.h that host.mjs needs, over views of the engine's memories. What the
 * library refuses, and what traps, is thrown.
 *
 *   open(bytes) -> package
 *   openSet(bytes, [length]) -> package        bytes has all texts, and length is that of each
 *   find(package, interface, function) -> number
 *   enterRequests(package, function, flats, caller, limit) -> [{align, size}]
 *   enter(package, function, flats, caller, callee, [{align, size, at}]) -> flats
 *   leaveRequests(package, function, answer, callee, limit) -> [{align, size}]
 *   leave(package, function, flats, answer, callee, caller, [{align, size, at}]) -> flats
 *   close(package)
 *
 * Flat values are numbers (i32) and bigints (i64). A limit is a number: the greatest size of the memory that is asked for blocks.
 * A package is not to be used once it is closed.
 */
#define NAPI_VERSION 8
#include "witcall.h"
#include <node_api.h>
#include <stdbool.h>
#include <stdio.h>
#include <stdlib.h>
#include <string.h>

typedef struct {
    uint8_t *at;
    size_t len;
} bytes;

typedef struct {
    witcall_value at[WITCALL_MAX_VALUES];
    size_t len;
} values;

typedef struct {
    witcall_block *at;
    size_t len;
} blocks;

/* A set has at most 64 packages. */
typedef struct {
    size_t at[64];
    size_t len;
} sizes;

/* ---- what JavaScript hands over; false where it is something else ---- */

static bool bytes_of(napi_env env, napi_value view, bytes *out) {
    napi_typedarray_type type;
    void *at = NULL;
    if (napi_get_typedarray_info(env, view, &type, &out->len, &at, NULL, NULL) != napi_ok)
        return false;
    out->at = at;
    return type == napi_uint8_array;
}

static bool number_of(napi_env env, napi_value number, uint32_t *out) {
    return napi_get_value_uint32(env, number, out) == napi_ok;
}

static bool value_of(napi_env env, napi_value flat, witcall_value *out) {
    bool whole;
    uint32_t number;
    if (number_of(env, flat, &number)) {
        *out = (witcall_value){.kind = 0, .bits = number};
        return true;
    }
    out->kind = 1;
    return napi_get_value_bigint_uint64(env, flat, &out->bits, &whole) == napi_ok;
}

static bool values_of(napi_env env, napi_value flats, values *out) {
    uint32_t count;
    if (napi_get_array_length(env, flats, &count) != napi_ok || count > WITCALL_MAX_VALUES)
        return false;
    for (uint32_t i = 0; i < count; i++) {
        napi_value flat;
        if (napi_get_element(env, flats, i, &flat) != napi_ok || !value_of(env, flat, &out->at[i]))
            return false;
    }
    out->len = count;
    return true;
}

static bool named_number(napi_env env, napi_value object, const char *name, uint32_t *out) {
    napi_value number;
    return napi_get_named_property(env, object, name, &number) == napi_ok && number_of(env, number, out);
}

static bool block_of(napi_env env, napi_value object, witcall_block *out) {
    return named_number(env, object, "align", &out->align) && named_number(env, object, "size", &out->size) &&
           named_number(env, object, "at", &out->at);
}

/* The caller frees the blocks. */
static bool blocks_of(napi_env env, napi_value list, blocks *out) {
    uint32_t count;
    if (napi_get_array_length(env, list, &count) != napi_ok)
        return false;
    out->at = calloc((size_t)count + 1, sizeof(witcall_block));
    out->len = count;
    for (uint32_t i = 0; out->at && i < count; i++) {
        napi_value object;
        if (napi_get_element(env, list, i, &object) != napi_ok || !block_of(env, object, &out->at[i])) {
            free(out->at);
            return false;
        }
    }
    return out->at != NULL;
}

/* A limit is a whole number of bytes from 0 up to the greatest that a number of JavaScript counts. */
static bool limit_of(napi_env env, napi_value number, uint64_t *out) {
    double limit;
    if (napi_get_value_double(env, number, &limit) != napi_ok || !(limit >= 0 && limit <= 9007199254740991.0))
        return false;
    *out = (uint64_t)limit;
    return true;
}

static bool sizes_of(napi_env env, napi_value list, sizes *out) {
    uint32_t count, size;
    if (napi_get_array_length(env, list, &count) != napi_ok || count > 64)
        return false;
    for (uint32_t i = 0; i < count; i++) {
        napi_value number;
        if (napi_get_element(env, list, i, &number) != napi_ok || !number_of(env, number, &size))
            return false;
        out->at[i] = size;
    }
    out->len = count;
    return true;
}

/* ---- what JavaScript gets ---- */

static napi_value thrown(napi_env env, const char *message) {
    napi_throw_error(env, NULL, message);
    return NULL;
}

static napi_value told(napi_env env, witcall_status status) {
    char line[WITCALL_MAX_STATUS_LINE + 1];
    witcall_status told = witcall_status_line(status, (uint8_t *)line, sizeof line - 1);
    line[told.code == WITCALL_DONE ? told.count : 0] = '\0';
    return thrown(env, line);
}

/* A refusal by witcall_open or witcall_open_set, by its whole line if that has room, which frees the handle. */
static napi_value refused(napi_env env, witcall_status status, witcall_package *package) {
    char line[512];
    witcall_status told = witcall_line(package, (uint8_t *)line, sizeof line - 1);
    if (told.code != WITCALL_DONE)
        told = witcall_status_line(status, (uint8_t *)line, sizeof line - 1);
    line[told.code == WITCALL_DONE ? told.count : 0] = '\0';
    witcall_close(package);
    free(package);
    return thrown(env, line);
}

static napi_value flats_to(napi_env env, const witcall_value *flats, uint32_t count) {
    napi_value list, flat;
    napi_create_array_with_length(env, count, &list);
    for (uint32_t i = 0; i < count; i++) {
        if (flats[i].kind == 0)
            napi_create_uint32(env, flats[i].bits, &flat);
        else
            napi_create_bigint_uint64(env, flats[i].bits, &flat);
        napi_set_element(env, list, i, flat);
    }
    return list;
}

static void set_number(napi_env env, napi_value object, const char *name, uint32_t number) {
    napi_value value;
    napi_create_uint32(env, number, &value);
    napi_set_named_property(env, object, name, value);
}

static napi_value requests_to(napi_env env, const witcall_request *asked, uint32_t count) {
    napi_value list, object;
    napi_create_array_with_length(env, count, &list);
    for (uint32_t i = 0; i < count; i++) {
        napi_create_object(env, &object);
        set_number(env, object, "align", asked[i].align);
        set_number(env, object, "size", asked[i].size);
        napi_set_element(env, list, i, object);
    }
    return list;
}

/* ---- the functions ---- */

static bool arguments_of(napi_env env, napi_callback_info info, napi_value *arguments, size_t count) {
    size_t given = count;
    return napi_get_cb_info(env, info, &given, arguments, NULL, NULL) == napi_ok && given == count;
}

/* The package and the function's number, which each call begins with. */
static bool function_of(napi_env env, napi_value *arguments, witcall_package **package, uint32_t *func) {
    return napi_get_value_external(env, arguments[0], (void **)package) == napi_ok && number_of(env, arguments[1], func);
}

/* A handle that JavaScript keeps as a package; NULL if there is no memory. */
static witcall_package *new_package(void) {
    witcall_package *package = malloc(sizeof *package);
    if (package)
        *package = (witcall_package)WITCALL_NONE;
    return package;
}

static napi_value opened(napi_env env, witcall_status status, witcall_package *package) {
    napi_value handle;
    if (status.code != WITCALL_DONE)
        return refused(env, status, package);
    napi_create_external(env, package, NULL, NULL, &handle);
    return handle;
}

static napi_value open_package(napi_env env, napi_callback_info info) {
    napi_value argument;
    bytes text;
    if (!arguments_of(env, info, &argument, 1) || !bytes_of(env, argument, &text))
        return thrown(env, "open(bytes)");
    witcall_package *package = new_package();
    if (!package)
        return thrown(env, "no memory");
    return opened(env, witcall_open(text.at, text.len, package), package);
}

static napi_value open_set(napi_env env, napi_callback_info info) {
    napi_value arguments[2];
    bytes texts;
    sizes lengths;
    if (!arguments_of(env, info, arguments, 2) || !bytes_of(env, arguments[0], &texts) ||
        !sizes_of(env, arguments[1], &lengths))
        return thrown(env, "openSet(bytes, lengths)");
    witcall_package *package = new_package();
    if (!package)
        return thrown(env, "no memory");
    return opened(env, witcall_open_set(texts.at, texts.len, lengths.at, lengths.len, package), package);
}

static napi_value close_package(napi_env env, napi_callback_info info) {
    napi_value argument;
    witcall_package *package;
    if (!arguments_of(env, info, &argument, 1) || napi_get_value_external(env, argument, (void **)&package) != napi_ok)
        return thrown(env, "close(package)");
    witcall_close(package);
    free(package);
    return NULL;
}

static napi_value find(napi_env env, napi_callback_info info) {
    napi_value arguments[3], number;
    witcall_package *package;
    char interface[256], function[256];
    size_t interface_len, function_len;
    if (!arguments_of(env, info, arguments, 3) || napi_get_value_external(env, arguments[0], (void **)&package) != napi_ok ||
        napi_get_value_string_utf8(env, arguments[1], interface, sizeof interface, &interface_len) != napi_ok ||
        napi_get_value_string_utf8(env, arguments[2], function, sizeof function, &function_len) != napi_ok)
        return thrown(env, "find(package, interface, function)");
    witcall_status found = witcall_find(
        package, (const uint8_t *)interface, interface_len, (const uint8_t *)function, function_len);
    if (found.code != WITCALL_DONE)
        return told(env, found);
    napi_create_uint32(env, found.count, &number);
    return number;
}

/* What a half asks for, which is asked twice: for how many blocks they are, and for the blocks. */

/* The most requests within a limit. Each is that of an address and a length, 8 bytes, which are core values, or lie in a record of at most
 * 16,777,216 bytes or in another block. */
static size_t most_requests(uint64_t limit) {
    uint64_t most = limit / 8 + 16777216 / 8 + WITCALL_MAX_VALUES;
    return most < SIZE_MAX / sizeof(witcall_request) ? most : SIZE_MAX / sizeof(witcall_request) - 1;
}

/* Room for so many requests; NULL if there is none, or they are more than the limit allows. */
static witcall_request *room_for(size_t count, uint64_t limit) {
    return count <= most_requests(limit) ? calloc(count + 1, sizeof(witcall_request)) : NULL;
}

/* The blocks that the second call told. They are no more than the first one counted, unless another thread changed the memory. */
static napi_value requests_or_fault(napi_env env, witcall_status asked, witcall_request *requests, uint32_t counted) {
    napi_value list = NULL;
    if (asked.code != WITCALL_DONE)
        told(env, asked);
    else if (asked.count > counted)
        thrown(env, "the memory changed");
    else
        list = requests_to(env, requests, asked.count);
    free(requests);
    return list;
}

static napi_value enter_requests(napi_env env, napi_callback_info info) {
    napi_value arguments[5];
    witcall_package *package;
    uint32_t func;
    uint64_t limit;
    values flats;
    bytes caller;
    if (!arguments_of(env, info, arguments, 5) || !function_of(env, arguments, &package, &func) ||
        !values_of(env, arguments[2], &flats) || !bytes_of(env, arguments[3], &caller) || !limit_of(env, arguments[4], &limit))
        return thrown(env, "enterRequests(package, function, flats, caller, limit)");
    witcall_status asked = witcall_enter_requests(package, func, flats.at, flats.len, caller.at, caller.len, NULL, 0, limit);
    if (asked.code != WITCALL_DONE)
        return told(env, asked);
    const uint32_t count = asked.count;
    witcall_request *requests = room_for(count, limit);
    if (!requests)
        return thrown(env, "no memory");
    asked = witcall_enter_requests(package, func, flats.at, flats.len, caller.at, caller.len, requests, count, limit);
    return requests_or_fault(env, asked, requests, count);
}

static napi_value leave_requests(napi_env env, napi_callback_info info) {
    napi_value arguments[5];
    witcall_package *package;
    uint32_t func;
    uint64_t limit;
    values answer;
    bytes callee;
    if (!arguments_of(env, info, arguments, 5) || !function_of(env, arguments, &package, &func) ||
        !values_of(env, arguments[2], &answer) || !bytes_of(env, arguments[3], &callee) || !limit_of(env, arguments[4], &limit))
        return thrown(env, "leaveRequests(package, function, answer, callee, limit)");
    witcall_status asked = witcall_leave_requests(package, func, answer.at, answer.len, callee.at, callee.len, NULL, 0, limit);
    if (asked.code != WITCALL_DONE)
        return told(env, asked);
    const uint32_t count = asked.count;
    witcall_request *requests = room_for(count, limit);
    if (!requests)
        return thrown(env, "no memory");
    asked = witcall_leave_requests(package, func, answer.at, answer.len, callee.at, callee.len, requests, count, limit);
    return requests_or_fault(env, asked, requests, count);
}

static napi_value flats_or_fault(napi_env env, witcall_status status, const witcall_value *flats) {
    return status.code == WITCALL_DONE ? flats_to(env, flats, status.count) : told(env, status);
}

static napi_value enter(napi_env env, napi_callback_info info) {
    napi_value arguments[6];
    witcall_package *package;
    uint32_t func;
    values flats, handed;
    bytes caller, callee;
    blocks granted;
    if (!arguments_of(env, info, arguments, 6) || !function_of(env, arguments, &package, &func) ||
        !values_of(env, arguments[2], &flats) || !bytes_of(env, arguments[3], &caller) ||
        !bytes_of(env, arguments[4], &callee) || !blocks_of(env, arguments[5], &granted))
        return thrown(env, "enter(package, function, flats, caller, callee, blocks)");
    witcall_status entered = witcall_enter(
        package, func, flats.at, flats.len, caller.at, caller.len, callee.at, callee.len, granted.at, granted.len,
        handed.at, WITCALL_MAX_VALUES);
    free(granted.at);
    return flats_or_fault(env, entered, handed.at);
}

static napi_value leave(napi_env env, napi_callback_info info) {
    napi_value arguments[7];
    witcall_package *package;
    uint32_t func;
    values flats, answer, back;
    bytes callee, caller;
    blocks granted;
    if (!arguments_of(env, info, arguments, 7) || !function_of(env, arguments, &package, &func) ||
        !values_of(env, arguments[2], &flats) || !values_of(env, arguments[3], &answer) ||
        !bytes_of(env, arguments[4], &callee) || !bytes_of(env, arguments[5], &caller) ||
        !blocks_of(env, arguments[6], &granted))
        return thrown(env, "leave(package, function, flats, answer, callee, caller, blocks)");
    witcall_status left = witcall_leave(
        package, func, flats.at, flats.len, answer.at, answer.len, callee.at, callee.len, caller.at, caller.len,
        granted.at, granted.len, back.at, WITCALL_MAX_VALUES);
    free(granted.at);
    return flats_or_fault(env, left, back.at);
}

NAPI_MODULE_INIT() {
    static const struct {
        const char *name;
        napi_callback function;
    } FUNCTIONS[] = {
        {"open", open_package},
        {"openSet", open_set},
        {"close", close_package},
        {"find", find},
        {"enterRequests", enter_requests},
        {"enter", enter},
        {"leaveRequests", leave_requests},
        {"leave", leave},
    };
    for (size_t i = 0; i < sizeof FUNCTIONS / sizeof FUNCTIONS[0]; i++) {
        napi_value function;
        napi_create_function(env, FUNCTIONS[i].name, NAPI_AUTO_LENGTH, FUNCTIONS[i].function, NULL, &function);
        napi_set_named_property(env, exports, FUNCTIONS[i].name, function);
    }
    return exports;
}
