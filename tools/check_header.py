#!/usr/bin/env python3
"""Compares include/witcall.h with what the library declares: each export of crates/witcall_c, each struct, and numbers.

usage: tools/check_header.py

An export has the same parameters and result on both sides: a slice is a pointer and a length, a reference a pointer,
and what allocates is none in C. A pointer is to `const` if the slice or the reference is not `mut`. A struct has the
same fields in the same order. The structs are those of `repr(C)` in crates/, and STRUCTS names them in C. A number of
the header is that of the constant or of the variant that it is named for in crates/host_calls, except those of OTHERS.
The exit status is 1 if something differs.
"""
import re

from repository import ROOT, code, finish, sources

HEADER = ROOT / "include" / "witcall.h"
# an export, its parameters and its result
EXPORT = re.compile(r'pub extern "C" fn (\w+)\(([^)]*)\)(?: -> (\w+))?')
PROTOTYPE = re.compile(r"^(\w+) (witcall_\w+)\(([^)]*)\);", re.M)
RUST_STRUCT = re.compile(r"#\[repr\(C\)\]\n(?:#\[[^\n]*\n|\s*\n)*pub struct (\w+) \{\n(.*?)^\}", re.M | re.S)
RUST_FIELD = re.compile(r"^    (?:pub )?(\w+): ([^\n]+),$", re.M)
C_STRUCT = re.compile(r"^typedef struct \{\n(.*?)^\} (\w+);", re.M | re.S)
C_FIELD = re.compile(r"^    (\w+ \*?)(\w+)(\[\w+\])?;$", re.M)
NUMBERS = {"u8": "uint8_t", "u32": "uint32_t", "u64": "uint64_t", "usize": "size_t", "*mut ()": "void *"}
STRUCTS = {"Status": "witcall_status", "Handle": "witcall_package", "Request": "witcall_request",
           "Block": "witcall_block", "Value": "witcall_value", "Call": "witcall_call", "Part": "witcall_part",
           "TypeInfo": "witcall_type_info", "RowInfo": "witcall_row_info", "MemberInfo": "witcall_member_info"}
# a struct that is one field, of this type, which the host doesn't read
INNER = {"Kept": "*mut ()"}
# a field that has a keyword's name in C
RENAMED = {"ty": "type"}
ALLOCATOR = "Global"
# the numbers of the header, and those that it shares with the library: of constants and of variants
DEFINED = re.compile(r"^#define WITCALL_(\w+) (\d+)\b", re.M)
CONSTANT = re.compile(r"^ *pub const (\w+): usize = (\d+);", re.M)
ENUMS = "CallError|Step|Primitive|TypeDefKind|ValType|Definition"
VARIANT = re.compile(rf"\b(?:{ENUMS})::(\w+)[^=\n]* => (\d+),|\b(\d+) => Some\((?:{ENUMS})::(\w+)")
NUMBERED = ("status.rt", "value.rt", "host_lists/kinds.rt")
# numbers that no constant and no variant has: codes of a status, what has no kind, kinds of owners, and limits
OTHERS = ("ABI", "DONE", "REFUSED", "TRAP", "NO_MEMORY", "NO_TYPE", "NO_OWNER", "INTERFACE", "WORLD", "MAX_LABEL",
          "MAX_STATUS_LINE")


def in_c(rust):
    """A type of a number or of a struct, as C has it."""
    rust = INNER.get(rust, rust)
    return NUMBERS.get(rust) or STRUCTS.get(rust) or f"no type of C: {rust}"


def parameters_in_c(parameters):
    """The types of parameters, as C has them."""
    for parameter in filter(None, (it.strip() for it in parameters.split(","))):
        rust = parameter.partition(": ")[2]
        found = re.fullmatch(r"&(mut )?(\[)?(\w+)\]?", rust)
        if rust == ALLOCATOR:
            continue
        if not found:
            yield in_c(rust)
            continue
        yield f"{'' if found[1] else 'const '}{in_c(found[3])} *"
        if found[2]:
            yield "size_t"


def parameters_of(prototype):
    """The types of the parameters of a prototype in C."""
    for parameter in prototype.split(","):
        if parameter.strip() != "void":
            yield re.fullmatch(r"((?:const )?\w+ \*?)\w+", " ".join(parameter.split()))[1].strip()


def exports():
    """The exports by their names, as C has them: the result, and the types of the parameters."""
    for path in sorted((ROOT / "crates/witcall_c/src").glob("*.rt")):
        for name, parameters, result in EXPORT.findall(code(path)):
            yield name, (in_c(result) if result else "void", list(parameters_in_c(parameters)))


def structs():
    """The structs of `repr(C)`, as C has them: their fields, each with its type."""
    for path in sources(".rt"):
        for name, body in RUST_STRUCT.findall(code(path)):
            if name not in INNER:
                yield in_c(name), [field_in_c(label, rust) for label, rust in RUST_FIELD.findall(body)]


def field_in_c(label, rust):
    """A field as C has it: its type, its name unless the host doesn't read it, and whether it is an array."""
    array = re.fullmatch(r"\[(\w+); (\w+)\]", rust)
    name = "at" if rust in INNER else RENAMED.get(label, label)
    return (in_c(array[1]), name, f"[WITCALL_{array[2]}]") if array else (in_c(rust), name, "")


def numbers():
    """The numbers of the library by their names in C."""
    text = "\n".join(code(ROOT / "crates/host_calls/src" / name) for name in NUMBERED)
    found = [(name or other, number or before) for name, number, before, other in VARIANT.findall(text)]
    snake = [(re.sub(r"(?<=[a-z])(?=[A-Z])", "_", name).upper(), number) for name, number in found]
    return dict([*snake, *CONSTANT.findall(text)])


def differing(what, declared, there):
    """Where two declarations differ."""
    for name in sorted(declared.keys() | there.keys()):
        if declared.get(name) != there.get(name):
            yield f"include/witcall.h: {what} {name}: {declared.get(name)}, and the library has {there.get(name)}"


def main():
    text = HEADER.read_text()
    text = re.sub(r" */\*.*?\*/", "", text, flags=re.S)
    prototypes = {name: (result, list(parameters_of(given))) for result, name, given in PROTOTYPE.findall(text)}
    fields = {name: [(kind.strip(), label, array) for kind, label, array in C_FIELD.findall(body)]
              for body, name in C_STRUCT.findall(text)}
    defined = {name: number for name, number in DEFINED.findall(text) if name not in OTHERS}
    found, made, known = dict(exports()), dict(structs()), numbers()
    print(f"{len(prototypes)} functions, {len(fields)} structs and {len(defined)} numbers compared")
    finish([*differing("the function", prototypes, found), *differing("the struct", fields, made),
            *differing("the number", defined, {name: known.get(name) for name in defined}),
            *(["include/witcall.h: nothing to compare"] if not prototypes or not fields else [])])


if __name__ == "__main__":
    main()
