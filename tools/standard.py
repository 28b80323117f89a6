"""The Canonical ABI as its own text says it: a transcription of the Python in CanonicalABI.md, component model 0.2.

It was written from memory of the standard's text (the synchronous one of 2024, with `elem_size`), before its writer read
a definition or a model of this repository. No line of it is from tools/models, from crates/*/specs or from the code, and
none may come from there: what is wrong here has to be mended from the standard.

Left out: floats, resources, string encodings other than UTF-8, lists of fixed length, streams and futures. Names and
order of the functions are the standard's, so that a reader can hold both texts side by side."""
import functools
from dataclasses import dataclass
from typing import Any, Callable


class Trap(Exception):
    """`trap()`: the standard does not say which of its traps it is, so there is no reason here."""


def trap_if(cond):
    if cond:
        raise Trap()


# Component-level types. A primitive is its own name: "bool", "u8", .., "s64", "char", "string". What is computed of a
# type is kept by the object that it is.

@dataclass(frozen=True, eq=False)
class ListType:
    t: Any


@dataclass(frozen=True, eq=False)
class RecordType:
    fields: tuple  # of (label, type)


@dataclass(frozen=True, eq=False)
class TupleType:
    ts: tuple


@dataclass(frozen=True, eq=False)
class VariantType:
    cases: tuple  # of (label, type or None)


@dataclass(frozen=True, eq=False)
class EnumType:
    labels: tuple


@dataclass(frozen=True, eq=False)
class OptionType:
    t: Any


@dataclass(frozen=True, eq=False)
class ResultType:
    ok: Any
    error: Any


@dataclass(frozen=True, eq=False)
class FlagsType:
    labels: tuple


BITS = {"u8": 8, "u16": 16, "u32": 32, "u64": 64, "s8": 8, "s16": 16, "s32": 32, "s64": 64}


@dataclass
class Context:
    """`cx`, with what `canonopt` gives: a linear memory and `realloc(old, old_size, alignment, new_size)`."""
    memory: bytearray
    realloc: Callable


# Despecialization

@functools.lru_cache(4096)
def despecialize(t):
    match t:
        case TupleType(ts):
            return RecordType(tuple((str(i), e) for i, e in enumerate(ts)))
        case EnumType(labels):
            return VariantType(tuple((label, None) for label in labels))
        case OptionType(some):
            return VariantType((("none", None), ("some", some)))
        case ResultType(ok, error):
            return VariantType((("ok", ok), ("error", error)))
        case _:
            return t


# Alignment

def align_to(ptr, alignment):
    return -(-ptr // alignment) * alignment


@functools.lru_cache(4096)
def alignment(t):
    match despecialize(t):
        case "bool":
            return 1
        case "char" | "string" | ListType():
            return 4
        case RecordType(fields):
            return alignment_record(fields)
        case VariantType(cases):
            return alignment_variant(cases)
        case FlagsType(labels):
            return alignment_flags(labels)
        case integer:
            return BITS[integer] // 8


def alignment_record(fields):
    a = 1
    for _, t in fields:
        a = max(a, alignment(t))
    return a


def alignment_variant(cases):
    return max(alignment(discriminant_type(cases)), max_case_alignment(cases))


def discriminant_type(cases):
    n = len(cases)
    assert 0 < n < (1 << 32)
    # `math.ceil(math.log2(n)/8)`, in whole numbers
    match -(-(n - 1).bit_length() // 8):
        case 0 | 1:
            return "u8"
        case 2:
            return "u16"
        case _:
            return "u32"


def max_case_alignment(cases):
    a = 1
    for _, t in cases:
        if t is not None:
            a = max(a, alignment(t))
    return a


def alignment_flags(labels):
    n = len(labels)
    assert 0 < n <= 32
    if n <= 8:
        return 1
    if n <= 16:
        return 2
    return 4


# Element Size

@functools.lru_cache(4096)
def elem_size(t):
    match despecialize(t):
        case "bool":
            return 1
        case "char":
            return 4
        case "string" | ListType():
            return 8
        case RecordType(fields):
            return elem_size_record(fields)
        case VariantType(cases):
            return elem_size_variant(cases)
        case FlagsType(labels):
            return elem_size_flags(labels)
        case integer:
            return BITS[integer] // 8


def elem_size_record(fields):
    s = 0
    for _, t in fields:
        s = align_to(s, alignment(t))
        s += elem_size(t)
    assert s > 0
    return align_to(s, alignment_record(fields))


def elem_size_variant(cases):
    s = elem_size(discriminant_type(cases))
    s = align_to(s, max_case_alignment(cases))
    cs = 0
    for _, t in cases:
        if t is not None:
            cs = max(cs, elem_size(t))
    s += cs
    return align_to(s, alignment_variant(cases))


def elem_size_flags(labels):
    n = len(labels)
    assert 0 < n <= 32
    if n <= 8:
        return 1
    if n <= 16:
        return 2
    return 4


# Loading

def load(cx, ptr, t):
    assert ptr == align_to(ptr, alignment(t))
    assert ptr + elem_size(t) <= len(cx.memory)
    match despecialize(t):
        case "bool":
            return convert_int_to_bool(load_int(cx, ptr, 1))
        case "char":
            return convert_i32_to_char(load_int(cx, ptr, 4))
        case "string":
            return load_string(cx, ptr)
        case ListType(elem_type):
            return load_list(cx, ptr, elem_type)
        case RecordType(fields):
            return load_record(cx, ptr, fields)
        case VariantType(cases):
            return load_variant(cx, ptr, cases)
        case FlagsType(labels):
            return load_flags(cx, ptr, labels)
        case integer:
            return load_int(cx, ptr, BITS[integer] // 8, signed=integer.startswith("s"))


def load_int(cx, ptr, nbytes, signed=False):
    return int.from_bytes(cx.memory[ptr:ptr + nbytes], "little", signed=signed)


def convert_int_to_bool(i):
    assert i >= 0
    return bool(i)


def convert_i32_to_char(i):
    assert i >= 0
    trap_if(i >= 0x110000)
    trap_if(0xD800 <= i <= 0xDFFF)
    return chr(i)


def load_string(cx, ptr):
    begin = load_int(cx, ptr, 4)
    tagged_code_units = load_int(cx, ptr + 4, 4)
    return load_string_from_range(cx, begin, tagged_code_units)


def load_string_from_range(cx, ptr, tagged_code_units):
    byte_length = tagged_code_units
    trap_if(ptr != align_to(ptr, 1))
    trap_if(ptr + byte_length > len(cx.memory))
    try:
        return cx.memory[ptr:ptr + byte_length].decode("utf-8")
    except UnicodeError:
        raise Trap() from None


def load_list(cx, ptr, elem_type):
    begin = load_int(cx, ptr, 4)
    length = load_int(cx, ptr + 4, 4)
    return load_list_from_range(cx, begin, length, elem_type)


def load_list_from_range(cx, ptr, length, elem_type):
    trap_if(ptr != align_to(ptr, alignment(elem_type)))
    trap_if(ptr + length * elem_size(elem_type) > len(cx.memory))
    return [load(cx, ptr + i * elem_size(elem_type), elem_type) for i in range(length)]


def load_record(cx, ptr, fields):
    record = {}
    for label, t in fields:
        ptr = align_to(ptr, alignment(t))
        record[label] = load(cx, ptr, t)
        ptr += elem_size(t)
    return record


def load_variant(cx, ptr, cases):
    disc_size = elem_size(discriminant_type(cases))
    case_index = load_int(cx, ptr, disc_size)
    ptr += disc_size
    trap_if(case_index >= len(cases))
    label, t = cases[case_index]
    ptr = align_to(ptr, max_case_alignment(cases))
    if t is None:
        return {label: None}
    return {label: load(cx, ptr, t)}


def load_flags(cx, ptr, labels):
    i = load_int(cx, ptr, elem_size_flags(labels))
    return unpack_flags_from_int(i, labels)


def unpack_flags_from_int(i, labels):
    record = {}
    for label in labels:
        record[label] = bool(i & 1)
        i >>= 1
    return record


# Storing

def store(cx, v, t, ptr):
    assert ptr == align_to(ptr, alignment(t))
    assert ptr + elem_size(t) <= len(cx.memory)
    match despecialize(t):
        case "bool":
            store_int(cx, int(bool(v)), ptr, 1)
        case "char":
            store_int(cx, char_to_i32(v), ptr, 4)
        case "string":
            store_string(cx, v, ptr)
        case ListType(elem_type):
            store_list(cx, v, ptr, elem_type)
        case RecordType(fields):
            store_record(cx, v, ptr, fields)
        case VariantType(cases):
            store_variant(cx, v, ptr, cases)
        case FlagsType(labels):
            store_flags(cx, v, ptr, labels)
        case integer:
            store_int(cx, v, ptr, BITS[integer] // 8, signed=integer.startswith("s"))


def store_int(cx, v, ptr, nbytes, signed=False):
    cx.memory[ptr:ptr + nbytes] = int.to_bytes(v, nbytes, "little", signed=signed)


def char_to_i32(c):
    i = ord(c)
    assert 0 <= i <= 0xD7FF or 0xE000 <= i <= 0x10FFFF
    return i


MAX_STRING_BYTE_LENGTH = (1 << 31) - 1


def store_string(cx, v, ptr):
    begin, tagged_code_units = store_string_into_range(cx, v)
    store_int(cx, begin, ptr, 4)
    store_int(cx, tagged_code_units, ptr + 4, 4)


def store_string_into_range(cx, v):
    """`store_string_copy`, as both sides are UTF-8."""
    encoded = v.encode("utf-8")
    dst_byte_length = len(encoded)
    trap_if(dst_byte_length > MAX_STRING_BYTE_LENGTH)
    ptr = cx.realloc(0, 0, 1, dst_byte_length)
    trap_if(ptr != align_to(ptr, 1))
    trap_if(ptr + dst_byte_length > len(cx.memory))
    cx.memory[ptr:ptr + len(encoded)] = encoded
    return ptr, dst_byte_length


def store_list(cx, v, ptr, elem_type):
    begin, length = store_list_into_range(cx, v, elem_type)
    store_int(cx, begin, ptr, 4)
    store_int(cx, length, ptr + 4, 4)


def store_list_into_range(cx, v, elem_type):
    byte_length = len(v) * elem_size(elem_type)
    trap_if(byte_length >= (1 << 32))
    ptr = cx.realloc(0, 0, alignment(elem_type), byte_length)
    trap_if(ptr != align_to(ptr, alignment(elem_type)))
    trap_if(ptr + byte_length > len(cx.memory))
    for i, e in enumerate(v):
        store(cx, e, elem_type, ptr + i * elem_size(elem_type))
    return ptr, len(v)


def store_record(cx, v, ptr, fields):
    for label, t in fields:
        ptr = align_to(ptr, alignment(t))
        store(cx, v[label], t, ptr)
        ptr += elem_size(t)


def match_case(v, cases):
    [key] = v.keys()
    [index] = [i for i, (label, _) in enumerate(cases) if label == key]
    return index, v[key]


def store_variant(cx, v, ptr, cases):
    case_index, case_value = match_case(v, cases)
    disc_size = elem_size(discriminant_type(cases))
    store_int(cx, case_index, ptr, disc_size)
    ptr += disc_size
    ptr = align_to(ptr, max_case_alignment(cases))
    _, t = cases[case_index]
    if t is not None:
        store(cx, case_value, t, ptr)


def store_flags(cx, v, ptr, labels):
    store_int(cx, pack_flags_into_int(v, labels), ptr, elem_size_flags(labels))


def pack_flags_into_int(v, labels):
    i = 0
    shift = 0
    for label in labels:
        i |= int(bool(v[label])) << shift
        shift += 1
    return i


# Flattening

MAX_FLAT_PARAMS = 16
MAX_FLAT_RESULTS = 1


def flatten_functype(params, results, context):
    """The core parameters and results of a function, as `lift` (an export) or `lower` (an import) has them."""
    flat_params = flatten_types(params)
    flat_results = flatten_types(results)
    if len(flat_params) > MAX_FLAT_PARAMS:
        flat_params = ["i32"]
    if len(flat_results) > MAX_FLAT_RESULTS:
        if context == "lift":
            flat_results = ["i32"]
        else:
            flat_params = flat_params + ["i32"]
            flat_results = []
    return flat_params, flat_results


def flatten_types(ts):
    return [ft for t in ts for ft in flatten_type(t)]


def flatten_type(t):
    match despecialize(t):
        case "u64" | "s64":
            return ["i64"]
        case "string" | ListType():
            return ["i32", "i32"]
        case RecordType(fields):
            return [ft for _, f in fields for ft in flatten_type(f)]
        case VariantType(cases):
            return flatten_variant(cases)
        case _:
            return ["i32"]


def flatten_variant(cases):
    flat = []
    for _, t in cases:
        if t is not None:
            for i, ft in enumerate(flatten_type(t)):
                if i < len(flat):
                    flat[i] = join(flat[i], ft)
                else:
                    flat.append(ft)
    return flatten_type(discriminant_type(cases)) + flat


def join(a, b):
    if a == b:
        return a
    return "i64"


# Flat Lifting

class CoreValueIter:
    """Core values with the type that each has."""

    def __init__(self, values):
        self.values = list(values)
        self.i = 0

    def next(self, t):
        v = self.values[self.i]
        self.i += 1
        assert 0 <= v < (1 << int(t[1:]))
        return v

    def done(self):
        return self.i == len(self.values)


class CoerceValueIter:
    """Reads what a case has out of the joined types of its variant."""

    def __init__(self, vi, flat_types):
        self.vi, self.flat_types = vi, flat_types

    def next(self, want):
        have = self.flat_types.pop(0)
        x = self.vi.next(have)
        if (have, want) == ("i64", "i32"):
            return wrap_i64_to_i32(x)
        assert have == want
        return x


def wrap_i64_to_i32(i):
    assert 0 <= i < (1 << 64)
    return i % (1 << 32)


def lift_flat(cx, vi, t):
    match despecialize(t):
        case "bool":
            return convert_int_to_bool(vi.next("i32"))
        case "char":
            return convert_i32_to_char(vi.next("i32"))
        case "string":
            ptr = vi.next("i32")
            return load_string_from_range(cx, ptr, vi.next("i32"))
        case ListType(elem_type):
            ptr = vi.next("i32")
            return load_list_from_range(cx, ptr, vi.next("i32"), elem_type)
        case RecordType(fields):
            return {label: lift_flat(cx, vi, f) for label, f in fields}
        case VariantType(cases):
            return lift_flat_variant(cx, vi, cases)
        case FlagsType(labels):
            return unpack_flags_from_int(vi.next("i32"), labels)
        case integer:
            return lift_flat_integer(vi, integer)


def lift_flat_integer(vi, t):
    """`lift_flat_unsigned` and `lift_flat_signed`."""
    core_width, t_width = (64 if BITS[t] == 64 else 32), BITS[t]
    i = vi.next("i" + str(core_width))
    assert 0 <= i < (1 << core_width)
    i %= 1 << t_width
    if t.startswith("s") and i >= (1 << (t_width - 1)):
        return i - (1 << t_width)
    return i


def lift_flat_variant(cx, vi, cases):
    flat_types = flatten_variant(cases)
    assert flat_types.pop(0) == "i32"
    case_index = vi.next("i32")
    trap_if(case_index >= len(cases))
    label, t = cases[case_index]
    v = None if t is None else lift_flat(cx, CoerceValueIter(vi, flat_types), t)
    for have in flat_types:
        vi.next(have)
    return {label: v}


# Flat Lowering

def lower_flat(cx, v, t):
    match despecialize(t):
        case "bool":
            return [int(v)]
        case "char":
            return [char_to_i32(v)]
        case "string":
            return list(store_string_into_range(cx, v))
        case ListType(elem_type):
            return list(store_list_into_range(cx, v, elem_type))
        case RecordType(fields):
            flat = []
            for label, f in fields:
                flat += lower_flat(cx, v[label], f)
            return flat
        case VariantType(cases):
            return lower_flat_variant(cx, v, cases)
        case FlagsType(labels):
            return [pack_flags_into_int(v, labels)]
        case integer:
            return lower_flat_integer(v, 64 if BITS[integer] == 64 else 32)


def lower_flat_integer(v, core_bits):
    if v < 0:
        v += 1 << core_bits
    return [v]


def lower_flat_variant(cx, v, cases):
    case_index, case_value = match_case(v, cases)
    flat_types = flatten_variant(cases)
    assert flat_types.pop(0) == "i32"
    _, t = cases[case_index]
    payload = [] if t is None else lower_flat(cx, case_value, t)
    for have in [] if t is None else flatten_type(t):
        want = flat_types.pop(0)
        assert have == want or (have, want) == ("i32", "i64")
    payload += [0] * len(flat_types)
    return [case_index] + payload


# Lifting and Lowering Values

def lift_flat_values(cx, max_flat, vi, ts):
    flat_types = flatten_types(ts)
    if len(flat_types) > max_flat:
        ptr = vi.next("i32")
        tuple_type = TupleType(tuple(ts))
        trap_if(ptr != align_to(ptr, alignment(tuple_type)))
        trap_if(ptr + elem_size(tuple_type) > len(cx.memory))
        return list(load(cx, ptr, tuple_type).values())
    return [lift_flat(cx, vi, t) for t in ts]


def lower_flat_values(cx, max_flat, vs, ts, out_param=None):
    flat_types = flatten_types(ts)
    if len(flat_types) <= max_flat:
        flat_vals = []
        for v, t in zip(vs, ts):
            flat_vals += lower_flat(cx, v, t)
        return flat_vals
    tuple_type = TupleType(tuple(ts))
    if out_param is None:
        ptr = cx.realloc(0, 0, alignment(tuple_type), elem_size(tuple_type))
        flat_vals = [ptr]
    else:
        ptr = out_param.next("i32")
        flat_vals = []
    trap_if(ptr != align_to(ptr, alignment(tuple_type)))
    trap_if(ptr + elem_size(tuple_type) > len(cx.memory))
    store(cx, {str(i): v for i, v in enumerate(vs)}, tuple_type, ptr)
    return flat_vals


# canon lift and canon lower, without what guards an instance (`may_enter`, `may_leave`)

def canon_lower_arguments(caller, flat_args, params):
    """The first half of a call at an import of the caller: its arguments as values, and what is left of the flat ones
    (the address for results)."""
    vi = CoreValueIter(flat_args)
    return lift_flat_values(caller, MAX_FLAT_PARAMS, vi, params), vi


def canon_lift_arguments(callee, args, params):
    return lower_flat_values(callee, MAX_FLAT_PARAMS, args, params)


def canon_lift_results(callee, flat_results, results):
    return lift_flat_values(callee, MAX_FLAT_RESULTS, CoreValueIter(flat_results), results)


def canon_lower_results(caller, values, results, vi):
    return lower_flat_values(caller, MAX_FLAT_RESULTS, values, results, vi)
