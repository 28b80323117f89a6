#!/usr/bin/env python3
"""Compares the models, and the stored rows of calls, with the standard's own text (tools/standard.py).

usage: tools/check_standard.py [COUNT [SEED]]

COUNT random functions with values, 20,000 by default, are taken through both: core signatures, sizes, alignments and
flat kinds; the bytes that are stored, the requests in their order, the values that are loaded, flat values, calls over
two memories, and traps, also of damaged memories and of allocators that answer anything. The rows are those of
crates/vectors/stdin, with their answers in `stdout`. Types are read from WIT, values from JSON, and allocators are made
by the models, since the standard has none of these.

The standard lifts all arguments, and then lowers them. Here both go on in turn (docs/STANDARD.md). So where a call
traps, the target was asked what the row says, or nothing, and is as it was.
"""
import collections
import functools
import itertools
import json
import random
import sys

import standard
from models import abi, calls, crossing, json_values, memory, sessions
from models.faults import Refused, Stopped, Trap
from repository import ROOT, finish
from standard import EnumType, FlagsType, ListType, OptionType, RecordType, ResultType, TupleType, VariantType


COUNT, SEED = 20000, 1
VECTORS = ROOT / "crates/vectors"
TRAP = "trap"
# the bytes of a random memory
LENGTH = 8000
# numbers at the edges of cases, chars and addresses
WORDS = [0, 1, 2, 3, 0xD7FF, 0xD800, 0xDFFF, 0xE000, 0x10FFFF, 0x110000, 0xFFFFFFFF]


class Different(Exception):
    """Where the two differ: what, by the standard, and here."""


def same(what, by_standard, here):
    """Stops where two things differ."""
    if by_standard != here:
        raise Different(f"{what}: the standard has {by_standard!r:.300}, here it is {here!r:.300}")


# ---- types and values of the one as those of the other

def model_of(t):
    """A type of the standard as one of the models."""
    match t:
        case "string":
            return abi.String()
        case ListType(element):
            return abi.List(model_of(element))
        case RecordType(fields):
            return abi.Record(tuple(model_of(f) for _, f in fields), tuple(label for label, _ in fields))
        case TupleType(ts):
            return abi.Record(tuple(map(model_of, ts)))
        case FlagsType(labels):
            return abi.Flags(labels)
        case str():
            return abi.Scalar(t)
        case _:
            cases = standard.despecialize(t).cases
            return abi.Variant(tuple(p and model_of(p) for _, p in cases), tuple(label for label, _ in cases))


@functools.lru_cache(4096)
def type_of(t):
    """A type of the models as one of the standard."""
    match t:
        case abi.Scalar():
            return t.word
        case abi.String():
            return "string"
        case abi.List():
            return ListType(type_of(t.element))
        case abi.Flags():
            return FlagsType(tuple(t.labels))
        case abi.Record(labels=None):
            return TupleType(tuple(map(type_of, t.fields)))
        case abi.Record():
            return RecordType(tuple(zip(t.labels, map(type_of, t.fields))))
        case _:
            return VariantType(tuple((label, p and type_of(p)) for label, p in zip(t.labels, t.payloads)))


def model_value(v, t):
    """A value of the standard as one of the models."""
    match standard.despecialize(t):
        case ListType(element):
            return [model_value(e, element) for e in v]
        case RecordType(fields):
            return tuple(model_value(v[label], f) for label, f in fields)
        case VariantType(cases):
            index, payload = standard.match_case(v, cases)
            return index, payload if cases[index][1] is None else model_value(payload, cases[index][1])
        case FlagsType(labels):
            return sum(v[label] << place for place, label in enumerate(labels))
        case _:
            return v


def value_of(v, t):
    """A value of the models as one of the standard."""
    match standard.despecialize(t):
        case ListType(element):
            return [value_of(e, element) for e in v]
        case RecordType(fields):
            return {label: value_of(part, f) for part, (label, f) in zip(v, fields)}
        case VariantType(cases):
            label, payload = cases[v[0]]
            return {label: payload and value_of(v[1], payload)}
        case FlagsType(labels):
            return {label: bool(v >> place & 1) for place, label in enumerate(labels)}
        case _:
            return v


# ---- a memory for both

class Guest:
    """A memory of the models with its allocator, as the `cx` of the standard. An allocator that refuses traps."""

    def __init__(self, of):
        self.memory, self.before = of, bytes(of.bytes)
        self.cx = standard.Context(of.bytes, self.realloc)

    def realloc(self, _old, _old_size, alignment, size):
        """What the guest's `realloc` returns."""
        at = self.memory.request(alignment, size)
        standard.trap_if(at is None)
        return at

    def is_untouched(self):
        """Whether nothing was asked and nothing written."""
        return not self.memory.log and bytes(self.memory.bytes) == self.before

    def has_meeting_blocks(self, *areas):
        """Whether blocks meet each other or one of these areas: then the order of the writes counts."""
        blocks = [(align, size, at) for align, size, at in self.memory.log if at is not None]
        return not memory.can_be_lent((1 << 32) - 1, blocks + list(areas), (1, 0, 0))


def tried(action):
    """What an action returns, or that it traps."""
    try:
        return action()
    except (standard.Trap, Trap):
        return TRAP


# ---- random functions and values

class Source:
    """Random types and values."""

    FEW = [1, 2, 2, 3, 4]
    MANY = [1, 2, 3, 8, 9, 16, 17, 32]
    TEXTS = ["", "a", "hi", "h\u00e9", "\u20ac", "\U0001f600", "\0", "\ud7ff\ue000\U0010ffff", "ab" * 40]

    def __init__(self, seed):
        self.random = random.Random(seed)
        self.pick = self.random.choice

    def labels(self, count):
        return tuple(f"l{i}" for i in range(count))

    def type(self, depth=0):
        """A type; one of many cases now and then."""
        kind = self.random.random()
        if depth > 2 or kind < 0.4:
            return self.pick(["bool", "char", "string", *standard.BITS])
        count = 17 if self.random.random() < 0.02 else self.pick(self.FEW)
        inner = [self.type(depth + 1) for _ in range(count)]
        payloads = [t if self.random.random() < 0.6 else None for t in inner]
        shapes = [lambda: ListType(inner[0]), lambda: RecordType(tuple(zip(self.labels(len(inner)), inner))),
                  lambda: TupleType(tuple(inner)), lambda: VariantType(tuple(zip(self.labels(len(inner)), payloads))),
                  lambda: OptionType(inner[0]), lambda: ResultType(payloads[0], payloads[-1]),
                  lambda: FlagsType(self.labels(self.pick(self.MANY))), self.enum]
        return self.pick(shapes)()

    def enum(self):
        """An enum, or a variant of many cases, whose last has a payload."""
        count = self.pick([256, 257]) if self.random.random() < 0.05 else self.pick(self.MANY)
        if self.random.random() < 0.5:
            return EnumType(self.labels(count))
        return VariantType(tuple((label, None) for label in self.labels(count)) + (("last", self.type(4)),))

    def value(self, t):
        """A value of a type."""
        match standard.despecialize(t):
            case "bool":
                return self.random.random() < 0.5
            case "char":
                return self.pick(["\0", "a", "\u20ac", "\ud7ff", "\ue000", "\U0010ffff"])
            case "string":
                return self.pick(self.TEXTS)
            case ListType(element):
                return [self.value(element) for _ in range(self.pick([0, 1, 2, 3]))]
            case RecordType(fields):
                return {label: self.value(f) for label, f in fields}
            case VariantType(cases):
                label, payload = self.pick([cases[0], cases[-1], self.pick(cases)])
                return {label: payload and self.value(payload)}
            case FlagsType(labels):
                return {label: self.random.random() < 0.5 for label in labels}
            case integer:
                bits = standard.BITS[integer]
                least = -(1 << bits - 1) if integer.startswith("s") else 0
                return least + self.pick([0, 1, 1 << bits - 1, (1 << bits) - 1, self.random.getrandbits(bits)])

    def allocator(self, top):
        """What makes an allocator that grants blocks upwards; now and then one that answers anything."""
        if self.random.random() < 0.8:
            return lambda: memory.Bump(LENGTH, top)
        answers = [self.pick([0, 1, 8, 64, 4096, 128 * i, LENGTH - 8, LENGTH, 0xFFFFFFF8, None]) for i in range(1, 60)]
        return lambda: memory.Scripted(LENGTH, answers)

    def guests(self, data=None):
        """Two memories that are alike, one for the standard and one for the models."""
        data = self.random.randbytes(2500) if data is None else data
        new = self.allocator(len(data) + self.random.randrange(100))
        return Guest(memory.Memory(new(), data)), memory.Memory(new(), data)

    def damage(self, data):
        """Makes some bytes others, or four of them a number at an edge."""
        for _ in range(self.pick([1, 1, 2, 5])):
            at = self.random.randrange(len(data))
            data[at] = self.pick([0, 1, 2, 3, 0x7f, 0x80, 0xd8, 0xff])
            if self.random.random() < 0.3 and at // 4 * 4 + 4 <= len(data):
                data[at // 4 * 4:at // 4 * 4 + 4] = self.pick(WORDS).to_bytes(4, "little")


def test_layout(t, model):
    """Size, alignment and flat kinds of a type."""
    same("size", standard.elem_size(t), model.size)
    same("alignment", standard.alignment(t), model.align)
    same("flat kinds", standard.flatten_type(t)[:17], list(model.kinds))
    if isinstance(model, abi.Variant):
        disc = standard.discriminant_type(standard.despecialize(t).cases)
        same("discriminant", standard.elem_size(disc), model.case_width)


def test_stored(source, t, model, value):
    """Bytes and requests of a value that is stored, and the value that is loaded, also of damaged bytes."""
    guest, other = source.guests()
    at = standard.align_to(source.random.randrange(1000), standard.alignment(t))
    if at + standard.elem_size(t) > 2000:
        return
    given = crossing.Given(model_value(value, t))
    one = tried(lambda: standard.store(guest.cx, value, t, at))
    same("storing", one, tried(lambda: crossing.Way().cross(model, given, crossing.Stored(other, at, "lower-args"))))
    same("requests", guest.memory.log, other.log)
    if guest.has_meeting_blocks((1, standard.elem_size(t), at)):
        return
    if one != TRAP:
        same("bytes", *(bytes(it.bytes) for it in (guest.memory, other)))
        same("the value loaded", standard.load(guest.cx, at, t), value)
    for is_damaged in (False, True):
        if is_damaged:
            part = guest.memory.bytes[at:at + standard.elem_size(t)]
            source.damage(part)
            guest.memory.bytes[at:at + len(part)] = part
        other.bytes[:] = guest.memory.bytes
        loaded = tried(lambda: model_value(standard.load(guest.cx, at, t), t))
        same("loading", loaded, tried(lambda: crossing.value_at(model, crossing.Stored(other, at, "take"))))


def test_flat(source, t, model, value):
    """Flat values of a value, and the value of flat values, also of damaged ones. More than 16 are never made."""
    if len(standard.flatten_type(t)) > 16:
        return
    guest, other = source.guests()
    flats = tried(lambda: standard.lower_flat(guest.cx, value, t))
    into = [0] * len(standard.flatten_type(t))
    given = crossing.Given(model_value(value, t))
    crossed = tried(lambda: crossing.Way().cross(model, given, crossing.Flat(other, into, 0, "lower-args")))
    same("flat values", flats, TRAP if crossed == TRAP else into)
    same("requests", guest.memory.log, other.log)
    if flats == TRAP or guest.has_meeting_blocks():
        return
    same("bytes", *(bytes(it.bytes) for it in (guest.memory, other)))
    for is_damaged in (False, True):
        if is_damaged:
            at = source.random.randrange(len(flats))
            bits = int(standard.flatten_type(t)[at][1:])
            upper = source.random.getrandbits(bits) >> 32 << 32
            flats[at] = source.pick([*(it | upper for it in WORDS), (1 << bits) - 1, source.random.getrandbits(bits)])
        lifted = tried(lambda: model_value(standard.lift_flat(guest.cx, standard.CoreValueIter(flats), t), t))
        same("lifting", lifted, tried(lambda: crossing.value_at(model, crossing.Flat(other, flats, 0, "take"))))


# ---- calls

class Call:
    """A function of the standard over two guests: its flat values in a call, and what was passed on the way."""

    def __init__(self, function, caller, callee):
        self.params = [type_of(f) for f in function.params.fields]
        self.results = [] if function.result is None else [type_of(function.result)]
        self.caller, self.callee = caller, callee

    def kinds(self, context):
        """The core signature."""
        return standard.flatten_functype(self.params, self.results, context)

    def typed(self, flats, kinds, step):
        """The numbers of flat values. If they are not of these kinds, validation would have refused the modules."""
        if [kind for kind, _ in flats] != kinds:
            raise Trap("K8 coresignature", step)
        return [number for _, number in flats]

    def run(self, flats, body):
        """What `canon lower` of `canon lift` of the body answers."""
        flats = self.typed(flats, self.kinds("lower")[0], "lift-args")
        values, left = standard.canon_lower_arguments(self.caller.cx, flats, self.params)
        given = standard.canon_lift_arguments(self.callee.cx, values, self.params)
        answer = body.call(self.callee.memory, list(zip(self.kinds("lift")[0], given)))
        values = standard.canon_lift_results(
            self.callee.cx, self.typed(answer, self.kinds("lift")[1], "lift-result"), self.results)
        back = standard.canon_lower_results(self.caller.cx, values, self.results, left)
        body.post(self.callee.memory, answer)
        return list(zip(self.kinds("lower")[1], back))

    def outcome(self, flats, body):
        """How the call ended."""
        try:
            return {"ok": self.run([tuple(pair) for pair in flats], body)}
        except (standard.Trap, Trap, Stopped):
            return TRAP


class Body:
    """Answers these flat values."""

    def __init__(self, answer):
        self.answer, self.got = answer, None

    def call(self, _memory, flats):
        """The body."""
        self.got = flats
        return self.answer

    def post(self, _memory, _flats):
        """Its post-return."""


def test_way(what, outcome, guest, log, data, area=()):
    """What a target is after a call: it was asked this and has this. If the call traps, it may be as it was, and its
    bytes may lack a write. Where blocks meet each other or an area, the order of the writes counts."""
    if outcome == TRAP and guest.is_untouched():
        return
    same(f"requests of the {what}", guest.memory.log, [tuple(request) for request in log])
    if outcome != TRAP and not guest.has_meeting_blocks(*area):
        same(f"bytes of the {what}", bytes(guest.memory.bytes), bytes(data))


def made(source, values, ts, most):
    """Flat values of values, and the front of a memory that has them, with some bytes damaged now and then."""
    guest = Guest(memory.Memory(memory.Bump(LENGTH, 8)))
    flats = standard.lower_flat_values(guest.cx, most, values, ts)
    data = guest.memory.bytes[:guest.memory.allocator.top + 8]
    if source.random.random() < 0.3:
        source.damage(data)
    if flats and source.random.random() < 0.15:
        flats[source.random.randrange(len(flats))] = source.pick(WORDS)
    return flats, data


def test_call(source, ts, values):
    """Signatures of a function, and a call: what its body gets and answers, and both memories."""
    results = [source.type()] if source.random.random() < 0.7 else []
    function = abi.Function(abi.Record(tuple(map(model_of, ts))), *map(model_of, results or ["bool"]))
    function.result = function.result if results else None
    flats, data = made(source, values, ts, 16)
    answer, answered = made(source, [source.value(t) for t in results], results, 1)
    area = []
    if function.has_area:
        at = standard.align_to(source.random.randrange(6000, 7000), source.pick([8, 8, 1]))
        area, flats = [(1, function.result.size, at)], flats + [at]
    (caller, its_twin), (callee, twin) = source.guests(data), source.guests(answered)
    call = Call(function, caller, callee)
    for context, here in (("lift", function.lifted), ("lower", function.lowered)):
        same(f"signature for {context}", call.kinds(context), tuple(map(list, here)))
    bodies = [Body(list(zip(function.lifted[1], answer))) for _ in range(2)]
    flats = list(zip(function.lowered[0], flats))
    outcome = call.outcome(flats, bodies[0])
    same("outcome", outcome, tried(lambda: {"ok": calls.Link(function, its_twin, twin).call(flats, bodies[1])}))
    same("what the body got", bodies[0].got, bodies[1].got)
    test_way("callee", outcome, callee, twin.log, twin.bytes)
    test_way("caller", outcome, caller, its_twin.log, its_twin.bytes, area)


# how many cases and flags there are where the bytes of a case's number or of flags change, and beside it
EDGES = [1, 2, 255, 256, 257, 65535, 65536, 65537]


def test_edges(seed):
    """The faults of enums, variants and flags at the edges of their widths, of chars, and of joined flat values."""
    source, faults = Source(seed), []
    enums = [EnumType(source.labels(count)) for count in EDGES]
    variants = [VariantType(tuple((label, None) for label in t.labels[1:]) + (("last", "u8"),)) for t in enums]
    scalars = ["bool", "char", *standard.BITS, FlagsType(source.labels(9))]
    joined = [VariantType((("narrow", t), ("wide", "u64"))) for t in scalars]
    for t in [*enums, *variants, *["char", ListType("char"), *joined] * 20, *(FlagsType(source.labels(count)) for count in range(1, 33))]:
        try:
            model = model_of(t)
            test_layout(t, model)
            for _ in range(4):
                test_stored(source, t, model, source.value(t))
                test_flat(source, t, model, source.value(t))
        except Different as fault:
            faults.append(f"{t!r:.60}: {fault}")
    return faults


def test_random(count, seed):
    """The faults of so many random functions and values."""
    faults = []
    for number in range(count):
        source = Source(f"{seed}:{number}")
        ts = [source.type() for _ in range(source.pick([0, 1, 1, 1, 2, 3, 6]))]
        values = [source.value(t) for t in ts]
        try:
            for t, value in zip(ts[:1], values):
                model = model_of(t)
                test_layout(t, model)
                test_stored(source, t, model, value)
                test_flat(source, t, model, value)
            test_call(source, ts, values)
        except Different as fault:
            faults.append(f"random function {seed}:{number}: {fault}; its parameters are {ts}"[:900])
    return faults


# ---- stored rows

def plain(value):
    """A value as JSON has it."""
    return json.loads(json.dumps(value))


def test_targets(answer, outcome, caller, callee, area=()):
    """Both memories and what was asked of them, as a row's answer has them."""
    for what, guest, places in (("callee", callee, ()), ("caller", caller, area)):
        data = bytes.fromhex(answer[f"{what}_after"]).ljust(len(guest.memory.bytes), b"\0")
        test_way(what, outcome, guest, answer[f"{what}_log"], data, places)


def test_call_row(row, answer):
    """A call row, and the call behind it."""
    caller, callee = map(Guest, calls.guests_of(row))
    try:
        package = calls.package_of(row)
        functions = [package.function(row["iface"], one["func"]) for one in steps_of(row)]
    except Refused:
        return False
    body = calls.Acting(row.get("body") or [row])
    outcomes = [Call(function, caller, callee).outcome(one["flats"], body)
                for function, one in zip(functions, steps_of(row))]
    stored = [answer["outcome"], *([answer["next"]] if row.get("next") else [])]
    same("outcomes", plain(outcomes), [TRAP if "trap" in one else one for one in stored])
    for several, one, got in (("bodies_got", "body_got", body.runs), ("posts_got", "post_got", body.posts)):
        same(one, plain(got), answer[several] if row.get("next") else [it for it in [answer[one]] if it is not None])
    areas = [(1, function.result.size, one["flats"][-1][1]) for function, one in zip(functions, steps_of(row))
             if function.has_area and one["flats"]]
    test_targets(answer, TRAP if TRAP in outcomes else "", caller, callee, areas)
    return True


def steps_of(row):
    """The calls of a call row."""
    return [row, row["next"]] if row.get("next") else [row]


def first_parameter(row):
    """The type that a row is about, as the models have it and as the standard does."""
    t = calls.package_of(row).function("a:b/c", row["func"]).params.fields[0]
    return t, type_of(t)


def tested(guest, t, at):
    """An address, at which a block of a type has to be."""
    standard.trap_if(at != standard.align_to(at, standard.alignment(t)))
    standard.trap_if(at + standard.elem_size(t) > len(guest.memory.bytes))
    return at


def test_value_row(row, answer):
    """A row that lifts a value or lowers one, or loads or stores it."""
    caller, callee = map(Guest, calls.guests_of(row))
    model, t = first_parameter(row)
    (stored,) = answer["answers"]
    given = row.get("lower", row.get("store"))
    value = None if given is None else value_of(json_values.read(model, calls.line_of(given)), t)
    if "lower" in row:
        found = tried(lambda: {"lowered": list(map(list, zip(standard.flatten_type(t), standard.lower_flat(
            caller.cx, value, t))))})
    elif "store" in row:
        found = tried(lambda: standard.store(caller.cx, value, t, tested(caller, t, row["at"])) or "stored")
    elif "load" in row or "held" in row:
        key, at = ("loaded", row["load"]) if "load" in row else ("read", row["held"])
        found = tried(lambda: {key: written(model, standard.load(caller.cx, tested(caller, t, at), t), t)})
    elif [kind for kind, _ in row["lift"]] != standard.flatten_type(t):
        found = TRAP
    else:
        flats = standard.CoreValueIter([number for _, number in row["lift"]])
        found = tried(lambda: {"lifted": written(model, standard.lift_flat(caller.cx, flats, t), t)})
    same("answer", found, TRAP if "trap" in stored else stored)
    test_targets(answer, found, caller, callee)
    return True


def written(model, v, t):
    """A value of the standard as JSON."""
    return sessions.written(model, model_value(v, t))


class Session:
    """The steps of a row: typed values over the standard."""

    def __init__(self, row):
        self.row, self.package = row, calls.package_of(row)
        self.caller, self.callee = map(Guest, calls.guests_of(row))
        self.body = sessions.Echo() if row.get("body") == "echo" else calls.Acting(row.get("body") or [row])
        self.held = []

    def function(self, name):
        """A function, with its types."""
        return self.package.function("a:b/c", name)

    def given(self, model, form):
        """The value that JSON says."""
        return value_of(json_values.read(model, calls.line_of(form)), type_of(model))

    def block(self, t):
        """A block for a value in the caller's memory."""
        at = self.caller.realloc(0, 0, standard.alignment(t), standard.elem_size(t))
        return tested(self.caller, t, at)

    def place(self, name, form):
        """Stores a value in the caller."""
        model = self.function(name).params.fields[0]
        t = type_of(model)
        at = self.block(t)
        standard.store(self.caller.cx, self.given(model, form), t, at)
        self.held[-1] = model, t, at
        return {"placed": at}

    def read(self, number):
        """Loads a value."""
        held = self.held[number] if number < len(self.held) else None
        if held is None:
            return "missing"
        model, t, at = held
        return {"read": written(model, standard.load(self.caller.cx, at, t), t)}

    def release(self, at, size):
        """Gives a block back."""
        return "released" if self.caller.memory.allocator.free(at, size) else "not released"

    def call(self, name, forms):
        """Calls a function with values."""
        function = self.function(name)
        values = list(map(self.given, function.params.fields, forms))
        call = Call(function, self.caller, self.callee)
        flats = standard.lower_flat_values(self.caller.cx, standard.MAX_FLAT_PARAMS, values, call.params)
        params, results = call.kinds("lower")
        if len(params) > len(flats):
            flats.append(self.block(call.results[0]))
        back = call.run(list(zip(params, flats)), self.body)
        if not call.results:
            return "done"
        vi = standard.CoreValueIter([number for _, number in back] if results else flats[-1:])
        (value,) = standard.lift_flat_values(self.caller.cx, standard.MAX_FLAT_RESULTS, vi, call.results)
        return {"answered": written(function.result, value, call.results[0])}

    def answer(self, step, before):
        """What a step answers."""
        word, *rest = step
        self.held.append(None)
        try:
            return self.read(before + rest[0]) if word == "read" else getattr(self, word)(*rest)
        except (standard.Trap, Trap, Stopped):
            return TRAP

    def answers(self):
        """What all steps answer."""
        self.held, told = [], []
        for _ in range(self.row.get("times") or 1):
            before = len(told)
            told += [self.answer(step, before) for step in self.row["steps"]]
        return told


def traps_alike(answers):
    """Answers, whose traps have no kind."""
    return [TRAP if isinstance(it, dict) and "trap" in it else it for it in answers]


def until_trap(steps, answers):
    """The answers up to the first call that traps: the standard leaves such instances. Traps have no kind."""
    found = []
    for step, it in zip(itertools.cycle(steps), answers):
        found.append(TRAP if isinstance(it, dict) and "trap" in it else it)
        if found[-1] == TRAP and step[0] == "call":
            break
    return found


def test_session_row(row, answer):
    """A row of steps. Where a script grants blocks that meet, the order of the writes counts."""
    session = Session(row)
    found = session.answers() + (session.answers() if row.get("twice") else [])
    if row.get("script") and session.caller.has_meeting_blocks():
        return False
    stored = until_trap(row["steps"], answer["answers"] + answer["then"])
    same("answers", plain(found[:len(stored)]), stored)
    if TRAP not in found:
        test_targets(answer, "", session.caller, session.callee)
    return True


# the keys of rows that convert one value
CONVERSIONS = ("lift", "lower", "load", "store", "held")
TESTS = {"steps": test_session_row, **dict.fromkeys(CONVERSIONS, test_value_row), "flats": test_call_row}
# the rows that the standard says nothing of: heads, and blocks that a host grants
OTHERS = ("host", "head_at", "head_of")
# how many of each are tried: the others are refused packages, or blocks that meet
TRIED = {"flats": 401, "steps": 266, "lift": 19, "lower": 8, "load": 12, "store": 9, "held": 4}


def test_rows():
    """The faults of the stored rows, and how many of each kind were tried."""
    asked, answers = ((VECTORS / name).read_text().splitlines() for name in ("stdin", "stdout"))
    faults, tried_rows = [], collections.Counter()
    for line, stored in zip(asked, answers):
        row = json.loads(line)
        if any(key in row for key in OTHERS):
            continue
        key = next(key for key in TESTS if key in row)
        try:
            tried_rows[key] += TESTS[key](row, json.loads(stored))
        except Different as fault:
            faults.append(f"row {row['name']}: {fault}")
    return faults, tried_rows


def main():
    """Compares both."""
    count, seed = [*map(int, sys.argv[1:]), *(COUNT, SEED)[len(sys.argv) - 1:]]
    faults, tried_rows = test_rows()
    faults += test_edges(seed) + test_random(count, seed)
    if tried_rows != TRIED:
        faults.append(f"tools/check_standard.py: {dict(tried_rows)} rows were tried, and TRIED says {TRIED}")
    print(f"{count} random functions; rows: " + ", ".join(f"{n} with {key}" for key, n in tried_rows.items()))
    finish(faults)


if __name__ == "__main__":
    main()
