"""Random calls, as crates/vectors has them: of values that stand, and of such in which one thing or another is
wrong."""
import random

from .abi import Flags, List, Record, Scalar, String, up
from .calls import line_of
from .opening import opened
from .wit import PRIMITIVES

SEED = 20
SCALARS = list(PRIMITIVES[:-1])
STRINGS = ["", "a", "hi", "h\u00e9llo", "\u20ac", "\U0001f600", "plain text", "\u0000"]


class Source:
    """Makes random packages, and pictures of values in a memory, with whatever may stand beside them."""

    # how many members a definition may have, by its shape
    FEW, MANY = range(1, 6), [1, 3, 8, 9, 16, 17, 26]
    # how many elements a list may have, and how many bytes an allocator has
    LENGTHS, ROOM = [0, 1, 2, 3], 400
    COUNTS = {"record": FEW, "variant": FEW, "enum": MANY, "flags": MANY}

    def __init__(self, seed, harm):
        self.random, self.harm = random.Random(seed), harm

    def harmed(self):
        """Whether something is to be wrong here."""
        return self.random.random() < self.harm

    # ---- types, as text

    def type(self, names, depth=0):
        """A type, perhaps one of these names."""
        pick = self.random.random()
        if names and pick < 0.3:
            return self.random.choice(names)
        if depth > 2 or pick < 0.5:
            return self.random.choice(SCALARS)
        if pick < 0.62:
            return "string"
        inner = [self.type(names, depth + 1) for _ in range(3)]
        shapes = [f"list<{inner[0]}>", f"option<{inner[0]}>", f"result<{inner[0]}, {inner[1]}>",
                  f"result<_, {inner[0]}>"]
        shapes.append(f"tuple<{', '.join(inner)}>")
        return self.random.choice(shapes)

    def labels(self, count):
        """So many labels."""
        return "abcdefghijklmnopqrstuvwxyz"[:count]

    def definition(self, name, names):
        """The definition of a type, of any types and these names."""
        shape = self.random.choice(list(self.COUNTS))
        if shape == "type":
            return f"type {name} = {self.type(names)};"
        parts = self.labels(self.random.choice(self.COUNTS[shape]))
        if shape == "record":
            parts = [f"{label}: {self.type(names)}" for label in parts]
        elif shape == "variant":
            parts = [label + (f"({self.type(names)})" if self.random.random() < 0.6 else "") for label in parts]
        return f"{shape} {name} {{ {', '.join(parts)} }}"

    def function(self, name, labels, names):
        """A function of parameters of these labels."""
        parameters = ", ".join(f"{label}: {self.type(names)}" for label in labels)
        result = f" -> {self.type(names)}" if self.random.random() < 0.7 else ""
        return f"{name}: func({parameters}){result};"

    def package(self):
        """A package of an interface with a function `f`."""
        names, items = [], []
        for number in range(self.random.randint(0, 3)):
            items.append(self.definition(f"t{number}", names))
            names.append(f"t{number}")
        labels = [f"p{place}" for place in range(self.random.choice([0, 1, 1, 2, 2, 3, 5, 17]))]
        return f"package a:b; interface c {{ {' '.join([*items, self.function('f', labels, names)])} }}"

    # ---- pictures of values

    def begin(self):
        """An empty memory, whose bytes are noise as they come into use."""
        self.bytes = bytearray()

    def block(self, align, size):
        """Where a block begins, behind those before."""
        at = up(len(self.bytes), align)
        self.bytes += self.random.randbytes(at + size - len(self.bytes))
        return at

    def address(self, align, size):
        """Where a block begins; now and then a wrong place."""
        at = self.block(align, size)
        if self.harmed():
            return self.random.choice([at + 1, at + align, len(self.bytes), 0xFFFFFFFC])
        return at

    def put(self, at, width, number):
        """Writes a number of so many bytes."""
        self.bytes[at : at + width] = number.to_bytes(width, "little")

    def scalar(self, t):
        """The number of a scalar."""
        if t.word == "bool":
            return self.random.choice([0, 1, 1, 2, 255])
        if t.word == "char":
            wrong = self.random.choice([0xD800, 0xDFFF, 0x110000, 0xFFFFFFFF])
            return wrong if self.harmed() else self.random.choice([0x61, 0xE9, 0x20AC, 0x1F600, 0x10FFFF])
        bits = 8 * t.size
        return self.random.choice([0, 1, (1 << bits) - 1, 1 << bits - 1, self.random.getrandbits(bits)])

    def string(self):
        """Address and length of a string."""
        text = self.random.choice(STRINGS).encode()
        if self.harmed():
            text += self.random.choice([b"\xc0\x80", b"\xed\xa0\x80", b"\xf4\x90\x80\x80", b"\xe2\x82"])
        at = self.address(1, len(text))
        self.bytes[at : at + len(text)] = text
        return at, len(text)

    def header(self, t):
        """Address and length of a string or a list."""
        if isinstance(t, String):
            return self.string()
        count = self.random.choice(self.LENGTHS)
        size = t.element.size
        at = self.block(t.element.align, count * size)
        for place in range(count):
            self.store(t.element, at + place * size)
        if self.harmed():
            at, count = self.random.choice([(at + 1, count), (at, 1 << 30), (0xFFFFFFF8, 1)])
        return at, count

    def case(self, t):
        """The number of a case."""
        count = len(t.payloads)
        return count + self.random.choice([0, 1]) if self.harmed() else self.random.randrange(count)

    def store(self, t, at):
        """Writes a value at an address."""
        if isinstance(t, Scalar):
            self.put(at, t.size, self.scalar(t))
        elif isinstance(t, (String, List)):
            place, length = self.header(t)
            self.put(at, 8, place | length << 32)
        elif isinstance(t, Flags):
            self.put(at, t.size, self.random.getrandbits(8 * t.size))
        elif isinstance(t, Record):
            for field, offset in zip(t.fields, t.offsets):
                self.store(field, at + offset)
        else:
            self.store_case(t, at)

    def store_case(self, t, at):
        """Writes a case with its payload at an address."""
        case = self.case(t)
        self.put(at, t.case_width, case % (1 << 8 * t.case_width))
        if case < len(t.payloads) and t.payloads[case]:
            self.store(t.payloads[case], at + t.payload_offset)

    def flats(self, t):
        """Core values of a value, as numbers."""
        if isinstance(t, Scalar):
            number = self.scalar(t)
            noise = self.random.getrandbits(32) << 8 * t.size if t.size < 4 and t.word != "bool" else 0
            return [(number | noise) % (1 << 32) if t.size < 8 else number]
        if isinstance(t, (String, List)):
            return list(self.header(t))
        if isinstance(t, Flags):
            return [self.random.getrandbits(32)]
        return self.field_flats(t.fields) if isinstance(t, Record) else self.case_flats(t)

    def field_flats(self, fields):
        """Core values of a value of each of these types."""
        return sum(map(self.flats, fields), [])

    def case_flats(self, t):
        """Core values of a case with its payload."""
        case = self.case(t)
        kinds = t.kinds[1:]
        numbers = [self.random.getrandbits(64 if kind == "i64" else 32) for kind in kinds]
        if case < len(t.payloads) and t.payloads[case]:
            payload = self.flats(t.payloads[case])
            for place, (number, kind) in enumerate(zip(payload, t.payloads[case].kinds)):
                joined = kinds[place] == "i64" and kind == "i32"
                numbers[place] = number | self.random.getrandbits(32) << 32 if joined else number
        return [case] + numbers

    # ---- calls

    def call(self, name):
        """A call of this name."""
        text = self.package()
        function = opened([text]).function("a:b/c", "f")
        flats, caller = self.caller(function)
        caller_top, room = len(caller), self.room()
        answer, callee = self.callee(function.result)
        line = {"name": name, "text": text, "iface": "a:b/c", "func": "f", "flats": flats}
        line["caller"] = (caller + self.random.randbytes(room)).hex()
        line["callee"] = (callee + self.random.randbytes(self.room())).hex()
        line["tops"] = [caller_top, len(callee)]
        line["script"] = self.script()
        line["answer"] = answer
        line["stop"] = self.random.choice(["body", "post"]) if self.harmed() else "no"
        return line

    def caller(self, function):
        """The core values of arguments, and the caller's memory."""
        self.begin()
        params, result = function.params, function.result
        if function.is_spilled:
            flats = [("i32", self.stored(params))]
        else:
            flats = list(zip(params.kinds, self.field_flats(params.fields)))
        if function.has_area:
            flats.append(("i32", self.address(result.align, result.size)))
        if self.harmed():
            flats.append(("i32", 0))
        return flats, bytes(self.bytes)

    def callee(self, result):
        """The core values that the body answers, and the callee's memory."""
        self.begin()
        if result is None:
            return [], b""
        answer = [("i32",
                   self.stored(result))] if len(result.kinds) > 1 else list(zip(result.kinds, self.flats(result)))
        return answer + [("i64", 1)] if self.harmed() else answer, bytes(self.bytes)

    def stored(self, t):
        """The address at which a value is written, or a wrong one."""
        at = self.address(t.align, t.size)
        if at + t.size <= len(self.bytes):
            self.store(t, at)
        return at

    def room(self):
        """How many bytes an allocator has."""
        return self.random.randint(0, 40) if self.harmed() else self.ROOM

    def script(self):
        """What allocators answer, or None."""
        if not self.harmed():
            return None
        return [[self.random.choice([0, 8, 16, 24, 64, 3, None, 0xFFFFFFF8]) for _ in range(6)] for _ in range(2)]


def calls(count, seed=SEED, source=Source):
    """Random calls of values that stand, and calls in which one thing or another is wrong."""
    for number in range(count):
        harm = [0, 0.03, 0.12][number % 3]
        yield source(f"{seed}:{number}", harm).call(f"random {number}")


def lines(count, seed=SEED):
    """The lines of random calls."""
    return list(map(line_of, calls(count, seed)))
