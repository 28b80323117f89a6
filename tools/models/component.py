"""Component type binaries, as docs/FORMATS.md has them ("Component type binary"): what reading one answers, with each
fault at its place."""
import re

from .faults import Refused

MOST_BYTES, MOST_CASES, MOST_LABELS, MOST_NESTED, MOST_ENTRIES = 1_048_576, 100_000, 32, 4, 65_535
PREAMBLE = b"\0asm\x0d\0\1\0"
PRIMITIVES = (0x7F, 0x7E, 0x7D, 0x7C, 0x7B, 0x7A, 0x79, 0x78, 0x77, 0x74, 0x73)
# the types of components and of instances
SCOPES = (0x41, 0x42)
UNSUPPORTED = {0x76: "float", 0x75: "float", 0x69: "resource", 0x68: "resource"}
WORDS = r"([a-z][a-z0-9]*|[A-Z][A-Z0-9]*)"
LABEL = re.compile(rf"{WORDS}(-{WORDS})*")
LOWER = re.compile(r"[a-z][a-z0-9]*(-[a-z][a-z0-9]*)*")
NUMBER, PART = r"(0|[1-9][0-9]*)", r"(0|[1-9][0-9]*|[0-9]*[A-Za-z-][0-9A-Za-z-]*)"
VERSION = re.compile(rf"{NUMBER}\.{NUMBER}\.{NUMBER}(-{PART}(\.{PART})*)?(\+[0-9A-Za-z-]+(\.[0-9A-Za-z-]+)*)?")


def is_label(text):
    """Whether a text is a label."""
    return len(text) <= 255 and bool(LABEL.fullmatch(text))


def is_version(text):
    """Whether a text is a version."""
    return len(text) <= 255 and bool(VERSION.fullmatch(text))


def is_full_name(text):
    """Whether a text is a full name."""
    front, at, version = text.partition("@")
    package, _, name = front.partition("/")
    parts = package.split(":")
    named = len(parts) == 2 and all(len(part) <= 255 and LOWER.fullmatch(part) for part in parts) and is_label(name)
    return named and (not at or is_version(version))


def number(value):
    """The shortest spelling of a number."""
    return bytes([value]) if value < 0x80 else bytes([value & 0x7F | 0x80]) + number(value >> 7)


def index_number(value):
    """The shortest spelling as a signed number."""
    return bytes([value]) if value < 0x40 else bytes([value & 0x7F | 0x80]) + index_number(value >> 7)


class Scope:
    """How many types and instances a scope has."""

    def __init__(self, is_component=False):
        self.types = self.instances = 0
        self.is_component = is_component


class Reader:
    """Reads from left to right, up to the end of a section."""

    def __init__(self, data):
        self.data, self.at, self.end, self.entries = data, 0, None, 0
        # how many bytes can be read before something has to be refused
        self.there = len(data)
        # the same component in its shortest spelling, without custom sections
        self.out = bytearray()
        self.scopes = [Scope(True)]
        # what stands behind the byte that begins a type
        self.bodies = {
            0x72: lambda: self.several(self.count(1), self.label, self.valtype),
            0x71: lambda: self.several(self.count(1, MOST_CASES), self.label, self.optional, lambda: self.one_of(0)),
            0x70: self.valtype,
            0x6F: lambda: self.several(self.count(1), self.valtype),
            0x6E: lambda: self.several(self.count(1, MOST_LABELS), self.label),
            0x6D: lambda: self.several(self.count(1, MOST_CASES), self.label),
            0x6B: self.valtype,
            0x6A: lambda: self.several(2, self.optional),
            0x40: self.function,
        }

    def fault(self, words, at):
        """Refuses."""
        raise Refused(f"{words} at {at}")

    def missing(self):
        """Refuses since no byte is left. Behind a section's end it is missing there, if the input has all of the
        section."""
        if self.end is not None and self.end <= len(self.data):
            self.fault("18 size mismatch", self.end)
        self.fault("11 truncated", len(self.data))

    def byte(self):
        """The next byte."""
        at = self.at
        if at >= self.there:
            self.missing()
        self.at = at + 1
        byte = self.data[at]
        self.out.append(byte)
        return byte

    def bytes(self, count):
        """So many bytes."""
        at = self.at
        found = self.data[at : min(at + count, self.there)]
        self.at += len(found)
        if len(found) < count:
            self.missing()
        self.out += found
        return found

    def unknown(self, at):
        """Refuses a byte that is not allowed there."""
        self.fault(f"13 unknown opcode {self.data[at]:02x}", at)

    def one_of(self, *allowed):
        """The next byte, which is one of these."""
        byte = self.byte()
        if byte not in allowed:
            self.unknown(self.at - 1)
        return byte

    def groups(self, is_right):
        """The groups of seven bits of a number, of at most five bytes whose last one is right."""
        start, found = self.at, []
        while True:
            byte = self.byte()
            found.append(byte & 0x7F)
            if len(found) == 5 and (byte & 0x80 or not is_right(byte)):
                self.fault("23 overlong", start)
            if not byte & 0x80:
                return sum(group << 7 * place for place, group in enumerate(found)), found[-1], len(found)

    def u32(self):
        """An unsigned number."""
        mark, start, byte = len(self.out), self.at, self.byte()
        if byte < 0x80:
            return byte
        self.at = start
        found, _, _ = self.groups(lambda byte: byte < 0x10)
        self.out[mark:] = number(found)
        return found

    def s33(self):
        """A signed number of 33 bits, which may not be negative."""
        mark, start, byte = len(self.out), self.at, self.byte()
        if byte < 0x40:
            return byte
        self.at = start
        found, last, count = self.groups(lambda byte: byte & 0x70 in (0, 0x70))
        if last & 0x40 and count < 6:
            self.unknown(start)
        self.out[mark:] = index_number(found)
        return found

    def name(self, is_right):
        """A name that is right."""
        start, length = self.at, self.u32()
        data = self.bytes(length)
        try:
            text = data.decode()
        except UnicodeDecodeError:
            text = None
        if text is None or not is_right(text):
            self.fault("22 bad name", start)
        return text

    def label(self):
        """A label."""
        return self.name(is_label)

    def extern_name(self):
        """The name of an import or an export."""
        self.one_of(0)
        return self.name(lambda text: is_label(text) or is_full_name(text))

    def index(self, number, of, at):
        """Refuses an index that a space doesn't have."""
        if number >= of:
            self.fault("15 bad index", at)

    def type_index(self):
        """An index of a type of the innermost scope."""
        at = self.at
        self.index(self.u32(), self.scopes[-1].types, at)

    def valtype(self):
        """The type of a value."""
        at, byte = self.at, self.byte()
        if UNSUPPORTED.get(byte) == "float":
            self.fault("14 unsupported float", at)
        if byte in PRIMITIVES:
            return
        self.at = at
        self.out.pop()
        self.index(self.s33(), self.scopes[-1].types, at)

    def optional(self):
        """A type of a value, or none."""
        if self.one_of(0, 1):
            self.valtype()

    def count(self, least, most=None):
        """How many items there are."""
        at, count = self.at, self.u32()
        if count < least:
            self.fault("16 empty type", at)
        if most is not None and count > most:
            self.fault("17 limit", at)
        return count

    def several(self, count, *parts):
        """So many items of these parts."""
        for _ in range(count):
            for part in parts:
                part()

    def function(self):
        """The parameters and the result of a function."""
        self.several(self.count(0), self.label, self.valtype)
        if self.one_of(0, 1):
            self.one_of(0)
        else:
            self.valtype()

    def entry(self, at):
        """Counts one more thing that takes a type index, and that begins with the byte there, which is allowed."""
        self.entries += 1
        if self.entries > MOST_ENTRIES:
            self.fault("17 limit", at)

    def type(self):
        """A type, which takes the next index of its scope."""
        at, byte = self.at, self.byte()
        if byte in UNSUPPORTED:
            self.fault(f"14 unsupported {UNSUPPORTED[byte]}", at)
        if byte not in self.bodies and byte not in (*SCOPES, *PRIMITIVES):
            self.unknown(at)
        self.entry(at)
        if byte in SCOPES:
            self.scope(at, byte == SCOPES[0])
        elif byte in self.bodies:
            self.bodies[byte]()
        self.scopes[-1].types += 1

    def scope(self, at, is_component):
        """The declarations of a component or instance type."""
        if len(self.scopes) > MOST_NESTED:
            self.fault("17 limit", at)
        self.scopes.append(Scope(is_component))
        for _ in range(self.u32()):
            self.declaration()
        self.scopes.pop()

    def declaration(self):
        """One declaration."""
        at, byte = self.at, self.byte()
        if byte not in (1, 2, 3, 4) or byte == 3 and not self.scopes[-1].is_component:
            self.unknown(at)
        if byte == 1:
            self.type()
        elif byte == 2:
            self.alias()
        else:
            self.extern_name()
            self.description()

    def alias(self):
        """A type of an instance, or of a scope around."""
        self.one_of(3)
        self.entry(self.at - 1)
        if self.one_of(0, 2):
            place, count = self.at, self.u32()
            self.index(count, len(self.scopes), place)
            place, number = self.at, self.u32()
            self.index(number, self.scopes[-1 - count].types, place)
        else:
            place, number = self.at, self.u32()
            self.index(number, self.scopes[-1].instances, place)
            self.label()
        self.scopes[-1].types += 1

    def description(self):
        """What is imported or exported."""
        byte = self.one_of(1, 3, 4, 5)
        if byte == 3:
            self.entry(self.at - 1)
            self.one_of(0)
        self.type_index()
        self.scopes[-1].types += byte == 3
        self.scopes[-1].instances += byte == 5

    def section(self, body):
        """A section of this body."""
        mark = len(self.out)
        size = self.u32()
        del self.out[mark:]
        self.end = self.at + size
        self.there = min(self.end, len(self.data))
        body()
        if self.at < self.end:
            self.fault("18 size mismatch", self.end)
        self.end, self.there = None, len(self.data)
        self.out[mark:] = number(len(self.out) - mark) + self.out[mark:]

    def custom(self):
        """A section of no meaning."""
        self.name(lambda _: True)
        self.bytes(self.end - self.at)

    def types(self):
        """The type section."""
        for _ in range(self.u32()):
            self.type()
        self.counts = [self.scopes[0].types]

    def exports(self):
        """The export section."""
        count = self.u32()
        for _ in range(count):
            self.extern_name()
            self.one_of(3)
            self.type_index()
            self.one_of(0)
        self.counts.append(count)

    def file(self):
        """How many types and exports a component has."""
        if len(self.data) > MOST_BYTES:
            self.fault("17 limit", MOST_BYTES)
        for place, byte in enumerate(PREAMBLE):
            if self.byte() != byte:
                self.fault("10 not a component", place)
        wanted = [(7, self.types), (11, self.exports)]
        while wanted or self.at < len(self.data):
            at, kind = self.at, self.byte()
            if kind == 0:
                mark = len(self.out) - 1
                self.section(self.custom)
                del self.out[mark:]
            elif wanted and kind == wanted[0][0]:
                self.section(wanted.pop(0)[1])
            elif not wanted and kind in (7, 11):
                self.fault("19 trailing", at)
            else:
                self.fault(f"12 bad section {kind}", at)
        return self.counts


def canonical(data):
    """A component in its shortest spelling, without custom sections."""
    reader = Reader(data)
    reader.file()
    return bytes(reader.out)


def answer(data):
    """What reading it answers."""
    try:
        return "types {} exports {}".format(*Reader(data).file())
    except Refused as refused:
        return str(refused)


# ---- rows


def failing_row(arguments):
    """What decoding answers if the input fails behind so many bytes."""
    length, digits = arguments.split(" ")
    return f"error 20 read at {length}" if int(length) <= len(digits) // 2 else answer(bytes.fromhex(digits))


COMMANDS = {
    "decode": lambda digits: answer(bytes.fromhex(digits)),
    "drip": lambda digits: answer(bytes.fromhex(digits)),
    # behind two bytes that are there before
    "encode": lambda digits: "aabb" + canonical(bytes.fromhex(digits)).hex(),
    "failing": failing_row,
    # zeros without an end
    "endless": lambda _: answer(bytes(MOST_BYTES + 1)),
}
