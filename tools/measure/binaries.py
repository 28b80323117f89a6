"""Component type binaries by their shape: each shape is a function from a length or a count to a binary."""
from tools.models.binary import ALIAS, EXPORT, IMPORT, PREAMBLE, TYPE, extern, label, section, vector
from tools.models.component import number

MEGABYTE = 1 << 20
U8 = b"\x7d"
# a function type without parameters and without a result, as a type of a value and declared
FUNCTION = b"\x40\x00\x01\x00"
DECLARED = bytes([TYPE]) + FUNCTION
RECORD, VARIANT, TUPLE, FLAGS, ENUM = b"\x72", b"\x71", b"\x6f", b"\x6e", b"\x6d"
PARAMETERS, COMPONENT, INSTANCE = b"\x40", b"\x41", b"\x42"
EMPTY_INSTANCE = bytes([TYPE]) + INSTANCE + b"\x00"
OF_TYPE, OF_FUNCTION = b"\x03\x00\x00", b"\x01\x00"
# more than the frame of any shape
FRAME = 128


# ---- well formed, by the length


def many(item, room):
    """As many items as fit, each made of its number."""
    items, size = [], 0
    while size + len(made := item(len(items))) <= room:
        items.append(made)
        size += len(made)
    return items


def file(types, exports=()):
    """A binary of these types and exports."""
    return PREAMBLE + section(7, vector(types)) + section(11, vector(exports))


def padded(binary, length):
    """The binary with a custom section behind it, so that it has this length."""
    room = length - len(binary)
    for size in (room - 2, room - 3, room - 4):
        last = section(0, label("x") + bytes(size - 2))
        if len(last) == room:
            return binary + last
    raise ValueError("no room is left")


def one_type(wrapped, item):
    """A single type that is made of as many items as fit."""
    return lambda length: padded(file([wrapped(many(item, length - FRAME))]), length)


def listed(opcode, item, end=b""):
    """A single type that lists as many items as fit."""
    return one_type(lambda items: opcode + vector(items) + end, item)


def component(before, declarations):
    """A component type."""
    return COMPONENT + vector([*before, *declarations])


def declared(item, before=DECLARED):
    """A component type of as many declarations as fit, behind one."""
    return one_type(lambda items: component([before], items), item)


def deep(items):
    """Declarations four scopes deep, with a type in each scope around."""
    inner = component([bytes([TYPE]) + U8], items)
    for _ in range(3):
        inner = component([bytes([TYPE]) + U8], [bytes([TYPE]) + inner])
    return inner


def filled_file(item, exported=None):
    """As many types as fit, each made of its number, or one type and as many exports of it."""

    def made(length):
        items = many(item, length - FRAME)
        return padded(file([exported], items) if exported else file(items), length)

    return made


def record(place):
    """A record of three fields, of the first record from the second on."""
    field = U8 if place == 0 else b"\x00"
    return RECORD + vector([label(f"{text}{place}") + field for text in ("first", "second", "third")])


def full(place):
    """An import under a full name with a version."""
    return bytes([IMPORT]) + extern(f"some-space:some-package/face{place}@1.2.{place}-alpha.{place}") + OF_FUNCTION


def dropped(length):
    """Small custom sections, before, between and behind the others."""
    customs = many(lambda n: section(0, label("x")), length - FRAME)
    third = len(customs) // 3
    before, between, behind = customs[:third], customs[third : 2 * third], customs[2 * third :]
    parts = [PREAMBLE, *before, section(7, vector([])), *between, section(11, vector([])), *behind]
    return padded(b"".join(parts), length)


def one_custom(length):
    """A custom section with a long name."""
    first = section(0, label("\u00e9" * ((length - FRAME) // 2)))
    return padded(PREAMBLE + first + section(7, vector([])) + section(11, vector([])), length)


def wide(value):
    """A number in five bytes."""
    return bytes(value >> 7 * place & 127 | 128 for place in range(4)) + bytes([value >> 28])


def alias(place):
    """By turns a type of a scope around, by numbers of five bytes, and an export of a type."""
    if place % 2 == 0:
        return bytes([ALIAS]) + b"\x03\x02" + wide(place % 3 + 1) + wide(0)
    return bytes([EXPORT]) + extern(f"a-longer-export{place}") + OF_TYPE


def scope(place):
    """Three scopes, the innermost with a function type and exports of it."""
    names = [f"{text}-function{place}" for text in ("first", "second", "third")]
    exports = [bytes([EXPORT]) + extern(name) + OF_FUNCTION for name in names]
    inner = bytes([TYPE]) + INSTANCE + vector([DECLARED, *exports])
    return bytes([TYPE]) + COMPONENT + vector([bytes([TYPE]) + INSTANCE + vector([inner])])


READING = {
    "types": filled_file(lambda n: TUPLE + vector([U8] * 20)),
    "records": filled_file(record),
    "fields": listed(RECORD, lambda n: label(f"field{n}") + U8),
    "cases": listed(VARIANT, lambda n: label(f"case{n}") + b"\x01" + U8 + b"\x00"),
    "labels": listed(ENUM, lambda n: label(f"a-longer-label{n}")),
    "long names": listed(ENUM, lambda n: label("-".join(["word"] * 49) + f"-n{n}")),
    "members": listed(TUPLE, lambda n: U8),
    "parameters": listed(PARAMETERS, lambda n: label(f"p{n}") + U8, OF_FUNCTION),
    "declarations": declared(lambda n: bytes([EXPORT]) + extern(f"f{n}") + OF_FUNCTION),
    "full names": declared(full),
    "instances": declared(lambda n: bytes([IMPORT]) + extern(f"i{n}") + b"\x05\x00", EMPTY_INSTANCE),
    "aliases": one_type(deep, alias),
    "scopes": declared(scope),
    "exports": filled_file(lambda n: extern(f"export-number{n}") + OF_TYPE, COMPONENT + b"\x00"),
    "customs": dropped,
    "custom": one_custom,
}


# ---- with a stated count: three items, and then bytes that begin none, up to 1 MiB

MOST = 4294967295
# A variant and an enum may state so many cases, and flags so many labels.
MOST_CASES, MOST_FLAGS = 100000, 32


def filled(front):
    """A type section of this front."""
    length = MEGABYTE - len(PREAMBLE) - 1 - len(number(MEGABYTE))
    return PREAMBLE + section(7, front + b"\xff" * (length - len(front)))


def of_type(opcode, item):
    """A type section of one type, whose list states this many items and has three."""
    return lambda count: filled(number(1) + opcode + number(count) + b"".join(item(n) for n in range(3)))


def of_types(count):
    """A type section that states this many types and has three."""
    return filled(number(count) + U8 * 3)


def of_exports(count):
    """An export section that states this many exports and has three."""
    types = PREAMBLE + section(7, vector([COMPONENT + b"\x00"]))
    front = number(count) + b"".join(extern(f"e{n}") + OF_TYPE for n in range(3))
    return types + section(11, front + b"\xff" * (MEGABYTE - len(types) - len(front) - 5))


# each shape by its count, and the most that it may state
STATED = {
    "fields": (of_type(RECORD, lambda n: label(f"f{n}") + U8), MOST),
    "cases": (of_type(VARIANT, lambda n: label(f"c{n}") + b"\x00\x00"), MOST_CASES),
    "members": (of_type(TUPLE, lambda n: U8), MOST),
    "flags": (of_type(FLAGS, lambda n: label(f"l{n}")), MOST_FLAGS),
    "labels": (of_type(ENUM, lambda n: label(f"l{n}")), MOST_CASES),
    "parameters": (of_type(PARAMETERS, lambda n: label(f"p{n}") + U8), MOST),
    "declarations": (of_type(COMPONENT, lambda n: DECLARED), MOST),
    "of an instance": (of_type(INSTANCE, lambda n: DECLARED), MOST),
    "types": (of_types, MOST),
    "exports": (of_exports, MOST),
}
