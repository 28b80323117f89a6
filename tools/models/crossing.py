"""Values from one place to another, node by node, outer before inner: a place is a memory's, a list of flat values' or
a value's.

Between places a number is its bits, unsigned, in as many bytes as its type has. A value is a bool, a number, a text (of
a char or a string), a list, a tuple of fields, the bits of flags, or the number of a case with a payload or None.
"""
from .abi import Flags, List, Record, Scalar, String, Variant
from .faults import Trap

SIGNED = {"s8", "s16", "s32", "s64"}

# the steps in which a typed value is put, and the most bytes of a block that it asks for
TYPED = {"place", "body"}
MOST_BLOCK = 16777216


def bits_of(t):
    """How many bits count in a number of this type."""
    return len(t.labels) if isinstance(t, Flags) else 8 * t.size


def is_scalar_value(number):
    """Whether a number is a char."""
    return number < 0x110000 and not 0xD800 <= number < 0xE000


class Place:
    """What a place in a memory and one among flat values have in common."""

    def __init__(self, memory, step):
        self.memory, self.step = memory, step

    def tested(self, t, raw):
        """A number as it was found, tested and with the bits that count."""
        if t.kinds == ("i32",):
            raw %= 1 << 32
        if isinstance(t, Scalar) and t.word == "bool":
            return int(raw != 0)
        if isinstance(t, Scalar) and t.word == "char" and not is_scalar_value(raw):
            raise Trap("K1 char", self.step)
        return raw % (1 << bits_of(t))

    def case_tested(self, t, case):
        """The number of a case, tested."""
        if case >= len(t.payloads):
            raise Trap("K2 case", self.step)
        return case

    def string(self):
        """The bytes of a string."""
        at, length = self.header()
        self.memory.test(1, length, at, self.step)
        data = bytes(self.memory.bytes[at : at + length])
        try:
            data.decode()
        except UnicodeDecodeError:
            raise Trap("K5 utf8", self.step) from None
        return data

    def items(self, t):
        """The places of a list's elements, of this type."""
        at, count = self.header()
        self.memory.test(t.align, count * t.size, at, self.step)
        return self.stored(t, at, count)

    def block(self, align, size):
        """The address of a block for what is put here. For a typed value none of more bytes than the limit is asked
        for."""
        if self.step in TYPED and size > MOST_BLOCK:
            raise Trap("K4 bounds", self.step)
        return self.memory.grant(align, size, self.step)

    def put_string(self, data):
        """Puts a string into a block of its own."""
        at = self.block(1, len(data))
        self.memory.write(at, data)
        self.put_header(at, len(data))

    def new_items(self, t, count):
        """The places of the elements of a list that is put into a block of its own."""
        at = self.block(t.align, count * t.size)
        self.put_header(at, count)
        return self.stored(t, at, count)

    def stored(self, t, at, count):
        """So many places of this type in a row."""
        return [Stored(self.memory, at + place * t.size, self.step) for place in range(count)]


class Stored(Place):
    """A place in a memory."""

    def __init__(self, memory, at, step):
        super().__init__(memory, step)
        self.at = at

    def header(self):
        """An address and a length."""
        return self.memory.number(self.at, 4), self.memory.number(self.at + 4, 4)

    def put_header(self, at, length):
        """Puts an address and a length."""
        self.memory.put(self.at, 8, at | length << 32)

    def number(self, t):
        """The number here."""
        return self.tested(t, self.memory.number(self.at, t.size))

    def put_number(self, t, number):
        """Puts a number."""
        self.memory.put(self.at, t.size, number)

    def payload(self, t):
        """The place of a variant's payload."""
        return Stored(self.memory, self.at + t.payload_offset, self.step)

    def case(self, t):
        """The case of the variant here, and the place of its payload."""
        return self.case_tested(t, self.memory.number(self.at, t.case_width)), self.payload(t)

    def put_case(self, t, case):
        """Puts the number of a case; the place of its payload."""
        self.memory.put(self.at, t.case_width, case)
        return self.payload(t)

    def fields(self, t):
        """The places of a record's fields."""
        return [Stored(self.memory, self.at + offset, self.step) for offset in t.offsets]


class Flat(Place):
    """A place in a list of flat values, in which what isn't put stays 0."""

    def __init__(self, memory, flats, at, step):
        super().__init__(memory, step)
        self.flats, self.at = flats, at

    def header(self):
        """An address and a length."""
        return self.flats[self.at] % (1 << 32), self.flats[self.at + 1] % (1 << 32)

    def put_header(self, at, length):
        """Puts an address and a length."""
        self.flats[self.at : self.at + 2] = [at, length]

    def number(self, t):
        """The number here."""
        return self.tested(t, self.flats[self.at])

    def put_number(self, t, number):
        """Puts a number, with its sign in all of 32 bits."""
        if isinstance(t, Scalar) and t.word in SIGNED and t.size < 4 and number >> bits_of(t) - 1:
            number += (1 << 32) - (1 << bits_of(t))
        self.flats[self.at] = number

    def behind(self, count):
        """The place behind so many flat values."""
        return Flat(self.memory, self.flats, self.at + count, self.step)

    def case(self, t):
        """The case of the variant here, and the place of its payload."""
        return self.case_tested(t, self.flats[self.at] % (1 << 32)), self.behind(1)

    def put_case(self, _t, case):
        """Puts the number of a case; the place of its payload."""
        self.flats[self.at] = case
        return self.behind(1)

    def fields(self, t):
        """The places of a record's fields."""
        return [self.behind(sum(len(field.kinds) for field in t.fields[:place])) for place in range(len(t.fields))]


class Given:
    """A value that is taken from."""

    def __init__(self, value):
        self.value = value

    def number(self, t):
        """Its bits."""
        number = ord(self.value) if isinstance(self.value, str) else int(self.value)
        return number % (1 << bits_of(t))

    def string(self):
        """Its bytes."""
        return self.value.encode()

    def case(self, _t):
        """Its case, and its payload."""
        case, payload = self.value
        return case, Given(payload)

    def items(self, _t):
        """Its elements or fields."""
        return [Given(item) for item in self.value]

    fields = items


class Made:
    """A value that is made; `value` answers it once it is whole."""

    def __init__(self):
        self.value = lambda: None

    def put_number(self, t, number):
        """Makes a scalar value of these bits, or flags."""
        if isinstance(t, Scalar) and t.word in SIGNED and number >> bits_of(t) - 1:
            number -= 1 << bits_of(t)
        made = {"bool": bool, "char": chr}.get(t.word, int) if isinstance(t, Scalar) else int
        self.value = lambda: made(number)

    def put_string(self, data):
        """Makes a string."""
        self.value = data.decode

    def put_case(self, _t, case):
        """Makes a case; where its payload is made."""
        payload = Made()
        self.value = lambda: (case, payload.value())
        return payload

    def new_items(self, _t, count):
        """Makes a list of so many elements."""
        items = [Made() for _ in range(count)]
        self.value = lambda: [item.value() for item in items]
        return items

    def fields(self, t):
        """Makes a record."""
        fields = [Made() for _ in t.fields]
        self.value = lambda: tuple(field.value() for field in fields)
        return fields


class Way:
    """One way of values, with the number of nodes that were visited on it."""

    def __init__(self):
        self.nodes = 0

    def cross(self, t, source, target):
        """Takes a value of this type from one place to another."""
        self.nodes += 1
        if isinstance(t, String):
            target.put_string(source.string())
        elif isinstance(t, List):
            items = source.items(t.element)
            for item, to in zip(items, target.new_items(t.element, len(items))):
                self.cross(t.element, item, to)
        elif isinstance(t, Record):
            self.cross_fields(t, source, target)
        elif isinstance(t, Variant):
            case, payload = source.case(t)
            to = target.put_case(t, case)
            if t.payloads[case] is not None:
                self.cross(t.payloads[case], payload, to)
        else:
            target.put_number(t, source.number(t))

    def cross_fields(self, t, source, target):
        """Takes the fields of a record, one after the other."""
        for field, out, into in zip(t.fields, source.fields(t), target.fields(t)):
            self.cross(field, out, into)


def value_at(t, place):
    """The value at a place."""
    made = Made()
    Way().cross(t, place, made)
    return made.value()


# ---- what a function takes and gives, as core values beside a memory


def lowered(function, arguments, memory, step):
    """The core values of arguments that are put there."""
    params = function.params
    if function.is_spilled:
        at = memory.grant(params.align, params.size, step)
        Way().cross(params, Given(arguments), Stored(memory, at, step))
        return [("i32", at)]
    flats = [0] * len(params.kinds)
    Way().cross_fields(params, Given(arguments), Flat(memory, flats, 0, step))
    return list(zip(params.kinds, flats))


def lifted(t, is_stored, numbers, memory, step):
    """The value of this type that core values denote: one that is stored in the memory at the first of them, or a flat
    one."""
    if is_stored:
        memory.test(t.align, t.size, numbers[0], step)
    return value_at(t, Stored(memory, numbers[0], step) if is_stored else Flat(memory, numbers, 0, step))
