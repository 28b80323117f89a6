"""Heads: what one value has of its own, without the values in it. Rows of crates/vectors read a head and write it
(docs/FORMATS.md, "Rows of heads")."""
from .abi import Flags, List, Record, Scalar, String, Variant
from .calls import guests_of, memories_told, package_of
from .crossing import SIGNED, Flat, Stored
from .faults import Trap

BYTE = Scalar("u8")


def flats_of(t):
    """How many core values the head of a value of this type takes."""
    if isinstance(t, Record):
        return 0
    return 2 if isinstance(t, (String, List)) else 1


def read(t, place):
    """The head of the value at a place: an address and a count, the number of a case, or a number's bits. That of a
    record is None."""
    if isinstance(t, Record):
        return None
    if isinstance(t, Variant):
        return place.case(t)[0]
    if isinstance(t, (String, List)):
        at, count = place.header()
        item = t.element if isinstance(t, List) else BYTE
        place.memory.test(item.align, count * item.size, at, place.step)
        return at, count
    return place.number(t)


def write(t, place, head):
    """Writes a head at a place in a memory that has the bytes of the value."""
    place.memory.test(t.align, t.size, place.at, place.step)
    if isinstance(t, Variant):
        place.put_case(t, head)
    elif isinstance(t, (String, List)):
        place.put_header(*head)
    elif not isinstance(t, Record):
        place.put_number(t, head)


def told(t, head):
    """A head as a row has it."""
    if isinstance(t, Record):
        return "nothing"
    if isinstance(t, Variant):
        return {"case": head}
    if isinstance(t, (String, List)):
        return {"block": head}
    if isinstance(t, Flags):
        return {"flags": head}
    if t.word in SIGNED and head >> 8 * t.size - 1:
        head -= 1 << 8 * t.size
    return {"scalar": bool(head) if t.word == "bool" else head}


def source_of(row, t, memory):
    """The place that a row reads a head from."""
    if "head_of" not in row:
        memory.test(t.align, t.size, row["head_at"], "take")
        return Stored(memory, row["head_at"], "take")
    numbers = [number for _, number in row["head_of"]]
    if len(numbers) < flats_of(t):
        raise Trap("K8 coresignature", "take")
    return Flat(memory, numbers, 0, "take")


def answer(row, t, caller, callee):
    """The head that a row reads from the caller, and writes into the callee if the row says where."""
    try:
        head = read(t, source_of(row, t, caller))
        if "put_at" in row:
            write(t, Stored(callee, row["put_at"], "place"), head)
        return {"head": told(t, head)}
    except Trap as trap:
        return {"trap": str(trap)}


def row_told(row):
    """What a row of a head answers, and the memories after it."""
    caller, callee = guests_of(row)
    t = package_of(row).function("a:b/c", row["func"]).params.fields[0]
    return {"answers": [answer(row, t, caller, callee)], **memories_told(caller, callee, True)}
