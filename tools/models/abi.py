"""The Canonical ABI's types, with their layouts, flat kinds and core signatures.

Types are closed: names are unfolded, a tuple is a record without labels, and an enum, an option and a result are
variants. Lists of flat kinds are cut after the seventeenth, which is enough to tell that they are more than sixteen.
"""
from dataclasses import dataclass
from functools import cached_property

WIDTHS = {"bool": 1, "s8": 1, "u8": 1, "s16": 2, "u16": 2, "s32": 4, "u32": 4, "char": 4, "s64": 8, "u64": 8}
MAX_FLAT = 16


def up(number, align):
    """The next multiple of an alignment."""
    return -(-number // align) * align


def cut(kinds):
    """As many kinds as tell that they are too many."""
    return tuple(kinds[: MAX_FLAT + 1])


def joined(all_kinds):
    """The kinds of the payloads of a variant, place by place."""
    result = []
    for kinds in all_kinds:
        for place, kind in enumerate(kinds):
            if place == len(result):
                result.append(kind)
            elif result[place] != kind:
                result[place] = "i64"
    return result


@dataclass(eq=False)
class Scalar:
    """A bool, a number or a char."""

    word: str

    depth = 1

    @property
    def size(self):
        """Its bytes."""
        return WIDTHS[self.word]

    align = size

    @property
    def kinds(self):
        """Its one flat kind."""
        return ("i64",) if self.size == 8 else ("i32",)


@dataclass(eq=False)
class String:
    """A string."""

    depth, size, align, kinds = 1, 8, 4, ("i32", "i32")


@dataclass(eq=False)
class List:
    """A list."""

    element: object

    size, align, kinds = 8, 4, ("i32", "i32")

    @cached_property
    def depth(self):
        """How deep types nest in it."""
        return self.element.depth + 1


@dataclass(eq=False)
class Flags:
    """Flags."""

    labels: tuple

    depth, kinds = 1, ("i32",)

    @property
    def size(self):
        """Its bytes."""
        return 1 if len(self.labels) <= 8 else 2 if len(self.labels) <= 16 else 4

    align = size


@dataclass(eq=False)
class Record:
    """A record, or a tuple, whose `labels` are None."""

    fields: tuple
    labels: object = None

    @cached_property
    def depth(self):
        """How deep types nest in it."""
        return 1 + max([0, *(field.depth for field in self.fields)])

    @cached_property
    def ends(self):
        """Where each field begins and ends."""
        ends, end = [], 0
        for field in self.fields:
            start = up(end, field.align)
            end = start + field.size
            ends.append((start, end))
        return ends

    @property
    def offsets(self):
        """Where each field begins."""
        return [start for start, _ in self.ends]

    @cached_property
    def align(self):
        """The greatest alignment of its fields."""
        return max([1, *(field.align for field in self.fields)])

    @property
    def size(self):
        """Its bytes."""
        return up(self.ends[-1][1] if self.ends else 0, self.align)

    @cached_property
    def kinds(self):
        """The flat kinds of its fields, one after the other."""
        return cut([kind for field in self.fields for kind in field.kinds])


@dataclass(eq=False)
class Variant:
    """A variant, an enum, an option or a result: a payload's type or None for each case."""

    payloads: tuple
    labels: tuple

    @cached_property
    def held(self):
        """The types of the payloads that there are."""
        return [payload for payload in self.payloads if payload is not None]

    @cached_property
    def depth(self):
        """How deep types nest in it."""
        return 1 + max([0, *(payload.depth for payload in self.held)])

    @property
    def case_width(self):
        """The bytes of the number of its case."""
        return 1 if len(self.payloads) <= 1 << 8 else 2 if len(self.payloads) <= 1 << 16 else 4

    @cached_property
    def align(self):
        """The greatest alignment of the case's number and of the payloads."""
        return max([self.case_width, *(payload.align for payload in self.held)])

    @cached_property
    def payload_offset(self):
        """Where a payload begins."""
        return up(self.case_width, max([1, *(payload.align for payload in self.held)]))

    @cached_property
    def size(self):
        """Its bytes."""
        return up(self.payload_offset + max([0, *(payload.size for payload in self.held)]), self.align)

    @cached_property
    def kinds(self):
        """The kind of the case's number, then those of the payloads, joined."""
        return cut(["i32", *joined(payload.kinds for payload in self.held)])


@dataclass(eq=False)
class Function:
    """A function: the record of its parameters, and its result's type or None."""

    params: Record
    result: object

    @property
    def is_spilled(self):
        """Whether its arguments go through memory."""
        return len(self.params.kinds) > MAX_FLAT

    @property
    def result_kinds(self):
        """The flat kinds of its result."""
        return () if self.result is None else self.result.kinds

    @property
    def has_area(self):
        """Whether its result goes through memory."""
        return len(self.result_kinds) > 1

    @property
    def passed(self):
        """The kinds of the arguments as they are passed."""
        return ("i32",) if self.is_spilled else self.params.kinds

    @property
    def lifted(self):
        """The core signature of the callee's function: kinds of its parameters and of its result."""
        return self.passed, ("i32",) if self.has_area else self.result_kinds

    @property
    def lowered(self):
        """The core signature of the caller's import."""
        return (self.passed + ("i32",), ()) if self.has_area else (self.passed, self.result_kinds)
