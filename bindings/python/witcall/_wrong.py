"""What is told of a value that is not of its type: what has to stand there, and what does."""

from __future__ import annotations

import inspect
import json
import reprlib
from typing import TYPE_CHECKING, Any, Mapping, Sequence

from ._names import quoted

if TYPE_CHECKING:
    from ._table import Member, Type

# Labels and characters that a fault shows.
_MOST_LABELS, _MOST_SHOWN = 8, 60

# The least and the greatest number of each type.
RANGES = {
    f"{sign}{bits}": (-(2 ** (bits - 1)), 2 ** (bits - 1) - 1) if sign == "s" else (0, 2**bits - 1)
    for sign in "su"
    for bits in (8, 16, 32, 64)
}
_OTHER_WORDS = {
    "bool": "`true` or `false`",
    "s64": "a whole number of 64 bits",
    "u64": "a whole number of 64 bits, from 0 on",
    "char": "a text of one character",
    "string": "a text",
}
_BEGINNINGS = {
    "record": "a record is an object with just the keys ",
    "variant": "a variant is one of ",
    "enum": "an enum is one of ",
    "flags": "flags are an array of those that are set, in the order of ",
    "option": "an option is one of ",
    "result": "a result is one of ",
    "tuple": "a tuple is an array of one value for each of its types",
    "list": "a list is an array",
}


class Wrong(Exception):
    """A value that is not of its type.

    Attributes:
        fault: what has to stand there, and what does
        steps: those to its place, the last one first
    """

    def __init__(self, fault: str) -> None:
        super().__init__(fault)
        self.fault = fault
        self.steps: list[str] = []

    @property
    def path(self) -> str:
        """The place, as `[0].lines[2].count`; empty if it is all of the value."""
        return "".join(reversed(self.steps))


class _Shown(reprlib.Repr):
    """Short texts of values, which no value makes fail."""

    def __init__(self) -> None:
        super().__init__()
        self.maxother = _MOST_SHOWN

    def repr_int(self, number: int, level: int) -> str:
        """A number of many digits is told by its size: not all of them can be written."""
        bits = number.bit_length()
        return repr(number) if bits <= 256 else f"a number of {bits} bits"


def _text_of(value: Any) -> str:
    """The JSON of a value, or how Python shows one that has none."""
    if isinstance(value, Mapping) and not all(isinstance(it, str) for it in value):
        return _Shown().repr(value)
    try:
        return json.dumps(
            value, ensure_ascii=False, allow_nan=False, sort_keys=True, separators=(",", ":")
        )
    except (TypeError, ValueError, RecursionError):
        return _Shown().repr(value)


def shown(value: Any) -> str:
    """What a value is, in few words."""
    if inspect.iscoroutine(value):
        return "a coroutine, which has to be awaited first"
    if inspect.isawaitable(value):
        return f"an awaitable {type(value).__name__}, which has to be awaited first"
    return quoted(_text_of(value), _MOST_SHOWN)


def _label(member: Member, has_payloads: bool) -> str:
    return f'`{{"{member.name}":..}}`' if has_payloads and member.type else f'`"{member.name}"`'


def one_of(kind: Type, labels: Sequence[str]) -> str:
    """What a value of a type with labels is."""
    more = [".."] if len(labels) > _MOST_LABELS else []
    return _BEGINNINGS[kind.kind] + ", ".join([*labels[:_MOST_LABELS], *more])


def wanted(kind: Type) -> str:
    """What a value of a type is."""
    if kind.kind in _BEGINNINGS:
        members = () if kind.kind in ("tuple", "list") else kind.members
        has_payloads = kind.kind in ("variant", "option", "result")
        return one_of(kind, [_label(it, has_payloads) for it in members])
    words = _OTHER_WORDS.get(kind.kind)
    if words is None:
        words = "a whole number from {} to {}".format(*RANGES[kind.kind])
    return f"a `{kind.kind}` is {words}"
