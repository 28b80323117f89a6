"""A call between two memories, in halves."""

from __future__ import annotations

import ctypes
import operator
from types import TracebackType
from typing import TYPE_CHECKING, Any, Callable, Iterable, NamedTuple, Optional, Sequence, Union

from ._library import MAX_VALUES, CBlock, CCall, CRequest, CStatus, CValue, checked
from ._wrong import shown

if TYPE_CHECKING:
    from ._package import Package
    from ._table import Function

# Bytes of a memory that can be written.
Writable = Union[bytearray, memoryview, "ctypes.Array[Any]"]

_WIDTHS = {"i32": 32, "i64": 64}
# Requests that have room at first.
_FEW = 32


class CoreValue(NamedTuple):
    """A core value with its kind, `i32` or `i64`."""

    kind: str
    bits: int


# A number has the kind that the function's core signature has at its place.
Flat = Union[int, CoreValue]


class Request(NamedTuple):
    """A block that is asked for: of `size` bytes, at a multiple of `alignment`."""

    alignment: int
    size: int


class Block(NamedTuple):
    """A block that an allocator granted, at an address of its memory."""

    alignment: int
    size: int
    address: int


class Lent:
    """The address and the length of a memory. It can't be resized in the `with` block of this."""

    def __init__(self, data: Writable) -> None:
        with memoryview(data) as view:
            self.length = view.nbytes
        self._first = ctypes.c_char.from_buffer(data) if self.length else None
        self.address = 0 if self._first is None else ctypes.addressof(self._first)

    def __enter__(self) -> Lent:
        return self

    def __exit__(
        self,
        kind: Optional[type[BaseException]],
        error: Optional[BaseException],
        trace: Optional[TracebackType],
    ) -> None:
        self._first = None

    def overlaps(self, other: Lent) -> bool:
        """Whether a byte is of both memories."""
        if self.length == 0 or other.length == 0:
            return False
        begins_before = self.address < other.address + other.length
        return begins_before and other.address < self.address + self.length


def within(number: int, end: int, what: str) -> int:
    """A number below an end, which the library has room for: ctypes would cut any other."""
    if isinstance(number, bool) or not hasattr(type(number), "__index__"):
        raise TypeError(f"{what} is an int, and not {type(number).__name__}")
    found = operator.index(number)
    if not 0 <= found < end:
        raise ValueError(f"{what} is a number from 0 to {end - 1}, and not {shown(found)}")
    return found


def limit_of(limit: int) -> int:
    """A limit that the library takes."""
    return within(limit, 2**64, "a limit")


def _core_value(given: Flat, kind: str) -> CValue:
    kind, number = given if isinstance(given, CoreValue) else (kind, given)
    width = _WIDTHS.get(kind)
    if width is None:
        raise ValueError(f"a core value is of `i32` or `i64`, and not of {shown(kind)}")
    if not isinstance(number, int):
        raise TypeError(f"a core value is an int, and not {shown(number)}")
    if not -(2 ** (width - 1)) <= number < 2**width:
        raise ValueError(f"{shown(number)} is no {kind}")
    return CValue(int(kind == "i64"), number % 2**width)


def core_values(given: Sequence[Flat], kinds: Sequence[str]) -> tuple[Any, int]:
    """An array of core values, and its length. What the signature does not have is an i32."""
    of_signature = [*kinds, *["i32"] * (len(given) - len(kinds))]
    array = (CValue * len(given))(*map(_core_value, given, of_signature))
    return array, len(given)


def blocks_of(granted: Iterable[Block]) -> tuple[Any, int]:
    """An array of blocks, and its length."""
    found = []
    for alignment, size, address in granted:
        at = within(address, 2**32, "the address of a block")
        align = within(alignment, 2**32, "the alignment of a block")
        found.append(CBlock(align, within(size, 2**32, "the size of a block"), at))
    return (CBlock * len(found))(*found), len(found)


def numbers_of(array: Any, count: int) -> tuple[int, ...]:
    """The first core values of an array."""
    return tuple(value.bits for value in array[:count])


def requests_of(ask: Callable[[Any, int], CStatus]) -> list[Request]:
    """The blocks that a call asks for, which are written into an array with room for them."""
    room = _FEW
    while True:
        asked = (CRequest * room)()
        status = ask(asked, room)
        if status.code or status.count <= room:
            return [Request(it.align, it.size) for it in asked[: checked(status)]]
        room = status.count


class Call:
    """A call of a function, which is made in halves:

    1. `enter_requests` asks which blocks the arguments need, and the callee's allocator grants them
    2. `enter` puts the arguments there, and returns the values for the callee's core function
    3. the core function runs
    4. `leave_requests` asks which blocks the answer needs, and the caller's allocator grants them
    5. `leave` puts the answer there, and returns the values for the caller

    All values are unsigned, so an address is an index. A limit is the greatest size of the memory
    that is asked for blocks: if they have more bytes together, they are refused by
    `76 above the limit`. An allocator that has no room ends its blocks there, and the next step is
    the trap `K6 full` then.
    """

    def __init__(self, package: Package, function: Function, flats: Sequence[Flat]) -> None:
        """Begins a call with the core values that the caller hands in."""
        self._package = package
        self._function = function
        self._call = CCall()
        values = core_values(flats, function.lowered.parameters)
        checked(package.ask("witcall_begin", function.number, *values, self._call))

    def _answer(self, answer: Sequence[Flat]) -> tuple[Any, int]:
        return core_values(answer, self._function.lifted.results)

    def _requests(
        self, name: str, values: tuple[Any, ...], data: Writable, limit: int
    ) -> list[Request]:
        most = limit_of(limit)
        with Lent(data) as memory:
            words = (self._call, *values, memory.address, memory.length)
            return requests_of(
                lambda array, room: self._package.ask(name, *words, array, room, most)
            )

    def _carry(
        self,
        name: str,
        values: tuple[Any, ...],
        memories: tuple[Writable, Writable],
        granted: Iterable[Block],
    ) -> tuple[int, ...]:
        blocks = blocks_of(granted)
        told = (CValue * MAX_VALUES)()
        source, target = memories
        with Lent(source) as read, Lent(target) as written:
            if read.overlaps(written):
                raise ValueError("the memories of the caller and of the callee overlap")
            places = (read.address, read.length, written.address, written.length)
            words = (*values, *places, *blocks, told, MAX_VALUES)
            status = self._package.ask(name, self._call, *words)
        return numbers_of(told, checked(status))

    def enter_requests(self, caller: Writable, limit: int) -> list[Request]:
        """The blocks that the arguments need in the callee, in this order."""
        return self._requests("witcall_call_enter_requests", (), caller, limit)

    def enter(self, caller: Writable, callee: Writable, blocks: Iterable[Block]) -> tuple[int, ...]:
        """Puts the arguments into the callee's blocks: the values for its core function."""
        return self._carry("witcall_call_enter", (), (caller, callee), blocks)

    def leave_requests(self, answer: Sequence[Flat], callee: Writable, limit: int) -> list[Request]:
        """The blocks that the core function's answer needs in the caller, in this order."""
        return self._requests("witcall_call_leave_requests", self._answer(answer), callee, limit)

    def leave(
        self, answer: Sequence[Flat], callee: Writable, caller: Writable, blocks: Iterable[Block]
    ) -> tuple[int, ...]:
        """Puts the answer into the caller's blocks and return area: the values for the caller."""
        return self._carry("witcall_call_leave", self._answer(answer), (callee, caller), blocks)
