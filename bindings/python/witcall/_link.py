"""Two components, of which the one calls functions of the other."""

from __future__ import annotations

from dataclasses import dataclass
from typing import TYPE_CHECKING, Callable, Iterable, Mapping, Optional, Protocol, Sequence, Union

from ._calls import Block, Call, CoreValue, Flat, Request, Writable, limit_of
from ._errors import Status
from ._library import TRAP, error_of
from ._names import quoted
from ._wrong import shown

if TYPE_CHECKING:
    from ._package import Package
    from ._table import Function

# Bytes that the blocks of one half may have together, if `link` is given no other limit.
LIMIT = 2**24

# K7, a component that stops, and the steps in which it can.
STOPPED = 7
BODY, POST = 4, 7

_POST_RETURN = "cabi_post_"

# What a core function answers: no value, one, or several.
Answer = Union[None, Flat, Sequence[Flat]]
Body = Callable[..., Answer]
Import = Callable[..., Optional[int]]


class Stopped(Exception):
    """A component's code stopped. The call ends in the trap `K7 body`."""


class Memory(Protocol):
    """A component's memory, and its allocator."""

    @property
    def data(self) -> Writable:
        """The memory's bytes. They are asked for anew at each step, since a memory may grow."""

    def allocate(self, alignment: int, size: int) -> Optional[int]:
        """The address of a new block, or None if there is no room."""


class ArrayMemory:
    """A memory in Python, with an allocator.

    Args:
        data: the bytes, or how many there are
        allocate: returns the address of a new block from its alignment and its size, or None; if it
            is left out, each block is put above all earlier ones
    """

    def __init__(
        self,
        data: Union[bytearray, int],
        allocate: Optional[Callable[[int, int], Optional[int]]] = None,
    ) -> None:
        self.data = bytearray(data)
        self._allocate = allocate or self._above
        self._top = 0

    def _above(self, alignment: int, size: int) -> Optional[int]:
        address = -(-self._top // alignment) * alignment
        if address + size > len(self.data):
            return None
        self._top = address + size
        return address

    def allocate(self, alignment: int, size: int) -> Optional[int]:
        """The address of a new block, or None if there is no room."""
        return self._allocate(alignment, size)

    def put(self, data: bytes, alignment: int = 1) -> int:
        """Puts bytes into a new block, and returns its address."""
        if alignment < 1:
            raise ValueError(f"an alignment is a number from 1 on, and not {shown(alignment)}")
        address = self.allocate(alignment, len(data))
        if address is None:
            raise MemoryError("the component's memory is full")
        self.data[self._range(address, len(data))] = data
        return address

    def get(self, address: int, length: int) -> bytes:
        """A copy of the bytes at an address.

        Raises:
            IndexError: if they are not all in the memory
        """
        return bytes(self.data[self._range(address, length)])

    def _range(self, address: int, length: int) -> slice:
        size = len(self.data)
        if not 0 <= address <= address + length <= size:
            place = f"{length} bytes at {address}"
            raise IndexError(f"{place} are not all in a memory of {size} bytes")
        return slice(address, address + length)


def grant(memory: Memory, asked: Iterable[Request]) -> list[Block]:
    """Has an allocator grant blocks in turn, up to the first one that it has no room for."""
    blocks = []
    for alignment, size in asked:
        address = memory.allocate(alignment, size)
        if address is None:
            break
        blocks.append(Block(alignment, size, address))
    return blocks


def values_of(answer: Answer) -> Sequence[Flat]:
    """The core values that a core function answered."""
    if answer is None:
        return ()
    if isinstance(answer, (int, CoreValue)):
        return (answer,)
    if isinstance(answer, (str, bytes, bytearray)) or not isinstance(answer, Sequence):
        raise TypeError(f"a core function answers an int or several, and not {shown(answer)}")
    return answer


def run(
    body: Body, values: Sequence[Flat], step: int, stops: tuple[type[BaseException], ...]
) -> Answer:
    """Runs code of a component. If it stops, the call is a trap."""
    try:
        return body(*values)
    except stops as error:
        raise error_of(Status(TRAP, STOPPED, step, 0)) from error


def post_return_of(name: str) -> str:
    """The name of the post-return of a core function."""
    return _POST_RETURN + name


def is_post_return(name: str) -> bool:
    """Whether a core function of this name is a post-return."""
    return isinstance(name, str) and name.startswith(_POST_RETURN)


def exported(
    package: Package, bodies: Mapping[str, Body]
) -> dict[str, tuple[Function, Body, Optional[Body]]]:
    """The functions that a component exports, each with its body and its post-return."""
    for name, body in bodies.items():
        if not callable(body):
            raise TypeError(f"{quoted(name)} is no function, but {shown(body)}")
        if is_post_return(name) and name[len(_POST_RETURN) :] not in bodies:
            raise ValueError(f"{quoted(name)} is the post-return of a function that is not there")
    return {
        name: (package.find(*_parts(name)), body, bodies.get(post_return_of(name)))
        for name, body in bodies.items()
        if not is_post_return(name)
    }


@dataclass(frozen=True)
class _Sides:
    package: Package
    caller: Memory
    callee: Memory
    limit: int
    stops: tuple[type[BaseException], ...]


@dataclass(frozen=True)
class _Import:
    """A function of the callee, as the caller imports it."""

    sides: _Sides
    function: Function
    body: Body
    post_return: Optional[Body]

    def __call__(self, *flats: Flat) -> Optional[int]:
        sides = self.sides
        call = Call(sides.package, self.function, flats)
        blocks = grant(sides.callee, call.enter_requests(sides.caller.data, sides.limit))
        handed = call.enter(sides.caller.data, sides.callee.data, blocks)
        answer = values_of(run(self.body, handed, BODY, sides.stops))
        blocks = grant(sides.caller, call.leave_requests(answer, sides.callee.data, sides.limit))
        back = call.leave(answer, sides.callee.data, sides.caller.data, blocks)
        if self.post_return:
            run(self.post_return, answer, POST, sides.stops)
        return back[0] if back else None


def link(
    package: Package,
    caller: Memory,
    callee: Memory,
    bodies: Mapping[str, Body],
    *,
    limit: int = LIMIT,
    stops: tuple[type[BaseException], ...] = (),
) -> dict[str, Import]:
    """Makes the functions that a caller imports from what the callee exports.

    Args:
        package: declares the functions
        caller: the memory of the component that calls
        callee: the memory of the component that is called
        bodies: the callee's core functions, by the names of its exports, as `a:b/c#f`; what
            `cabi_post_a:b/c#f` names is run after it
        limit: the greatest size of both memories, in bytes
        stops: classes of what a body raises if its component stops, besides `Stopped`

    Returns:
        functions over core values, by the same names. A call may end in a `Trap`, or in `Refused`
        if an allocator is wrong or the values ask for more bytes than the limit. What else a body
        raises goes on to the caller.

    Raises:
        Refused: `63 no function`, if the package does not declare one of them
        ValueError: if a post-return has no function, or the limit is none
    """
    limit_of(limit)
    sides = _Sides(package, caller, callee, limit, (Stopped, *stops))
    return {name: _Import(sides, *found) for name, found in exported(package, bodies).items()}


def _parts(name: str) -> tuple[str, str]:
    """The full name of the interface, and the function's own."""
    if not isinstance(name, str):
        raise TypeError(f"the name of a function is a `str`, and not {type(name).__name__}")
    interface, _, function = name.rpartition("#")
    return interface, function
