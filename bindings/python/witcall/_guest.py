"""The one instance of a guest's core module, and when its code runs."""

from __future__ import annotations

import contextlib
import threading
from typing import Iterator, Optional, Protocol, Sequence

from ._calls import CoreValue, Writable
from ._errors import Status, Trap, WitcallError
from ._library import TRAP, error_of
from ._link import BODY, STOPPED, Answer, Stopped, values_of
from ._wrong import shown

_ALLOCATOR = "cabi_realloc"

# What is wrong with a call, after the line of its trap.
_RUNS = "the guest runs, and is not entered again meanwhile"
_STAYS = "the guest calls an import in its allocator or in a post-return"
_ENDED = "an earlier call ended in the guest's code, which is not run again"


class Engine(Protocol):
    """One instance of a core module, in any engine.

    What a function of its imports raises comes out of `call` again.
    """

    def exports(self, name: str) -> bool:
        """Whether the module exports a function of this name."""

    def call(self, name: str, values: Sequence[int]) -> Answer:
        """Calls an exported function with core values, which are unsigned: what it answers.

        Raises:
            Stopped: the engine stopped the guest's code: a trap
        """

    def memory(self) -> Writable:
        """The bytes of the exported `memory`, as it is now; no bytes if there is none."""


def _trap(hint: str, status: Status = Status(TRAP, STOPPED, BODY, 0)) -> WitcallError:
    error = error_of(status)
    error.hint = hint
    return error


def _ended_by(error: BaseException) -> WitcallError:
    """The trap that stands after a call that ended in the guest's code: its own, or that of a guest
    that stopped.
    """
    return _trap(_ENDED, error.status) if isinstance(error, Trap) else _trap(_ENDED)


def _address(answer: Answer) -> int:
    """The address that an allocator answered."""
    values = values_of(answer)
    if len(values) == 1:
        kind, number = values[0] if isinstance(values[0], CoreValue) else ("i32", values[0])
        if kind == "i32" and -(2**31) <= number < 2**32:
            return number % 2**32
    raise TypeError(f"{_ALLOCATOR} answered {shown(answer)}, which is no i32")


class Guest:
    """An instance of a module: a memory with its allocator, and whether its code may run.

    It is entered by one call at a time. It calls no import in its allocator and in a post-return.
    After a call that ended in its code it is not entered again.
    """

    def __init__(self) -> None:
        self.engine: Optional[Engine] = None
        self._running = threading.Lock()
        self._stays = False
        self._was_run = False
        self._ended: Optional[BaseException] = None

    def started(self) -> Engine:
        """The instance, if there is one."""
        if self.engine is None:
            raise RuntimeError("the guest calls its imports before there is an instance of it")
        return self.engine

    @property
    def data(self) -> Writable:
        """The memory's bytes, as they are now."""
        return self.started().memory()

    def allocate(self, alignment: int, size: int) -> Optional[int]:
        """The address of a new block, or None if the allocator stops."""
        if not self.started().exports(_ALLOCATOR):
            raise TypeError(f"the guest exports no function {_ALLOCATOR}")
        try:
            return _address(self.stay(_ALLOCATOR, (0, 0, alignment, size)))
        except Stopped:
            return None

    def call(self, name: str, values: Sequence[int]) -> Answer:
        """Runs a function of the guest's."""
        self._was_run = True
        return self.started().call(name, values)

    def stay(self, name: str, values: Sequence[int]) -> Answer:
        """Runs a function that calls no import meanwhile."""
        before, self._stays = self._stays, True
        try:
            return self.call(name, values)
        finally:
            self._stays = before

    def leave(self) -> None:
        """Raises if the guest calls an import where it may not."""
        self.started()
        if self._stays:
            raise _trap(_STAYS)

    @contextlib.contextmanager
    def entered(self) -> Iterator[None]:
        """A call of the guest, in a `with` block. If it raises after code of the guest ran, no
        other call is made.
        """
        if not self._running.acquire(blocking=False):
            raise _trap(_RUNS)
        try:
            if self._ended is not None:
                raise _ended_by(self._ended) from self._ended
            self._was_run = False
            yield
        except BaseException as error:
            if self._was_run and self._ended is None:
                self._ended = error
            raise
        finally:
            self._running.release()
