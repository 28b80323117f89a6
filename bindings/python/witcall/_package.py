"""Packages: they are opened, asked for what they have, written and closed."""

from __future__ import annotations

import contextlib
import json
import os
import pathlib
import threading
import weakref
from dataclasses import dataclass
from types import TracebackType
from typing import Any, Callable, Iterator, Optional, Sequence, Union

from ._errors import Refused, Status, WitcallError
from ._library import (
    DONE,
    NO_FUNCTION,
    NOT_OPEN,
    REFUSED,
    CStatus,
    Handle,
    asked,
    bytes_of,
    checked,
    encoded,
    error_of,
    joined,
    library,
    status_of,
    typed,
)
from ._names import hint_of, quoted
from ._table import Function, Table, Type

# A text, the bytes of a text or a binary, or the path of a file that has them.
Input = Union[str, bytes, bytearray, memoryview, "os.PathLike[str]"]
# The bytes of a module, or the path of a file that has them.
Module = Union[bytes, bytearray, memoryview, "os.PathLike[str]"]


# The names that files of packages have, and the most bytes that a path has.
_ENDINGS = (".wit", ".wasm")
_LONGEST_PATH = 4096

_PATH = "the path of a file as `pathlib.Path`"
_TAKEN = f"a package is a text as `str`, bytes, or {_PATH}"
_TAKEN_MODULE = f"a module is bytes, or {_PATH}"


def bytes_of_input(source: Input, taken: str = _TAKEN) -> bytes:
    """The bytes of a text, of a binary or of a file. An error says what is taken."""
    if isinstance(source, str):
        return source.encode()
    if isinstance(source, os.PathLike):
        return pathlib.Path(source).read_bytes()
    try:
        return memoryview(source).tobytes()
    except TypeError:
        raise TypeError(f"{taken}, and not {type(source).__name__}") from None


def bytes_of_module(module: Module) -> bytes:
    """The bytes of a module or of its file."""
    return bytes_of_input(module, _TAKEN_MODULE)


Opening = Callable[[Handle], CStatus]


def _of_inputs(inputs: list[bytes]) -> Opening:
    """Opens the last of these packages."""

    def opened(handle: Handle) -> CStatus:
        status: CStatus = library().witcall_open_set(*joined(inputs), handle)
        return status

    return opened


def _of_module(module: bytes) -> Opening:
    """Opens the package that a module carries."""

    def opened(handle: Handle) -> CStatus:
        status: CStatus = library().witcall_open_module(module, len(module), handle)
        return status

    return opened


def _refusal(handle: Handle, status: Status) -> WitcallError:
    """Why a package was refused. The whole line is the handle's, if it stands for the refusal."""
    try:
        line = bytes_of(lambda array, room: asked("witcall_line", handle, array, room))
    except Refused as error:
        return error_of(status) if error.number == NOT_OPEN else error
    return typed(status, line.decode())


@dataclass(frozen=True)
class World:
    """A world of a package.

    Attributes:
        name: its full name, as `a:b/w@1.0.0`
        imports: the functions of the interfaces that it imports, and those that it imports itself
        exports: those that it exports in the same ways
    """

    name: str
    imports: tuple[Function, ...]
    exports: tuple[Function, ...]


class Package:
    """A package that is open, with those that it depends on.

    It is closed at the end of a `with` block, by `close`, or with the last reference to it. One
    thread at a time asks it; others wait.
    """

    def __init__(self, opening: Opening) -> None:
        self._lock = threading.RLock()
        self._handle = Handle()
        self._table: Optional[Table] = None
        self._close = weakref.finalize(self, library().witcall_close, self._handle)
        status = status_of(opening(self._handle))
        if status.code != DONE:
            error = _refusal(self._handle, status)
            self._close()
            raise error

    def ask(self, name: str, *words: Any) -> CStatus:
        """Calls a function of the library that takes a handle."""
        with self._lock:
            return asked(name, self._handle, *words)

    def told(self, name: str, *words: Any) -> bytes:
        """The bytes that a function of the library writes of this package."""
        return bytes_of(lambda array, room: self.ask(name, *words, array, room))

    @property
    def _rows(self) -> Table:
        with self._lock:
            if self.closed:
                raise error_of(Status(REFUSED, NOT_OPEN, 0, 0))
            if self._table is None:
                self._table = Table(self)
            return self._table

    @property
    def functions(self) -> tuple[Function, ...]:
        """The functions of the package and of those that it depends on."""
        return self._rows.functions

    @property
    def types(self) -> tuple[Type, ...]:
        """Their types, each with its layout."""
        return self._rows.types

    def _find(self, call: str, owner: str, name: str) -> Function:
        words = [part for it in (encoded(owner), encoded(name)) for part in (it, len(it))]
        try:
            number = checked(self.ask(call, *words))
        except Refused as error:
            if error.number == NO_FUNCTION:
                with contextlib.suppress(WitcallError):  # the library is out of memory
                    error.hint = self._hint(call, owner, name)
            raise
        return next(it for it in self.functions if it.number == number)

    def _hint(self, call: str, owner: str, name: str) -> str:
        """What to do about a function that is not found."""
        worlds = self.worlds
        if call == "witcall_find":
            if any(it.name == owner for it in worlds):
                return f"{quoted(owner)} is a world: find_import and find_export look there"
            return hint_of(owner, name, [(it.interface or "", it.name) for it in self.functions])
        ways = [it.imports if call == "witcall_find_import" else it.exports for it in worlds]
        there = [(it.world or "", it.name) for way in ways for it in way]
        return hint_of(owner, name, there, "world")

    def find(self, interface: str, name: str) -> Function:
        """The function of this name, by the full name of its interface, as `a:b/c@1.0.0`.

        Raises:
            Refused: `63 no function`; the hint names the nearest function
        """
        return self._find("witcall_find", interface, name)

    def find_import(self, world: str, name: str) -> Function:
        """The function that a world itself imports, by the full name of the world."""
        return self._find("witcall_find_import", world, name)

    def find_export(self, world: str, name: str) -> Function:
        """The function that a world itself exports, by the full name of the world."""
        return self._find("witcall_find_export", world, name)

    @property
    def worlds(self) -> tuple[World, ...]:
        """The worlds of the package and of those that it depends on. A module has one."""
        described = self.describe()
        functions = {it.number: it for it in self.functions}

        def of(item: dict[str, int]) -> Iterator[Function]:
            if "function" in item:
                yield functions[item["function"]]
            else:
                yield from (
                    functions[it] for it in described["interfaces"][item["interface"]]["functions"]
                )

        def every(items: list[dict[str, int]]) -> tuple[Function, ...]:
            return tuple(it for item in items for it in of(item))

        return tuple(
            World(it["name"], every(it["imports"]), every(it["exports"]))
            for it in described["worlds"]
        )

    def to_text(self) -> str:
        """The package as a text. Of several it is the last, which opens again after the others."""
        return self.told("witcall_to_text").decode()

    def to_binary(self) -> bytes:
        """The package as a binary. Of several it is the last one, as in `to_text`."""
        return self.told("witcall_to_binary")

    def describe(self) -> dict[str, Any]:
        """The package and those that it depends on, as docs/package.schema.json has them."""
        described: dict[str, Any] = json.loads(self.told("witcall_describe"))
        return described

    @property
    def closed(self) -> bool:
        """Whether the package was closed."""
        return not self._close.alive

    def close(self) -> None:
        """Frees the package. Closing it again does nothing."""
        with self._lock:
            self._close()

    def __enter__(self) -> Package:
        return self

    def __exit__(
        self,
        kind: Optional[type[BaseException]],
        error: Optional[BaseException],
        trace: Optional[TracebackType],
    ) -> None:
        self.close()


def _is_path(source: Input) -> bool:
    """Whether a text is surely meant as the path of a file."""
    if not isinstance(source, str) or len(source) > _LONGEST_PATH:
        return False
    if any(mark in source for mark in ";{\n"):
        return False
    return source.endswith(_ENDINGS) or os.path.isfile(source)


def _opened(opening: Opening, call: str, inputs: Sequence[Input]) -> Package:
    """Opens inputs by a call, and says what it takes if one is a path."""
    try:
        return Package(opening)
    except Refused as error:
        for path in filter(_is_path, inputs):
            fix = f"`witcall.{call}(pathlib.Path({path!r}))` opens the file"
            error.hint = f"a `str` is the text of a package; {fix}"
            break
        raise


def open(*inputs: Input) -> Package:
    """Opens a package, or the last one of several, which may use the packages before it.

    Args:
        inputs: texts, bytes of texts or binaries, or paths of files, dependencies first

    Raises:
        Refused: if the library refuses it; the line says why
        TypeError: if an input is nothing of these
    """
    return _opened(_of_inputs([bytes_of_input(it) for it in inputs]), "open", inputs)


def open_module(module: Module) -> Package:
    """Opens the package that a module carries, with those that it depends on.

    Args:
        module: the bytes of a core module with a world in a section `component-type..`, those of a
            component as other tools write a world or a package, or the path of a file that has them

    Raises:
        Refused: `44 not this shape` if it carries no package; `explain` of the same bytes says why
    """
    return _opened(_of_module(bytes_of_module(module)), "open_module", [module])
