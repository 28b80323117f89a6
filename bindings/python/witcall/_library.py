"""The shared library: where it is, what it declares, and how its calls fail."""

from __future__ import annotations

import contextlib
import ctypes
import functools
import os
import pathlib
from ctypes import POINTER, Structure, c_size_t, c_uint32, c_uint64, c_void_p
from typing import Any, Callable, Iterator

from . import _released
from ._errors import OutOfMemory, Refused, Status, Trap, WitcallError
from ._version import __version__

# The binary interface that this package is written for (WITCALL_ABI of include/witcall.h).
ABI = 2

MAX_VALUES = 17
MAX_STATUS_LINE = 64

# Codes of a status, and numbers of refusals.
DONE, REFUSED, TRAP = 0, 1, 2
NOT_THIS_TYPE, NO_FUNCTION, NOT_OPEN, NO_ROOM, NOT_THERE = 62, 63, 70, 71, 75

# Bytes that most names and lines have room in.
_ROOM = 256


class CStatus(Structure):
    _fields_ = [(name, c_uint32) for name in Status._fields]


class Handle(Structure):
    _fields_ = [("at", c_void_p), ("is_open", c_uint32)]


class CRequest(Structure):
    _fields_ = [("align", c_uint32), ("size", c_uint32)]


class CBlock(Structure):
    _fields_ = [("align", c_uint32), ("size", c_uint32), ("at", c_uint32)]


class CValue(Structure):
    _fields_ = [("kind", c_uint32), ("bits", c_uint64)]


class CCall(Structure):
    _fields_ = [("func", c_uint32), ("count", c_uint32), ("flats", CValue * MAX_VALUES)]


class TypeInfo(Structure):
    _fields_ = [("kind", c_uint32), ("row", c_uint32), ("size", c_uint32), ("align", c_uint32)]


class RowInfo(Structure):
    _fields_ = [
        ("type", TypeInfo),
        ("target", TypeInfo),
        ("owner_kind", c_uint32),
        ("owner", c_uint32),
        ("members", c_uint32),
    ]


class MemberInfo(Structure):
    _fields_ = [("type", TypeInfo), ("offset", c_uint32)]


# Arrays of bytes are addresses, and each is followed by its length.
_BYTES = [c_void_p, c_size_t]
_VALUES = [POINTER(CValue), c_size_t]
_BLOCKS = [POINTER(CBlock), c_size_t]
_KINDS = [POINTER(c_uint32), c_size_t]
_HANDLE = [POINTER(Handle)]
_OF_FUNCTION = [*_HANDLE, c_uint32]
_OF_CALL = [*_HANDLE, POINTER(CCall)]
_REQUESTS = [POINTER(CRequest), c_size_t, c_uint64]

# The parameters of each function that returns a status.
PARAMETERS: dict[str, list[Any]] = {
    "witcall_version": _BYTES,
    "witcall_open_set": [*_BYTES, POINTER(c_size_t), c_size_t, *_HANDLE],
    "witcall_open_module": [*_BYTES, *_HANDLE],
    "witcall_explain": [*_BYTES, POINTER(c_size_t), c_size_t, *_BYTES],
    "witcall_line": [*_HANDLE, *_BYTES],
    "witcall_status_line": [CStatus, *_BYTES],
    "witcall_find": [*_HANDLE, *_BYTES, *_BYTES],
    "witcall_find_import": [*_HANDLE, *_BYTES, *_BYTES],
    "witcall_find_export": [*_HANDLE, *_BYTES, *_BYTES],
    "witcall_row": [*_OF_FUNCTION, POINTER(RowInfo)],
    "witcall_member": [*_HANDLE, c_uint32, c_uint32, POINTER(MemberInfo)],
    "witcall_row_name": [*_OF_FUNCTION, *_BYTES],
    "witcall_member_name": [*_HANDLE, c_uint32, c_uint32, *_BYTES],
    "witcall_owner_name": [*_HANDLE, c_uint32, c_uint32, *_BYTES],
    "witcall_to_binary": [*_HANDLE, *_BYTES],
    "witcall_to_text": [*_HANDLE, *_BYTES],
    "witcall_describe": [*_HANDLE, *_BYTES],
    "witcall_lifted_params": [*_OF_FUNCTION, *_KINDS],
    "witcall_lifted_result": [*_OF_FUNCTION, *_KINDS],
    "witcall_lowered_params": [*_OF_FUNCTION, *_KINDS],
    "witcall_lowered_result": [*_OF_FUNCTION, *_KINDS],
    "witcall_json_requests": [*_OF_FUNCTION, *_BYTES, *_REQUESTS],
    "witcall_fill_json": [*_OF_FUNCTION, *_BYTES, *_BYTES, *_BLOCKS, *_VALUES],
    "witcall_json_fault": [*_OF_FUNCTION, *_BYTES, *_BYTES],
    "witcall_read_json": [*_OF_FUNCTION, *_VALUES, *_BYTES, *_BYTES, c_uint64],
    "witcall_read_arguments_json": [*_OF_FUNCTION, *_VALUES, *_BYTES, *_BYTES, c_uint64],
    "witcall_result_json_requests": [*_OF_FUNCTION, *_BYTES, *_REQUESTS],
    "witcall_fill_result_json": [
        *_OF_FUNCTION,
        *_VALUES,
        *_BYTES,
        *_BYTES,
        *_BLOCKS,
        *_VALUES,
    ],
    "witcall_begin": [*_OF_FUNCTION, *_VALUES, POINTER(CCall)],
    "witcall_call_enter_requests": [*_OF_CALL, *_BYTES, *_REQUESTS],
    "witcall_call_enter": [*_OF_CALL, *_BYTES, *_BYTES, *_BLOCKS, *_VALUES],
    "witcall_call_leave_requests": [*_OF_CALL, *_VALUES, *_BYTES, *_REQUESTS],
    "witcall_call_leave": [*_OF_CALL, *_VALUES, *_BYTES, *_BYTES, *_BLOCKS, *_VALUES],
}


@contextlib.contextmanager
def _path() -> Iterator[str]:
    """Where the library is: what WITCALL_LIBRARY names, a file of this package, what is unpacked of
    the checkout's release, or the system's.
    """
    named = os.environ.get("WITCALL_LIBRARY")
    own = pathlib.Path(__file__).with_name(_released.NAME)
    if named or own.exists():
        yield named or str(own)
    elif _released.is_there() and _released.is_for_this_machine():
        with _released.unpacked() as path:
            yield path
    else:
        yield f"libwitcall.so.{ABI}"


def _loaded() -> tuple[ctypes.PyDLL, str]:
    """The library that is loaded, and where it was."""
    try:
        with _path() as path:
            return ctypes.PyDLL(path), path
    except OSError as error:
        raise ImportError(f"{error}; WITCALL_LIBRARY may have the path of libwitcall.so") from error


def _told_version(found: ctypes.PyDLL) -> str:
    """The version that a library says."""
    found.witcall_version.argtypes = PARAMETERS["witcall_version"]
    found.witcall_version.restype = CStatus
    line = ctypes.create_string_buffer(_ROOM)
    count = found.witcall_version(line, _ROOM).count
    return line.raw[:count].decode(errors="replace")


def _refuse_other_interface(found: ctypes.PyDLL, path: str) -> None:
    """Raises if the library has another binary interface: its calls may mean other things."""
    found.witcall_abi.restype = c_uint32
    abi = found.witcall_abi()
    if abi != ABI:
        library_has = f"the binary interface of {path} is {abi}"
        versions = f"it is version {_told_version(found)}, and this package {__version__}"
        raise ImportError(f"{library_has}, and this package needs {ABI}: {versions}")


@functools.lru_cache(maxsize=None)
def library() -> ctypes.PyDLL:
    """The library, which is loaded once.

    It holds the interpreter's lock while it runs, so no other thread changes a memory then.

    Raises:
        ImportError: if it is not found, is not what its checksum says, or has another binary
            interface
    """
    found, path = _loaded()
    _refuse_other_interface(found, path)
    found.witcall_close.argtypes = _HANDLE
    found.witcall_close.restype = None
    for name, parameters in PARAMETERS.items():
        function = getattr(found, name)
        function.argtypes = parameters
        function.restype = CStatus
    return found


def asked(name: str, *words: Any) -> CStatus:
    """The status that a function of the library returns."""
    status: CStatus = getattr(library(), name)(*words)
    return status


def status_of(status: CStatus) -> Status:
    """A status that is no memory of the library's."""
    return Status(status.code, status.number, status.step, status.count)


def error_of(status: Status) -> WitcallError:
    """A refusal or a trap as an error, with the library's line."""
    line = ctypes.create_string_buffer(MAX_STATUS_LINE)
    told = library().witcall_status_line(CStatus(*status), line, MAX_STATUS_LINE)
    return typed(status, line.raw[: told.count].decode())


def refusal(number: int) -> tuple[Status, str]:
    """The status and the line of a refusal that is found before the library is called."""
    status = Status(REFUSED, number, 0, 0)
    return status, error_of(status).line


def typed(status: Status, line: str) -> WitcallError:
    """An error of the class that its code has."""
    classes = {REFUSED: Refused, TRAP: Trap}
    return classes.get(status.code, OutOfMemory)(status, line)


def checked(status: CStatus) -> int:
    """The count of a status that is done. Any other one is raised."""
    if status.code != DONE:
        raise error_of(status_of(status))
    return int(status.count)


def bytes_of(ask: Callable[[Any, int], CStatus]) -> bytes:
    """What a call writes into an array, which has as much room as it needs."""
    room = _ROOM
    while True:
        array = ctypes.create_string_buffer(room)
        status = ask(array, room)
        if status.number != NO_ROOM or status.count <= room:
            return array.raw[: checked(status)]
        room = status.count


def encoded(text: str) -> bytes:
    """The bytes of a text, which the library takes as UTF-8."""
    if not isinstance(text, str):
        raise TypeError(f"a text is a `str`, and not {type(text).__name__}")
    return text.encode()


def joined(inputs: list[bytes]) -> tuple[Any, ...]:
    """Inputs one after another, with their lengths, as the library takes them."""
    whole = b"".join(inputs)
    lengths = (c_size_t * len(inputs))(*map(len, inputs))
    return whole, len(whole), lengths, len(inputs)


def library_version() -> str:
    """What the library says of its version, as `0.3.0+0123456789ab`.

    After the `+` is the beginning of the commit that it was made of, if the library says it.
    `__version__` is the version of this package.
    """
    return bytes_of(library().witcall_version).decode()


def version() -> str:
    """The version of the library alone, as `0.3.0`."""
    return library_version().partition("+")[0]
