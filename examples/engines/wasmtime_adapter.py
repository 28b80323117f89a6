"""Wasmtime's engine for `witcall.Instance`, by the package `wasmtime` of the Bytecode Alliance.

It is written for the signatures that `wasmtime` 25 publishes. The tests of this repository have no `wasmtime`, and do
not run it.
"""

from __future__ import annotations

import ctypes
from typing import Callable, Mapping, Optional, Sequence, Union

import wasmtime
import witcall

CoreFunction = Callable[..., Optional[int]]


def _signed(number: int, kind: wasmtime.ValType) -> int:
    """A core value as wasmtime has it, which has a sign."""
    limit = 1 << (63 if kind == wasmtime.ValType.i64() else 31)
    return number - 2 * limit if number >= limit else number


def _served(own: CoreFunction, kind: wasmtime.FuncType) -> CoreFunction:
    """A function whose answer has a sign."""

    def served(*values: int) -> Optional[int]:
        answer = own(*values)
        return None if answer is None else _signed(answer, kind.results[0])

    return served


class Wasmtime:
    """An instance of a core module in wasmtime.

    `wasmtime` raises again what a function of the imports raised, after it has left the guest's code.
    """

    def __init__(self, module: bytes, imports: Mapping[str, Mapping[str, CoreFunction]]) -> None:
        engine = wasmtime.Engine()
        self._store = wasmtime.Store(engine)
        compiled = wasmtime.Module(engine, module)
        asked = [self._import(it, imports) for it in compiled.imports]
        self._exports = wasmtime.Instance(self._store, compiled, asked).exports(self._store)

    def _import(
        self, asked: wasmtime.ImportType, imports: Mapping[str, Mapping[str, CoreFunction]]
    ) -> wasmtime.Func:
        own = imports.get(asked.module, {}).get(asked.name or "")
        if own is None or not isinstance(asked.type, wasmtime.FuncType):
            raise TypeError(f"there is no function {asked.module} {asked.name} to import")
        return wasmtime.Func(self._store, asked.type, _served(own, asked.type))

    def _function(self, name: str) -> Optional[wasmtime.Func]:
        found = self._exports.get(name)
        return found if isinstance(found, wasmtime.Func) else None

    def exports(self, name: str) -> bool:
        return self._function(name) is not None

    def call(self, name: str, values: Sequence[int]) -> Union[None, int, Sequence[int]]:
        function = self._function(name)
        if function is None:
            raise TypeError(f"the guest exports no function {name}")
        kinds = function.type(self._store).params
        try:
            answer: Union[None, int, Sequence[int]] = function(self._store, *map(_signed, values, kinds))
        except wasmtime.Trap as trap:
            raise witcall.Stopped(trap.message) from trap
        return answer

    def memory(self) -> Union[bytearray, ctypes.Array[ctypes.c_ubyte]]:
        memory = self._exports.get("memory")
        if not isinstance(memory, wasmtime.Memory):
            return bytearray()
        first = ctypes.addressof(memory.data_ptr(self._store).contents)
        return (ctypes.c_ubyte * memory.data_len(self._store)).from_address(first)
