"""Guests that carry their world, over any engine."""

from __future__ import annotations

from dataclasses import dataclass
from types import TracebackType
from typing import Any, Callable, Iterable, Mapping, Optional, cast

from ._calls import Flat, limit_of
from ._declared import Types
from ._guest import Engine, Guest
from ._json import Forms
from ._link import BODY, LIMIT, Answer, Import, Stopped, post_return_of, run
from ._names import quoted
from ._package import Module, Package, World, bytes_of_module, open_module
from ._serving import Served
from ._table import Function
from ._typed import forms_of
from ._values import Bound
from ._wrong import shown

# The module that a core module imports a function of a world itself from.
_ROOT = "$root"

# Functions of the host: those of an interface under its full name, as a mapping or as an object
# with methods, and those that a world itself imports.
Imports = Mapping[str, object]
# What a core module imports: functions over core values, by their modules and names.
CoreImports = Mapping[str, Mapping[str, Import]]


@dataclass(frozen=True)
class _Export(Bound):
    """A function that a guest exports."""

    def carry(self, text: str) -> Optional[str]:
        with cast(Guest, self.memory).entered():
            return super().carry(text)


@dataclass(frozen=True)
class _Import(Served):
    """A function that a guest imports."""

    def __call__(self, *flats: Flat) -> Optional[int]:
        cast(Guest, self.memory).leave()
        return super().__call__(*flats)


@dataclass(frozen=True)
class _Maker:
    """Makes the functions of an instance."""

    package: Package
    guest: Guest
    limit: int
    forms: Forms

    def imported(self, function: Function, own: Callable[..., Any]) -> _Import:
        """A function of the host, as the guest imports it."""
        return _Import(self.package, function, self.guest, own, self.limit, self.forms)

    def exported(self, function: Function) -> _Export:
        """A function of the guest's, if it exports it."""
        guest, name = self.guest, function.full_name
        engine, after = guest.started(), post_return_of(name)
        if not engine.exports(name):
            raise TypeError(f"the guest exports no function {quoted(name)}")

        def body(*values: int) -> Answer:
            return guest.call(name, values)

        def post_return(*values: int) -> Answer:
            return guest.stay(after, values)

        own = post_return if engine.exports(after) else None
        stops, limit = (Stopped,), self.limit
        return _Export(self.package, function, guest, body, own, stops, limit, self.forms)


def _of_interface(owner: object, interface: str, function: Function, forms: Forms) -> object:
    """What the host has for a function of an interface, if it has one."""
    if isinstance(owner, Mapping):
        # not by `get`, which may be a function of the interface
        return owner[function.name] if function.name in owner else None
    name = forms.names.get((interface, function.name))
    if name is None:
        what = f"the imports of {quoted(interface)} are a mapping of functions"
        raise TypeError(f"{what}, and not {shown(owner)}")
    return getattr(owner, name, None)


def _found(imports: Imports, function: Function, forms: Forms) -> Callable[..., Any]:
    """The host's function for one that a world imports: what a mapping has under its name, or an
    object under its name in Python.
    """
    own: object = imports.get(function.interface or function.name)
    if function.interface and own is not None:
        own = _of_interface(own, function.interface, function, forms)
    if own is None:
        raise TypeError(f"the imports have no function {quoted(function.full_name)}")
    if not callable(own):
        raise TypeError(f"{quoted(function.full_name)} is no function, but {shown(own)}")
    return cast(Callable[..., Any], own)


class _Functions(dict[str, Callable[..., Any]]):
    """Functions by their names, each of which is also an attribute by its name in Python."""

    def __init__(self, functions: Mapping[str, Callable[..., Any]], names: Iterable[str]) -> None:
        super().__init__(functions)
        vars(self).update(zip(names, functions.values()))


def _by_owner(functions: Mapping[Function, Any], of_world: dict[str, Any]) -> dict[str, Any]:
    """Functions by interfaces and names. Those of a world itself go into `of_world`."""
    found: dict[str, Any] = {}
    for function, it in functions.items():
        owner = found.setdefault(function.interface, {}) if function.interface else of_world
        owner[function.name] = it
    return found


class Instance:
    """A guest that carries its world. No text of WIT is needed.

    Attributes:
        package: what the module carries; `close`, or the end of a `with` block, closes it
        world: its world
        engine: the instance of its core module
        exports: functions over values of Python: of each interface a `dict` of its functions, under
            the interface's full name, and each function of the world itself under its own name. If
            the instance has `types`, functions of an interface are also attributes.
    """

    def __init__(
        self,
        module: Module,
        engine: Callable[[bytes, CoreImports], Engine],
        imports: Optional[Imports] = None,
        *,
        limit: int = LIMIT,
        types: Optional[Types] = None,
    ) -> None:
        """Makes an instance of a core module whose imports are functions over values of Python.

        Args:
            module: the bytes of the module, or the path of a file that has them
            engine: makes an instance in an engine of the module's bytes, and of the functions over
                core values that it imports, by their modules and names
            imports: for each interface that the world imports a mapping of functions, under the
                interface's full name, and each function that the world itself imports
            limit: the greatest size of the guest's memory, in bytes
            types: a module of `wit-explain bind python`, whose classes the values have then. For an
                interface `imports` may have an object with the methods of its `Functions`.

        Raises:
            Refused: `44 not this shape`, if the module carries no world
            TypeError: if `imports` lacks a function, the guest an export, or `types` a function or
                a type
            Trap: the guest stopped in `_initialize`, which is called first if it is there
        """
        limit_of(limit)
        self.package = open_module(module)
        try:
            self._guest = Guest()
            self.world = self._only_world()
            functions = (*self.world.imports, *self.world.exports)
            maker = _Maker(self.package, self._guest, limit, forms_of(types, functions))
            core = self._core_imports(maker, {} if imports is None else imports)
            self.engine = self._guest.engine = engine(bytes_of_module(module), core)
            self._initialize()
            self.exports = self._exports(maker)
        except BaseException:
            self.package.close()
            raise

    def _only_world(self) -> World:
        worlds = self.package.worlds
        if not worlds:
            raise TypeError("the module has no world")
        return worlds[0]

    def _core_imports(self, maker: _Maker, imports: Imports) -> CoreImports:
        served = {
            it: maker.imported(it, _found(imports, it, maker.forms)) for it in self.world.imports
        }
        root: dict[str, Import] = {}
        return {**_by_owner(served, root), _ROOT: root}

    def _initialize(self) -> None:
        if self.engine.exports("_initialize"):
            with self._guest.entered():
                run(lambda: self._guest.call("_initialize", ()), (), BODY, (Stopped,))

    def _exports(self, maker: _Maker) -> dict[str, Any]:
        names = maker.forms.names
        root: dict[str, Any] = {}
        found = _by_owner({it: maker.exported(it) for it in self.world.exports}, root)
        if names:
            found = {
                interface: _Functions(functions, (names[interface, it] for it in functions))
                for interface, functions in found.items()
            }
        return {**found, **root}

    def close(self) -> None:
        """Closes the package: no call is made any more."""
        self.package.close()

    def __enter__(self) -> Instance:
        return self

    def __exit__(
        self,
        kind: Optional[type[BaseException]],
        error: Optional[BaseException],
        trace: Optional[TracebackType],
    ) -> None:
        self.close()
