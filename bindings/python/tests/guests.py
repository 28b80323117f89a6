"""Engines for the tests of `Instance`, and the guest of examples/engines/relay.wasm in Python."""

from __future__ import annotations

import importlib.util
from typing import Any, Callable, Iterable, Mapping, NoReturn, Optional

import witcall

from . import TOP

ENGINES = TOP / "examples" / "engines"
MODULE = (ENGINES / "relay.wasm").read_bytes()
HOST, GUEST, WORLD = (f"demo:relay/{it}@1.0.0" for it in ("host", "guest", "relay"))
PAGE = 65536
AREA = 64


def node_engine() -> Any:
    """The adapter of examples/engines/node_adapter.py."""
    spec = importlib.util.spec_from_file_location("node_adapter", ENGINES / "node_adapter.py")
    assert spec and spec.loader
    module = importlib.util.module_from_spec(spec)
    spec.loader.exec_module(module)
    return module.Node


class Relay:
    """The guest in Python. Its memory is another object after each block, as one that moves.

    Args:
        functions: exports in place of the guest's own ones, or None for one that is not there; each
            gets this object first
    """

    def __init__(self, module: bytes, imports: Any, functions: Any = ()) -> None:
        assert module.startswith(b"\0asm")
        self.imports = imports
        self.data = bytearray(PAGE)
        self.top = 1024
        self.ran: list[str] = []
        own = {
            "same": ("same", True),
            "next": ("next", True),
            "join": ("join", True),
            "note": ("note", False),
            "now": ("now", False),
        }
        relaying = {f"{GUEST}#{name}": self.relaying(HOST, *it) for name, it in own.items()}
        self.functions: dict[str, Any] = relaying
        self.functions["tell"] = self.relaying("$root", "ask", True)
        self.functions["cabi_realloc"] = lambda guest, *flats: guest.allocated(*flats)
        self.functions[f"cabi_post_{GUEST}#join"] = lambda guest, answer: None
        self.functions.update(functions)

    @staticmethod
    def relaying(module: str, name: str, has_area: bool) -> Callable[..., Any]:
        def relayed(guest: Relay, *flats: int) -> Any:
            asked = guest.imports[module][name]
            if not has_area:
                return asked(*flats)
            asked(*flats, AREA)
            return AREA

        return relayed

    def allocated(self, _old: int, _old_size: int, alignment: int, size: int) -> int:
        address = -(-self.top // alignment) * alignment
        self.top = address + size
        pages = max(0, -(-(self.top - len(self.data)) // PAGE))
        self.data = self.data + bytes(pages * PAGE)
        return address

    def exports(self, name: str) -> bool:
        return self.functions.get(name) is not None

    def call(self, name: str, values: Iterable[int]) -> Any:
        self.ran.append(name)
        return self.functions[name](self, *values)

    def memory(self) -> bytearray:
        return self.data


def host(**functions: Callable[..., Any]) -> dict[str, Any]:
    """The functions that the world imports: each gives what it gets, if it isn't among these."""
    own: dict[str, Callable[..., Any]] = {
        "same": lambda x: x,
        "next": lambda x: x,
        "join": "".join,
        "note": lambda word: None,
        "now": lambda: 7,
    }
    return {HOST: {**own, **functions}, "ask": lambda x: str(x)}


def relay(
    functions: Any = (),
    *,
    imports: Optional[Mapping[str, object]] = None,
    engine: Any = Relay,
    **options: Any,
) -> witcall.Instance:
    """An instance over an engine, whose exports are these in place of the guest's own ones."""

    def made(module: bytes, core: Any) -> Any:
        return engine(module, core, functions) if functions else engine(module, core)

    return witcall.Instance(MODULE, made, host() if imports is None else imports, **options)


def failing(error: BaseException) -> Callable[..., NoReturn]:
    """A function that raises an error."""

    def fails(*_: object) -> NoReturn:
        raise error

    return fails
