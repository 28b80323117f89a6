"""Values of the classes that a module declares as those of JSON, each by its type."""

from __future__ import annotations

from dataclasses import fields
from typing import TYPE_CHECKING, Any, Optional, Sequence

from ._declared import Declared, Err, Ok, Some, Types, declared_of, refuse_other
from ._json import PLAIN, Forms, FromJson, ToJson, named, payload_of
from ._wrong import one_of

if TYPE_CHECKING:
    from ._table import Function, Type

_RESULTS = (Ok, Err)
_OF_A_CLASS = {"record": "a record is a", "enum": "an enum is a", "flags": "flags are a"}


def _are_bytes(kind: Type) -> bool:
    """Whether a list is one of bytes."""
    return kind.target is not None and named(kind.target).kind == "u8"


class _ToJson(ToJson):
    """Changes values of a module's classes to JSON."""

    def __init__(self, declared: Declared) -> None:
        super().__init__()
        self._classes_of = declared.classes_of
        own = {"variant": self._variant, "enum": self._enum, "result": self._result}
        self._of_kinds.update(own)

    def wanted(self, kind: Type) -> str:
        """What a value of a type is, with its class."""
        if kind.kind in _OF_A_CLASS:
            return f"{_OF_A_CLASS[kind.kind]} `{self._classes_of(kind).__qualname__}`"
        if kind.kind == "list" and _are_bytes(kind):
            return "a list of `u8` is `bytes`"
        labels = self._labels(kind)
        return one_of(kind, labels) if labels else super().wanted(kind)

    def _labels(self, kind: Type) -> list[str]:
        """The forms of the cases of a variant, a result or an option of an option."""
        if kind.kind == "variant":
            names = (it and it.__qualname__ for it in self._classes_of(kind))
            cases = zip(kind.members, names)
            return [f"`{name}(..)`" if name else f'`"{it.name}"`' for it, name in cases]
        if kind.kind == "result":
            results = zip(kind.members, _RESULTS)
            return [f"`{made.__name__}({'..' if it.type else None})`" for it, made in results]
        return ["`None`", "`Some(..)`"] if kind.kind == "option" else []

    def _list(self, kind: Type, value: Any) -> list[Any]:
        if not _are_bytes(kind):
            return super()._list(kind, value)
        try:
            return list(memoryview(value).tobytes())
        except TypeError:
            raise self.wrong(kind, value) from None

    def _of_class(self, kind: Type, value: Any) -> Any:
        """A value that is of the class of its type."""
        if not isinstance(value, self._classes_of(kind)):
            raise self.wrong(kind, value)
        return value

    def _record(self, kind: Type, value: Any) -> dict[str, Any]:
        members = zip(kind.members, fields(self._of_class(kind, value)))
        return super()._record(kind, {it.name: getattr(value, own.name) for it, own in members})

    def _enum(self, kind: Type, value: Any) -> Any:
        return self._case(kind, self._of_class(kind, value).value)

    def _flags(self, kind: Type, value: Any) -> list[str]:
        bits = self._of_class(kind, value).value
        return [it.name for place, it in enumerate(kind.members) if bits >> place & 1]

    def _variant(self, kind: Type, value: Any) -> Any:
        cases = zip(kind.members, self._classes_of(kind))
        case = next((it for it, made in cases if made and isinstance(value, made)), None)
        if case is None and not isinstance(value, str):
            raise self.wrong(kind, value)
        return self._case(kind, {case.name: value.value} if case else value)

    def _result(self, kind: Type, value: Any) -> Any:
        cases = zip(kind.members, _RESULTS)
        case = next((it for it, made in cases if isinstance(value, made)), None)
        if case is None or (case.type is None and value.value is not None):
            raise self.wrong(kind, value)
        return self._case(kind, {case.name: value.value} if case.type else case.name)

    def _option(self, kind: Type, value: Any) -> Any:
        if payload_of(kind):
            return super()._option(kind, value)
        if value is not None and not isinstance(value, Some):
            raise self.wrong(kind, value)
        return self._case(kind, "none" if value is None else {"some": value.value})


class _FromJson(FromJson):
    """Changes what `json` read of values to those of a module's classes."""

    def __init__(self, declared: Declared) -> None:
        super().__init__()
        self._classes_of = declared.classes_of
        own = {"record": self._record, "enum": self._enum, "flags": self._flags}
        cases = {"variant": self._variant, "result": self._result}
        self._of_kinds.update({**own, **cases})

    def _list(self, kind: Type, value: Any) -> Any:
        return bytes(value) if _are_bytes(kind) else super()._list(kind, value)

    def _record(self, kind: Type, value: Any) -> Any:
        members = (self.member(it, value[it.name]) for it in kind.members)
        return self._classes_of(kind)(*members)

    def _enum(self, kind: Type, value: Any) -> Any:
        return self._classes_of(kind)(value)

    def _flags(self, kind: Type, value: Any) -> Any:
        bits = (1 << place for place, it in enumerate(kind.members) if it.name in value)
        return self._classes_of(kind)(sum(bits))

    def _case(self, kind: Type, value: Any) -> tuple[int, Any]:
        """The number of a case, and its payload."""
        [(label, given)] = [(value, None)] if isinstance(value, str) else value.items()
        place = [it.name for it in kind.members].index(label)
        return place, self.member(kind.members[place], given)

    def _variant(self, kind: Type, value: Any) -> Any:
        place, payload = self._case(kind, value)
        made = self._classes_of(kind)[place]
        return made(payload) if made else value

    def _result(self, kind: Type, value: Any) -> Any:
        place, payload = self._case(kind, value)
        return _RESULTS[place](payload)

    def _option(self, kind: Type, value: Any) -> Any:
        if payload_of(kind):
            return super()._option(kind, value)
        _, payload = self._case(kind, value)
        return None if value == "none" else Some(payload)


def forms_of(types: Optional[Types], functions: Sequence[Function]) -> Forms:
    """The forms of the values of functions: of the classes that a module declares, if it is there.

    Raises:
        TypeError: it lacks a function or a type, or has another one
    """
    if types is None:
        return PLAIN
    declared = declared_of(types)
    refuse_other(declared, functions)
    return Forms(_ToJson(declared), _FromJson(declared), declared.functions)
