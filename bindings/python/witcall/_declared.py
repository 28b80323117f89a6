"""What a module of `wit-explain bind python` declares: the types of a package as classes."""

from __future__ import annotations

import enum
from dataclasses import dataclass, fields, is_dataclass
from typing import (
    TYPE_CHECKING,
    Any,
    Generic,
    Mapping,
    Optional,
    Protocol,
    Sequence,
    TypeVar,
    Union,
)

from ._names import quoted
from ._wrong import shown

if TYPE_CHECKING:
    from ._table import Function, Type

Value = TypeVar("Value", covariant=True)


@dataclass(frozen=True)
class Ok(Generic[Value]):
    """A result that is no error. The value of one without a payload is None."""

    value: Value


@dataclass(frozen=True)
class Err(Generic[Value]):
    """A result that is an error. The value of one without a payload is None."""

    value: Value


@dataclass(frozen=True)
class Some(Generic[Value]):
    """An option of an option that has a value, which is an option itself."""

    value: Value


# A class, or for each case of a variant its class.
Classes = Union[type[Any], tuple[Optional[type[Any]], ...]]


@dataclass(frozen=True)
class Declared:
    """The types and functions of interfaces, as Python has them.

    A key is the full name of an interface, as `a:b/c@1.0.0`, and the name in it.

    Attributes:
        types: the classes of records, enums and flags; of a variant for each case its class, or
            None if it has no payload
        functions: the names of functions in Python
    """

    types: Mapping[tuple[str, str], Classes]
    functions: Mapping[tuple[str, str], str]

    def classes_of(self, kind: Type) -> Any:
        """The class of a type, or those of its cases; None if there is none."""
        return self.types.get(_key_of(kind))


class Declaring(Protocol):
    """A module that `wit-explain bind python` wrote."""

    @property
    def declared(self) -> Declared:
        """What it declares."""


# What is taken for the types of a package.
Types = Union[Declared, Declaring]


def _key_of(kind: Type) -> tuple[str, str]:
    """The full name of the interface that declares a type, and its name."""
    return kind.interface or "", kind.name or ""


def declared_of(types: Types) -> Declared:
    """What a module declares, or what is handed in itself."""
    found = types if isinstance(types, Declared) else getattr(types, "declared", None)
    if not isinstance(found, Declared):
        raise TypeError(f"types are a module of `wit-explain bind python`, and not {shown(types)}")
    return found


def _reached(functions: Sequence[Function]) -> list[Type]:
    """The types that functions reach, each once."""
    left = [kind for it in functions for kind in (*(of.type for of in it.parameters), it.result)]
    found: dict[Type, None] = {}
    while left:
        kind = left.pop()
        if kind is not None and kind not in found:
            found[kind] = None
            left += [kind.target, *(it.type for it in kind.members)]
    return list(found)


def _is_record(kind: Type, made: Any) -> bool:
    return is_dataclass(made) and len(fields(made)) == len(kind.members)


def _is_variant(kind: Type, made: Any) -> bool:
    without = [it.type is None for it in kind.members]
    return isinstance(made, tuple) and [it is None for it in made] == without


def _is_enum(kind: Type, made: Any) -> bool:
    is_class = isinstance(made, type) and issubclass(made, enum.Enum)
    return is_class and [it.value for it in made] == [it.name for it in kind.members]


def _are_flags(kind: Type, made: Any) -> bool:
    if not isinstance(made, type) or not issubclass(made, enum.Flag):
        return False
    bits = [1 << place for place in range(len(kind.members))]
    return [it.value for it in made.__members__.values()] == bits


# Whether classes are those of a type, by its kind.
_FITS = {"record": _is_record, "variant": _is_variant, "enum": _is_enum, "flags": _are_flags}


def refuse_other(declared: Declared, functions: Sequence[Function]) -> None:
    """Raises if functions, or types that they reach, are not those that a module declares."""
    of_other = "their module is of other WIT"
    for it in functions:
        if it.interface and (it.interface, it.name) not in declared.functions:
            raise TypeError(f"the types have no function {quoted(it.full_name)}: {of_other}")
    for kind in _reached(functions):
        made, fits = declared.classes_of(kind), _FITS.get(kind.kind)
        if fits and not fits(kind, made):
            owner, name = map(quoted, _key_of(kind))
            what = f"{'no' if made is None else 'another'} {kind.kind} {name} of {owner}"
            raise TypeError(f"the types have {what}: {of_other}")
