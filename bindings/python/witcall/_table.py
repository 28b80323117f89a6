"""What a package has: its functions and types, with their layouts."""

from __future__ import annotations

import ctypes
from dataclasses import dataclass, field
from typing import TYPE_CHECKING, Optional

from ._library import MAX_VALUES, NOT_THERE, MemberInfo, RowInfo, TypeInfo, checked

if TYPE_CHECKING:
    from ._package import Package

# The kinds of types, by their numbers. Those from `list` on are kinds of rows.
_KINDS = (
    "none bool s8 u8 s16 u16 s32 u32 s64 u64 char string "
    "list option result tuple record variant enum flags alias use function"
).split()
_FIRST_ROW = _KINDS.index("list")
_FUNCTION = _KINDS.index("function")

_INTERFACE, _WORLD = 1, 2


@dataclass(eq=False)
class Type:
    """A type. Its size, its alignment and all offsets are bytes in a memory.

    Attributes:
        kind: as `u32`, `list` or `record`; a `type` of WIT is an `alias`, and a used name a `use`
        number: the number of its row in the package's table; primitives and `string` have none
        name: its name; types inside others have none
        interface: the full name of the interface that declares it, as `a:b/c@1.0.0`
        world: the full name of the world that declares it
        target: the element of a list, or the type that an alias or a used name stands for
        members: fields, elements of a tuple, cases or labels; the number of a case is its index,
            and label k is bit k
    """

    kind: str
    size: int
    alignment: int
    number: Optional[int] = None
    name: Optional[str] = None
    interface: Optional[str] = None
    world: Optional[str] = None
    target: Optional[Type] = field(default=None, repr=False)
    members: tuple[Member, ...] = field(default=(), repr=False)


@dataclass(frozen=True, eq=False)
class Member:
    """A field, an element of a tuple, a case, a label or a parameter.

    The offset of a case is that of the payload. A case without payload and a label have no type.
    """

    name: str
    type: Optional[Type]
    size: int
    alignment: int
    offset: int


@dataclass(frozen=True)
class CoreSignature:
    """The core values of a core function: `i32` or `i64` for each."""

    parameters: tuple[str, ...]
    results: tuple[str, ...]


@dataclass(frozen=True, eq=False)
class Function:
    """A function of an interface or of a world.

    Attributes:
        number: its number in the library for C
        interface: the full name of its interface, as `a:b/c@1.0.0`
        world: the full name of the world that has the function itself
        parameters: its parameters, with their offsets in the record of all of them
        size: the size of this record
        alignment: the alignment of this record
        result: its result, or None
        lifted: the core function of the callee
        lowered: the core function that the caller imports
    """

    number: int
    name: str
    interface: Optional[str]
    world: Optional[str]
    parameters: tuple[Member, ...]
    size: int
    alignment: int
    result: Optional[Type]
    lifted: CoreSignature
    lowered: CoreSignature

    @property
    def full_name(self) -> str:
        """The name that a core module exports it by, as `a:b/c#f`, or its name in a world."""
        return f"{self.interface}#{self.name}" if self.interface else self.name


def _rows(package: Package) -> list[RowInfo]:
    rows: list[RowInfo] = []
    while True:
        row = RowInfo()
        status = package.ask("witcall_row", len(rows), row)
        if status.number == NOT_THERE:
            return rows
        checked(status)
        rows.append(row)


def _kinds(package: Package, name: str, function: int) -> tuple[str, ...]:
    kinds = (ctypes.c_uint32 * MAX_VALUES)()
    count = checked(package.ask(name, function, kinds, MAX_VALUES))
    return tuple("i64" if kind else "i32" for kind in kinds[:count])


def _signature(package: Package, way: str, function: int) -> CoreSignature:
    parameters = _kinds(package, f"witcall_{way}_params", function)
    return CoreSignature(parameters, _kinds(package, f"witcall_{way}_result", function))


class Table:
    """The functions and the types of a package."""

    def __init__(self, package: Package) -> None:
        self._package = package
        self._rows = _rows(package)
        self._owners: dict[tuple[int, int], str] = {}
        self._types = [self._new_type(number, row) for number, row in enumerate(self._rows)]
        for number, row in enumerate(self._rows):
            if row.type.kind != _FUNCTION:
                self._fill_type(number, row)
        self.types = tuple(it for it in self._types if it.kind != _KINDS[_FUNCTION])
        functions = (it for it in enumerate(self._rows) if it[1].type.kind == _FUNCTION)
        self.functions = tuple(self._function(number, row) for number, row in functions)

    @staticmethod
    def _new_type(number: int, row: RowInfo) -> Type:
        return Type(_KINDS[row.type.kind], row.type.size, row.type.align, number)

    def _type(self, info: TypeInfo) -> Optional[Type]:
        """A type: the object of its row, if it has one."""
        if info.kind == 0:
            return None
        if info.kind < _FIRST_ROW:
            return Type(_KINDS[info.kind], info.size, info.align)
        row: int = info.row
        return self._types[row]

    def _owner(self, row: RowInfo) -> tuple[Optional[str], Optional[str]]:
        """The full name of the interface or of the world that a row is declared in."""
        key = (row.owner_kind, row.owner)
        if row.owner_kind and key not in self._owners:
            self._owners[key] = self._package.told("witcall_owner_name", *key).decode()
        name = self._owners.get(key)
        return (
            name if row.owner_kind == _INTERFACE else None,
            name if row.owner_kind == _WORLD else None,
        )

    def _name(self, number: int) -> str:
        return self._package.told("witcall_row_name", number).decode()

    def _member(self, row: int, index: int) -> Member:
        info = MemberInfo()
        checked(self._package.ask("witcall_member", row, index, info))
        name = self._package.told("witcall_member_name", row, index).decode()
        layout = info.type
        return Member(name, self._type(layout), layout.size, layout.align, info.offset)

    def _members(self, number: int, row: RowInfo) -> tuple[Member, ...]:
        return tuple(self._member(number, index) for index in range(row.members))

    def _fill_type(self, number: int, row: RowInfo) -> None:
        """Gives a type what it has besides its layout."""
        made = self._types[number]
        made.interface, made.world = self._owner(row)
        made.name = self._name(number) if row.owner_kind else None
        made.target = self._type(row.target)
        made.members = self._members(number, row)

    def _function(self, number: int, row: RowInfo) -> Function:
        interface, world = self._owner(row)
        return Function(
            number=number,
            name=self._name(number),
            interface=interface,
            world=world,
            parameters=self._members(number, row),
            size=row.type.size,
            alignment=row.type.align,
            result=self._type(row.target),
            lifted=_signature(self._package, "lifted", number),
            lowered=_signature(self._package, "lowered", number),
        )
