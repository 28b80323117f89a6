"""The table of a package: its definitions in order, with those of types without a name, and the work of laying it
out."""
from dataclasses import dataclass

from . import abi, wit
from .faults import Refused
from .wit import Built, Name


@dataclass(frozen=True)
class Definition:
    """A row of a package's table: the name of its interface or world and its own, both None of a type without a name;
    and what it is.

    `closed` is a closed type, or a function of closed types; `members` counts the types that stand directly in it, and
    `entries` the type indices that it takes in a binary.
    """

    owner: object
    name: object
    closed: object
    members: int
    entries: int

    @property
    def is_function(self):
        """Whether it is a function."""
        return isinstance(self.closed, abi.Function)

    @property
    def laid(self):
        """What is laid out in memory: the type, or the record of the parameters."""
        return self.closed.params if self.is_function else self.closed


def count(types):
    """How many types there are."""
    return sum(ty is not None for ty in types)


def world_rows(packages, number):
    """The rows of the functions of a package's worlds."""
    for world in packages.packages[number].worlds:
        functions = tuple(item.function for item in world.items if item.function)
        yield from Rows(packages, number, wit.Interface(world.name, (), (), functions)).all()


def own_rows(packages, number):
    """The rows of one package: those of its interfaces, and then those of its worlds."""
    for interface in packages.packages[number].interfaces:
        yield from Rows(packages, number, interface).all()
    yield from world_rows(packages, number)


def set_rows(packages):
    """The rows of a set's table, package by package."""
    for number in range(len(packages.packages)):
        yield from own_rows(packages, number)


def named_rows(packages):
    """The rows of a set's table, each with the full name of its interface; with None, of a world."""
    for number, package in enumerate(packages.packages):
        for interface in package.interfaces:
            yield from ((package.name.full(interface.name), row) for row in Rows(packages, number, interface).all())
        yield from ((None, row) for row in world_rows(packages, number))


def function_number(packages, full_name, name):
    """The number of the row of a function, by its interface's full name and its own."""
    for number, (owner, row) in enumerate(named_rows(packages)):
        if row.is_function and (owner, row.name) == (full_name, name):
            return number
    raise Refused("63 no function")


def definitions(packages):
    """The rows of the last package, those of what it reaches first."""
    for package, interface in packages.reached():
        yield from Rows(packages, package, interface).all()
    yield from own_rows(packages, packages.last)


def work(rows):
    """The steps of a table: one for each definition, and one for each type that stands directly in one."""
    return sum(1 + row.members for row in rows)


def entries(packages):
    """The type indices that the last package takes in a binary."""
    package = packages.packages[-1]
    interfaces = len(packages.reached() + packages.own())
    worlds = sum(1 + sum(item.path is not None for item in world.items) for world in package.worlds)
    return 1 + interfaces + worlds + sum(row.entries for row in definitions(packages))


class Rows:
    """The rows of an interface, or of a world as an interface of its functions."""

    def __init__(self, packages, package, interface):
        self.packages, self.package, self.interface = packages, package, interface

    def all(self):
        """Used names, types, functions, and before each the types without a name in it."""
        for use in self.interface.uses:
            yield self.named(use.local, members=1, entries=3)
        for typedef in self.interface.types:
            yield from self.typedef(typedef)
        for function in self.interface.functions:
            inner = [*(ty for _, ty in function.parameters), function.result]
            yield from self.inner(inner)
            closed = self.packages.closed_function(self.package, self.interface, function)
            yield Definition(self.interface.name, function.name, closed, members=count(inner), entries=1)

    def named(self, name, **counts):
        """The row of a named type."""
        return Definition(self.interface.name, name, self.packages.closed_name(self.package, self.interface, name),
                          **counts)

    def typedef(self, typedef):
        """The row of a type, and those of the types in it."""
        inner = [ty for _, ty in typedef.members]
        if typedef.kind == "alias":
            inner = typedef.target.parts if isinstance(typedef.target, Built) else [typedef.target]
        yield from self.inner(inner)
        yield self.named(typedef.name, members=count(inner), entries=1 if isinstance(typedef.target, Name) else 2)

    def inner(self, types):
        """The rows of types without a name, inner ones first."""
        for ty in types:
            if isinstance(ty, Built):
                yield from self.inner(ty.parts)
                closed = self.packages.closed(self.package, self.interface, ty)
                yield Definition(None, None, closed, members=count(ty.parts), entries=1)
