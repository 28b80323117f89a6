"""Sets of packages, each of which uses only interfaces of those before it: their order, their interfaces, and their
types, closed."""
from dataclasses import replace

from . import abi
from .faults import NotModelled, Refused
from .names import type_names
from .wit import Name, Primitive, Use


def placed(items, needs):
    """Again and again the first that isn't placed yet, of which all that it needs are."""
    left, names, result = list(items), set(), []
    while left:
        first = next((item for item in left if needs(item) <= names), None)
        if first is None:
            raise Refused("42 cycle")
        left.remove(first)
        names.add(first.name)
        result.append(first)
    return result


def ordered_interface(interface):
    """An interface with its types in package order."""
    own = {typedef.name for typedef in interface.types}
    types = placed(interface.types, lambda typedef: own & set(type_names(typedef)))
    return replace(interface, types=tuple(types))


def ordered(package):
    """A package with its interfaces and types in package order, and its worlds behind them."""
    interfaces = placed(package.interfaces, lambda it: {use.path.name for use in it.uses if use.path.package is None})
    return replace(package, items=(*map(ordered_interface, interfaces), *package.worlds))


class Set:
    """Packages with their interfaces and types in package order."""

    def __init__(self):
        self.packages, self.closed_names, self.owned = [], {}, {}

    def copy(self):
        """The same set, to which others can be added."""
        other = Set()
        other.packages = list(self.packages)
        other.closed_names, other.owned = dict(self.closed_names), dict(self.owned)
        return other

    def keep(self, package):
        """Takes one more package, which nothing refuses but a cycle."""
        self.packages.append(ordered(package))

    # ---- finding

    @property
    def last(self):
        """The number of the last package."""
        return len(self.packages) - 1

    def number(self, name):
        """The number of the package of this name, or None."""
        return next((number for number, package in enumerate(self.packages) if package.name == name), None)

    def find(self, package, path):
        """The number of the package and the interface that a path of this package means."""
        if path.package is not None:
            package = self.number(path.package)
            if package is None:
                raise NotModelled("a binary that imports nothing of a package that it uses")
        return package, next(it for it in self.packages[package].interfaces if it.name == path.name)

    def reached(self):
        """The interfaces of other packages that the last one uses, directly or by others, in the set's order."""
        there = set()

        def go(package, interface):
            """Keeps an interface, and what it uses."""
            if (package, interface.name) not in there:
                there.add((package, interface.name))
                for use in interface.uses:
                    go(*self.find(package, use.path))

        for interface in self.packages[-1].interfaces:
            go(self.last, interface)
        for world in self.packages[-1].worlds:
            for item in world.items:
                if item.path:
                    go(*self.find(self.last, item.path))
        return [(k, it) for k in range(self.last) for it in self.packages[k].interfaces if (k, it.name) in there]

    def own(self):
        """The interfaces of the last package."""
        return [(self.last, interface) for interface in self.packages[-1].interfaces]

    def functions(self, full_name):
        """The functions of an interface of any package, by their names; none if there is no such interface."""
        for number, package in enumerate(self.packages):
            for interface in package.interfaces:
                if package.name.full(interface.name) == full_name:
                    return {function.name: self.closed_function(number, interface, function)
                            for function in interface.functions}
        return {}

    def function(self, full_name, name):
        """A function by its interface's full name and its own."""
        found = self.functions(full_name).get(name)
        if found is None:
            raise Refused("63 no function")
        return found

    # ---- closed types

    def closed(self, package, interface, ty):
        """A type of an interface, closed."""
        if isinstance(ty, Primitive):
            return abi.String() if ty.word == "string" else abi.Scalar(ty.word)
        if isinstance(ty, Name):
            return self.closed_name(package, interface, ty.name)
        parts = tuple(part and self.closed(package, interface, part) for part in ty.parts)
        if ty.word == "list":
            return abi.List(parts[0])
        if ty.word == "tuple":
            return abi.Record(parts)
        return abi.Variant((None, *parts),
                           ("none", "some")) if ty.word == "option" else abi.Variant(parts, ("ok", "error"))

    def closed_name(self, package, interface, name):
        """A named type of an interface, closed; the same object each time."""
        key = package, interface.name, name
        if key not in self.closed_names:
            self.closed_names[key] = self.unfolded(package, interface, name)
        return self.closed_names[key]

    def owned_by(self, package, interface):
        """The uses and the types of an interface by their names."""
        key = package, interface.name
        if key not in self.owned:
            self.owned[key] = {it.name: it for it in interface.types} | {use.local: use for use in interface.uses}
        return self.owned[key]

    def unfolded(self, package, interface, name):
        """A named type of an interface, closed."""
        typedef = self.owned_by(package, interface)[name]
        if isinstance(typedef, Use):
            return self.closed_name(*self.find(package, typedef.path), typedef.name)
        if typedef.kind == "alias":
            return self.closed(package, interface, typedef.target)
        labels = tuple(label for label, _ in typedef.members)
        if typedef.kind == "flags":
            return abi.Flags(labels)
        parts = tuple(ty and self.closed(package, interface, ty) for _, ty in typedef.members)
        return abi.Record(parts, labels) if typedef.kind == "record" else abi.Variant(parts, labels)

    def closed_function(self, package, interface, function):
        """A function, of closed types."""
        labels = tuple(label for label, _ in function.parameters)
        parts = tuple(self.closed(package, interface, ty) for _, ty in function.parameters)
        result = function.result and self.closed(package, interface, function.result)
        return abi.Function(abi.Record(parts, labels), result)
