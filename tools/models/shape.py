"""Which components have the layout of packages (docs/FORMATS.md, "Package layout").

They are those that are written of the package that they are read as.
"""
import itertools

from . import binary, component
from .faults import NotModelled, Refused
from .names import names_of_binary, owner_names
from .sets import Set
from .wit import Package

EMPTY = bytes([1, binary.COMPONENT, 0])
MOST_PACKAGES = 64
# what reading bytes of another layout, or writing what they aren't, ends with
NO_LAYOUT = (AttributeError, LookupError, NotModelled, Refused, RuntimeError, StopIteration, TypeError, ValueError)


def behind_imports(package, imports):
    """A package behind packages that have its imports alone."""
    packages = Set()
    for name, part in itertools.groupby(imports, key=lambda it: it[0]):
        packages.keep(Package(name, tuple(interface for _, interface in part)))
    packages.keep(package)
    return packages


def names(package, imports):
    """The names of a package behind those of its imports in the order of the bytes, each with what tells its scope."""
    for number, it in enumerate(behind_imports(package, imports).packages):
        yield from (((number, scope), name) for scope, name in names_of_binary(it))


def names_of(package):
    """The names of what a package's interfaces and worlds have, which have to be labels."""
    for interface in package.interfaces:
        yield from owner_names(interface) + [function.name for function in interface.functions]
    for world in package.worlds:
        yield from (item.function.name for item in world.items if item.function)


def are_used_names(packages):
    """Whether each used name is one of the interface that it is of."""
    interfaces = [(number, it) for number, package in enumerate(packages.packages) for it in package.interfaces]
    uses = [(number, use) for number, interface in interfaces for use in interface.uses]
    return all(use.name in owner_names(packages.find(number, use.path)[1]) for number, use in uses)


def is_written(data, package, imports):
    """Whether a component is what is written of a package with these imports."""
    packages = behind_imports(package, imports)
    packages_names = [it.name for it in packages.packages]
    labels = all(component.is_label(name) for it in packages.packages for name in names_of(it))
    is_set = len(set(packages_names)) == len(packages_names) <= MOST_PACKAGES
    return is_set and labels and are_used_names(packages) and binary.write(packages) == data


def read(data):
    """The package of a binary, and its imports."""
    data = component.canonical(data)
    place = len(binary.PREAMBLE) + 1
    if data[place + 1 : place + 4] == EMPTY:
        raise Refused("43 empty package")
    try:
        package, imports = binary.read(data)
        if is_written(data, package, imports):
            return package, imports
    except NO_LAYOUT:
        pass
    raise Refused("44 not this shape")
