"""Sets that are opened from texts and binaries, and what refuses them."""
import functools

from . import reading, shape
from .faults import Refused
from .names import names_of_text, owner_names, source_order, unknown_names
from .sets import Set
from .tables import entries, set_rows

MOST_PACKAGES = 64
# the bytes that begin a binary
MARK = b"\0asm"
MOST_ENTRIES = 65535
MOST_MEMBERS = {"variant": 100000, "enum": 100000, "flags": 32}
MOST_DEPTH, MOST_SIZE = 64, 16777216


def opened(inputs):
    """The set of these texts and binaries."""
    return with_layouts(begun(inputs))


def begun(inputs):
    """The set of these texts and binaries, whose layouts aren't tested yet."""
    packages = Set()
    for data in inputs:
        add(packages, data)
    return packages


def opened_behind(before, data):
    """The set of one more text or binary behind those of a set, whose layouts aren't tested yet."""
    packages = before.copy()
    add(packages, data)
    return with_layouts(packages)


def with_layouts(packages):
    """A set, if nothing in it is past the limits of layouts."""
    test_layouts(packages)
    return packages


def add(packages, data):
    """Opens one more package."""
    if len(packages.packages) == MOST_PACKAGES:
        raise Refused("49 set limit")
    data = data.encode() if isinstance(data, str) else data
    (add_binary if data.startswith(MARK) else add_text)(packages, data)


def add_text(packages, data):
    """Opens one more package, from a text."""
    package = reading.read(data)
    test_empty(package)
    test_new(packages, package)
    test_names(names_of_text(package))
    test_packages(packages, [path.package for path in source_order(package) if path.package])
    test_unknown(packages, package)
    packages.keep(package)
    test_limits(packages)


def add_binary(packages, data):
    """Opens one more package, from a binary."""
    package, imports = shape.read(data)
    test_names(shape.names(package, imports))
    test_new(packages, package)
    test_packages(packages, [name for name, _ in imports])
    test_imports(packages, imports)
    packages.keep(package)


def test_empty(package):
    """Refuses a package without interfaces and worlds."""
    if not package.items:
        raise Refused("43 empty package")


def test_new(packages, package):
    """Refuses a package that the set has."""
    if packages.number(package.name) is not None:
        raise Refused(f"48 same package {package.name.full()}")


def test_names(names):
    """Refuses a name that its scope has before, but for the case of its letters."""
    seen = set()
    for scope, name in names:
        if (scope, name.lower()) in seen:
            raise Refused(f"40 duplicate {name}")
        seen.add((scope, name.lower()))


def test_packages(packages, names):
    """Refuses the name of a package that the set doesn't have."""
    for name in names:
        if packages.number(name) is None:
            raise Refused(f"47 no package {name.full()}")


def test_imports(packages, imports):
    """Refuses imports that aren't interfaces of the set, or aren't in its order."""
    places = [import_place(packages, name, interface) for name, interface in imports]
    if None in places or places != sorted(places):
        raise Refused("44 not this shape")


def import_place(packages, name, interface):
    """Where an interface of this package stands in the set, or None where it isn't this one."""
    number = packages.number(name)
    for place, own in enumerate(packages.packages[number].interfaces):
        if own.name == interface.name:
            whole = [it.with_paths(lambda path: path.whole(name)) for it in (own, interface)]
            return (number, place) if whole[0] == whole[1] else None
    return None


def test_unknown(packages, package):
    """Refuses names that aren't there."""

    @functools.cache
    def names_of(path):
        """The names of types of the interface that a path means, or None."""
        there = package if path.package is None else packages.packages[packages.number(path.package)]
        found = [interface for interface in there.interfaces if interface.name == path.name]
        return set(owner_names(found[0])) if found else None

    for name in unknown_names(package, names_of):
        raise Refused(f"41 unknown {name}")


def test_limits(packages):
    """Refuses a last package of too many type entries, cases or flags."""
    typedefs = [typedef for _, interface in packages.own() for typedef in interface.types]
    if any(len(typedef.members) > MOST_MEMBERS.get(typedef.kind, len(typedef.members)) for typedef in typedefs):
        raise Refused("45 limit")
    if entries(packages) > MOST_ENTRIES:
        raise Refused("45 limit")


def test_layouts(packages):
    """Refuses the first definition past a limit, of all packages."""
    for definition in set_rows(packages):
        if not definition.is_function and definition.laid.depth > MOST_DEPTH:
            raise Refused("51 too deep")
        if definition.laid.size > MOST_SIZE:
            raise Refused("50 too large")
