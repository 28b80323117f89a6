"""The names of a package: which stand in one scope, which are referred to, and which of these aren't there."""
from .wit import Built, Function, Interface, Name, TypeDef, Use, WorldItem


def names_in(ty):
    """The names in a type, or in None."""
    if isinstance(ty, Name):
        return [ty.name]
    return [name for part in ty.parts for name in names_in(part)] if isinstance(ty, Built) else []


def type_names(typedef):
    """The names in the definition of a type."""
    return [name for ty in (typedef.target, *(ty for _, ty in typedef.members)) for name in names_in(ty)]


def function_names(function):
    """The names in a function."""
    return [name for ty in (*(ty for _, ty in function.parameters), function.result) for name in names_in(ty)]


def owner_names(interface):
    """The names of types that an interface has, used ones first."""
    return [use.local for use in interface.uses] + [typedef.name for typedef in interface.types]


def labels(members):
    """The labels of members or parameters."""
    return [label for label, _ in members]


def item_name(package, item):
    """The name of an item of a world: an interface stands there under its full name."""
    if item.function:
        return item.function.name
    return (item.path.package or package.name).full(item.path.name)


def inner_labels(part):
    """The labels in a type or a function."""
    return labels(part.parameters if isinstance(part, Function) else part.members)


def names_of_text(package):
    """The names of a text in source order, each with what tells its scope from others."""
    for number, item in enumerate(package.items):
        yield "package", item.name
        for place, part in enumerate(in_order(item) if isinstance(item, Interface) else item.items):
            inner = (number, place)
            if isinstance(part, WorldItem):
                yield (number, part.direction), item_name(package, part)
                yield from ((inner, label) for label in (inner_labels(part.function) if part.function else []))
            elif isinstance(part, Use):
                yield number, part.local
            else:
                yield number, part.name
                yield from ((inner, label) for label in inner_labels(part))


def names_of_binary(package):
    """The names of a binary in the order of the bytes, each with what tells its scope from others.

    Those in a definition come before its own.
    """
    for number, item in enumerate(package.items):
        parts = [*item.uses, *item.types, *item.functions] if isinstance(item, Interface) else item.items
        for place, part in enumerate(parts):
            function = part.function if isinstance(part, WorldItem) else part
            if function and not isinstance(part, Use):
                yield from (((number, place), label) for label in inner_labels(function))
            if isinstance(part, WorldItem):
                yield (number, part.direction), item_name(package, part)
            else:
                yield number, part.local if isinstance(part, Use) else part.name
        yield "package", item.name


def source_order(package):
    """The paths of a package in source order."""
    for item in package.items:
        if isinstance(item, Interface):
            yield from [use.path for use in item.uses]
        else:
            yield from [it.path for it in item.items if it.path]


def unknown_names(package, names_of):
    """The names that aren't there, in source order. `names_of` has the set of the types of a path's interface, or
    None."""
    for item in package.items:
        is_interface = isinstance(item, Interface)
        own = set(owner_names(item)) if is_interface else set()
        for part in in_order(item) if is_interface else item.items:
            path, names = referred(part)
            there = own if path is None else names_of(path)
            yield from [path.name] if there is None else [name for name in names if name not in there]


def in_order(interface):
    """The uses, types and functions of an interface in source order."""
    return sorted([*interface.uses, *interface.types, *interface.functions], key=lambda part: part.place)


def referred(part):
    """The interface that a part of an interface or world refers to, or None, and the names that have to be there."""
    if isinstance(part, Use):
        return part.path, [part.name]
    if isinstance(part, WorldItem):
        return part.path, function_names(part.function) if part.function else []
    return None, type_names(part) if isinstance(part, TypeDef) else function_names(part)
