"""The canonical text of a package, as `text` prints it."""
from .tokens import KEYWORDS
from .wit import Built, Interface, Name


def plain(name):
    """A name, with a `%` where it is spelled as a keyword."""
    return "%" + name if name in KEYWORDS else name


def package_text(name, path=None):
    """The name of a package, or the path of one of its interfaces."""
    behind = (f"/{plain(path)}" if path else "") + (f"@{name.version}" if name.version else "")
    return f"{plain(name.namespace)}:{plain(name.name)}{behind}"


def path_text(path):
    """A path."""
    return plain(path.name) if path.package is None else package_text(path.package, path.name)


def type_text(ty):
    """A type."""
    if isinstance(ty, Name):
        return plain(ty.name)
    if not isinstance(ty, Built):
        return ty.word
    parts = list(ty.parts)
    while parts and parts[-1] is None:
        parts.pop()
    return ty.word + (f"<{', '.join('_' if part is None else type_text(part) for part in parts)}>" if parts else "")


def member_text(kind, label, ty):
    """A member of a type of this kind, or a parameter as one of a record."""
    if ty is None:
        return plain(label)
    return f"{plain(label)}: {type_text(ty)}" if kind == "record" else f"{plain(label)}({type_text(ty)})"


def function_text(function):
    """A function."""
    listed = ", ".join(member_text("record", *parameter) for parameter in function.parameters)
    return f"{plain(function.name)}: func({listed})" + (f" -> {type_text(function.result)};" if function.result
                                                        else ";")


def use_text(use):
    """A used name."""
    local = "" if use.name == use.local else f" as {plain(use.local)}"
    return f"use {path_text(use.path)}.{{{plain(use.name)}{local}}};"


def typedef_lines(typedef):
    """The lines of a type."""
    if typedef.kind == "alias":
        return [f"type {plain(typedef.name)} = {type_text(typedef.target)};"]
    members = [f"  {member_text(typedef.kind, *member)}," for member in typedef.members]
    return [f"{typedef.kind} {plain(typedef.name)} {{", *members, "}"]


def interface_lines(interface):
    """The lines of an interface's items."""
    types = [line for typedef in interface.types for line in typedef_lines(typedef)]
    return [*map(use_text, interface.uses), *types, *map(function_text, interface.functions)]


def world_lines(world):
    """The lines of a world's items."""
    return [f"{it.direction} " + (function_text(it.function) if it.function else path_text(it.path) + ";")
            for it in world.items]


def text_lines(package):
    """The lines of a package, whose interfaces and types stand in package order."""
    lines = [f"package {package_text(package.name)};"]
    for item in package.items:
        word, items = ("interface",
                       interface_lines(item)) if isinstance(item, Interface) else ("world", world_lines(item))
        lines += ["", f"{word} {plain(item.name)} {{", *(f"  {line}" for line in items), "}"]
    return lines
