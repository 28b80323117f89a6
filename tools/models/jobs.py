"""What the program's jobs print of a set: `show`, `layout`, `text` and `bin` of its last package."""
from . import binary
from .faults import Refused
from .names import owner_names
from .printing import text_lines

MOST_BYTES = 1_048_576


def show(packages):
    """The lines of `show`."""
    package = packages.packages[-1]
    lines = ["package " + package.name.full()]
    for it in package.interfaces:
        lines.append(f"interface {it.name} uses {len(it.uses)} types {len(it.types)} funcs {len(it.functions)}")
    for world in package.worlds:
        imports = sum(item.direction == "import" for item in world.items)
        lines.append(f"world {world.name} imports {imports} exports {len(world.items) - imports}")
    return lines


def text(packages):
    """The lines of `text`."""
    lines = list(text_lines(packages.packages[-1]))
    if sum(len(line) + 1 for line in lines) > MOST_BYTES:
        raise Refused(f"36 limit at {MOST_BYTES}..{MOST_BYTES}")
    return lines


def signature(core):
    """A core signature, as it is printed."""
    return " -> ".join(f"({' '.join(kinds)})" for kinds in core)


def layout(packages):
    """The lines of `layout`."""
    lines = []
    for package, interface in packages.own():
        where = packages.packages[package].name.full(interface.name)
        for name in owner_names(interface):
            closed = packages.closed_name(package, interface, name)
            lines.append(f"type {where} {name} size {closed.size} align {closed.align}")
        for function in interface.functions:
            closed = packages.closed_function(package, interface, function)
            core = f"lift {signature(closed.lifted)} lower {signature(closed.lowered)}"
            lines.append(f"func {where} {function.name} {core}")
    return lines


def bin_of(packages):
    """The one line of `bin`, in hexadecimal."""
    data = binary.write(packages)
    if len(data) > MOST_BYTES:
        raise Refused(f"17 limit at {MOST_BYTES}")
    return [data.hex()]


JOBS = {"show": show, "layout": layout, "text": text, "bin": bin_of}
