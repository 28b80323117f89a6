"""Rows whose input is one text (docs/FORMATS.md, "Layout rows" and "JSON rows"): layouts, JSON values, and calls with
JSON."""
import re

from . import json_values, layouts, sessions
from .faults import Refused, Trap
from .opening import opened

REPEAT = re.compile(r'repeat ([0-9]+) "([^"]*)"')


def repeated(found):
    """A part so many times, with the number of each from 0 on, and of the next."""
    count, part = found.groups()
    return "".join(part.replace("{n}", str(number)).replace("{m}", str(number + 1)) for number in range(int(count)))


def expanded(text):
    """A text with its repeated parts written out."""
    return REPEAT.sub(repeated, text)


def package_of(items):
    """The set of the one package whose interface `c` has these items."""
    return opened([f"package a:b; interface c {{ {items} }}"])


def json_row(arguments):
    """The canonical text of the value of the type `t` that a text says."""
    items, text = arguments.split(" | ", 1)
    packages = package_of(items)
    interface = next(it for _, it in packages.own() if it.name == "c")
    t = packages.closed_name(packages.last, interface, "t")
    return json_values.write(t, json_values.read(t, text))


def call_row(arguments):
    """What a call of `f` prints."""
    items, given, reply = arguments.split(" | ", 2)
    return sessions.called(package_of(items).function("a:b/c", "f"), given, reply) or "nothing"


COMMANDS = {"layouts": layouts.told, "last": layouts.last, "json": json_row, "json-call": call_row}


def answer(command, arguments):
    """The answer to a command."""
    try:
        return COMMANDS[command](expanded(arguments))
    except (Refused, Trap) as fault:
        return str(fault)
