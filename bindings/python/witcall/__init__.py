"""WIT packages of WebAssembly's component model, their layouts, and calls between two memories.

>>> with open("package a:b; interface c { f: func(x: u32) -> u32; }") as package:
...     print(package.functions[0].name)
f
"""

from ._calls import Block, Call, CoreValue, Request
from ._declared import Declared, Err, Ok, Some
from ._errors import NotThisType, OutOfMemory, Refused, Status, Trap, WitcallError
from ._faults import Fault, explain
from ._guest import Engine
from ._instance import Instance
from ._library import library_version, version
from ._link import ArrayMemory, Memory, Stopped, grant, link
from ._package import Package, World, open, open_module
from ._serving import answer, receive, serve
from ._table import CoreSignature, Function, Member, Type
from ._values import bind, fill, read
from ._version import __version__

__all__ = [
    "ArrayMemory",
    "Block",
    "Call",
    "CoreSignature",
    "CoreValue",
    "Declared",
    "Engine",
    "Err",
    "Fault",
    "Function",
    "Instance",
    "Member",
    "Memory",
    "NotThisType",
    "Ok",
    "OutOfMemory",
    "Package",
    "Refused",
    "Request",
    "Some",
    "Status",
    "Stopped",
    "Trap",
    "Type",
    "WitcallError",
    "World",
    "__version__",
    "answer",
    "bind",
    "explain",
    "fill",
    "grant",
    "library_version",
    "link",
    "open",
    "open_module",
    "read",
    "receive",
    "serve",
    "version",
]
