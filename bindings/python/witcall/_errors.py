"""What the library says if it does not do what it was asked for."""

from __future__ import annotations

import re
from typing import NamedTuple

# A line such as `trap K5 utf8 in lift-args`: the word of the kind, and that of the step.
_TRAP = re.compile(r"trap K\d (\S+) in (\S+)")
# What is wrong in JSON, such as `[0].count: a `u8` is ..`: the place, and what has to stand there.
_FAULT = re.compile(r"(\[\S*): (.+)", re.DOTALL)


class Status(NamedTuple):
    """The status of a call of the library, as include/witcall.h has it."""

    code: int
    number: int
    step: int
    count: int  # type: ignore[assignment] # hides the count of a tuple


class WitcallError(Exception):
    """The library did not do what it was asked for. Its text is the library's line, and the hint.

    Attributes:
        status: the library's status
        number: the number of the error in docs/ERRORS.md, or of the kind of a trap
        line: the library's line, as `error 41 unknown size`
        hint: what to do about it, or an empty text
    """

    def __init__(self, status: Status, line: str) -> None:
        super().__init__(line)
        self.status = status
        self.number = status.number
        self.line = line
        self.hint = ""

    def __str__(self) -> str:
        return f"{self.line}: {self.hint}" if self.hint else self.line


class Refused(WitcallError):
    """A package, a name, or blocks that the library refuses."""


class NotThisType(Refused):
    """Values that are no arguments of a function, or one that is no result: `62 not this type`.

    Attributes:
        path: the first place that is wrong: of arguments as `[0].lines[2].count`, empty if they
            are not as many as the parameters; of a result as `result.lines[2].count`
        fault: what has to stand there, and what does
        function: the full name of the function whose result it is; empty of arguments
    """

    def __init__(self, refused: Refused, path: str, fault: str, function: str = "") -> None:
        super().__init__(refused.status, refused.line)
        self.path = path
        self.fault = fault
        self.function = function

    @classmethod
    def told(cls, refused: Refused, line: str) -> NotThisType:
        """What the library tells in a line: the place, and what has to stand there."""
        found = _FAULT.fullmatch(line)
        return cls(refused, *found.groups()) if found else cls(refused, "", line)

    def __str__(self) -> str:
        place = f" at {self.path}" if self.path else ""
        function = f" of {self.function}" if self.function else ""
        return f"{self.line}{place}{function}: {self.fault}"


class OutOfMemory(WitcallError, MemoryError):
    """The library is out of memory."""


class Trap(WitcallError):
    """The end of a call between two components. The callee is not run again after it.

    Attributes:
        kind: the word of the kind, as `utf8`
        step: the step in which it was found, as `lift-args`
    """

    def __init__(self, status: Status, line: str) -> None:
        super().__init__(status, line)
        found = _TRAP.fullmatch(line)
        self.kind, self.step = found.groups() if found else ("", "")
