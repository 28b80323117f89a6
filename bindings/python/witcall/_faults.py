"""What is wrong with texts of WIT."""

from __future__ import annotations

import json
from dataclasses import dataclass
from typing import Optional

from ._library import asked, bytes_of, joined
from ._package import Input, bytes_of_input


@dataclass(frozen=True)
class Fault:
    """A fault of a text. Lines and columns count from 1, and a column is a character.

    Attributes:
        text: the index of the text
        message: the error's number and words, as `error 41 unknown size`
        number: the number alone, as docs/ERRORS.md has it, if it has one
        hint: what to do about it, if anything is known
        line, column: where it begins, if it has a place
        end_line, end_column: where it ends: the character after its last one
    """

    text: int
    message: str
    number: Optional[int] = None
    hint: Optional[str] = None
    line: Optional[int] = None
    column: Optional[int] = None
    end_line: Optional[int] = None
    end_column: Optional[int] = None


# The names of members in the library's document that are other ones here.
_NAMES = {"error": "number", "endLine": "end_line", "endColumn": "end_column"}


def _fault(told: dict[str, object]) -> Fault:
    # Behind the index of a binary stands the name of its package.
    text = int(str(told.pop("file")).partition(":")[0])
    return Fault(text, **{_NAMES.get(name, name): it for name, it in told.items()})  # type: ignore[arg-type]


def explain(*texts: Input) -> list[Fault]:
    """Tells what is wrong with the packages of texts, which may stand in any order.

    Texts of one package are its files. The list is empty if nothing is wrong.

    Args:
        texts: texts, their bytes, or paths of files

    >>> [fault] = explain("package a:b; interface c { f: func(x: size); }")
    >>> fault.line, fault.column, fault.message
    (1, 39, 'error 41 unknown size')
    """
    inputs = joined([bytes_of_input(it) for it in texts])
    if not texts:
        return []
    told = bytes_of(lambda array, room: asked("witcall_explain", *inputs, array, room))
    return [_fault(it) for it in json.loads(told)]
