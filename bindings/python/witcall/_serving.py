"""Calls of the host's own functions by a component that imports them, with values."""

from __future__ import annotations

import inspect
from dataclasses import dataclass
from typing import TYPE_CHECKING, Any, Callable, Mapping, Optional, Sequence

from ._calls import Flat, Lent, Writable, blocks_of, core_values, limit_of, numbers_of, requests_of
from ._declared import Types
from ._errors import Refused
from ._json import PLAIN, Forms, ToJson, loaded, written
from ._library import MAX_VALUES, NOT_THIS_TYPE, CValue, bytes_of, checked, encoded
from ._link import LIMIT, Import, Memory, exported, grant, is_post_return
from ._names import quoted
from ._typed import forms_of
from ._values import arguments_of, not_this_type
from ._wrong import Wrong, shown

if TYPE_CHECKING:
    from ._package import Package
    from ._table import Function


def receive(
    package: Package, function: Function, flats: Sequence[Flat], data: Writable, limit: int = LIMIT
) -> str:
    """The arguments that a component passed to its import, as JSON: an array of one value for each
    parameter.

    Args:
        flats: the core values of the call, the return area's address last if there is one
        data: the bytes of the component's memory, which are only read
        limit: the greatest size of the memory

    Raises:
        Trap: the core values are no arguments
        Refused: the arguments ask for more bytes than the limit
    """
    values, most = core_values(flats, function.lowered.parameters), limit_of(limit)
    with Lent(data) as lent:
        words = (function.number, *values, lent.address, lent.length)
        text = bytes_of(
            lambda array, room: package.ask(
                "witcall_read_arguments_json", *words, array, room, most
            )
        )
    return text.decode()


def answer(
    package: Package,
    function: Function,
    flats: Sequence[Flat],
    text: str,
    memory: Memory,
    limit: int = LIMIT,
) -> Optional[int]:
    """Puts a result into the memory of the component that called: the core value that it gets, if
    there is one.

    Args:
        flats: the core values of the call
        text: JSON of the result, or an empty text if the function has none
        memory: that of the component
        limit: the greatest size of the memory

    Raises:
        NotThisType: the text is no result
        Refused: `61 bad JSON`, or the blocks have more bytes than the limit
        Trap: the memory has no room, or none for the result where the component wants it
    """
    given, most = encoded(text), limit_of(limit)
    asking = (function.number, given, len(given))
    try:
        asked = requests_of(
            lambda array, room: package.ask(
                "witcall_result_json_requests", *asking, array, room, most
            )
        )
    except Refused as error:
        raise _located(error, function, text) from None
    blocks = blocks_of(grant(memory, asked))
    values = core_values(flats, function.lowered.parameters)
    told = (CValue * MAX_VALUES)()
    with Lent(memory.data) as lent:
        words = (*values, given, len(given), lent.address, lent.length, *blocks, told, MAX_VALUES)
        status = package.ask("witcall_fill_result_json", function.number, *words)
    back = numbers_of(told, checked(status))
    return back[0] if back else None


def _no_result(value: str) -> Wrong:
    return Wrong(f"a function without a result gives nothing, and not {value}")


def _located(error: Refused, function: Function, text: str) -> Refused:
    """The same error; of JSON that is no result the one that says where."""
    if error.number != NOT_THIS_TYPE:
        return error
    if function.result is None:
        return not_this_type(_no_result(quoted(text)), function)
    try:
        ToJson(is_json=True)(function.result, loaded(text))
    except Wrong as wrong:
        return not_this_type(wrong, function)
    return error


def result_text(function: Function, value: Any, forms: Forms) -> str:
    """What a function of the host returned, as JSON; an empty text if it has no result."""
    try:
        if function.result is not None:
            return written(forms.to_json(function.result, value))
        if inspect.isawaitable(value):
            raise _no_result(shown(value))
    except Wrong as wrong:
        if inspect.iscoroutine(value):
            value.close()
        raise not_this_type(wrong, function) from None
    return ""


@dataclass(frozen=True)
class Served:
    """A function over values of Python, as a component imports it.

    Attributes:
        memory: the component's memory
        own: the function of the host
        limit: the greatest size of the memory
        forms: those of the values
    """

    package: Package
    function: Function
    memory: Memory
    own: Callable[..., Any]
    limit: int
    forms: Forms = PLAIN

    def __call__(self, *flats: Flat) -> Optional[int]:
        package, function, memory, limit = self.package, self.function, self.memory, self.limit
        given = receive(package, function, flats, memory.data, limit)
        result = self.own(*arguments_of(function, given, self.forms))
        text = result_text(function, result, self.forms)
        return answer(package, function, flats, text, memory, limit)


def serve(
    package: Package,
    memory: Memory,
    functions: Mapping[str, Callable[..., Any]],
    *,
    limit: int = LIMIT,
    types: Optional[Types] = None,
) -> dict[str, Import]:
    """Makes the functions that a component imports of functions over values of Python.

    Args:
        package: declares the functions
        memory: the component's memory
        functions: by the names of the imports, as `a:b/c#f`
        limit: the greatest size of the memory, in bytes
        types: a module of `wit-explain bind python`, whose classes the values have then

    Returns:
        functions over core values, by the same names. A call may end in a `Trap`, or in
        `NotThisType` if what a function returns is no result. What a function without a result
        returns is dropped, if it is no coroutine. What a function raises goes on to the component's
        caller.

    Raises:
        Refused: `63 no function`, if the package does not declare one of them
        TypeError: if `types` lacks one of them or a type, or has another one
        ValueError: if a name is that of a post-return, or the limit is none
    """
    limit_of(limit)
    for name in filter(is_post_return, functions):
        raise ValueError(f"{quoted(name)} is a post-return, and a function of the host has none")
    found = exported(package, functions)
    forms = forms_of(types, [function for function, _, _ in found.values()])
    return {
        name: Served(package, function, memory, own, limit, forms)
        for name, (function, own, _) in found.items()
    }
