"""Calls of a component's functions with values: as texts of JSON, or as Python has them."""

from __future__ import annotations

import json
from dataclasses import dataclass
from typing import TYPE_CHECKING, Any, Callable, Mapping, Optional, Sequence

from ._calls import Flat, Lent, Writable, blocks_of, core_values, limit_of, numbers_of, requests_of
from ._declared import Types
from ._errors import NotThisType, Refused
from ._json import PLAIN, Forms, parameter_types, written
from ._library import MAX_VALUES, NOT_THIS_TYPE, CValue, bytes_of, checked, encoded, refusal
from ._link import BODY, LIMIT, POST, Body, Memory, Stopped, exported, grant, run, values_of
from ._typed import forms_of
from ._wrong import Wrong

if TYPE_CHECKING:
    from ._package import Package
    from ._table import Function


def fill(
    package: Package, function: Function, text: str, memory: Memory, limit: int = LIMIT
) -> tuple[int, ...]:
    """Puts arguments into a component's memory: the values for its core function.

    Args:
        text: JSON, an array of one value for each parameter
        memory: that of the component that is called
        limit: the greatest size of the memory

    Raises:
        NotThisType: the text is no array of the arguments
        Refused: `61 bad JSON`, or the blocks have more bytes than the limit
        Trap: the memory has no room
    """
    given, most = encoded(text), limit_of(limit)
    words = (function.number, given, len(given))
    try:
        asked = requests_of(
            lambda array, room: package.ask("witcall_json_requests", *words, array, room, most)
        )
    except Refused as error:
        if error.number != NOT_THIS_TYPE:
            raise
        fault = package.told("witcall_json_fault", *words).decode()
        raise NotThisType.told(error, fault) from None
    blocks = blocks_of(grant(memory, asked))
    told = (CValue * MAX_VALUES)()
    with Lent(memory.data) as lent:
        places = (lent.address, lent.length)
        status = package.ask("witcall_fill_json", *words, *places, *blocks, told, MAX_VALUES)
    return numbers_of(told, checked(status))


def read(
    package: Package, function: Function, answer: Sequence[Flat], data: Writable, limit: int = LIMIT
) -> Optional[str]:
    """The result that a core function answered, as JSON; None if the function has none.

    Args:
        answer: the core values that it returned
        data: the bytes of the component's memory, which are only read
        limit: the greatest size of the memory

    Raises:
        Trap: the answer is no result
        Refused: the result asks for more bytes than the limit
    """
    values, most = core_values(answer, function.lifted.results), limit_of(limit)
    with Lent(data) as lent:
        words = (function.number, *values, lent.address, lent.length)
        text = bytes_of(
            lambda array, room: package.ask("witcall_read_json", *words, array, room, most)
        )
    return text.decode() if function.result else None


def not_this_type(wrong: Wrong, function: Optional[Function] = None) -> NotThisType:
    """The error for a value that is not of its type: of a function's result, or of arguments."""
    refused = Refused(*refusal(NOT_THIS_TYPE))
    if function is None:
        return NotThisType(refused, wrong.path, wrong.fault)
    return NotThisType(refused, f"result{wrong.path}", wrong.fault, function.full_name)


def arguments_text(function: Function, arguments: Sequence[Any], forms: Forms) -> str:
    """Values of Python for a function's parameters, as JSON."""
    types = parameter_types(function)
    try:
        if len(arguments) != len(types):
            count = f"{len(types)} in all, each of its type"
            raise Wrong(f"the arguments are an array of one value for each parameter, {count}")
        return written(forms.to_json.members(types, arguments))
    except Wrong as wrong:
        raise not_this_type(wrong) from None


def arguments_of(function: Function, text: str, forms: Forms) -> Sequence[Any]:
    """The values of Python that JSON has for a function's parameters."""
    types = parameter_types(function)
    return [forms.from_json(kind, it) for kind, it in zip(types, json.loads(text))]


@dataclass(frozen=True)
class Bound:
    """A function over values of Python of a component's core function.

    Attributes:
        memory: the component's memory
        body: the core function
        post_return: what is run after it, once the answer was read
        stops: classes of what they raise if the component stops
        limit: the greatest size of the memory
        forms: those of the values
    """

    package: Package
    function: Function
    memory: Memory
    body: Body
    post_return: Optional[Body]
    stops: tuple[type[BaseException], ...]
    limit: int
    forms: Forms = PLAIN

    def carry(self, text: str) -> Optional[str]:
        """Calls the core function with arguments as JSON: its result as JSON, if it has one."""
        handed = fill(self.package, self.function, text, self.memory, self.limit)
        answer = values_of(run(self.body, handed, BODY, self.stops))
        result = read(self.package, self.function, answer, self.memory.data, self.limit)
        if self.post_return:
            run(self.post_return, answer, POST, self.stops)
        return result

    def __call__(self, *arguments: Any) -> Any:
        text = self.carry(arguments_text(self.function, arguments, self.forms))
        if text is None or self.function.result is None:
            return None
        return self.forms.from_json(self.function.result, json.loads(text))


def bind(
    package: Package,
    memory: Memory,
    bodies: Mapping[str, Body],
    *,
    limit: int = LIMIT,
    stops: tuple[type[BaseException], ...] = (),
    types: Optional[Types] = None,
) -> dict[str, Callable[..., Any]]:
    """Makes functions over values of Python of what a component exports.

    Args:
        package: declares the functions
        memory: the component's memory
        bodies: its core functions, by the names of its exports, as `a:b/c#f`; what
            `cabi_post_a:b/c#f` names is run after it
        limit: the greatest size of the memory, in bytes
        stops: classes of what a body raises if its component stops, besides `Stopped`
        types: a module of `wit-explain bind python`, whose classes the values have then

    Returns:
        functions, by the same names. A call may end in a `Trap`, or in `NotThisType` if an argument
        is no value of its type.

    Raises:
        Refused: `63 no function`, if the package does not declare one of them
        TypeError: if `types` lacks one of them or a type, or has another one
        ValueError: if a post-return has no function, or the limit is none
    """
    limit_of(limit)
    found = exported(package, bodies)
    forms = forms_of(types, [function for function, _, _ in found.values()])
    return {
        name: Bound(package, function, memory, body, post_return, (Stopped, *stops), limit, forms)
        for name, (function, body, post_return) in found.items()
    }
