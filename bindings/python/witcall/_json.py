"""Values of Python as those of JSON that the library takes and writes, each by its type.

A value that is not of its type is told with its place, in the words of `witcall_json_fault`.
"""

from __future__ import annotations

import inspect
import json
from dataclasses import dataclass, field
from typing import TYPE_CHECKING, Any, Callable, Iterable, Mapping, Optional, Sequence

from ._wrong import RANGES, Wrong, shown, wanted

if TYPE_CHECKING:
    from ._table import Function, Member, Type


def named(kind: Type) -> Type:
    """The type that a name stands for in the end."""
    while kind.kind in ("alias", "use") and kind.target:
        kind = kind.target
    return kind


def payload_of(kind: Type) -> Optional[Type]:
    """What an option has if it isn't None in Python. An option of an option is as in JSON."""
    some = kind.members[1].type
    return None if some is None or named(some).kind == "option" else some


class ToJson:
    """Changes values to JSON, each by its type.

    Args:
        is_json: whether they are those that `json` read, and not Python's own forms
    """

    def __init__(self, is_json: bool = False) -> None:
        self._is_json = is_json
        self._of_kinds: dict[str, Callable[[Type, Any], Any]] = {
            "bool": self._bool,
            "char": self._char,
            "string": self._string,
            "list": self._list,
            "tuple": self._tuple,
            "record": self._record,
            "variant": self._case,
            "result": self._case,
            "option": self._option,
            "enum": self._case,
            "flags": self._flags,
        }

    def __call__(self, kind: Type, value: Any) -> Any:
        """A value as `json` writes it.

        Raises:
            Wrong: it is not of its type
        """
        kind = named(kind)
        return self._of_kinds.get(kind.kind, self._number)(kind, value)

    def wanted(self, kind: Type) -> str:
        """What a value of a type is."""
        return wanted(kind)

    def wrong(self, kind: Type, value: Any) -> Wrong:
        """The error for a value that is not of a type."""
        return Wrong(f"{self.wanted(kind)}, and not {shown(value)}")

    def members(self, kinds: Sequence[Type], values: Sequence[Any]) -> list[Any]:
        """Values of as many types, side by side."""
        made: list[Any] = []
        try:
            for kind, value in zip(kinds, values):
                made.append(self(kind, value))
        except Wrong as wrong:
            wrong.steps.append(f"[{len(made)}]")
            raise
        return made

    def _member(self, member: Member, value: Any) -> Any:
        """The value under a label, whose member has a type."""
        try:
            return self(member.type, value) if member.type else value
        except Wrong as wrong:
            wrong.steps.append(f".{member.name}")
            raise

    def _items(self, kind: Type, value: Any) -> list[Any]:
        """The values of an array, or of another iterable that is no text and no dictionary."""
        is_array = isinstance(value, list)
        if not is_array and not self._is_json:
            is_other = isinstance(value, (str, Mapping)) or inspect.isawaitable(value)
            is_array = isinstance(value, Iterable) and not is_other
        if not is_array:
            raise self.wrong(kind, value)
        return list(value)

    def _bool(self, kind: Type, value: Any) -> bool:
        if not isinstance(value, bool):
            raise self.wrong(kind, value)
        return value

    def _number(self, kind: Type, value: Any) -> int:
        least, most = RANGES[kind.kind]
        is_number = isinstance(value, int) and not isinstance(value, bool)
        if not is_number or not least <= value <= most:
            raise self.wrong(kind, value)
        return int(value)

    def _string(self, kind: Type, value: Any) -> str:
        if not isinstance(value, str):
            raise self.wrong(kind, value)
        try:
            value.encode()
        except UnicodeEncodeError:
            raise Wrong(f"{wanted(kind)} without surrogates, and not {shown(value)}") from None
        return value

    def _char(self, kind: Type, value: Any) -> str:
        if not isinstance(value, str) or len(value) != 1:
            raise self.wrong(kind, value)
        return self._string(kind, value)

    def _list(self, kind: Type, value: Any) -> list[Any]:
        found = self._items(kind, value)
        return self.members([kind.target] * len(found), found) if kind.target else found

    def _tuple(self, kind: Type, value: Any) -> list[Any]:
        found = self._items(kind, value)
        types = [it.type for it in kind.members if it.type]
        if len(found) != len(types):
            raise self.wrong(kind, value if isinstance(value, (list, tuple)) else found)
        return self.members(types, found)

    def _record(self, kind: Type, value: Any) -> dict[str, Any]:
        has_members = isinstance(value, Mapping) and len(value) == len(kind.members)
        if not has_members or not all(it.name in value for it in kind.members):
            raise self.wrong(kind, value)
        return {it.name: self._member(it, value[it.name]) for it in kind.members}

    def _case(self, kind: Type, value: Any) -> Any:
        """A case: a label alone, or a dictionary with this one key if it has a payload."""
        has_payload = isinstance(value, Mapping) and len(value) == 1
        label = next(iter(value)) if has_payload else value
        cases = (it for it in kind.members if isinstance(label, str) and it.name == label)
        case = next(cases, None)
        if case is None or (case.type is not None) != has_payload:
            raise self.wrong(kind, value)
        return {label: self._member(case, value[label])} if has_payload else label

    def _option(self, kind: Type, value: Any) -> Any:
        if self._is_json or payload_of(kind) is None:
            return self._case(kind, value)
        return "none" if value is None else {"some": self._member(kind.members[1], value)}

    def _flags(self, kind: Type, value: Any) -> list[str]:
        """The labels that are set, in the order in which they are declared."""
        places = {it.name: place for place, it in enumerate(kind.members)}
        labels = self._items(kind, value)
        are_labels = all(isinstance(it, str) and it in places for it in labels)
        if not are_labels or len(set(labels)) != len(labels):
            raise self.wrong(kind, value)
        in_order = sorted(labels, key=lambda it: places[it])
        if self._is_json and labels != in_order:
            raise self.wrong(kind, value)
        return in_order


class FromJson:
    """Changes what `json` read of values to those of Python, each by its type."""

    def __init__(self) -> None:
        self._of_kinds: dict[str, Callable[[Type, Any], Any]] = {
            "list": self._list,
            "tuple": self._tuple,
            "record": self._labelled,
            "variant": self._labelled,
            "result": self._labelled,
            "option": self._option,
        }

    def __call__(self, kind: Type, value: Any) -> Any:
        """The value of Python that JSON of its type is."""
        kind = named(kind)
        change = self._of_kinds.get(kind.kind)
        return change(kind, value) if change else value

    def member(self, member: Member, value: Any) -> Any:
        """The value of Python under a label, whose member may have a type."""
        return self(member.type, value) if member.type else value

    def _list(self, kind: Type, value: Any) -> Any:
        return [self(kind.target, it) for it in value] if kind.target else value

    def _tuple(self, kind: Type, value: Any) -> Any:
        return tuple(self.member(member, it) for member, it in zip(kind.members, value))

    def _labelled(self, kind: Type, value: Any) -> Any:
        """A record, or a case: a label alone, or a dictionary with this one key."""
        if not isinstance(value, Mapping):
            return value
        members = {it.name: it for it in kind.members}
        return {label: self.member(members[label], it) for label, it in value.items()}

    def _option(self, kind: Type, value: Any) -> Any:
        some = payload_of(kind)
        if some is None:
            return self._labelled(kind, value)
        return None if value == "none" else self(some, value["some"])


@dataclass(frozen=True)
class Forms:
    """The forms that values and functions have in Python.

    Attributes:
        names: of functions that are attributes, by the full names of their interfaces and their own
    """

    to_json: ToJson
    from_json: FromJson
    names: Mapping[tuple[str, str], str] = field(default_factory=dict)


# Values are dictionaries, lists, texts and numbers, and no function is an attribute.
PLAIN = Forms(ToJson(), FromJson())


def parameter_types(function: Function) -> list[Type]:
    """The types of a function's parameters."""
    return [it.type for it in function.parameters if it.type]


def written(value: Any) -> str:
    """The text of JSON of a value of JSON."""
    return json.dumps(value, allow_nan=False)


def _whole(digits: str) -> Any:
    """The number of an integer's digits; `-0` is none of them, as the library has it."""
    return -0.0 if digits == "-0" else int(digits)


def loaded(text: str) -> Any:
    """The value of JSON of a text."""
    return json.loads(text, parse_int=_whole)
