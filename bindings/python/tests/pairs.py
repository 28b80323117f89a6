"""Random values of demo:kinds, each as a host without classes has it, and as one with classes."""

from __future__ import annotations

import random
from typing import Any, Callable, Optional

from witcall import Err, Ok, Some, Type

from . import kinds

Pair = tuple[Any, Any]


def resolved(kind: Type) -> Type:
    """What a name stands for."""
    return resolved(kind.target) if kind.kind in ("alias", "use") and kind.target else kind


def is_of(kind: Optional[Type], name: str) -> bool:
    """Whether a type is of a kind."""
    return kind is not None and resolved(kind).kind == name


def classes_of(kind: Type) -> Any:
    """The class of a type, or those of the cases of a variant."""
    return kinds.declared.types[kind.interface or "", kind.name or ""]


class Pairs:
    """Makes values of types."""

    def __init__(self, seed: int) -> None:
        self.random = random.Random(seed)

    def __call__(self, given: Optional[Type]) -> Pair:
        """A value without classes, and the same one with classes; of no type None twice."""
        if given is None:
            return None, None
        kind = resolved(given)
        make: Callable[[Type], Pair] = getattr(self, f"_{kind.kind}", self._number)
        return make(kind)

    def chance(self) -> bool:
        """A random bit."""
        return self.random.random() < 0.5

    def _number(self, kind: Type) -> Pair:
        bits = int(kind.kind[1:])
        least = -(2 ** (bits - 1)) if kind.kind[0] == "s" else 0
        most = least + 2**bits - 1
        number = self.random.choice((least, most, self.random.randint(least, most)))
        return number, number

    def _bool(self, _kind: Type) -> Pair:
        truth = self.chance()
        return truth, truth

    def _char(self, _kind: Type) -> Pair:
        letter = self.random.choice('a\0ß🙂"\\\ue000')
        return letter, letter

    def _string(self, kind: Type) -> Pair:
        text = "".join(self._char(kind)[0] for _ in range(self.random.randrange(4)))
        return text, text

    def _list(self, kind: Type) -> Pair:
        pairs = [self(kind.target) for _ in range(self.random.randrange(4))]
        plain, typed = [it for it, _ in pairs], [it for _, it in pairs]
        return plain, bytes(typed) if is_of(kind.target, "u8") else typed

    def _tuple(self, kind: Type) -> Pair:
        pairs = [self(it.type) for it in kind.members]
        return tuple(it for it, _ in pairs), tuple(it for _, it in pairs)

    def _record(self, kind: Type) -> Pair:
        pairs = {it.name: self(it.type) for it in kind.members}
        plain = {name: it for name, (it, _) in pairs.items()}
        return plain, classes_of(kind)(**{name: it for name, (_, it) in pairs.items()})

    def _enum(self, kind: Type) -> Pair:
        label = self.random.choice(kind.members).name
        return label, classes_of(kind)[label.upper()]

    def _flags(self, kind: Type) -> Pair:
        made = classes_of(kind)
        labels, flags = [it.name for it in kind.members if self.chance()], made(0)
        for label in labels:
            flags |= made[label.replace("-", "_").upper()]
        return labels, flags

    def _variant(self, kind: Type) -> Pair:
        place = self.random.randrange(len(kind.members))
        case = kind.members[place]
        plain, typed = self(case.type)
        made = classes_of(kind)[place]
        return ({case.name: plain}, made(typed)) if case.type else (case.name, case.name)

    def _result(self, kind: Type) -> Pair:
        place = self.random.randrange(2)
        case = kind.members[place]
        plain, typed = self(case.type)
        return {case.name: plain} if case.type else case.name, (Ok, Err)[place](typed)

    def _option(self, kind: Type) -> Pair:
        some, is_none = kind.members[1].type, self.chance()
        plain, typed = self(some)
        if is_of(some, "option"):
            return ("none", None) if is_none else ({"some": plain}, Some(typed))
        return (None, None) if is_none else (plain, typed)
