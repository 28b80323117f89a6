"""How names are shown, and which is the nearest to one that a package does not have."""

from __future__ import annotations

from typing import Iterable, Sequence

# Pairs of letters that are compared at most, which takes a moment.
_MOST_PAIRS = 1_000_000
_MOST_SHOWN = 100


def _next_row(row: list[int], letter: str, other: str) -> list[int]:
    """The edits to each beginning of a name, after one letter more of the first name."""
    made = [row[0] + 1]
    for place, it in enumerate(other):
        made.append(min(row[place] + (letter != it), row[place + 1] + 1, made[place] + 1))
    return made


def _edits(one: str, other: str) -> int:
    """How many letters are put in, left out or replaced to make one name of another."""
    row = list(range(len(other) + 1))
    for letter in one:
        row = _next_row(row, letter, other)
    return row[-1]


def _compared(name: str, names: Iterable[str]) -> list[str]:
    """Different names, as many as are compared at most."""
    found, left = [], _MOST_PAIRS
    for it in dict.fromkeys(names):
        left -= (len(name) + 1) * (len(it) + 1)
        if left < 0:
            break
        found.append(it)
    return found


def nearest(name: str, names: Iterable[str]) -> str:
    """The first of the names that needs the fewest edits; an empty text if there is none."""
    return min(_compared(name, names), key=lambda it: _edits(name, it), default="")


def quoted(text: str, most: int = _MOST_SHOWN) -> str:
    """The beginning of a text, in letters that any terminal can print."""
    rest = ".." if len(text) > most else ""
    letters = (it if it.isprintable() else ascii(it)[1:-1] for it in text[:most])
    return f"`{''.join(letters)}{rest}`"


def _nearest_owner(owner: str, owners: Sequence[str]) -> str:
    """The nearest interface or world: one that differs in the version alone, if there is one."""
    base = owner.partition("@")[0]
    return next((it for it in owners if it.partition("@")[0] == base), nearest(owner, owners))


def hint_of(
    owner: str, name: str, functions: Sequence[tuple[str, str]], kind: str = "interface"
) -> str:
    """Which function was looked for, and which is the nearest.

    Args:
        owner: the full name of the interface, or of the world
        name: the function's own name
        functions: those that the package has, each with its owner, if it has such a one
        kind: what an owner is
    """
    there = [it for it in functions if it[0]]
    if not there:
        return f"no {quoted(name)} in {quoted(owner)}: no {kind} here has functions"
    of_owner = [it for its_owner, it in there if its_owner == owner]
    of_name = [its_owner for its_owner, it in there if it == name]
    if of_owner and not of_name:
        return f"no {quoted(name)} in {quoted(owner)}; the nearest is `{nearest(name, of_owner)}`"
    near = _nearest_owner(owner, of_name or [its_owner for its_owner, _ in there])
    if of_owner:
        return f"no {quoted(name)} in {quoted(owner)}; it is in `{near}`"
    own = nearest(name, (it for its_owner, it in there if its_owner == near))
    if not owner:
        return f"{quoted(name)} has no {kind}; the nearest is `{near}#{own}`"
    return f"no {kind} {quoted(owner)} has functions here; the nearest is `{own}` in `{near}`"
