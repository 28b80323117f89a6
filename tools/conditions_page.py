#!/usr/bin/env python3
"""Makes docs/guarantees/conditions.md: the conditions of public calls, and the tests by which a program meets them.

usage: tools/conditions_page.py [--check]

The calls are those that tools/check_conditions.py finds. What their conditions say, and their tests, are the lines of
docs/condition-facts.txt. With --check nothing is written, and the exit status is 1 if the page is not current. It is 1
as well if a line fits a condition of no call, or if no line fits a condition.
"""
import fnmatch
import re
import sys

import check_conditions
from crates_page import wrapped
from repository import ROOT, keep_page

PAGE = ROOT / "docs" / "guarantees" / "conditions.md"
FACTS = ROOT / "docs" / "condition-facts.txt"
PART = re.compile(r"([\w:* ]*?) *(?:\{(.+)\})?")
# as many calls of one type in a cell are named without it
MANY = 3
HEAD = """\
# Conditions of public calls, and their tests

A public call may have conditions: the `requires` of its contract. This page lists them for people who call a crate,
each with the test that a running program can make. `tools/conditions_page.py` makes the page of the contracts and of
`docs/condition-facts.txt`: change that file, and run it.

- A program that runs meets a condition by the test in the last column.
- A caller that is proved cites the clause of that test, or what the type promises.
- Each condition has a public call that decides it, or a type that promises it.
- A call that is in no table has no condition, whichever crate exports it. A law has none either.
- `witcall_c` exports functions of C alone, and they have no `requires`. [C.md](../C.md#what-a-host-owes) says what a
  host owes.
- Programs, as `example_hosts`, export nothing.

{} exported calls have {} conditions. `tools/check_conditions.py` counts them, and finds a call that is in no table.
"""
COLUMNS = "| call | condition | public test, or type that carries it |\n|---|---|---|\n"


class Group:
    """A group of the page: its title, its crates, its paragraphs, and its lines, each with the calls that it is of."""

    def __init__(self, title, crates):
        self.title, self.crates, self.paragraphs, self.lines = title, crates, [], []

    def calls(self, everything):
        """The calls that the group's crates export, in the order of these crates."""
        return [it for crate in self.crates for it in everything if it.crate == crate]

    def take(self, call, clause):
        """Puts a call to the first line that fits its condition. Returns whether one does."""
        for number, which, cells, calls in self.lines:
            if any(fits(part, call, clause) for part in which):
                if call not in calls:
                    calls.append(call)
                return True
        return False


def stop(number, fault):
    """Ends with what is wrong with a line of docs/condition-facts.txt, or with all of it."""
    place = f"{FACTS.relative_to(ROOT)}:{number}" if number else FACTS.relative_to(ROOT)
    sys.exit(f"tools/conditions_page.py: {place}: {fault}")


def groups():
    """The groups of docs/condition-facts.txt, whose lines have no calls yet."""
    found = []
    for number, line in enumerate(FACTS.read_text().splitlines(), 1):
        cells = line.split(" | ")
        if line.startswith("= "):
            title, _, crates = line[2:].partition(": ")
            found.append(Group(title, crates.split()))
        elif line.startswith("> "):
            found[-1].paragraphs.append(line[2:])
        elif line.strip() and not line.startswith("#"):
            parts = [PART.fullmatch(it) for it in cells[0].split("; ")]
            if len(cells) != 3 or not all(parts):
                stop(number, "a line has three parts, the first of names of calls and texts in braces")
            found[-1].lines.append((number, [(it[1].split(), it[2] or "") for it in parts], cells[1:], []))
    return found


def full_name(call):
    """A call's name, with its type if it has one."""
    return f"{call.type}::{call.name}" if call.type else call.name


def fits(part, call, clause):
    """Whether a part of a line is of a condition."""
    names, text = part
    return text in clause.text and (not names or any(fnmatch.fnmatchcase(full_name(call), it) for it in names))


def place_of(call, group):
    """What a call is named with: its type, a module that exports it, its crate if the group has several, or nothing."""
    modules = [it for it in call.places if "::" in it and not it.endswith("::lib")]
    if call.type or call.places & {f"{call.crate}::lib"} or not modules:
        return call.type or (call.crate if len(group.crates) > 2 else "")
    return min(modules)


def named(calls, group):
    """A cell that names calls. Many of one place come after it."""
    places, short, parts = {}, [], []
    for call in calls:
        places.setdefault(place_of(call, group), []).append(f"`{call.name}`")
    for place, names in places.items():
        if place and (len(names) >= MANY or "::" in place):
            parts.append(f"of `{place}`: {', '.join(names)}")
        else:
            short += [it if not place else f"`{place}::{it[1:]}" for it in names]
    return "; ".join([*([", ".join(short)] if short else []), *parts])


def shown(group):
    """What the page has of a group."""
    parts = [f"## {group.title}", *(wrapped(it) for it in group.paragraphs)]
    rows = "".join(f"| {named(calls, group)} | {cells[0]} | {cells[1]} |\n" for _, _, cells, calls in group.lines)
    return "\n\n".join([*parts, (COLUMNS + rows).strip()] if rows else parts)


def page():
    """The page's text. Stops at a condition of which there is no line, and at a line of no condition."""
    calls, found = list(check_conditions.functions()), groups()
    for group in found:
        for call, clause in ((it, clause) for it in group.calls(calls) for clause in it.clauses):
            if not group.take(call, clause):
                stop(None, f"no line of {group.title} is of {full_name(call)}: {clause.text}")
        for number, *_, taken in group.lines:
            if not taken:
                stop(number, "this line is of no condition")
    lost = {it.crate for it in calls} - {crate for group in found for crate in group.crates}
    if lost:
        stop(None, f"no group has {', '.join(sorted(lost))}")
    head = HEAD.format(len(calls), sum(len(it.clauses) for it in calls))
    return head + "".join(f"\n{shown(group)}\n" for group in found)


if __name__ == "__main__":
    keep_page(__doc__, PAGE, page)
