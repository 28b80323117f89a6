#!/usr/bin/env python3
"""Tells which functions with conditions docs/guarantees/conditions.md doesn't name, and what it names that is none.

usage: tools/check_conditions.py [--list]

A function with conditions is one with a `requires` that a crate exports: by a `pub use` or a `pub mod` of its lib.rt,
as a `pub` method of a type or a method of a trait that is exported so, or to C. Modules in blocks are not read, and the
check fails if there are such.

The column `call` of the page's tables has to name each of them, as `name` or as `Type::name`, and nothing else, and
none more often than it has conditions. A cell has parts with a `;` between them. In a part that says of what its names
are, as `field` of `Layouts` or of `Types`: `size_of`, each name without `::` is of that type, crate or module. A name
has to be of one function alone. The page says as well how many such functions and conditions there are, so that a new
condition of a function that it names is found too.

--list prints the functions with the names of their conditions. The exit status is 1 where something is missing.
"""
import collections
import re
import sys

from public_items import FN, code, files, given, head_and_contract, members
from repository import ROOT, columns, finish, place

PAGE = ROOT / "docs" / "guarantees" / "conditions.md"
REQUIRES = re.compile(r"(?:^|[\s)>\]])requires\b ?(\w*) *\{")
FOR_C = re.compile(r"(?:pub )?(?:unsafe )?extern \"\" fn\b")
INNER = re.compile(r"^ *(?:pub(?:\(\w+\))? )?mod \w+ *\{", re.M)
OF = re.compile(r"\bof `([\w:]+)`")
NAME = re.compile(r"`([\w:]+)`")

# its crate, where it may be said to be (crate and modules, or type), its type if it has one, its name, its conditions
Function = collections.namedtuple("Function", "crate places type name clauses")
# the name of a condition or nothing, and what it says
Clause = collections.namedtuple("Clause", "name text")


def requires(text):
    """The conditions in a text, each of which ends at the brace that closes it."""
    for found in REQUIRES.finditer(text):
        depth, end = 1, found.end()
        while depth:
            depth += {"{": 1, "}": -1}.get(text[end], 0)
            end += 1
        yield Clause(found[1], " ".join(text[found.end():end - 1].split()))


def conditions(path, line):
    """The conditions of the function in this line of a file."""
    _, contract = head_and_contract(code(path).splitlines(), line - 1)
    return list(requires("\n".join(contract)))


def own_items(crate):
    """What a crate gives of its own: each item with the modules that give it and the names that they give it."""
    found = collections.defaultdict(list)
    for name, item in given(crate).items():
        if item.crate == crate:
            module, _, last = name.rpartition("::")
            found[item].append((module or "lib", last))
    return found


def calls_of(crate):
    """The functions and methods that a crate exports: where each may be said to be, its type or nothing, its name, its
    file and line."""
    for item, names in own_items(crate).items():
        if item.kind == "fn":
            places = {crate, *(f"{crate}::{module}" for module, _ in names)}
            yield places, "", min(name for _, name in names), item.path, item.line
        for it in members(item) if item.kind != "fn" else ():
            if it.kind == "fn":
                yield {item.name}, item.name, it.name, it.path, it.line
    # those for C are exported without a name of the crate's
    for path in files(crate).values():
        for number, line in enumerate(code(path).splitlines(), 1):
            if FOR_C.match(line):
                yield {crate, f"{crate}::lib"}, "", FN.search(line)[2], path, number


def functions():
    """The exported functions with conditions, those of a file in their order."""
    for crate in sorted(it.parent.parent.name for it in (ROOT / "crates").glob("*/src/lib.rt")):
        for places, type_, name, path, line in sorted(calls_of(crate), key=lambda it: it[3:]):
            if found := conditions(path, line):
                yield Function(crate, places, type_, name, found)


def unread():
    """The modules that the check doesn't read."""
    for path in sorted((ROOT / "crates").glob("*/src/**/*.rt")):
        if INNER.search(code(path)):
            yield f"{place(path)}: a module in a block is not read"


def called(cell):
    """The names in a cell, each with what it is of, if that is said."""
    for part in cell.split("; "):
        of = OF.search(part)
        for name in NAME.findall(OF.sub("", part)):
            owner, _, last = name.rpartition("::")
            yield owner or (of[1] if of else ""), last


def faults(known):
    """What is wrong with the page, with the number of the line or without."""
    text, rows = PAGE.read_text(), collections.Counter()
    for number, head, cell in columns(text):
        for of, name in called(cell) if head == "call" else ():
            found = [i for i, it in enumerate(known) if it.name == name and (of in it.places if of else not it.type)]
            rows.update(found)
            if len(found) != 1:
                yield f":{number}: {name} is the name of {len(found)} functions with conditions"
    for i, it in enumerate(known):
        if not 1 <= rows[i] <= len(it.clauses):
            yield f": {min(it.places)}: {it.name} is named {rows[i]} times, and has {len(it.clauses)} conditions"
    told = f"{len(known)} exported calls have {sum(len(it.clauses) for it in known)} conditions"
    if told not in text:
        yield f": it doesn't say: {told}"


def main():
    known = list(functions())
    if sys.argv[1:] == ["--list"]:
        for it in known:
            print(min(it.places), it.name, *(clause.name or "-" for clause in it.clauses))
        return
    finish([*unread(), *(f"{place(PAGE)}{fault}" for fault in faults(known))])


if __name__ == "__main__":
    main()
