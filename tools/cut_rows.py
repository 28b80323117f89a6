#!/usr/bin/env python3
"""Looks whether each stored input is stored cut after each of its bytes, too, and each binary with its bytes changed.

usage: tools/cut_rows.py [--check]

Inputs are the texts and binaries of all rows of crates/vectors. Each is cut or changed behind inputs that come before
it in a row. Needed are:

- a row `fronts`, `cuts` or `changes` of each set that a row asks about, which cuts the last input;
- one of each input that only comes before others, as it does in the first row that has it. Of copies that an `each`
  makes, the first, second, fourth and so on need one;
- a row `changes` of each binary of at most MOST_OPENED bytes;
- rows `component-cuts` and `component-changes` of each binary of at most MOST_DECODED bytes. The first four bytes are
  changed, and the first FIRST of a binary that needs no row `changes`.

A set with an input of more than MOST_CUT bytes needs none. The page docs/guarantees/tests.md says these limits, and how
many sets and binaries are longer, so that another one is seen. Without words the script prints the rows that are
missing, each file's behind a comment, for `python3 -B -m tools.models answer rows`. With --check it says how many are
missing, and compares the page. The exit status is 1 if a row is missing, or if the page differs.
"""
import collections
import functools
import json
import re
import sys
from dataclasses import dataclass, field

from models import changed, rows, stored, text_rows
from models.opening import MARK
from repository import ROOT, finish, place

PAGE = ROOT / "docs" / "guarantees" / "tests.md"
CALLS = ROOT / "crates" / "vectors" / "stdin"
MOST_CUT, MOST_OPENED, MOST_DECODED = 2000, 200, 600
FIRST = 64
CUT = ("fronts", "cuts", "changes")
# how many words there are between a command and its inputs, and between one and the bytes of a component
WORDS = {"find": 2, "streamed": 3, "call": 4, "short-call": 5}
COMPONENTS = {"decode": 0, "drip": 0, "encode": 0, "failing": 1, "component-cuts": 0, "component-changes": 1}
TEXTS = ("tokens", "tree", "print")
EACH = re.compile(r'\beach (\d+) "([^"]*)"')
# the name of a row that cuts or changes
NAME = re.compile(r"^([a-z]+)-of-(\d+): ", re.M)
# what a text between quotes in a row can't have
UNQUOTED = re.compile(r'["\x00-\x1f\x7f]| =>')


@dataclass
class Stored:
    """What rows ask about: sets of inputs, and the bytes of components, each once; and what of these is cut and
    changed, of components with the number of bytes that are changed."""

    sets: dict = field(default_factory=dict)
    components: dict = field(default_factory=dict)
    cut: set = field(default_factory=set)
    opened: set = field(default_factory=set)
    decoded_cut: set = field(default_factory=set)
    decoded: dict = field(default_factory=dict)

    def take(self, kept, row):
        """Takes what a text row asks about."""
        command, _, rest = row.partition(" ")
        if command in rows.COMMANDS:
            self.sets[(package_of(command, rest),)] = None
        elif command in TEXTS:
            self.sets[(rest.encode(),)] = None
        elif command in COMPONENTS:
            self.take_component(command, rest.split(" ", COMPONENTS[command]))
        elif command not in text_rows.ALONE:
            self.take_set(command, tuple(kept.of(rest.split(" ", WORDS.get(command, 0))[-1])))

    def take_set(self, command, inputs):
        """Takes the inputs of a row."""
        if command in CUT:
            self.cut.add(inputs)
        else:
            self.sets[inputs] = None
        if command == "changes":
            self.opened.add(inputs[-1])

    def take_component(self, command, words):
        """Takes the bytes of a component."""
        data = bytes.fromhex(words[-1])
        if command == "component-cuts":
            self.decoded_cut.add(data)
        elif command == "component-changes":
            self.decoded[data] = max(int(words[0]), self.decoded.get(data, 0))
        elif data.startswith(MARK):
            self.components[data] = None

    def wanted(self):
        """The sets whose last input has to be cut: those that rows ask about, and others that such a set begins
        with, one for each input that is the last of none."""
        needless, found = {inputs[-1] for inputs in self.sets} | needless_copies(), {}
        for inputs in self.sets:
            for number, data in enumerate(inputs):
                if data not in needless:
                    found.setdefault(data, inputs[: number + 1])
        return [*self.sets, *found.values()]

    def binaries(self):
        """Each binary, with the sets whose last input it is."""
        found = {}
        for inputs in [*self.wanted(), *((data,) for data in self.components)]:
            if inputs[-1].startswith(MARK):
                found.setdefault(inputs[-1], []).append(inputs)
        return found


# ---- what is stored


def package_of(command, rest):
    """The package of a row of layouts, or of JSON."""
    given = rows.expanded(rest.split(" | ")[0])
    return (f"package a:b; interface c {{ {given} }}" if command.startswith("json") else given).encode()


def text_files():
    """The files of text rows."""
    return sorted(stored.TEXT_ROWS.glob("*.rows"))


@functools.cache
def parts():
    """The parts of which text rows have copies as inputs, each with the most of them."""
    found = collections.Counter()
    for path in text_files():
        for count, part in EACH.findall(path.read_text()):
            found[part] = max(found[part], int(count))
    return found


def needless_copies():
    """The copies of parts of which others are cut: those whose number, from 1 on, is no power of two."""
    return {copy for part, count in parts().items() for number, copy in enumerate(text_rows.copies(count, part), 1)
            if number & (number - 1)}


def all_stored():
    """What all rows ask about."""
    found = Stored()
    for path in text_files():
        kept = text_rows.Inputs(stored.TEXT_ROWS)
        for line in stored.lines_of(path):
            if line.startswith("let "):
                kept.keep(line.removeprefix("let "))
            elif text_rows.is_row(line):
                found.take(kept, line.partition(" =>")[0].partition(": ")[2])
    for call in map(json.loads, stored.lines_of(CALLS)):
        found.sets[(bytes.fromhex(call["binary"]) if "binary" in call else call["text"].encode(),)] = None
    return found


# ---- what is missing


def is_longer(inputs):
    """Whether a set has an input that is too long."""
    return max(map(len, inputs)) > MOST_CUT


def best(sets):
    """The first of sets that is opened, or the first."""
    return next((it for it in sets if changed.line_of(it[:-1], it[-1]) == "opened"), sets[0])


def missing_sets(found):
    """The sets of rows that are missing, each with its command, by commands and lengths."""
    changes = [best(sets) for data, sets in found.binaries().items()
               if len(data) <= MOST_OPENED and data not in found.opened]
    fronts = [it for it in found.wanted() if it not in found.cut and it not in changes and not is_longer(it)]
    for command, sets in (("fronts", fronts), ("changes", changes)):
        yield from ((command, inputs) for inputs in sorted(sets, key=lambda it: len(it[-1])))


def missing_components(found):
    """The bytes of rows that are missing, each with its command."""
    for data in sorted((it for it in found.binaries() if len(it) <= MOST_DECODED), key=len):
        first = len(MARK) if len(data) <= MOST_OPENED else FIRST
        if data not in found.decoded_cut:
            yield "component-cuts", data
        if found.decoded.get(data, 0) < first:
            yield f"component-changes {first}", data


def sentences(found):
    """What the page has to say of inputs that need no row."""
    lengths = [len(data) for data in found.binaries()]
    others = len(needless_copies() & {data for inputs in found.sets for data in inputs[:-1]})
    yield f"{sum(map(is_longer, found.sets))} sets have an input of more than {MOST_CUT:,} bytes"
    yield from (f"{sum(it > most for it in lengths)} binaries are longer than {most} bytes"
                for most in (MOST_OPENED, MOST_DECODED))
    yield f"{others} other copies"


# ---- how rows are written


def longest(inputs):
    """The part of which the most copies begin these inputs, and how many; 1 if there are no two."""
    counts = {None: 1}
    for part in parts():
        pairs = zip(inputs, text_rows.copies(len(inputs), part))
        counts[part] = next((number for number, (data, copy) in enumerate(pairs) if data != copy), len(inputs))
    part = max(counts, key=counts.get)
    return part, counts[part]


def spelled_input(data):
    """An input, as text if it can be."""
    text = data.decode(errors="replace")
    return f"bytes {data.hex()}" if text.encode() != data or UNQUOTED.search(text) else f'"{text}"'


def spelled(inputs):
    """The inputs of a row. Several copies of a part are one `each`."""
    found = []
    while inputs:
        part, count = longest(inputs)
        found.append(f'each {count} "{part}"' if count > 1 else spelled_input(inputs[0]))
        inputs = inputs[count:]
    return ", ".join(found)


def named(asked, path):
    """The rows of a file, each with its name: that of its command, and the number behind the last one."""
    numbers = collections.Counter()
    for front, number in NAME.findall(path.read_text()):
        numbers[front] = max(numbers[front], int(number))
    for row in asked:
        front = row.partition(" ")[0].removeprefix("component-")
        numbers[front] += 1
        yield f"{front}-of-{numbers[front]}: {row}"


def missing_rows(found):
    """The rows that are missing, without answers, by their files."""
    asked = {"changes": [f"{command} {spelled(inputs)}" for command, inputs in missing_sets(found)],
             "reading": [f"{command} {data.hex()}" for command, data in missing_components(found)]}
    paths = {stored.TEXT_ROWS / f"{name}.rows": it for name, it in asked.items() if it}
    return {path: list(named(it, path)) for path, it in paths.items()}


# ---- what is told


def faults(found):
    """What is missing, and what the page says otherwise."""
    for path, missing in missing_rows(found).items():
        yield f"{place(path)}: {len(missing)} rows are missing, which tools/cut_rows.py prints: {missing[0]:.100}"
    text = " ".join(PAGE.read_text().split())
    yield from (f"{place(PAGE)}: it does not say `{it}`" for it in sentences(found) if it not in text)


def main():
    """Does what the command line asks for."""
    if sys.argv[1:] == ["--check"]:
        finish(faults(all_stored()))
    if sys.argv[1:]:
        sys.exit(__doc__)
    for path, missing in missing_rows(all_stored()).items():
        print("\n".join([f"# {place(path)}", *missing]))


if __name__ == "__main__":
    main()
