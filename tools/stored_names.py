#!/usr/bin/env python3
"""Keeps the names of all stored rows, runs and tests, so that none can be left out in silence.

usage: tools/stored_names.py [--check]

tests/names has for each file of tests its path, how many it has, and their names in order: the rows of crates/vectors,
the stored runs of tests/explain, the files of tests/binaries, and the tests of crates and bindings. So it has the
tables in the scripts of tools/ with their sizes and numbers, of which many are exceptions of a check, their limits, the
steps of the gate, which are the lines of GATE, and the planted faults. Names that differ in a number alone are one
line, `NAME-1 to 9`. Without words the script writes this file. With --check it compares the two, and the table of rows
in docs/guarantees/tests.md: each name there is one of the file beside it, and of rows that begin or end as `..` says
there are as many as it says. The exit status is 1 if something differs.
"""
import ast
import json
import re
import sys

from planted_faults import FAULTS
from repository import ROOT, SPAN, columns, counted, finish, place

STORED = ROOT / "tests" / "names"
PAGE = ROOT / "docs" / "guarantees" / "tests.md"
VECTORS = ROOT / "crates" / "vectors"
TEXT_ROW = re.compile(r"^(?!#|\||let )(.+?): ", re.M)
RUN = re.compile(r"^\$ wit-explain ?(.*)$", re.M)
# what begins a test, with its name, by the end of the file's name
TESTS = {
    ".rt": re.compile(r"#\[test\]\n(?: *#\[.*\n)*\s*(?:pub )?fn (\w+)"),
    ".rs": re.compile(r"#\[test\]\n(?: *#\[.*\n)*\s*(?:pub )?fn (\w+)"),
    ".py": re.compile(r"^ *def (test_\w+)", re.M),
    ".js": re.compile(r"^ *(?:test|it)\(([\"'`].*?[\"'`]),", re.M),
}
# the scripts that are the gate, and a line of one that does something
GATE = (".ci/run", "tools/test.sh")
STEP = re.compile(r"^\s*([^\s#].*)$", re.M)
FOLDERS = ("crates/*/src", "bindings/python/tests", "bindings/js/tests", "bindings/rust/tests")
# what is numbered in a row, and not a size
NUMBERED = re.compile(r"(?![A-Z_]+ (?:is|of) )(.*[- ])(0|[1-9]\d*)")
RANGE = re.compile(r"`([^`]+-)(\d+)` to `\1(\d+)`")
ANY = re.compile(r"`(\.\. )?([^`]+?)( \.\.)?` \(([\d,]+)\)")


def tables_of(path):
    """The tables and limits that a script begins with: the size of each table with its numbers, and each number."""
    for node in ast.parse(path.read_text()).body:
        name = node.targets[0].id if isinstance(node, ast.Assign) and isinstance(node.targets[0], ast.Name) else ""
        if name.isupper() and isinstance(node.value, (ast.Dict, ast.List, ast.Set, ast.Tuple)):
            held = getattr(node.value, "elts", None) or getattr(node.value, "values", [])
            numbers = [str(it.value) for it in held if isinstance(it, ast.Constant) and isinstance(it.value, int)]
            yield f"{name} of {len(held)}{': ' * bool(numbers)}{', '.join(numbers)}"
        elif name.isupper() and isinstance(node.value, ast.Constant) and isinstance(node.value.value, int):
            yield f"{name} is {node.value.value}"


def names_by_file():
    """The names in each file of tests, by its path."""
    found = {"crates/vectors/stdin": [json.loads(it)["name"] for it in (VECTORS / "stdin").read_text().splitlines()]}
    for path in sorted((VECTORS / "data").glob("*.rows")):
        found[place(path)] = TEXT_ROW.findall(path.read_text())
    found["tests/explain/runs"] = RUN.findall((ROOT / "tests/explain/runs").read_text())
    for folder in ("tests/explain/terminal", "tests/binaries"):
        found[folder] = [str(it.relative_to(ROOT / folder)) for it in sorted((ROOT / folder).rglob("*"))
                         if it.is_file()]
    for folder in FOLDERS:
        for path in sorted(it for it in ROOT.glob(f"{folder}/**/*") if it.suffix in TESTS and it.is_file()):
            found[place(path)] = TESTS[path.suffix].findall(path.read_text())
    scripts = sorted((ROOT / "tools").rglob("*.py"))
    found.update((place(path), list(tables_of(path))) for path in scripts)
    found.update((path, STEP.findall((ROOT / path).read_text())) for path in GATE)
    found["tools/planted_faults.py"] = [f"{it.check}: {it.name}" for it in FAULTS]
    return {path: names for path, names in found.items() if names}


def lines_of(names):
    """The names in order, those of a rising row of numbers in one line."""
    lines = []
    for name in names:
        numbered = NUMBERED.fullmatch(name)
        if lines and numbered and lines[-1][0] == numbered[1] and lines[-1][2] + 1 == int(numbered[2]):
            lines[-1][2] += 1
        else:
            lines.append([numbered[1], int(numbered[2]), int(numbered[2])] if numbered else [name, 0, 0])
    return [front if not last else f"{front}{first}" if first == last else f"{front}{first} to {last}"
            for front, first, last in lines]


def text():
    """The text of tests/names."""
    lines = ["# The names of stored rows, runs, tests and planted faults, the sizes of tables, and steps of the gate.",
             "# tools/stored_names.py writes this file and compares it."]
    for path, names in names_by_file().items():
        lines += [f"{path}: {len(names)}", *(f"  {line}" for line in lines_of(names))]
    return "".join(f"{line}\n" for line in lines)


def differing():
    """How tests/names differs from what is there: of each file the names that are missing and those that are new."""
    wanted, stored = (dict(parted(it)) for it in (text(), STORED.read_text() if STORED.exists() else ""))
    for path in sorted(wanted.keys() | stored.keys()):
        there, kept = wanted.get(path, []), stored.get(path, [])
        if there != kept:
            gone, new = [it for it in kept if it not in there], [it for it in there if it not in kept]
            yield f"{path}: not as tests/names has it: gone {gone[:5]}, new {new[:5]}; if this is meant, run the script"


def parted(names):
    """The parts of a text as tests/names is, each with its path."""
    part = None
    for line in names.splitlines():
        if line.startswith("  "):
            part[1].append(line)
        elif not line.startswith("#"):
            if part:
                yield part
            part = line.partition(": ")[0], [line]
    if part:
        yield part


def wrong_rows():
    """What the table of rows says that its files don't have."""
    files, file, counted_rows = names_by_file(), "", 0
    for number, head, cell in columns(PAGE.read_text()):
        if head == "file":
            file = cell.strip("`")
        elif head == "rows in it" and set(cell) != {"-"}:
            names = next((found for path, found in files.items() if path.endswith(f"/{file}")), None)
            if names is None:
                yield f"{place(PAGE)}:{number}: no file of tests is {file}"
                continue
            faults, asked = faults_of(cell, names)
            counted_rows += asked
            yield from (f"{place(PAGE)}:{number}: {fault} in {file}" for fault in faults)
    if not counted_rows:
        yield f"{place(PAGE)}: no table names rows"


def faults_of(cell, names):
    """What a cell says that these names are not, and how many names it has."""
    faults = []
    for begin, part, end, count in ANY.findall(cell):
        if begin or end:
            found = sum(it.endswith(part) if begin else it.startswith(part) for it in names)
            faults += [f"{found} rows are as `{part}`, not {count}"] * (found != counted(count))
    plain = ANY.sub(lambda it: "" if it[1] or it[3] else it[0], cell)
    asked = SPAN.findall(RANGE.sub(lambda it: ", ".join(f"`{it[1]}{n}`" for n in range(int(it[2]), int(it[3]) + 1)),
                                   plain))
    faults += [f"no row is {it}" for it in asked if it not in names]
    return faults + ["nothing is named"] * (not asked and not ANY.search(cell)), len(asked)


def main():
    if sys.argv[1:] == ["--check"]:
        finish([*differing(), *wrong_rows()])
    if sys.argv[1:]:
        sys.exit(__doc__)
    STORED.write_text(text())


if __name__ == "__main__":
    main()
