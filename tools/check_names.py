#!/usr/bin/env python3
"""Tells which names of the pages at the top (TOP of tools/repository.py) and of docs/ stand nowhere in the repository.

usage: tools/check_names.py

What is checked of the pages:

- A name is a word in backquotes, or words joined by `::`, that could be one of Rust or of a definition: with a
  capital letter before a small one, an underscore, or `::`. So is what stands before the `(` of a call. Each of its
  parts has to stand in a file of crates/ or in a header of include/, out of comments, or in the transcription of the
  standard, or be the name of a crate, of a file, of an edit or of a script. The names in blocks of Rust and C have to
  as well.
- A function that is named with its type, its module or its crate, as `Package::takes`, has to be one of it. The names
  in the column `expected` of a table need not be there (tools/check_surface.py).
- A path in backquotes or in a block of `sh` that begins with a folder of FOLDERS has to be there, and `specs/NAME`,
  `proofs/NAME` and `src/NAME` in some crate or example. What is built, and paths with a word in capitals for a name,
  are left out.
- Clauses that are named beside functions, as `open`: ok, written, have to be ones of such a function.
- Words in backquotes behind a crate `rows_..` or `vectors` are names of rows. Each has to be a line of the output of
  that crate, or the name in a line of its input. So has each behind `row` or `rows` that is named as rows are.
- The numbers of COUNTS are those of the stored rows, of the laws and of the planted faults.
- The tables of docs/GATE.md have the parts of tools/test.sh, and the lines of its `pages`.
- Each script of tools/ and bench/ is named on a page, in the gate or in another script. What `python3 -m tools.measure`
  and bench/run.py measure is named in docs/BENCHMARKS.md, and nothing else as such.

In the tables of docs/guarantees/ the cells of the column `clause` hold functions and clauses alone, as `open_set`:
ok, only; `Package::takes`, each of which has to be there; a function without a clause has one that has no name. Those
of the column `edit` hold must-fail edits alone, and docs/guarantees/edits.md has to name every one beside its crate.
The text that an edit replaces has to be there once, and to change by it. The exit status is 1 where something isn't
there.
"""
import json
import re
import sys

from check_pages import prose
from planted_faults import FAULTS
from repository import (
    ROOT, SPAN, WORD, blocks, code, columns, counted, edits, finish, functions, line_at, pages, place, sources,
    text_rows, vectors,
    without_blocks
)
from try_edits import edited

sys.path[:0] = [str(ROOT), str(ROOT / "bench")]

import run as benchmarks  # noqa: E402
from tools.measure.__main__ import MEASURES  # noqa: E402

NAME = re.compile(r"[A-Za-z_][A-Za-z0-9_]*(::[A-Za-z_][A-Za-z0-9_]*)*")
# functions, and clauses of their contracts
CLAUSES = re.compile(r"((?:`[\w:]+`(?:, and | and |, )?)+)(?: \(`\w+`\))?: ([a-z_0-9]+(?:, [a-z_0-9]+)*)"
                     r"(?=[;|.)]| \||, part| \()")
# a call, and a path
CALL = re.compile(r"([A-Za-z_:]\w[\w:]*)\(.*\)")
PATH = re.compile(r"(?:\./)?[\w.*-]+(?:/[\w.*-]+)*/?")
FOLDERS = (".ci", "bench", "bindings", "crates", "docs", "edits", "examples", "include", "packaging", "release",
           "tests", "tools")
INNER = ("specs", "proofs", "src")
# a name for any, and what in a block is no code
PLACEHOLDER = re.compile(r"[A-Z]_")
NO_CODE = re.compile(r'"(?:[^"\\\n]|\\.)*"|//.*|/\*.*?\*/', re.S)
# names of rows behind their crate
ROWS = re.compile(r"`(rows_[a-z]+|vectors)` ((?:`[^`]+`(?:, )?)+)")
# the same behind the word, and what names a row by its form
ROWS_BY_WORD = re.compile(r"\b[Rr]ows?\s+((?:`[^`]+`(?:,?\s+(?:and\s+)?)?)+)")
ROW_NAME = re.compile(r".*-\d+|[^:]+: .*[^.]", re.S)
# a cell of docs/guarantees/: functions, and the clauses that all of them have
GROUP = re.compile(r"((?:`[\w:]+`(?:, )?)+)(?:: ([a-z_0-9]+(?:, [a-z_0-9]+)*))?(?:, parts? (?:`\w+`(?:, )?)+)?")
NOTE = re.compile(r"\(\d+\)")
# the names of parts in tools/test.sh, and the lines of `pages`
PARTS = re.compile(r"^ *(?:FIRST|PROVED|BESIDE)=['\"]([^'\"]*)['\"]", re.M)
PAGES = re.compile(r"<<'END'\n(.*?)^END$", re.M | re.S)
# what pages count
COUNTS = {
    "calls": re.compile(r"stored run is ([\d,]+) calls of every kind"),
    "calls, values and heads": re.compile(r"([\d,]+) rows of calls, values and heads \(`vectors`\)"),
    "rows of a host's memory": re.compile(r"([\d,]+) rows of a host's memory \(`vectors`\)"),
    "random steps": re.compile(r"steps of sessions \| ([\d,]+) random lists of each"),
    "random requests": re.compile(r"requests to a memory, and steps of sessions \| ([\d,]+) random lists"),
    "laws": re.compile(r"([\d,]+) laws of them are\s+proved"),
    "planted faults": re.compile(r"([\d,]+) planted\s+faults"),
}


def known():
    """Every word of the sources, out of comments, and of file names."""
    files = [code(path) for path in (*sources(".rt", ".antt"), *(ROOT / "include").glob("*.h"))]
    files += [path.read_text() for path in (ROOT / "crates/vectors/data").glob("*.rows")]
    for path in (it for folder in FOLDERS for it in (ROOT / folder).rglob("*")):
        if "out" not in path.parts:
            files.append(path.name)
        # what the programs of hosts name, and what they are given in JavaScript, Python and Rust
        is_example = ROOT / "examples" in path.parents and path.suffix in (".c", ".h", ".mjs", ".rs", ".txt")
        is_binding = ROOT / "bindings" in path.parents and path.suffix in (".js", ".py", ".rs")
        if (is_example or is_binding) and "target" not in path.parts:
            files.append(path.read_text())
    # the standard's own names
    files.append((ROOT / "tools/standard.py").read_text())
    return {word for text in files for word in WORD.findall(text)}


def contracts():
    """The functions of crates/ by their names: of each the names that it may be qualified by, its clauses, of which
    some have no name, and the names of its conditions."""
    found, traits = {}, {}
    for path in sources(".rt"):
        for function in functions(path):
            owners = {*path.relative_to(ROOT / "crates").with_suffix("").parts, *WORD.findall(function.block)}
            found.setdefault(function.name, []).append((owners, function.clauses, function.conditions))
            if function.is_of_trait:
                traits.setdefault(function.name, []).append((owners, function.clauses))
    # where a trait is implemented, its contract holds
    for name, given in traits.items():
        for owners, clauses, _ in found[name]:
            if "for" in owners and not clauses:
                clauses.extend(it for others, theirs in given if others & owners - {"for"} for it in theirs)
    return found


def stale_edits():
    """The edits whose text isn't in the file that they change, or is there twice."""
    for path, crate in edits():
        if edited(path, ROOT / "crates" / crate) is None:
            yield f"{place(path)}: the text of an `old:` line isn't there once, or nothing changes"


def wrong_clauses(cell, known_contracts):
    """What is wrong with a cell of functions and clauses."""
    for group in cell.split("; "):
        found = GROUP.fullmatch(group)
        if not found:
            yield f"no functions with clauses: {group}"
            continue
        for name in SPAN.findall(found[1]):
            *owners, last = name.split("::")
            there = [clauses for around, clauses, _ in known_contracts.get(last, []) if around.issuperset(owners)]
            if found[2] is None and [""] not in there:
                yield f"{name} has not one clause without a name"
            for clause in (found[2] or "").split(", "):
                if found[2] and not any(clause in it for it in there):
                    yield f"{name} has no clause {clause}"


def wrong_cells(text, all_contracts, all_edits):
    """What is wrong with the tables of a page of docs/guarantees/."""
    for number, head, cell in columns(text):
        if head == "clause" and set(cell) != set("-") and not NOTE.fullmatch(cell):
            yield from ((number, fault) for fault in wrong_clauses(cell, all_contracts))
        if head in ("edit", "edits"):
            yield from ((number, f"{name} is no edit")
                        for name in SPAN.findall(cell) if name not in {edit for _, edit in all_edits})


def unnamed_edits(text, all_edits):
    """The edits that docs/guarantees/edits.md doesn't name in a row of their crate, and what it names there that is
    none of the crate."""
    crate, named = "", set()
    for number, head, cell in columns(text):
        if head == "crate":
            crate = cell.strip("`") or crate
        for name in SPAN.findall(cell) if head in ("edits", "in the gate") else ():
            named.add((crate, name))
            if (crate, name) not in all_edits:
                yield number, f"{name} is no edit of {crate}"
    yield from ((1, f"{name} of {crate} is not named") for crate, name in sorted(all_edits - named))


def is_told(name):
    """Whether a word in backquotes is a name rather than a value, a keyword or a text."""
    return bool(NAME.fullmatch(name)) and ("_" in name.strip("_") or "::" in name
                                           or bool(re.search(r"[a-z][A-Z]|^[A-Z][a-z]", name)))


def spans(text):
    """The words in backquotes of a page, each on one line, with the number of its line."""
    return [(line_at(text, found.start()), " ".join(found[1].split())) for found in SPAN.finditer(text)]


def missing_names(text, words, all_contracts):
    """The names in backquotes that aren't there, and the functions that aren't of what they are named with."""
    of_repository = {*(it.name for it in (ROOT / "crates").iterdir()),
                     *(owner for it in all_contracts.values() for owners, *_ in it for owner in owners)}
    expected = {(number, it) for number, head, cell in columns(text) if head == "expected" for it in SPAN.findall(cell)}
    for number, span in spans(text):
        if (number, span) in expected:
            continue
        call = CALL.fullmatch(span)
        name = call[1] if call else span
        *owners, last = name.split("::")
        if is_told(name) and not PLACEHOLDER.match(name) and any(part not in words for part in (*owners, last)):
            yield number, name
        elif is_told(name) and owners and last in all_contracts and of_repository.issuperset(owners):
            is_there = any(around.issuperset(owners) for around, *_ in all_contracts[last])
            if not is_there and not is_exported(owners, last):
                yield number, f"{last} is no function of {'::'.join(owners)}"


def is_exported(owners, name):
    """Whether a crate exports a name of another one, or a part of it has it otherwise than as a function."""
    files = [ROOT / "crates" / owners[0] / "src" / f"{it}.rt" for it in (*owners[1:], "lib")]
    return any(name in WORD.findall(code(path)) for path in files if path.is_file())


def missing_in_blocks(page_text, words):
    """The names in blocks of Rust and C that aren't there; of C those that begin as the library's do."""
    for number, language, text in blocks(page_text, "rust", "c"):
        for name in NAME.finditer(NO_CODE.sub('""', text)):
            is_meant = is_told(name[0]) if language == "rust" else name[0].lower().startswith(("wit_", "witcall_"))
            if is_meant and any(part not in words for part in name[0].split("::")):
                yield number, f"{name[0]}, in a block"


def missing_paths(page_text):
    """The paths in backquotes and in blocks of `sh` that aren't there."""
    named = spans(without_blocks(page_text)) + [(number, word) for number, _, text in blocks(page_text, "sh")
                                                for word in text.split()]
    for number, path in named:
        pattern = path.removeprefix("./").rstrip("/")
        first, _, rest = path.removeprefix("./").partition("/")
        is_built = "out" in path.split("/") or re.search(r"\b[A-Z]{2,}\b", path)
        if not PATH.fullmatch(path) or not rest or is_built or first not in (*FOLDERS, *INNER):
            continue
        places = (pattern,) if first in FOLDERS else (f"crates/*/{pattern}", f"examples/*/{pattern}")
        if not any(any(ROOT.glob(it)) for it in places):
            yield number, f"nothing is at {path}"


def untrue_clauses(text, all_contracts):
    """The clauses and conditions that no function has that they are named beside."""
    for found in CLAUSES.finditer(text):
        names = [it.split("::") for it in SPAN.findall(found[1])]
        meant = [it for *owners, last in names for it in all_contracts.get(last, []) if it[0].issuperset(owners)]
        there = {clause for _, clauses, conditions in meant for clause in clauses + conditions}
        # a law has premises, which a page may say there are none of
        for clause in found[2].split(", "):
            if clause not in there and clause != "none":
                yield line_at(text, found.start()), f"{found[1]} has no clause {clause}"


def missing_rows(line):
    """The names of rows in a line that their crate doesn't have."""
    for crate, names in ROWS.findall(line):
        there = vectors() if crate == "vectors" else (ROOT / "crates/vectors/stdout").read_text().splitlines()
        yield from (f"{crate} has no row {name}" for name in SPAN.findall(names) if name not in there)


def all_counts():
    """The numbers of COUNTS."""
    rows = {name: json.loads(row.asked) for name, row in vectors().items()}
    steps = sum(name.startswith("steps: random ") for name in rows)
    hosts = sum("host" in row for row in rows.values())
    laws = code(ROOT / "crates/canonical_abi/src/laws.rt")
    return {
        "calls": sum(not row.keys() & {"steps", "lift", "lower", "load", "store", "held", "head_at", "head_of", "host"}
                     for row in rows.values()),
        "calls, values and heads": len(rows) - steps - hosts,
        "rows of a host's memory": hosts,
        "random steps": steps,
        "random requests": sum(bool(re.fullmatch(r"random-\d+", name)) for name in text_rows()),
        "laws": len(re.findall(r"^ *pub (?:const )?fn ", laws, re.M)),
        "planted faults": len(FAULTS),
    }


def wrong_counts():
    """The numbers of pages that differ from what is counted, and those that no page has."""
    there = all_counts()
    for what, pattern in COUNTS.items():
        found = [(page, number) for page in pages() for number in pattern.findall(page.read_text())]
        yield from (f"{place(page)}: {number} {what}, and there are {there[what]}"
                    for page, number in found if counted(number) != there[what])
        if not found:
            yield f"no page counts {what}"


def unnamed_scripts():
    """The scripts that nothing names."""
    scripts = [path for folder in ("tools", "bench")
               for path in sorted((ROOT / folder).glob("*.*")) if path.suffix in (".py", ".sh")]
    texts = {path: path.read_text() for path in (*pages(), *scripts, ROOT / ".ci" / "run", ROOT / "witcall")}
    for script in scripts:
        name = re.compile(rf"\b{place(script)}\b|^ *(?:import|from) (?:tools\.)?{script.stem}\b", re.M)
        if not any(script.stem in text and name.search(text) for path, text in texts.items() if path != script):
            yield f"{place(script)}: nothing names it"


def wrong_parts():
    """The parts of tools/test.sh and the lines of its `pages` that docs/GATE.md lists otherwise."""
    text, lines = (ROOT / "tools/test.sh").read_text(), [*columns((ROOT / "docs/GATE.md").read_text())]
    parts = {part for names in PARTS.findall(text) for part in names.split() if not part.startswith("$")}
    scripts = {line for line in PAGES.search(text)[1].splitlines() if line}
    for what, head, there in (("part", "part", parts), ("line of `pages`", "script", scripts)):
        told = {cell.strip("`") for _, column, cell in lines if column == head and cell.startswith("`")}
        yield from (f"docs/GATE.md: no {what} {it} in its table" for it in sorted(there - told))
        yield from (f"docs/GATE.md: tools/test.sh has no {what} {it}" for it in sorted(told - there))


def wrong_measures():
    """What pages and the gate say of `tools.measure` and bench/run.py that these don't do, and what isn't named."""
    parts = {"tools.measure": ("BENCHMARKS.md", [*MEASURES]),
             "bench/run.py": ("BENCHMARKS.md", [it.__name__ for it in benchmarks.BENCHMARKS])}
    for program, (own, names) in parts.items():
        for page in [*pages(), ROOT / ".ci" / "run"]:
            said = re.findall(rf"{re.escape(program)} ([a-z][a-z-]*)", page.read_text())
            yield from (f"{place(page)}: {program} has no {name}" for name in said if name not in names)
        told = {word for span in SPAN.findall((ROOT / "docs" / own).read_text())
                for word in span.removeprefix(program).split()[:1]}
        yield from (f"docs/{own} doesn't name {name} of {program}" for name in names if name not in told)


def wrong_rows(text):
    """The names of rows on a page that their crates don't have."""
    for number, line in enumerate(text.splitlines(), 1):
        yield from ((number, fault) for fault in missing_rows(line))
    there = vectors().keys() | text_rows().keys()
    for found in ROWS_BY_WORD.finditer(text):
        names = [" ".join(it.split()) for it in SPAN.findall(found[1])]
        yield from ((line_at(text, found.start()), f"no row is {name}")
                    for name in names if ROW_NAME.fullmatch(name) and name not in there)


def faults_of(page, words, all_contracts, all_edits):
    """What is wrong with a page, each with the number of its line."""
    whole, text = page.read_text(), prose(page)
    yield from missing_names(text, words, all_contracts)
    yield from missing_in_blocks(whole, words)
    yield from missing_paths(whole)
    yield from untrue_clauses(text, all_contracts)
    yield from wrong_rows(text)
    if page.parent.name == "guarantees":
        yield from wrong_cells(text, all_contracts, all_edits)
    if page.name == "edits.md":
        yield from unnamed_edits(text, all_edits)


def main():
    """Prints what isn't there, and what is wrong with the pages."""
    words, all_contracts, all_edits = known(), contracts(), {(crate, path.stem) for path, crate in edits()}
    faults = [*stale_edits(), *wrong_counts(), *unnamed_scripts(), *wrong_parts(), *wrong_measures()]
    for page in pages():
        faults += [f"{place(page)}:{number}: {fault}"
                   for number, fault in faults_of(page, words, all_contracts, all_edits)]
    finish(faults)


if __name__ == "__main__":
    main()
