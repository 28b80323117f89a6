#!/usr/bin/env python3
"""Compares tables and lists of docs/FORMATS.md and docs/ERRORS.md with the models (tools/models).

usage: tools/check_formats.py

Compared are opcodes, section numbers, declarations and the preamble; the limits of binaries; the number and words of
each refusal, on both pages; the features of 33 with their tokens, and those of 14; the order in which errors of names
are tested; kinds and steps of traps; exit statuses; punctuation; and the type entries of each thing. What the models
raise is read off their sources. The exit status is 1 if something differs, or if a table is not found.
"""
import ast
import inspect
import re

from models import binary, component, opening, reading, sets, shape, tables, text_rows, tokens
from models.faults import Trap
from repository import ROOT, SPAN, columns, counted, finish

MODELS = ROOT / "tools" / "models"
FORMATS, ERRORS = ((ROOT / "docs" / name).read_text() for name in ("FORMATS.md", "ERRORS.md"))
# the words of a refusal or of a trap's kind in the source of a model
REFUSAL = re.compile(r"[\"'](\d\d) ([a-z][A-Za-z0-9 -]*?) ?(?:at )?(?:\{|[\"'])")
KIND = re.compile(r"\"(K\d) (\w+)\"")
# what is told in a line besides its words
PLACES = ("NAME", "KIND", "FEATURE", "ID", "BYTE", "BB", "N", "I")
FEATURE = re.compile(r"\{\"(.+?)\": \"([a-z-]+)\"[,}]")
# the tables of features in tools/models/reading.py
FEATURES = (reading.TYPES, reading.TEXT, reading.FILE_ITEMS, reading.ITEMS, reading.WORLD_ITEMS, reading.CASES,
            reading.FUNCTIONS)
TYPES = {"record": binary.RECORD, "variant": binary.VARIANT, "list": binary.LIST, "tuple": binary.TUPLE,
         "flags": binary.FLAGS, "enum": binary.ENUM, "option": binary.OPTION, "result": binary.RESULT,
         "function": binary.FUNCTION, "component type": binary.COMPONENT, "instance type": binary.INSTANCE}
SECTIONS = {"custom": 0, "type": binary.SECTION_TYPE, "export": binary.SECTION_EXPORT}
# declarations in the order of their line: a type, an alias, an export, and an import
DECLARATIONS = [binary.TYPE, binary.ALIAS, binary.EXPORT, binary.IMPORT]
LIMITS = {r"At most (\d+) component and instance types nest": component.MOST_NESTED,
          r"All scopes together have at most ([\d,]+) type": component.MOST_ENTRIES,
          r"A variant or enum has at most ([\d,]+) cases": component.MOST_CASES,
          r"cases, flags at most (\d+)\.": component.MOST_LABELS,
          r"An input has at most ([\d,]+) bytes": component.MOST_BYTES}
# what the steps of opening raise: the number of the errors that a call of this name tests
TESTS = {"test_empty": opening.test_empty, "test_new": opening.test_new, "test_names": opening.test_names,
         "test_packages": opening.test_packages, "test_unknown": opening.test_unknown, "keep": sets.placed,
         "test_limits": opening.test_limits, "read": shape, "test_imports": opening.test_imports}
# calls that raise nothing of names there
NO_NAMES = (("a text", "read"), ("a binary", "keep"))
STATUSES = {"done": 0, "refused": 1, "usage": 2, "trap": 3}
# a package with each thing that takes type entries, and one without it
BASE = "package a:b; interface c { }"
ENTRIES = {
    "an interface, of the package or imported": f"{BASE} interface d {{ }}",
    "a world": f"{BASE} world w {{ }}",
    "an interface among a world's imports or exports": (f"{BASE} world w {{ import c; }}", f"{BASE} world w {{ }}"),
    "a function of an interface or of a world": "package a:b; interface c { f: func(); }",
    "a used name": ("package a:b; interface c { type t = u8; } interface d { use c.{t}; }",
                    "package a:b; interface c { type t = u8; } interface d { }"),
    "a new name of a named type": ("package a:b; interface c { type t = u8; type s = t; }",
                                   "package a:b; interface c { type t = u8; }"),
    "any other named type": "package a:b; interface c { record r { a: u8 } }",
    "a type without a name": ("package a:b; interface c { f: func(x: list<u8>); }",
                              "package a:b; interface c { f: func(x: u8); }"),
}


def sources():
    """The text of all models."""
    return "\n".join(path.read_text() for path in sorted(MODELS.glob("*.py")))


def lines_of(heads, page=FORMATS):
    """The cells of these two columns, line by line."""
    lines = {}
    for number, head, cell in columns(page):
        lines.setdefault(number, {})[head] = cell
    for line in lines.values():
        if all(head in line for head in heads) and set(line[heads[1]]) != {"-"}:
            yield line[heads[0]], line[heads[1]]


def cell_of(heads, first, page=FORMATS):
    """The cell beside this one, or nothing."""
    return next((cell for name, cell in lines_of(heads, page) if name == first), "")


def same(what, page, models):
    """A fault if two things differ."""
    if page != models:
        yield f"docs/FORMATS.md: {what}: {page}, and the models have {models}"


def opcodes():
    """Opcodes of primitives, types, sections and declarations."""
    cell = cell_of(("thing", "bytes"), "primitive")
    yield from same("primitives", {word: int(code, 16) for word, code in re.findall(r"(\w+) `(\w\w)`", cell)},
                    binary.OPCODES)
    rows = {name: int(SPAN.search(cell)[1].split()[0], 16) for name, cell in lines_of(("type", "bytes"))}
    yield from same("types", rows, TYPES)
    cell = cell_of(("thing", "bytes"), "section")
    yield from same("sections", {name: int(number) for number, name in re.findall(r"(\d+) (\w+)", cell.split(";")[1])},
                    SECTIONS)
    declared = re.findall(r"`(\w\w)` (?:(type|alias)|extern)", cell_of(("thing", "bytes"), "decl"))
    yield from same("declarations", [int(code, 16) for code, _ in declared], DECLARATIONS)
    mark = "".join(SPAN.findall(cell_of(("thing", "bytes"), "file"))).replace(" ", "")
    yield from same("the preamble", mark, component.PREAMBLE.hex())


def limits():
    """The limits of binaries."""
    text = " ".join(FORMATS.split())
    for pattern, limit in LIMITS.items():
        found = re.search(pattern, text)
        yield from same(pattern, counted(found[1]) if found else None, limit)


def words_of(line):
    """The number and the words of a refusal in a cell, without what stands for something."""
    for span in SPAN.findall(line):
        found = re.match(r"(?:error )?(\d\d) (.*)", span)
        words = re.sub(rf" (?:{'|'.join(PLACES)})\b.*$| at .*$", "", found[2] if found else span)
        yield (found[1] if found else None), words


def refusals():
    """The words of each refusal on both pages, and that none of the models' is left out."""
    models = {}
    for number, words in REFUSAL.findall(sources()):
        if not words.startswith(("expected", "unsupported")):
            models.setdefault(number, set()).add(words.strip())
    models.update({"32": {"expected"}, "33": {"unsupported"}, "14": {"unsupported"}})
    pages = {"docs/FORMATS.md": {}, "docs/ERRORS.md": {}}
    for numbers, words in lines_of(("number", "words")):
        spans = [it for _, it in words_of(words)]
        for number, word in zip(re.findall(r"\d\d", numbers), spans if len(spans) > 1 else spans * 9):
            if word != "...":
                pages["docs/FORMATS.md"].setdefault(number, set()).add(word)
    for line in re.findall(r"^\| `(error [^`]*)`", ERRORS, re.M):
        number, words = next(words_of(f"`{line}`"))
        pages["docs/ERRORS.md"].setdefault(number, set()).add(words)
    for page, found in pages.items():
        for number in sorted(found.keys() & models.keys()):
            if found[number] != models[number]:
                yield f"{page}: {number} {found[number]}, and the models have {models[number]}"
        elsewhere = re.search(r"has also ([\d, and]+) and", FORMATS)[1] if page == "docs/FORMATS.md" else ""
        wanted = {it for it in models if page == "docs/ERRORS.md" or it < "70"} - set(re.findall(r"\d\d", elsewhere))
        yield from (f"{page}: no line of {number}" for number in sorted(wanted - found.keys()))


def features():
    """The features of 33 with their tokens, and those of 14."""
    models = {}
    inner = FEATURE.findall((MODELS / "reading.py").read_text())
    for token, feature in [pair for table in FEATURES for pair in table.items()] + inner:
        models.setdefault(feature, set()).add(token)
    page = {}
    for names, cell in lines_of(("feature", "token that is reported, and its place")):
        for name in SPAN.findall(names):
            page[name] = set(SPAN.findall(cell)) if len(SPAN.findall(names)) == 1 or "," in cell else {name}
    yield from same("the features of 33", sorted(page), sorted(models))
    for name in page.keys() & models.keys():
        if not models[name] <= page[name] | {name}:
            yield f"docs/FORMATS.md: {name} begins with {page[name]}, and the models have {models[name]}"
    cell = cell_of(("number", "when, and at which offset"), "14")
    told = {int(code, 16) for code in re.findall(r"`(\w\w)`", cell)}
    yield from same("what 14 is of", told, set(component.UNSUPPORTED))


def numbers_in(thing):
    """The numbers that a function or a module of the models raises, in order."""
    return re.findall(r"Refused\(f?\"(\d\d)", inspect.getsource(thing))


def orders():
    """The order of the tests of names, as the models call them."""
    for of, function in (("a text", opening.add_text), ("a binary", opening.add_binary)):
        calls = [node for node in ast.walk(ast.parse(inspect.getsource(function))) if isinstance(node, ast.Call)]
        names = [getattr(it.func, "attr", getattr(it.func, "id", "")) for it in sorted(calls, key=lambda it: (
            it.lineno, -it.col_offset))]
        tests = [name for name in names if name in TESTS and (of, name) not in NO_NAMES]
        wanted = [number for name in tests for number in dict.fromkeys(numbers_in(TESTS[name]))]
        yield from same(f"the order of errors of {of}", re.findall(r"\d\d", cell_of(("of", "order"), of)), wanted)


def traps():
    """Kinds and steps of traps, on both pages, and the exit statuses."""
    kinds = dict(KIND.findall(sources()))
    line = next(it for it in FORMATS.splitlines() if it.startswith("- The kinds are"))
    yield from same("kinds of traps", dict(re.findall(r"(K\d) (\w+)", line)), kinds)
    yield from same("kinds on docs/ERRORS.md", dict(re.findall(r"^\| `trap (K\d) (\w+) in STEP`", ERRORS, re.M)), kinds)
    line = next(it for it in FORMATS.splitlines() if it.startswith("- The steps are"))
    steps = [SPAN.search(name)[1] for name, _ in lines_of(("step", "whose fault it is"), ERRORS)]
    yield from same("steps of traps", sorted(SPAN.findall(line)), sorted(steps))
    made = set(re.findall(r"\"((?:lift|lower)-(?:args|result)|place|take|post|body)\"", sources()))
    yield from same("steps of the models", set(steps), made)
    said = dict((word, int(code)) for code, word in re.findall(
        r"(\d) (\w+)", re.search(r"The exit status is (.*?)\. Words", FORMATS)[1]))
    yield from same("exit statuses", said, STATUSES)
    yield from same("the status of a trap", f" ({STATUSES['trap']})", text_rows.STATUS[Trap])
    told = re.search(r"The exit status is (\d) for a refusal, (\d) for words that are no command, and (\d) for a trap",
                     ERRORS)
    yield from same("exit statuses on docs/ERRORS.md", list(map(int, told.groups())) if told else None, [1, 2, 3])


def punctuation():
    """The marks of WIT."""
    cell = cell_of(("token", "is"), "punctuation")
    yield from same("punctuation", [mark for span in SPAN.findall(cell) for mark in span.split()], tokens.MARKS)


def entries():
    """The type entries of each thing, as the models count them."""
    page = {thing: int(re.match(r"\d+", cell)[0]) for thing, cell in lines_of(("thing", "type entries"))}
    found = {"the package": tables.entries(opening.begun([BASE])) - 1}
    for thing, texts in ENTRIES.items():
        more, less = (texts, BASE) if isinstance(texts, str) else texts
        found[thing] = tables.entries(opening.begun([more])) - tables.entries(opening.begun([less]))
    yield from same("type entries", page, found)


def main():
    checks = (opcodes, limits, refusals, features, orders, traps, punctuation, entries)
    finish(fault for check in checks for fault in check())


if __name__ == "__main__":
    main()
