#!/usr/bin/env python3
"""Finds what is missing of the public surface, and types that a host of `witcall` can't name.

usage: tools/check_surface.py [--rows | --facade | --write]

- tools/surface.txt lists the calls, types, variants and fields that a reader looks for. Each has to be there, a call
  with these parameters: in its crate under its own name, or where the line says. Each word of a form has to be in the
  column `expected` of the table "Public forms that differ" of docs/DECISIONS.md, in a row of that crate. A row of the
  table has such a word, and the rows are in the order of the crates.
- Below each line of calls, types, variants and fields are indented lines that say what is there: the parameters of a
  call with their types, its result and the names of its conditions, and what variants and fields hold. They have to be
  so, and the file has as many things of each kind as its line `count` says. --write writes these lines anew.
- A type that a public signature, field or variant of what `witcall` gives names has to be given by `witcall` too, or a
  line of tools/surface.txt says which crate gives it. Types of std and of the kit are left out, and implementations of
  traits are not read.

Prints one line with counts. --rows and --facade leave out the other. The exit status is 1 if something is missing.
"""
import collections
import difflib
import re
import sys

from public_items import (
    ROOT, WORD, at_path, code, files, find, given, head_and_contract, members, named, parameters, uses
)

DATA = ROOT / "tools" / "surface.txt"
PAGE = ROOT / "docs" / "DECISIONS.md"
SECTION = "## Public forms that differ\n"
FACADE = "witcall"
# a name, the parameters of a call or the variants and fields of a type; where it is; the words of its forms
LINE = re.compile(r"(call|type|trait|variants|fields|outside) ([\w:]+?)(?:\((.*?)\)|: ([\w, ]+?))?"
                  r"(?: = (\w+): ([\w:]+))?(?: \| (.+))?")
FORM = re.compile(r"form \| (.+)")
COUNT = "count | "
CONDITION = re.compile(r"^\s*requires\b ?(\w*)", re.M)
TYPES = ("struct", "enum", "type", "trait")
KINDS = {"call": ("fn",), "type": TYPES[:3], "trait": TYPES[3:], "variants": ("variant",), "fields": ("field",),
         "outside": TYPES}
SPAN = re.compile(r"`([^`]+)`")

# what is looked for: its line, crate, kind and name, the parameters of a call, where it is, and the words of its forms
Expected = collections.namedtuple("Expected", "number crate kind name parameters place path words")


def expected():
    """What tools/surface.txt has: one for each call, type, variant, field and other form."""
    crate = None
    for number, line in enumerate(DATA.read_text().splitlines(), 1):
        if head := re.fullmatch(r"\[(\w+)\]", line):
            crate = head[1]
        elif form := FORM.fullmatch(line):
            yield Expected(number, crate, "form", None, None, crate, None, form[1].split(", "))
        elif line and not line.startswith(("#", "  ", COUNT)):
            yield from in_line(number, crate, line)


def in_line(number, crate, line):
    """What one line of tools/surface.txt has: a variant or a field each, otherwise one."""
    found = LINE.fullmatch(line)
    lists = found and found[1] in ("variants", "fields")
    if not found or crate is None or (found[1] == "call") != (found[3] is not None) or lists != (found[4] is not None):
        sys.exit(f"{DATA.relative_to(ROOT)}:{number}: this is no line of it: {line}")
    kind, name, inside, inner, place, path, words = found.groups()
    forms = words.split(", ") if words else []
    for end in [f"::{it}" for it in inner.split(", ")] if inner else [""]:
        yield Expected(number, crate, kind, name + end, inside, place or crate, (path or name) + end, forms)


def fault_of(it):
    """What is wrong with a line, or None."""
    if it.kind == "form":
        return None
    if (it.place, it.path) != (it.crate, it.name) and not it.words:
        return f"{it.name} of {it.crate} is {it.path} of {it.place}, and no word says so"
    if it.place == "std":
        return None
    item = named(it.place, it.path) if files(it.place) else None
    if item is None or item.kind not in KINDS[it.kind]:
        return f"{it.place} does not give {it.path}"
    if (it.place, it.path) != (it.crate, it.name) and files(it.crate) and named(it.crate, it.name) == item:
        return f"{it.crate} gives {it.name} itself"
    there = ", ".join(parameters(item.text)) if it.kind == "call" else None
    if there == it.parameters:
        return None
    return f"{it.path} of {it.place} has the parameters ({there}), and not ({it.parameters})"


def conditions(item):
    """The names of a function's conditions."""
    _, contract = head_and_contract(code(item.path).splitlines(), item.line - 1)
    return [name or "one without a name" for name in CONDITION.findall("\n".join(contract))]


def as_it_is(it):
    """What is there of a line of calls, types, variants or fields, in a line; nothing of others and of std."""
    item = named(it.place, it.path) if it.kind not in ("form", "outside") and files(it.place) else None
    if item is None:
        return []
    if it.kind == "call":
        asked = conditions(item)
        return [item.text + (f" requires {', '.join(asked)}" if asked else "")]
    text = " ".join(item.text.split()).rstrip(",")
    if it.kind == "variants":
        return [f"{item.name}{text}"] if text else []
    return [f"{item.name}: {text}" if it.kind == "fields" else text]


def counted(surface):
    """How many things of each kind the file has, as its line says it."""
    kinds = collections.Counter(it.kind for it in surface)
    kinds["rows of the table of forms"] = len(list(rows()))
    return COUNT + ", ".join(f"{number} {kind}" for kind, number in sorted(kinds.items()))


def written(surface):
    """The text of tools/surface.txt with what is there below each line, and its counts."""
    below = collections.defaultdict(list)
    for it in surface:
        below[it.number] += [f"  {line}" for line in as_it_is(it)]
    lines = []
    for number, line in enumerate(DATA.read_text().splitlines(), 1):
        if not line.startswith(("  ", COUNT)):
            lines += [line, *below[number]]
    return "".join(f"{line}\n" for line in [*lines, counted(surface)])


def faults_of_text(surface):
    """The lines of tools/surface.txt that say otherwise than it is."""
    stored, there = DATA.read_text().splitlines(), written(surface).splitlines()
    for line in difflib.unified_diff(stored, there, lineterm="", n=0):
        if line.startswith(("+", "-")) and not line.startswith(("+++", "---")):
            yield f"{DATA.relative_to(ROOT)}: {'it is' if line[0] == '+' else 'it says'} {line[1:].strip()}"


def rows():
    """The rows of the table of forms: the number of the line, the crates, and the words of its column `expected`."""
    before, _, rest = PAGE.read_text().partition(SECTION)
    heads, first = None, (before + SECTION).count("\n") + 1
    for number, line in enumerate(rest.partition("\n## ")[0].splitlines(), first):
        cells = [it.strip() for it in line.strip("| ").split(" | ")] if line.startswith("|") else []
        if heads and len(cells) == len(heads):
            row = dict(zip(heads, cells))
            yield number, SPAN.findall(row["crate"]), SPAN.findall(row["expected"])
        elif cells and "expected" in cells:
            heads = cells


def faults_of_table(surface):
    """The words that no row of their crate has, the rows that have no word, and those out of order."""
    known = {(it.crate, word) for it in surface for word in it.words}
    order, last, there = list(dict.fromkeys(it.crate for it in surface)), 0, set()
    for number, crates, words in rows():
        pairs = {(crate, word) for crate in crates for word in words}
        there |= pairs
        if not pairs & known:
            yield f"{PAGE.relative_to(ROOT)}:{number}: no line of {DATA.relative_to(ROOT)} has a word of this row"
        place = order.index(crates[0]) if crates and crates[0] in order else -1
        if place < last:
            yield f"{PAGE.relative_to(ROOT)}:{number}: this row is not in the order of the crates"
        last = max(place, last)
    for it, word in ((it, word) for it in surface for word in it.words):
        if (it.crate, word) not in there:
            page = PAGE.relative_to(ROOT)
            yield f"{DATA.relative_to(ROOT)}:{it.number}: {page} has no row of {it.crate} for `{word}`"


def public_text(item):
    """The text of an item without its name and, of a struct with parts in parentheses, without the private ones."""
    text = re.sub(r"^(pub )?(struct|enum|type|trait) \w+", "", item.text)
    if item.kind == "struct" and "(" in text:
        text = ", ".join(it for it in re.split(r"[(,]", text) if "pub " in it)
    return text


def types_in(item):
    """The types of this repository that an item's text names, through the `use` lines of its file."""
    for word in WORD.findall(public_text(item)):
        first, *rest = word.split("::")
        path = uses(item.path).get(first, ((first,), False))[0]
        found = at_path(item.crate, (*path, *rest)) if rest else find(item.crate, item.path.stem, first)
        if found and found.kind in TYPES:
            yield found


def in_facade():
    """What the facade gives, with what belongs to it: the name, the item, and the types that it names."""
    for name, item in given(FACADE).items():
        for it in (item, *(members(item) if item.kind in TYPES else ())):
            yield name if it is item else f"{name}::{it.name}", it, set(types_in(it))


def faults_of_facade(surface):
    """The types that something of the facade names and that it does not give, and those outside that nothing names."""
    homes = set(given(FACADE).values())
    outside = {named(it.place, it.path): it for it in surface if it.kind == "outside"}
    for whole, it, found in in_facade():
        for type_, crate in sorted((other.name, other.crate) for other in found - homes - set(outside)):
            place = f"{it.path.relative_to(ROOT)}:{it.line}"
            yield f"{place}: {whole} names {type_} of {crate}, which {FACADE} does not give"
    unused = set(outside).difference(*(found for _, _, found in in_facade()))
    for it in (outside[item] for item in unused):
        yield f"{DATA.relative_to(ROOT)}:{it.number}: nothing of {FACADE} names {it.name}"


def counts(surface):
    """How many things are looked for, and how they are there."""
    things = [it for it in surface if it.kind not in ("form", "outside")]
    kinds = collections.Counter(it.kind for it in things)
    own = sum((it.place, it.path) == (it.crate, it.name) for it in things)
    types = kinds["type"] + kinds["trait"]
    return (f"{kinds['call']} calls, {types} types, {kinds['variants']} variants, {kinds['fields']} fields: "
            f"{own} under their own name, {len(things) - own} under another; {len(list(rows()))} forms recorded")


def main():
    """Prints what is missing, or the counts."""
    if sys.argv[1:] not in ([], ["--rows"], ["--facade"], ["--write"]):
        sys.exit(__doc__)
    surface, found = list(expected()), []
    if sys.argv[1:] == ["--write"]:
        DATA.write_text(written(surface))
        return
    if sys.argv[1:] != ["--facade"]:
        found += [f"{DATA.relative_to(ROOT)}:{it.number}: {fault}" for it in surface if (fault := fault_of(it))]
        found += dict.fromkeys(faults_of_table(surface))
        found += faults_of_text(surface)
    if sys.argv[1:] != ["--rows"]:
        found += faults_of_facade(surface)
    for fault in found:
        print(fault)
    if not found:
        print(counts(surface))
    sys.exit(bool(found))


if __name__ == "__main__":
    main()
