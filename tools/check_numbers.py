#!/usr/bin/env python3
"""Checks numbers on pages, and the names of theorems, against what they are of.

usage: tools/check_numbers.py

- docs/EXAMPLES.md: each number in the column `answer` is one in the stored answers of the rows that the line names, or
  the length of one. Each word in backquotes is in such an answer, as text or as bytes; in one of a test in code it is
  in the test's file. PHRASES has the parts of answers that no row has as they are. Each word in backquotes in the
  column `example` is in the input of such a row, unless it is one of OTHERWISE.
- Blocks of bytes of docs/EXAMPLES.md and docs/FORMATS.md, the first words of their lines: these are in a stored answer.
- docs/DEFINITIONS.md: what stands in the columns of examples is a theorem of an Examples.antt below proofs/ of the
  section's crates, or of the crate that follows it in parentheses. What stands in the columns `tested by` and
  `refused by` is a theorem of the crate canonical_abi, or one of its laws or must-fail edits.
- docs/GATE.md: the sums of the table of seconds, and the seconds of the longest chain. `rt ci` passes each crate and
  each must-fail edit of the gate, of which there are as many as PASSED finds. The table of edits of kinds has those that
  say their kind, and the seconds of their crates; the numbers of both are as EDITS finds them.
- The numbers that each group of ALIKE finds on several pages are one. Those that TRIED finds are those that
  tools/check_standard.py tries.
- The limits that LIMITS finds on pages are those of the models, and the keywords of docs/FORMATS.md too. The pages of
  docs/api are left out: their numbers are those of sources.

It prints each place that is wrong; the exit status is 1 then, and if nothing of a page is compared.
"""
import collections
import re
import sys

import check_standard
from models import opening, tokens
from repository import (
    ROOT, SPAN, all_crates, blocks, columns, counted, edits, is_reference, pages, place, text_rows, vectors
)

CODE = ("tests_in_code", "tests_of_formats")
ROWS = ("rows_texts", "vectors", *CODE)
NUMBER = re.compile(r"-?\b\d[\d,]*\b")
# `row-1` to `row-3`
RANGE = re.compile(r"`([^`]+-)(\d+)` to `\1(\d+)`")
NOTE = re.compile(r"\(\d\)")
# what answers say besides the rows: what would come later, what a limit is, and what fits a whole class of rows
PHRASES = (
    "before 41 unknown", "depth 64", "(16,777,216 bytes)", "(65,535 type entries)", "33 with its feature", "before 47",
    "a type 64 deep", "n of 0 is 32, and n of 1 to 3 is 30 (a text)", "11 truncated at n", "byte 17 is as before",
    "1,048,577 bytes are requested", "bytes 64 to 67", "status 1", "status 2", "status 3", "names without `%`",
    "`c` and `a:b/c` are two names", "with `%` before both", "`show`, `layout` and a call", "`show` of c.wit",
    "as `show --with a.wit c.wit`", "`error N WORDS`",
)
PASSED = re.compile(r"`(\d+) passed, 0 failed`")
EDITS = re.compile(r"each of the (\d+) \[kinds.*?tries (\d+) more", re.S)
SECONDS = re.compile(r"^```\n([a-z_ ]+)\n([\d ]+)\n```$", re.M)
MINUTES = re.compile(r"Up to `(\w+)` they are (\d+) minutes")
# what several pages say: of each page a pattern
ALIKE = (
    {"docs/INSTALL.md": r"From nothing it took (\d+) minutes", "docs/GATE.md": r"beside\s+it, it took (\d+) minutes"},
    {"docs/GATE.md": r"would have taken (\d+) minutes", "docs/BENCHMARKS.md": r"in minutes, computed \| (\d+) \|"},
    {"docs/GATE.md": MINUTES.pattern.replace(r"`(\w+)`", r"`\w+`"),
     "docs/BENCHMARKS.md": r"up to `witcall`, in minutes of processor time \| (\d+) \|"},
)
# what docs/STANDARD.md and docs/GATE.md say of the comparison with the standard
TRIED = {
    r"([\d,]+) random functions": check_standard.COUNT,
    r"([\d,]+) call rows": check_standard.TRIED["flats"],
    r"([\d,]+) rows of steps": check_standard.TRIED["steps"],
    r"([\d,]+) rows of values": sum(check_standard.TRIED[key] for key in check_standard.CONVERSIONS),
}
# limits as pages say them, each with the numbers that it may be
BYTES_OR_SIZE = (tokens.MOST_BYTES, opening.MOST_SIZE)
LIMITS = {
    r"(?:at most|more than|fewer than) ([\d,]+) (?:type entries|types)": (opening.MOST_ENTRIES,),
    r"([\d,]+) cases or \d+ flags": (opening.MOST_MEMBERS["enum"],),
    r"cases or (\d+) flags": (opening.MOST_MEMBERS["flags"],),
    r"(?:at most (\d+) deep|nested more than (\d+))": (opening.MOST_DEPTH,),
    r"(?:above|more than) ([\d,]{6,}) bytes": BYTES_OR_SIZE,
    r"text has at most ([\d,]+) bytes": (tokens.MOST_BYTES,),
    # the packages that one imports are not itself
    r"(?:at most|more than) (\d+) packages": (opening.MOST_PACKAGES, opening.MOST_PACKAGES - 1),
}
WORDS = re.compile(r"\*\*Keywords:\*\*\n\n```\n(.*?)^```$", re.M | re.S)
# what examples say otherwise than their rows
OTHERWISE = (
    "t1 = tuple<t0, t0>", "t1 = tuple<list<t0>, list<t0>>", "tuple<list<t>, list<t>>",
    "record r { a: u8, b: u32, c: u16 }", "variant v { a, b(u64), c(string) }", "variant w { a(s32), b(u64) }",
    "b(5)", 'c("hi")', "a(-1)", "1e",
    "package a:b@1.0.0; interface c { f: func(); } world w { import c; export g: func(x: u8); }", "datetime",
    "examples/wasi", "FirstFit", "Bump", "Scripted", "growing", "Bump::growing(65536, 131072)",
    "FirstFit::growing(65536, 196608)", "show --with a.wit --with b.wit c.wit", "show --with=a.wit c.wit", "clap",
)
BYTES = re.compile(r"^ *((?:[0-9a-f]{2} )*[0-9a-f]{2})(?:  .*)?$", re.M)
THEOREM = re.compile(r"^(?:pub )?([a-zA-Z0-9][^ ]*) :", re.M)
# what else pages name of the examples: an abbreviation, or a field of a proof
PART = re.compile(r"^(?:abbrev (?:pub )?|  )([a-zA-Z0-9][^ ]*) [:=]", re.M)
NAME = re.compile(r"`([a-z0-9]+(?:-[a-z0-9]+)*)`(?: \(`(\w+)`\))?")
HEADING = re.compile(r"^##+ (.*)$", re.M)
LAW = re.compile(r"\bfn (\w+)")


# ---- rows


def spread(cell):
    """A cell in which a range of rows names each of them."""
    return RANGE.sub(lambda it: ", ".join(f"`{it[1]}{n}`" for n in range(int(it[2]), int(it[3]) + 1)), cell)


def named_rows(cell):
    """The inputs and stored answers of the rows that a cell names; of a test, its file."""
    crate, found = "", []
    for name in SPAN.findall(spread(cell)):
        if name in ROWS:
            crate = name
        elif crate in CODE:
            text = (ROOT / "crates" / crate / "src" / f"{name.partition('::')[0]}.rt").read_text()
            found.append((text, text))
        elif row := {"rows_texts": text_rows, "vectors": vectors}.get(crate, dict)().get(name):
            found.append((row.asked, row.answer))
    return found


def squeezed(text):
    """A text without blanks, quotes and the marks that escape them."""
    return re.sub(r"[\s\\\"]", "", text)


def is_answered(word, answers):
    """Whether a word is in an answer: as text, or as bytes, of which zeros at the end may be left out."""
    whole = squeezed("".join(answers))
    word = squeezed(word)
    is_hexadecimal = re.fullmatch(r"(?:[0-9a-f]{2})+", word) is not None
    return word in whole or word.encode().hex() in whole or is_hexadecimal and re.sub(r"(?:00)+$", "", word) in whole


def example_lines(text):
    """The lines of tables with a test: the number of each, and its cells by their heads."""
    line = {}
    for number, head, cell in columns(text):
        line = {**(line if line.get("number") == number else {}), "number": number, head: cell}
        if head == "test" and "answer" in line and set(cell) != {"-"}:
            yield number, line


def wrong_answers(said, answers, counts):
    """The numbers and words in an answer that no row answers."""
    there = set(re.findall(r"-?\d+", " ".join(answers)))
    there |= {str(length) for it in answers for length in (len(it.encode()), len(it) // 2)}
    numbers = NUMBER.findall(SPAN.sub("", said))
    counts["numbers of examples"] += len(numbers)
    yield from (f"no row answers {it}" for it in numbers if it.rstrip(",").replace(",", "") not in there)
    yield from (f"no row answers `{it}`" for it in SPAN.findall(said) if not is_answered(it, answers))


def wrong_examples(text, counts):
    """What docs/EXAMPLES.md says of inputs and answers that no row has that is named there."""
    used = set()
    for number, line in example_lines(text):
        named, said = named_rows(line["test"]), NOTE.sub("", line["answer"])
        inputs, answers = [row[0] for row in named], [row[1] for row in named]
        for phrase in PHRASES:
            used.update([phrase] if phrase in said else [])
            said = said.replace(phrase, "")
        yield from ((number, fault) for fault in wrong_answers(said, answers, counts))
        words = SPAN.findall(line.get("example", ""))
        used.update(words)
        counts["words of examples"] += len(words)
        wrong = [it for it in words if it not in OTHERWISE and not is_answered(it, inputs)]
        yield from ((number, f"no row asks for `{it}`") for it in wrong)
    yield from ((1, f"no example has this: {it}") for it in (*PHRASES, *OTHERWISE) if it not in used)


def wrong_bytes(text, counts):
    """The blocks of bytes that no stored row answers."""
    whole = squeezed(" ".join(row.answer for row in (*text_rows().values(), *vectors().values())))
    for number, _, block in blocks(text, ""):
        found = "".join(BYTES.findall(block)).replace(" ", "")
        if found and len(BYTES.findall(block)) == len(block.splitlines()):
            counts["blocks of bytes"] += 1
            if found not in whole:
                yield number, "no stored row answers the bytes of this block"


# ---- theorems


def found_in_examples(pattern):
    """What a pattern finds in the examples of each crate."""
    found = collections.defaultdict(list)
    for path in sorted(ROOT.glob("crates/*/proofs/**/Examples.antt")):
        found[path.relative_to(ROOT).parts[1]] += pattern.findall(path.read_text())
    return found


def section_crates(text):
    """The crates in the heading above each line of a page."""
    crates = []
    for line in text.splitlines():
        found = HEADING.match(line)
        crates = SPAN.findall(found[1]) if found else crates
        yield crates


def wrong_theorems(text, counts):
    """The names on docs/DEFINITIONS.md that nothing in the examples has."""
    all_theorems, parts = found_in_examples(THEOREM), found_in_examples(PART)
    crates, of_row = list(section_crates(text)), []
    for number, head, cell in columns(text):
        if head == "crate":
            of_row = SPAN.findall(cell) or of_row
        if head in ("example that holds", "example that must not", "refused by the examples"):
            allowed = of_row if head == "refused by the examples" else crates[number - 1]
            for name, crate in NAME.findall(cell):
                counts["theorems"] += 1
                places = [crate] if crate else [it for it in allowed if it in all_theorems] or all_theorems
                if not any(name in all_theorems.get(it, []) + parts.get(it, []) for it in places):
                    yield number, f"{name} is no theorem of {', '.join(places)}"


def wrong_tests(text, counts):
    """The names on docs/DEFINITIONS.md that no theorem, law or edit has."""
    folder = ROOT / "crates" / "canonical_abi"
    there = {name for path in folder.glob("proofs/*Examples.antt") for name in THEOREM.findall(path.read_text())}
    laws = {name for path in folder.glob("src/**/*.rt") for name in LAW.findall(path.read_text())}
    for number, head, cell in columns(text):
        for name in SPAN.findall(cell) if head in ("tested by", "refused by") else ():
            counts["tests of definitions"] += 1
            if "::" not in name and name not in there | laws | {path.stem for path, _ in edits()}:
                yield number, f"{name} is no theorem, law or edit"


# ---- the gate


def table_of_seconds(text):
    """The seconds of each crate by kind, and those that the table has of all."""
    crates, crate = {}, ""
    for _, head, cell in columns(text):
        if head == "crate":
            crate = cell.strip("`")
        elif head in ("proof", "tests", "edits", "builds") and set(cell) != {"-"}:
            crates.setdefault(crate, collections.Counter())[head] = counted(cell or "0")
    return crates, crates.pop("all")


def wrong_times(text, counts):
    """The sums and the chain of docs/GATE.md that are not those of its table."""
    crates, whole = table_of_seconds(text)
    sums = sum(crates.values(), collections.Counter())
    total, parts = sum(whole.values()), round(100 * whole["edits"] / sum(whole.values()))
    chain = SECONDS.search(text)
    names, seconds = chain[1].split(), [int(it) for it in chain[2].split()]
    last, minutes = MINUTES.search(text).groups()
    so_far = sum(seconds[: names.index(last) + 1])
    counts["numbers of the gate"] += len(whole) + len(names) + 3
    yield from (f"{number} seconds of {kind}, and their sum is {sums[kind]}" for kind, number in whole.items()
                if number != sums[kind])
    yield from (f"{number} seconds of {name} in the chain" for name, number in zip(names, seconds)
                if crates[name]["proof"] != number)
    if f"{total:,} in all" not in text or f"The edits take {parts} of 100 parts" not in " ".join(text.split()):
        yield f"the seconds are {total:,} in all, and the edits take {parts} of 100 parts"
    if int(minutes) != round(so_far / 60):
        yield f"up to {last} they are {so_far} seconds"


def wrong_passes(counts):
    """The pages on which `rt ci` passes another number than there are crates and must-fail edits of the gate."""
    there = len(all_crates()) + len(list(ROOT.glob("crates/*/must-fail/*.edit")))
    for page in pages():
        for number in PASSED.findall(page.read_text()):
            counts["numbers of what passes"] += 1
            if int(number) != there:
                yield f"{place(page)}: {number} passed, and there are {there} crates and must-fail edits"


def wrong_edits(text, counts):
    """What docs/GATE.md says of the edits of kinds, and of how many others there are, that is not so."""
    kinds, others = collections.defaultdict(set), 0
    for path in ROOT.glob("crates/*/must-fail/*.edit"):
        is_of_kind = path.read_text().split("\n")[1].startswith("# kind: ")
        kinds[path.parts[-3]] |= {path.stem} if is_of_kind else set()
        others += not is_of_kind
    crates, crate, seconds = table_of_seconds(text)[0], "", ""
    for number, head, cell in columns(text):
        crate = cell.strip("`") if head == "crate" else crate
        seconds = cell if head == "proof" else seconds
        if head == "edits of kinds" and set(cell) != {"-"}:
            counts["edits of kinds"] += len(SPAN.findall(cell))
            if kinds.pop(crate, set()) != set(SPAN.findall(cell)) or crates[crate]["proof"] != int(seconds):
                yield number, f"the edits of kinds of {crate}, or its seconds, are others"
    yield from ((1, f"the edits of kinds of {crate} are not named") for crate, names in kinds.items() if names)
    found = EDITS.search(text)
    if not found or found.groups() != (str(counts["edits of kinds"]), str(others)):
        yield 1, f"there are {counts['edits of kinds']} edits of kinds and {others} others"


def wrong_limits(counts):
    """The limits on pages that are none of the models, and the keywords."""
    for page in (it for it in pages() if not is_reference(it)):
        text = " ".join(page.read_text().split())
        for pattern, limits in LIMITS.items():
            for found in re.findall(pattern, text, re.I):
                number = "".join(found).rstrip(",")
                counts["limits"] += 1
                if counted(number) not in limits:
                    yield f"{place(page)}: {number}, and the limit is {limits}: {pattern}"
    keywords = WORDS.search((ROOT / "docs" / "FORMATS.md").read_text())
    if not keywords or keywords[1].split() != tokens.KEYWORDS:
        yield "docs/FORMATS.md: the keywords are not those of tools/models/tokens.py"


def wrong_tried(counts):
    """The numbers of the comparison with the standard that are others than it has."""
    texts = {name: (ROOT / "docs" / name).read_text() for name in ("STANDARD.md", "GATE.md")}
    for pattern, number in TRIED.items():
        found = [(name, it) for name, text in texts.items() for it in re.findall(pattern, text)]
        counts["numbers of what is tried"] += len(found)
        yield from (f"docs/{name}: {it}, and {number} are tried: {pattern}" for name, it in found
                    if counted(it) != number)
        if not any(name == "STANDARD.md" for name, _ in found):
            yield f"docs/STANDARD.md has no number for {pattern}"


def different(counts):
    """The groups of ALIKE whose numbers are not one, or are missing on a page."""
    for group in ALIKE:
        found = {page: re.findall(pattern, (ROOT / page).read_text()) for page, pattern in group.items()}
        counts["numbers on several pages"] += sum(map(len, found.values()))
        if not all(found.values()) or len({it for each in found.values() for it in each}) != 1:
            yield f"the pages differ: {found}"


def main():
    counts, faults = collections.Counter(), []
    for name, check in (
        ("EXAMPLES", lambda text: wrong_examples(text, counts)),
        ("EXAMPLES", lambda text: wrong_bytes(text, counts)),
        ("FORMATS", lambda text: wrong_bytes(text, counts)),
        ("DEFINITIONS", lambda text: wrong_theorems(text, counts)),
        ("DEFINITIONS", lambda text: wrong_tests(text, counts)),
        ("GATE", lambda text: ((1, fault) for fault in wrong_times(text, counts))),
        ("GATE", lambda text: wrong_edits(text, counts)),
    ):
        page = ROOT / "docs" / f"{name}.md"
        faults += [f"{place(page)}:{number}: {fault}" for number, fault in check(page.read_text())]
    faults += [*wrong_passes(counts), *different(counts), *wrong_limits(counts), *wrong_tried(counts)]
    print("\n".join([*faults, ", ".join(f"{number} {what}" for what, number in counts.items()) + " compared"]))
    sys.exit(bool(faults) or len(counts) < 11 or not all(counts.values()))


if __name__ == "__main__":
    main()
