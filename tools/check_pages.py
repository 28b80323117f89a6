#!/usr/bin/env python3
"""Checks the pages: that what a link names is there, and that sentences and cells are short.

usage: tools/check_pages.py

- Each link of the pages at the top, of CHANGELOG.md and of docs/ that isn't one to another site names a file of the repository, and a heading or an
  anchor of it.
- Each page is one that links lead to from README.md.
- A block of code is of a language of LANGUAGES, by which other scripts find what they compare.
- No sentence of these pages has more than 30 words, but of those of LONG and of docs/api: what they say comes of the sources, or is names of
  rows.
- No line has more than 120 columns, but of tables, headings and blocks.
- No cell of a table of docs/guarantees and of the pages of TABLES has more than 25 words.
- README.md has at most MOST_LINES lines. All pages together, those of bindings/ among them, have at most MOST_IN_ALL lines, those that scripts make
  left out. There are at most MOST_PAGES pages in each of these folders. A page that a script makes says so in its first lines.

Blocks of code are left out. It prints each place that is wrong; the exit status is 1 then.
"""
import functools
import re

from repository import ROOT, TOP, finish, is_reference, line_at, pages, place, without_blocks

MOST_LINES = 110
MOST_IN_ALL = 8000
MOST_PAGES = {"docs": 17, "docs/guarantees": 8}
# what a page that a script makes says in its first lines
MADE = re.compile(r"`tools/\w+\.py`\s+makes\s+(?:it|the\s+page)\b")
LONG = ("docs/CRATES.md", "docs/DEFINITIONS.md", "docs/EXAMPLES.md")
TABLES = (*TOP, "docs/PROMISE.md", "docs/ERRORS.md", "docs/LIBRARY.md", "docs/INSTALL.md")
LANGUAGES = {"", "c", "console", "cpp", "js", "json", "python", "rust", "sh", "text", "wit"}
FENCE = re.compile(r"^ *(?:```|~~~)(.*)$", re.M)
# a link, a reference, and what an element of HTML names
LINK = re.compile(r"\]\(([^)\s]+)[^)]*\)|^ *\[[^\]]+\]: (\S+)|(?:href|src)=\"([^\"]+)\"")
ITEM = re.compile(r"([-*]|\d+\.) ")
CELL = re.compile(r"(?<!\\)\|")
# the end of a sentence: what follows begins anew
END = re.compile(r"(?<=[.?!])\)?\*{0,2} (?=[A-Z`\[(*0-9])")


@functools.cache
def prose(path):
    """Returns a page's text without its blocks of code."""
    return without_blocks(path.read_text(encoding="utf-8"))


@functools.cache
def anchors(path):
    """Returns the headings of a page as links name them, and the other anchors."""
    headings = (re.sub(r"\[([^\]]*)\]\([^)]*\)", r"\1", it) for it in re.findall(r"^#+ (.*)$", prose(path), re.M))
    slugs = {re.sub(r"[^\w\- ]", "", it.strip().lower()).replace(" ", "-") for it in headings}
    return slugs | set(re.findall(r'<a id="([^"]*)"', prose(path)))


def links(path):
    """Returns the links of a page to files, each with its line's number, the file, and the heading or nothing."""
    for number, line in enumerate(prose(path).split("\n"), 1):
        for link in map("".join, LINK.findall(line)):
            file, _, heading = link.partition("#")
            if not link.startswith(("http:", "https:")):
                yield number, link, (path.parent / file).resolve() if file else path, heading


def wrong_links(path):
    for number, link, other, heading in links(path):
        if not other.exists() or not other.is_relative_to(ROOT) or "out" in other.relative_to(ROOT).parts:
            yield number, f"nothing is at {link}"
        elif heading and other.suffix == ".md" and heading not in anchors(other):
            yield number, f"no heading is at {link}"


def reached(path, found):
    """Adds the pages that links lead to from one."""
    found.add(path)
    for _, _, other, _ in links(path):
        if other.suffix == ".md" and other.is_file() and other not in found:
            reached(other, found)
    return found


def wrong_blocks(path):
    """The blocks of other languages, and one that has no end. Every second fence is an end."""
    text = path.read_text(encoding="utf-8")
    for number, fence in enumerate(FENCE.finditer(text)):
        if number % 2 == 0 and fence[1] not in LANGUAGES or number % 2 == 1 and fence[1]:
            yield line_at(text, fence.start()), f"no block is of {fence[1]}"
    if len(FENCE.findall(text)) % 2:
        yield text.count("\n"), "a block has no end"


def words(text):
    return [it for it in re.sub(r"\[([^\]]*)\]\([^)]*\)|<a [^>]*></a>", r"\1", text).split() if re.search(r"\w", it)]


def cells(line):
    return CELL.split(line.strip().strip("|")) if line.startswith("|") else []


def paragraphs(path):
    """Returns the paragraphs, the items of lists and the cells of a page, each with its first line's number."""
    begin, held = 0, []
    for number, line in enumerate([*prose(path).split("\n"), ""], 1):
        text = line.strip()
        ends = not text or text.startswith(("#", "![", "|"))
        if (ends or ITEM.match(text)) and held:
            yield begin, " ".join(held)
            held = []
        yield from ((number, cell) for cell in cells(text))
        if not ends:
            begin = begin if held else number
            held.append(ITEM.sub("", text, count=1) if ITEM.match(text) else text)


def long_sentences(path):
    """The sentences of more than 30 words."""
    for number, text in paragraphs(path):
        for sentence in END.split(text):
            if len(words(sentence)) > 30:
                yield number, f"a sentence of {len(words(sentence))} words: {sentence[:60]}"


def long_cells(path):
    """The cells of more than 25 words."""
    for number, line in enumerate(prose(path).split("\n"), 1):
        for cell in cells(line):
            if len(words(cell)) > 25:
                yield number, f"a cell of {len(words(cell))} words: {cell.strip()[:60]}"


def long_lines(path):
    """The lines of more than 120 columns."""
    for number, line in enumerate(prose(path).split("\n"), 1):
        if len(line) > 120 and not line.startswith(("|", "#")):
            yield number, f"a line of {len(line)} columns"


def is_made(path):
    """Whether a page says in its first lines that a script makes it."""
    return bool(MADE.search("\n".join(path.read_text(encoding="utf-8").split("\n")[:12])))


def too_many(all_pages):
    """The sums of pages and of lines that are above their limits, each at a page."""
    for folder, most in MOST_PAGES.items():
        found = [path for path in all_pages if path.parent == ROOT / folder]
        if len(found) > most:
            yield found[-1], 1, f"{len(found)} pages in {folder}, and at most {most} are wanted"
    own = [path for path in (*all_pages, *(ROOT / "bindings").glob("*/README.md")) if not is_made(path)]
    lines = sum(len(path.read_text(encoding="utf-8").splitlines()) for path in own)
    if lines > MOST_IN_ALL:
        yield ROOT / "README.md", 1, f"{lines} lines of all pages, and at most {MOST_IN_ALL} are wanted"


def main():
    """Prints what is wrong with each page."""
    all_pages = pages("CHANGELOG.md")
    short = [path for path in all_pages if place(path) not in LONG and not is_reference(path)]
    tables = [path for path in all_pages if place(path) in TABLES or path.parent.name == "guarantees"]
    checks = [(path, check) for check in (wrong_links, wrong_blocks, long_lines) for path in all_pages]
    checks += [(path, long_sentences) for path in short] + [(path, long_cells) for path in tables]
    wrong = [(path, *fault) for path, check in checks for fault in check(path)]
    there = reached(ROOT / "README.md", {ROOT / "CHANGELOG.md"})
    wrong += [(path, 1, "no link leads here from README.md") for path in all_pages if path not in there]
    wrong += too_many(all_pages)
    lines = len((ROOT / "README.md").read_text(encoding="utf-8").splitlines())
    if lines > MOST_LINES:
        wrong.append((ROOT / "README.md", lines, f"{lines} lines, and at most {MOST_LINES} are wanted"))
    finish(f"{place(path)}:{number}: {fault}" for path, number, fault in wrong)


if __name__ == "__main__":
    main()
