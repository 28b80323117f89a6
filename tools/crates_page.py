#!/usr/bin/env python3
"""Makes docs/CRATES.md: what each crate holds, what it depends on, what is proved of it, and by which calls.

usage: tools/crates_page.py [--check]

The crates and what they depend on are those of crates.txt. What a crate holds is the head (`//!`) of its src/lib.rt or
src/main.rt. The groups and what is proved are the lines of docs/crate-facts.txt. With --check nothing is written, and
the exit status is 1 if the page is not current. It is 1 as well if a crate has no head or no line, if a line is of no
crate, and if crates.txt and crates/ don't have the same crates.
"""
import fnmatch
import re
import sys
import textwrap

from repository import ROOT, all_crates, keep_page

PAGE = ROOT / "docs" / "CRATES.md"
WIDTH = 120
HEAD = """\
# Crates

This page says of each crate what it holds, what is proved of it, and by which calls. It is for people who look for the
crate of a thing, or who check a claim. `tools/crates_page.py` makes the page: change `docs/crate-facts.txt` or the head
of a crate, and run it.

How to read what is proved:

- Every function of every crate is safe and total. The page does not repeat it.
- Every function that allocates can also fail with out of memory. The page does not say when.
- A text or a binary that is read has at most 1,048,576 bytes. Longer ones are refused.
- What is read or written is proved of streams that say which bytes they have.
- [PROMISE.md](PROMISE.md#the-clauses-by-theme) leads to the clauses of each call. [ERRORS.md](ERRORS.md) has the words
  of each number of an error.
- No must-fail edit is made in the crates of tests.
"""


def fits(line_name, name, own):
    """Whether a line of docs/crate-facts.txt is one of a crate; `own` are the names that have lines of their own."""
    return name == line_name or "*" in line_name and name not in own and fnmatch.fnmatch(name, line_name)


def stop_on_unknown(names):
    """Stops if a line of docs/crate-facts.txt is of no crate, or if crates/ has others than crates.txt."""
    own = {line.partition(":")[0] for line in lines() if not line.startswith("=")}
    lost = sorted(it for it in own if not any(fits(it, name, own - {it}) for name in names))
    lost += sorted(set(names) ^ {it.name for it in (ROOT / "crates").iterdir() if (it / "src").is_dir()})
    if lost:
        sys.exit("tools/crates_page.py: no crate, or not in crates.txt and crates/ both: " + ", ".join(lost))


def facts(names):
    """The groups of docs/crate-facts.txt, each a title with the facts of its crates, and the crates that have no
    line."""
    groups, missing = [], set(names)
    own = {line.partition(":")[0] for line in lines() if not line.startswith("=")}
    for line in lines():
        if line.startswith("="):
            groups.append((line[1:].strip(), {}))
            continue
        crate, _, fact = line.partition(":")
        for name in names:
            if fits(crate, name, own):
                missing.discard(name)
                groups[-1][1].setdefault(name, []).append(tuple(part.strip() for part in fact.split(" | ")))
    return groups, missing


def lines():
    """The lines of docs/crate-facts.txt but its comments."""
    for line in (ROOT / "docs" / "crate-facts.txt").read_text().splitlines():
        if line.strip() and not line.startswith("#"):
            yield line


def head(name):
    """The lines of a crate's head, without `//!`."""
    for file in ("lib.rt", "main.rt"):
        path = ROOT / "crates" / name / "src" / file
        if path.exists():
            found = [line[3:].removeprefix(" ") for line in path.read_text().splitlines() if line.startswith("//!")]
            if found:
                return found
    sys.exit(f"tools/crates_page.py: {name} has no head")


def wrapped(text, first="", rest=""):
    """Text in lines of at most 120 characters, none of which breaks within backquotes."""
    kept = re.sub(r"`[^`]*`", lambda found: found.group().replace(" ", "\0"), text)
    return textwrap.fill(kept, WIDTH, initial_indent=first, subsequent_indent=rest, break_long_words=False,
                         break_on_hyphens=False).replace("\0", " ")


def laid_out(lines):
    """Lines of comments as paragraphs, with blocks of code as they are."""
    out, paragraph, code = [], [], False
    for line in [*lines, ""]:
        if line.startswith("```") or code:
            code = code != line.startswith("```")
            out.append(line)
        elif line:
            paragraph.append(line)
        else:
            if paragraph:
                out.append(wrapped(" ".join(paragraph)))
            paragraph = []
            out.append("")
    return "\n".join(out).strip()


def section(name, below, found):
    """What the page says of a crate."""
    names = ", ".join(f"`{it}`" for it in below)
    parts = [f"### `{name}`", laid_out(head(name)),
             wrapped(f"Depends on {names}." if below else "Depends on no other crate.")]
    rows = []
    for sentence, *calls in found:
        by = f" ({calls[0]})" if calls else ""
        rows.append(wrapped(sentence + by, "- ", "  "))
    return "\n\n".join([*parts, "Proved:\n\n" + "\n".join(rows)])


def page():
    below = all_crates()
    stop_on_unknown(below)
    groups, missing = facts(below)
    if missing:
        sys.exit("tools/crates_page.py: docs/crate-facts.txt has no line of " + ", ".join(sorted(missing)))
    parts = [HEAD.strip()]
    parts.append("| group | crates |\n|---|---|\n" + "\n".join(
        f"| {title} | {', '.join(f'[`{name}`](#{name})' for name in found)} |" for title, found in groups if found))
    for title, found in groups:
        if found:
            parts.append(f"## {title}")
            parts.extend(section(name, below[name], found[name]) for name in found)
    return "\n\n".join(parts) + "\n"


if __name__ == "__main__":
    keep_page(__doc__, PAGE, page)
