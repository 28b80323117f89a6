#!/usr/bin/env python3
"""Keeps what sentences and lines of pages say beside what they stand for, so that a change of either is seen.

usage: tools/page_facts.py [--check]

docs/page-facts.txt has, for each paragraph, item, line of a table and block of these pages, its words, and in front of
them a sum of what it names: the stored rows, with their answers, and the clauses of the functions, as the contracts
have them. Of pages of SHORT it has the first words, and a sum of all. Without words the script writes this file. With
--check it compares: a sentence that lost a `not`, an order that was turned, or a clause that changed below its sentence
is a failure. If the change is right in both, run the script, and send what it wrote with the change. The exit status is
1 if something differs.
"""
import difflib
import functools
import hashlib
import re
import sys

from check_names import contracts
from check_numbers import spread
from repository import ROOT, SPAN, code, finish, sources, text_rows, vectors

FACTS = ROOT / "docs" / "page-facts.txt"
WHOLE = ("docs/PROMISE.md", "docs/STANDARD.md")
# what is guaranteed, except for the pages that scripts make
GUARANTEES = tuple(f"docs/guarantees/{it}.md" for it in ("sets", "reading", "calls", "memory", "c-hosts", "tests"))
SHORT = ("docs/EXAMPLES.md", "docs/ERRORS.md", "docs/FORMATS.md", *GUARANTEES, "docs/DECISIONS.md")
PAGES = (*WHOLE, *SHORT)
ITEM = re.compile(r"(?:[-*]|\d+\.) ")
FUNCTION = re.compile(r"^( *)(?:pub(?:\(\w+\))? )?(?:const )?(?:unsafe )?(?:extern \"C\" )?fn (\w+)", re.M)
CLAUSE = re.compile(r"^ +ensures (\w*) ?\{", re.M)
WORD = re.compile(r"\w+")


def digest(*texts):
    """A short sum of texts, in which blanks do not count."""
    return hashlib.sha256("\0".join(" ".join(it.split()) for it in texts).encode()).hexdigest()[:12]


def units(text):
    """The paragraphs, items, lines of tables and blocks of a page, each as one line, with its line's number."""
    begin, held, is_block = 1, [], False
    for number, line in enumerate([*text.splitlines(), ""], 1):
        if line.lstrip().startswith("```") and is_block:
            is_block = False
            held.append(line)
            continue
        starts = not line.strip() or line.startswith(("|", "#")) or ITEM.match(line) or line.startswith("```")
        if starts and not is_block:
            if held:
                yield begin, " ".join(" ".join(held).split())
            begin, held, is_block = number, [], line.startswith("```")
        if line.strip() and not (line.startswith("|") and not line.strip("|-: ")):
            held.append(line)


@functools.cache
def clause_texts():
    """The clauses of each function by its name: of each place of it what may qualify it, and the texts by the clauses'
    names."""
    found = {}
    for path in sources(".rt"):
        text = code(path)
        starts = list(FUNCTION.finditer(text))
        for start, end in zip(starts, [it.start() for it in starts[1:]] + [len(text)]):
            head = re.split(rf"^{start[1]}\{{", text[start.start():end], maxsplit=1, flags=re.M)[0]
            parts = list(CLAUSE.finditer(head))
            ends = [it.start() for it in parts[1:]] + [len(head)]
            clauses = {it[1]: head[it.start():stop] for it, stop in zip(parts, ends)}
            around = {*path.relative_to(ROOT / "crates").with_suffix("").parts}
            found.setdefault(start[2], []).append((around, clauses))
    return found


@functools.cache
def owners_by_name():
    """What each function is named with, as tools/check_names.py knows it."""
    return contracts()


def clauses_of(name, words):
    """The texts of the clauses that a function's name stands for: those that are named beside it, or all."""
    *owners, last = name.split("::")
    known = [around for around, *_ in owners_by_name().get(last, []) if around.issuperset(owners)]
    # a name of many functions stands for none of them
    if not owners and len(known) > 2:
        return
    for around, clauses in clause_texts().get(last, []):
        if clauses and any(it >= around for it in known):
            named = {key: text for key, text in clauses.items() if key in words}
            yield from (f"{key} {text}" for key, text in sorted((named or clauses).items()))


def cited(text):
    """What a text names: rows with their answers, and clauses."""
    words, found = set(WORD.findall(SPAN.sub("", text))), []
    for name in SPAN.findall(spread(text)):
        rows = [rows[name] for rows in (text_rows(), vectors()) if name in rows]
        found += [f"{row.asked} {row.answer}" for row in rows] or clauses_of(name, words)
    return found


def facts():
    """The lines of the file of facts."""
    lines = ["# What sentences of pages stand for, which tools/page_facts.py keeps: a sum of the rows and clauses that",
             "# each names, or -, and its words; of longer pages a sum of the words and the first of them."]
    for page in PAGES:
        lines.append(f"= {page}")
        for _, text in units((ROOT / page).read_text()):
            names = cited(text)
            told = f"{digest(text)} {text[:48].strip()}" if page in SHORT else text
            lines.append(f"{digest(*names) if names else '-'} {told}")
    return "".join(f"{line}\n" for line in lines)


def differing():
    """Where the file differs from what is there."""
    wanted, stored = facts().splitlines(), FACTS.read_text().splitlines() if FACTS.exists() else []
    page = ""
    for line in difflib.unified_diff(stored, wanted, "stored", "there", lineterm="", n=0):
        if line.startswith(("+", "-")) and not line.startswith(("+++", "---")):
            page = line[3:] if line[1:].startswith("= ") else page
            yield f"docs/page-facts.txt {'no more' if line[0] == '-' else 'new'}: {line[1:200]}"


def main():
    if sys.argv[1:] == ["--check"]:
        faults = list(differing())
        if faults:
            faults.append("Look at each sentence and at what it stands for. If both are right, run tools/page_facts.py.")
        finish(faults)
    if sys.argv[1:]:
        sys.exit(__doc__)
    FACTS.write_text(facts())


if __name__ == "__main__":
    main()
