#!/usr/bin/env python3
"""Compares the model of what becomes of functions between two versions of a package with the pairs in tests/diff.

usage: tools/check_versions.py [--program WIT-EXPLAIN].. [PAIRS [SEED]]

A file of tests/diff, or of its folder held-back, has an old text, a new text, and what becomes of each function and of
each interface of a world, in the order in which it is told, with the exit status. These were written down by hand. The
model is tools/models/versions.py, and its verdicts are those of the crate package_changes. Each program named has to
answer `diff --json` in the same words, to the pairs and to PAIRS random ones, 100 if no number is given. The exit
status is 1 if something differs.
"""
import functools
import sys

from models import versions
from repository import ROOT, parser

FOLDER = ROOT / "tests" / "diff"


def pairs():
    """The name of each pair, its texts, and the lines that were written down."""
    for path in sorted(it for it in FOLDER.rglob("*") if it.is_file()):
        before, _, wanted = path.read_text().partition("--- verdicts\n")
        old, _, new = before.removeprefix("--- old\n").partition("--- new\n")
        yield path.relative_to(FOLDER), old, new, wanted


def lines_of(items, status):
    """What is told of a pair, as its file has it."""
    return "".join(f"{item}: {verdict}\n" for item, verdict in items) + f"status {status}\n"


def by_model(old, new):
    """What the model says of a pair."""
    items, lost, unmet = versions.told(old, new)
    return lines_of(items, int(lost + unmet > 0))


def by_program(program, old, new):
    """What a program says of a pair."""
    (items, _, _), status = versions.answer(program, old, new)
    return lines_of(items, status)


def are_right(who, says):
    """Whether these are the words that were written down of each pair."""
    wrong = [(name, told, wanted) for name, old, new, wanted in pairs() if (told := says(old, new)) != wanted]
    for name, told, wanted in wrong:
        print(f"{name}: {who} says\n{told}and not\n{wanted}")
    print(f"{len(list(pairs()))} pairs of versions by hand, of which {who} has {len(wrong)} otherwise")
    return not wrong


def main():
    """Compares the model, and all programs that are named."""
    words = parser(__doc__)
    words.add_argument("--program", action="append", default=[])
    words.add_argument("numbers", nargs="*", type=int)
    asked = words.parse_args()
    count, seed = (asked.numbers + [100, 1][len(asked.numbers):])[:2]
    right = [are_right("the model", by_model)]
    for program in asked.program:
        right.append(are_right(program, functools.partial(by_program, program)))
        right.append(versions.compare(program, count, seed))
    sys.exit(not all(right))


if __name__ == "__main__":
    main()
