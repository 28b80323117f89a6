#!/usr/bin/env python3
"""Compares the layouts of WIT texts with those that were written down before, and with one another.

usage: tools/check_layouts.py [--listing TREE_LISTING] [N [SEED]]      N changed texts, or 2,000

tests/layouts/cases.json has texts, each with its layout, or null if it has a fault of syntax. Each has this layout. The
other texts are those that tools/check_tree.py takes, and N of them with other blanks and more comments. The same N and
SEED give the same texts. Each that has no fault of syntax has a layout, and no other. For each layout

- its own layout is the same text;
- it has the same tokens and comments in the same order as the text;
- its tree has the same nodes over the same words;
- it ends in one line end, no line ends in a blank outside of comments, and no two empty lines follow each other.

The exit status is 1 if something differs.
"""
import json
import pathlib
import random
import re
import subprocess
import sys
import tempfile

ROOT = pathlib.Path(__file__).resolve().parent.parent
sys.path.insert(0, str(ROOT))

from tools.check_tree import LISTING, MOST, OUTSIDE, given_texts  # noqa: E402
from tools.repository import parser  # noqa: E402

CASES = ROOT / "tests" / "layouts" / "cases.json"
# the bytes that a text may have
LIMIT = 1_048_576
COMMENT = r"//[^\n]*|/\*.*?\*/"
# comments, blanks, tokens, and what is none
PIECE = re.compile(rf"{COMMENT}|\s+|->|@[0-9][0-9A-Za-z.+-]*[0-9A-Za-z+-]|@[0-9]|%?[A-Za-z0-9]+(?:-[A-Za-z0-9]+)*|.",
                   re.DOTALL)
BLANKS = (" ", "  ", "\t", "\n", "\n\n", "\r\n", "\r\n  ", " \n \n\n ")
LINES = ("\n", "\n\n", "\r\n  ", "\n\n\n\n")
COMMENTS = ("/* c */", "// line\n", "\n// own\n", "\n/* own */\n", "/* a\n b */", "/// doc\n", "\n\n/** d */ ",
            "/*x*//*y*/", "// ä\n")


# ---- texts


def respaced(text, source):
    """A text with other blanks, and with more comments."""
    made = []
    for piece in PIECE.findall(text):
        if piece.isspace():
            is_behind_line = made and made[-1].startswith("//")
            piece = source.choice(LINES if is_behind_line else (*BLANKS, piece, piece, piece))
        made.append(piece)
        if (piece.isspace() or piece in ";{},(:") and source.random() < 0.04:
            made.append(source.choice(COMMENTS))
    return "".join(made)


def all_texts(count, seed):
    """The texts, and so many of them with other blanks."""
    source, given = random.Random(seed), [it.decode() for it in given_texts()]
    plain = [it for it in given if it and "/*" not in it.partition("/*")[2]]
    return given + [respaced(source.choice(plain), source) for _ in range(count)]


# ---- what the program answers


def run(program, job, paths):
    """What the program prints of files, some at a time."""
    for begin in range(0, len(paths), MOST):
        yield subprocess.run([program, job, *paths[begin : begin + MOST]], capture_output=True, check=True).stdout


def layouts(program, paths):
    """The layout of each file, None if it has none."""
    found = {}
    for told in run(program, "layouts", paths):
        while told:
            head, told = told.split(b"\n", 1)
            _, size, path = head.decode().split(" ", 2)
            own = None if size == "none" else told[: int(size)]
            told = told[len(own or b"") :]
            found[path] = own
    return [found[str(path)] for path in paths]


def trees(program, paths):
    """The lines of the nodes of each file, and whether it has a fault of syntax."""
    found = {}
    for told in run(program, "nodes", paths):
        for line in told.decode().splitlines():
            if line.startswith("== "):
                own = found.setdefault(line.removeprefix("== "), ([], []))
            elif line.startswith("fault "):
                own[1].append(line.split(" ", 2)[2])
            else:
                own[0].append(line)
    return [found[str(path)] for path in paths]


def written(room, name, texts):
    """Files of these texts."""
    paths = [room / f"{name}{number}.wit" for number in range(len(texts))]
    for path, text in zip(paths, texts):
        path.write_bytes(text)
    return paths


# ---- whether they agree


def solids(text):
    """The tokens and the comments of a text."""
    return [it for it in PIECE.findall(text) if not it.isspace()]


def has_fault(text, faults):
    """Whether a text has a fault of syntax. That it names no package is none if it begins with an item."""
    first = next((it for it in solids(text) if not re.match(COMMENT, it)), "")
    is_part = first in ("interface", "world", "use", "@")
    return any(not it.startswith(OUTSIDE) and not (is_part and it.startswith("`package` has")) for it in faults)


def has_bad_shape(made):
    """Whether a layout has blanks where none are."""
    plain = re.sub(COMMENT, "x", made, flags=re.DOTALL)
    return re.search(r"\A\s|[ \t\r]\n|\n\n\n|\n\n\Z|[^\n]\Z|[{(]\n\n|\n\n *[})]", plain)


def differs(text, made, again, before, after):
    """What differs, or nothing."""
    if made is None:
        return "" if has_fault(text, before[1]) else "no layout"
    if has_fault(text, before[1]):
        return "a layout"
    if made != again:
        return "another layout of the layout"
    if before[0] != after[0]:
        return "other nodes"
    if "/*" not in text.partition("/*")[2] and solids(text) != solids(made.decode()):
        return "other tokens"
    return "blanks" if has_bad_shape(made.decode()) else ""


def compare(options, room):
    """Compares the layout of each text with the text, and returns how many differ."""
    texts = [it for it in all_texts(options.count, options.seed) if len(it.encode()) <= LIMIT]
    paths = written(room, "a", [it.encode() for it in texts])
    made = layouts(options.listing, paths)
    behind = written(room, "b", [it or b"" for it in made])
    again = layouts(options.listing, behind)
    before, after = trees(options.listing, paths), trees(options.listing, behind)
    differing = 0
    for row in zip(texts, made, again, before, after):
        if what := differs(*row):
            differing += 1
            print(f"{what}: {row[0]!r}\n  layout {row[1]}\n  again  {row[2]}\n  faults {row[3][1]}")
    print(f"{len(texts)} texts, {sum(it is not None for it in made)} with a layout: {differing} differ")
    return differing


def check_cases(options, room):
    """Compares the layouts of cases with those that are stored, and returns how many differ."""
    cases = json.loads(CASES.read_text())
    made = layouts(options.listing, written(room, "case", ["\n".join(it["text"]).encode() for it in cases]))
    differing = 0
    for case, own in zip(cases, made):
        wanted = None if case["layout"] is None else "\n".join(case["layout"]).encode()
        if own != wanted:
            differing += 1
            print(f"{case['kind']}:\n  wanted {wanted}\n  layout {own}")
    print(f"{CASES.name}: {len(cases)} texts: {differing} differ")
    return differing


def main():
    options = parser(__doc__)
    options.add_argument("--listing", type=pathlib.Path, default=LISTING)
    options.add_argument("count", nargs="?", type=int, default=2000)
    options.add_argument("seed", nargs="?", type=int, default=1)
    options = options.parse_args()
    options.listing = options.listing.resolve()
    if not options.listing.is_file():
        sys.exit(f"tools/check_layouts.py: there is no {options.listing}: run the gate, or name it by --listing")
    with tempfile.TemporaryDirectory() as room:
        sys.exit(check_cases(options, pathlib.Path(room)) + compare(options, pathlib.Path(room)) > 0)


if __name__ == "__main__":
    main()
