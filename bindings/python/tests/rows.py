"""The text rows of crates/rows_texts (docs/FORMATS.md, "Text rows").

Each has an input, a command and the answer.
"""

import re
import string
from typing import Iterator, NamedTuple

from . import TOP

FOLDER = TOP / "crates/vectors/data"
TOKEN = re.compile(r'"([^"]*)"|([^\s",]+)|(,)')
ROW = re.compile(r"([^ |#]+): (\S+) (.*) =>(?: (.*))?")


class Row(NamedTuple):
    name: str
    command: str
    inputs: list[bytes]
    answer: list[str]


def letters(number):
    """A number as four letters, which are its digits to the base 26."""
    return "".join(string.ascii_lowercase[number // 26**place % 26] for place in (3, 2, 1, 0))


def copies(count, part):
    """Copies of a part, each with its number."""
    for number in range(count):
        filled = part.replace("{n}", str(number)).replace("{m}", str(number + 1))
        yield filled.replace("{a}", letters(number)).encode()


class Inputs:
    """The inputs of rows, of which some have names."""

    def __init__(self):
        self.kept = {}

    def keep(self, line):
        """Keeps what a line after `let` has."""
        name, given = line.split(" = ", 1)
        is_file = given.startswith("file ")
        path = FOLDER / given[len("file ") :]
        self.kept[name] = [path.read_bytes()] if is_file else self.of(given)

    def of(self, line):
        """The inputs of a line."""
        found = [b""]
        tokens = iter(TOKEN.findall(line))
        for text, word, comma in tokens:
            first, *more = [b"", b""] if comma else self.part(word, text, tokens)
            found[-1] += first
            found += more
        return found

    def part(self, word, text, tokens):
        """What a token begins, of which the first goes on with the input before it."""
        if not word:
            return [text.encode()]
        if word == "bytes":
            return [bytes.fromhex(next(tokens)[1])]
        if word not in ("repeat", "each"):
            return self.kept[word]
        count = int(next(tokens)[1])
        text, name, _ = next(tokens)
        parts = [self.kept[name][-1]] * count if name else list(copies(count, text))
        return parts if word == "each" else [b"".join(parts)]


def rows_of(file, commands) -> Iterator[Row]:
    """The rows of a file that have one of these commands."""
    inputs = Inputs()
    lines = None
    found = []
    for line in (FOLDER / file).read_text().split("\n"):
        if line.startswith("| ") or line == "|":
            if lines is not None:
                lines.append(line[2:])
            continue
        lines = None
        if line.startswith("let "):
            inputs.keep(line[len("let ") :])
        row = ROW.fullmatch(line)
        if row and row[2] in commands:
            lines = [] if row[4] is None else [row[4]]
            found.append(Row(row[1], row[2], inputs.of(row[3]), lines))
    return found
