#!/usr/bin/env python3
"""Makes the first inputs of the harnesses from the stored rows.

usage: tests/fuzz/seeds.py FOLDER      a folder for each harness is made in it, and a dictionary of words of WIT

- open: the texts and binaries of crates/vectors/data, of crates/vectors and of examples/, each once.
- set: the sets of crates/vectors/data, in the form of tests/fuzz/sets.h.
- explain: the same, and the binaries of tests/binaries, each alone.
- module: the binaries of tests/binaries, and the modules of tests/explain.
- halves: the calls of crates/vectors, in the form of tests/fuzz/halves.c, and pseudorandom bytes that build types and
  values.
- json: the rows of a host's memory of crates/vectors, in the form of tests/fuzz/json.c, and such bytes.
- status: a status of each number.

Inputs of more than MOST bytes are left out.
"""
import hashlib
import json
import pathlib
import re
import sys

ROOT = pathlib.Path(__file__).resolve().parent.parent.parent
sys.path.insert(0, str(ROOT))
sys.dont_write_bytecode = True
from tools.models import text_rows  # noqa: E402
from tools.models.calls import line_of  # noqa: E402

MOST = 4096
DATA = ROOT / "crates/vectors/data"
BINARY = re.compile(r"\b0061736d[0-9a-f]*\b")
FUNCTION = re.compile(r"%?([A-Za-z][A-Za-z0-9-]*) *: *func\b")
WORDS = (
    "package interface world import export use as type record variant enum flags func list option result tuple string "
    "char bool u8 s8 u16 s16 u32 s32 u64 s64 -> : ; , . { } ( ) < > @1.0.0 % = _ a:b a:b/c d:e/y@1.0.0.{t} // /* */"
).split()
BYTES = ("0061736d0d000100", "0141", "0142", "0140", "0400", "0500", "7061636b616765", "0b0d0100077061636b616765030000")


def little(number, width):
    """A number in so many bytes."""
    return (number % (1 << 8 * width)).to_bytes(width, "little")


def inputs_of_rows():
    """The inputs of each row of texts, binaries and sets."""
    for path in sorted(DATA.glob("*.rows")):
        lines = path.read_text().splitlines()
        kept = text_rows.Inputs(DATA)
        for row in text_rows.rows_of(lines):
            try:
                if row[0].startswith("let "):
                    kept.keep(row[0].removeprefix("let "))
                elif text_rows.is_row(row[0]):
                    command, _, rest = row[0].partition(" =>")[0].partition(": ")[2].partition(" ")
                    yield kept.of(rest.split(" ", 4)[4] if command == "call" else rest)
            except (KeyError, IndexError, ValueError, TypeError, AttributeError):
                continue
        for found in BINARY.findall(path.read_text()):
            if len(found) % 2 == 0:
                yield [bytes.fromhex(found)]


def vectors():
    """The rows of crates/vectors."""
    return map(json.loads, (ROOT / "crates/vectors/stdin").read_text().splitlines())


def calls():
    """The stored calls."""
    return [row for row in vectors() if "flats" in row]


def package_of(row):
    """The text or binary of a row."""
    return bytes.fromhex(row["binary"]) if "binary" in row else row["text"].encode()


def open_seeds():
    """Texts and binaries."""
    for path in sorted((ROOT / "examples").rglob("*.wit")):
        yield path.read_bytes()
    for inputs in inputs_of_rows():
        yield from inputs
    for row in calls():
        yield package_of(row)


def set_seed(inputs):
    """A set: how many inputs, the length of each, and their bytes."""
    lengths = b"".join(little(len(data), 2) for data in inputs)
    return little(len(inputs), 1) + lengths + b"".join(inputs)


def set_seeds():
    """Sets, and a name that may be in one."""
    for inputs in inputs_of_rows():
        if 1 <= len(inputs) <= 16 and all(len(data) < 65536 for data in inputs):
            yield set_seed(inputs) + b"\5a:b/c\1f"


def module_seeds():
    """Binaries of other tools, and modules."""
    for folder in ("tests/binaries", "tests/explain/files/modules", "tests/memory"):
        for path in sorted((ROOT / folder).rglob("*.wasm")):
            yield path.read_bytes()


def explain_seeds():
    """Sets, and such binaries."""
    yield from set_seeds()
    yield from (set_seed([data]) for data in module_seeds() if len(data) < 65536)


def values(flats):
    """Core values: how many, and a kind and eight bytes for each."""
    pairs = (little(int(kind == "i64"), 1) + little(number, 8) for kind, number in flats or [])
    return little(len(flats or []), 1) + b"".join(pairs)


def front_of(row, memories):
    """What a seed of a row begins with: its package, the index of its function, and memories."""
    text = package_of(row)
    names = FUNCTION.findall(row.get("text", ""))
    index = names.index(row["func"]) if row["func"] in names else 0
    parts = [b"\1", little(len(text), 2), text, little(index, 1)]
    return b"".join([*parts, *(little(len(data), 2) + data for data in memories)])


def call_seed(row):
    """A call as tests/fuzz/halves.c reads it."""
    memories = [bytes.fromhex(row[side]) for side in ("caller", "callee")]
    return front_of(row, memories) + values(row["flats"]) + values(row["answer"]) + bytes(8)


def host_seeds(row):
    """The texts of a row of a host's memory, each with an answer of the row, as tests/fuzz/json.c reads them."""
    memory = bytes.fromhex(row["callee"]).ljust(min(row["lens"][1], MOST // 4), b"\0")
    answers = [step[1] for step in row["host"] if step[0] == "reads"] or [[]]
    texts = {it if isinstance(it, str) else line_of(it) for word, it, *_ in row["host"] if word in ("asks", "fills")}
    for text in sorted(texts):
        given = text.encode()
        front = front_of(row, [memory, memory])
        yield from (front + values(answer) + little(len(given), 2) + given + bytes(8) for answer in answers)


def bytes_of(number):
    """Pseudorandom bytes, of which the first is even."""
    blocks = (hashlib.sha256(f"{number} {block}".encode()).digest() for block in range(1 + number % 24))
    return b"\0" + b"".join(blocks)


def half_seeds():
    """Calls that are stored, and bytes that build some."""
    yield from map(call_seed, calls())
    yield from map(bytes_of, range(400))


def json_seeds():
    """Rows that are stored, and bytes that build some."""
    for row in vectors():
        if "host" in row:
            yield from host_seeds(row)
    yield from map(bytes_of, range(400))


def status_seeds():
    """A status of each code and number, with room for its line."""
    for code in range(5):
        for number in range(80):
            yield little(code, 4) + little(number, 4) + little(number % 9, 4) + little(number, 4) + b"\x40\0"


SEEDS = {"open": open_seeds, "set": set_seeds, "explain": explain_seeds, "module": module_seeds, "halves": half_seeds,
         "json": json_seeds, "status": status_seeds}


def dictionary():
    """The words of WIT and parts of binaries, as libFuzzer reads them."""
    words = [*(word.encode() for word in WORDS), *map(bytes.fromhex, BYTES)]
    spelled = ["".join(f"\\x{byte:02x}" for byte in data) for data in words]
    return "".join(f'"{word}"\n' for word in spelled)


def main():
    if len(sys.argv) != 2:
        sys.exit(__doc__)
    folder = pathlib.Path(sys.argv[1])
    for name, seeds in SEEDS.items():
        (folder / name).mkdir(parents=True, exist_ok=True)
        found = {hashlib.sha1(data).hexdigest(): data for data in seeds() if len(data) <= MOST}
        for digest, data in found.items():
            (folder / name / digest).write_bytes(data)
        print(f"{name}: {len(found)} seeds")
    (folder / "words.dict").write_text(dictionary())


if __name__ == "__main__":
    main()
