#!/usr/bin/env python3
"""Runs `wit-explain encode` and `wit-explain decode` on the packages and binaries of tests/binaries.

usage: tools/check_binaries.py [--program WIT-EXPLAIN]..

Each folder of tests/binaries is a package, with what it depends on in `deps`. package.wasm is its binary, and world-NAME.wasm the one of its
world NAME, as wit-component 0.245.1 writes them: `encode` has to write the same bytes. If there is package.txt or world-NAME.txt in the place
of one, the program has to print that line at the end of a line, write no file, and end with status 1.

Each of these binaries is decoded, and the packages that are printed are encoded again: they have to give the same bytes. The folder `decoded`
has further binaries: of NAME.wasm `decode` has to print NAME.wit and end with status 0, or NAME.txt at the end of what it prints, with status 1.

Each program named is run, by default those that the gate built by both compilers, both of which have to be there. The exit status is 1 if one
of the answers differs.
"""
import pathlib
import re
import subprocess
import sys
import tempfile

from repository import ROOT, parser, place

FOLDER = ROOT / "tests" / "binaries"
DECODED = FOLDER / "decoded"
BUILT = [ROOT / "crates" / "explain" / "out" / name for name in ("explain", "explain.by-rattle")]


def run(program, words, given=b""):
    """What the program prints on these words and this input, and its status."""
    done = subprocess.run([program, *words], input=given, capture_output=True)
    return (done.stdout + done.stderr).decode(), done.returncode


def encoded(program, stem, folder, room):
    """What the program prints that encodes the package or the world of a folder, its status, and the bytes that it writes, if any."""
    file = room / "out"
    words = [] if stem == "package" else ["--world", stem.removeprefix("world-")]
    said, status = run(program, ["encode", *words, "-o", file, folder])
    return said, status, file.read_bytes() if file.exists() else None


def differing(written, wanted):
    """How bytes differ from those that are wanted, or nothing."""
    first = next((at for at, pair in enumerate(zip(written, wanted)) if pair[0] != pair[1]), min(len(written), len(wanted)))
    return None if written == wanted else f"{len(written)} bytes for {len(wanted)}, the first other one at {first}"


def fault_of_encode(program, stored, room):
    """What is wrong with what the program encodes of the package beside a stored answer, or nothing."""
    said, status, written = encoded(program, stored.stem, stored.parent, room)
    if stored.suffix == ".txt":
        refused = status == 1 and written is None and said.endswith(stored.read_text())
        return None if refused else f"status {status}, where it has to be refused: {said}"
    return f"status {status}: {said}" if status or written is None else differing(written, stored.read_bytes())


def spread(texts, folder):
    """Writes printed packages into a folder: the last one, and those that it depends on in `deps`."""
    *others, own = re.split(r"(?m)^(?=package )", texts)[1:]
    (folder / "deps").mkdir(parents=True)
    (folder / "own.wit").write_text(own)
    for number, other in enumerate(others):
        (folder / "deps" / f"{number}.wit").write_text(other)


def fault_of_decode(program, stored, room):
    """What is wrong with the packages that the program decodes of a stored binary and encodes again, or nothing."""
    said, status = run(program, ["decode", stored])
    if status:
        return f"status {status} of decode: {said}"
    folder = room / "decoded"
    spread(said, folder)
    said, status, written = encoded(program, stored.stem, folder, room)
    return f"status {status} of what was decoded: {said}" if status or written is None else differing(written, stored.read_bytes())


def fault_of_text(program, stored, room):
    """What is wrong with what the program prints of a binary of the folder `decoded`, as a file and as its input, or nothing."""
    binary = stored.with_suffix(".wasm")
    said, status = run(program, ["decode", binary])
    wanted = stored.read_text()
    if run(program, ["decode", "-"], binary.read_bytes()) != (said.replace(str(binary), "-"), status):
        return "another answer from standard input"
    if stored.suffix == ".txt":
        return None if status == 1 and said.endswith(wanted) else f"status {status}, where it has to be refused: {said}"
    return None if status == 0 and said == wanted else f"status {status}: {said}"


def tasks():
    """Each stored answer, with the function that finds what is wrong with it."""
    stored = sorted(it for kind in ("wasm", "txt") for it in FOLDER.glob(f"*/*.{kind}") if it.parent != DECODED)
    texts = sorted(it for kind in ("wit", "txt") for it in DECODED.glob(f"*.{kind}"))
    return [(fault_of_encode, it) for it in stored] + [(fault_of_decode, it) for it in stored if it.suffix == ".wasm"] + \
        [(fault_of_text, it) for it in texts]


def main():
    options = parser(__doc__)
    options.add_argument("--program", action="append", type=pathlib.Path)
    programs = options.parse_args().program or BUILT
    missing = [it for it in programs if not it.is_file()]
    if missing:
        sys.exit(f"tools/check_binaries.py: there is no {missing[0]}: run the gate, or name a program by --program")
    answers = tasks()
    found = 0
    for program in programs:
        for fault, stored in answers:
            with tempfile.TemporaryDirectory() as room:
                wrong = fault(program.resolve(), stored, pathlib.Path(room))
            found += wrong is not None
            if wrong is not None:
                print(f"{program.name}: {place(stored)}: {wrong}")
    told = f"{len(answers) * len(programs) - found} of {len(answers) * len(programs)} answers of wit-explain encode and decode are the stored ones"
    if found or not answers:
        sys.exit(told)
    print(told)


if __name__ == "__main__":
    main()
