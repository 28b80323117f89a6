#!/usr/bin/env python3
"""Changes the texts of the repository, and compares what the WebAssembly module and the program make of them.

usage: tools/changed_texts.py [COUNT [PROGRAM]]

COUNT is 20,000 if it is left out. PROGRAM is the program of release/, which is unpacked, and WITCALL_MODULE the
module's path if it isn't that of the release. Each changed text is opened by node (bindings/js/tests/changed.mjs) and
by PROGRAM: both have to refuse it by the same line, or to write the same binary and the same text. The same COUNT gives
the same texts. 20,000 take a minute of processor time. The exit status is 1 if an answer differs, or if there is no
node.
"""
import concurrent.futures
import json
import pathlib
import random
import shutil
import struct
import subprocess
import sys
import tempfile

ROOT = pathlib.Path(__file__).resolve().parent.parent
sys.path.insert(0, str(ROOT))

from tools.check_help import released  # noqa: E402
from tools.models.mutants import changed_text  # noqa: E402

SEED = 5
LONGEST = 6000


def texts():
    """The texts of the repository that are not long, without those of other branches and of what is built."""
    found = sorted(it for it in ROOT.rglob("*.wit") if "out" not in it.relative_to(ROOT).parts)
    return [text for text in (it.read_bytes() for it in found) if len(text) < LONGEST]


def by_program(program, path):
    """What the program makes of a file."""
    runs = [subprocess.run([program, job, path], capture_output=True) for job in ("bin", "text")]
    if runs[0].returncode:
        return {"line": runs[0].stderr.decode("utf-8", "replace").removesuffix("\n")}
    return {"binary": runs[0].stdout.hex(), "text": runs[1].stdout.decode()}


def by_module(folder, made):
    """What the module makes of all texts."""
    (folder / "texts").write_bytes(b"".join(struct.pack("<I", len(text)) + text for text in made))
    words = ["node", ROOT / "bindings/js/tests/changed.mjs", folder / "texts"]
    return map(json.loads, subprocess.run(words, check=True, stdout=subprocess.PIPE).stdout.splitlines())


def main():
    if not shutil.which("node"):
        sys.exit("tools/changed_texts.py: no node: apt-get install -y nodejs")
    count = int(sys.argv[1]) if len(sys.argv) > 1 else 20000
    rng, given = random.Random(SEED), texts()
    made = [changed_text(rng.choice(given), rng) for _ in range(count)]
    with tempfile.TemporaryDirectory() as name, concurrent.futures.ThreadPoolExecutor(2) as pool:
        folder = pathlib.Path(name)
        program = sys.argv[2] if len(sys.argv) > 2 else released("witcall", folder)

        def answer(place):
            path = folder / f"{place}.wit"
            path.write_bytes(made[place])
            found = by_program(program, path)
            path.unlink()
            return found

        differing = opened = 0
        for text, found, wanted in zip(made, by_module(folder, made), pool.map(answer, range(count)), strict=True):
            opened += "line" not in wanted
            if found != wanted:
                differing += 1
                print(f"{text!r}\n  module  {found}\n  program {wanted}")
    print(f"{count} texts, {opened} of them packages: {differing} differ")
    sys.exit(differing > 0)


if __name__ == "__main__":
    main()
