#!/usr/bin/env python3
"""Runs wit-explain on the stored commands of tests/explain, and compares what it prints and its exit status to the
letter.

usage: tools/check_explain.py [--program WIT-EXPLAIN].. [--witcall WITCALL]

tests/explain/runs has one run after another: a line `$ wit-explain WORDS`, what the program prints, and a line
`status NUMBER`. Words are parted by single spaces. A run reads the files of tests/explain/files, and has no input. If
the status is 2, the text is what goes to standard error, and nothing may go to standard output; otherwise it is the
other way round. Each program named is run, by default those that the gate built by both compilers, both of which have
to be there. Each block of `console` of the pages has to be a stored run, and docs/pictures/shapes.svg what the run of
PICTURE prints. Pictures that runs print of the types of one file have to be to scale, and those of calls have the words
of the same call without `--svg`, with arrows from each pointer to its block (tools/check_drawings.py). A run of
LAID_OUT lays a file out as it is stored. A run of BINARIES writes the file `out`, as `witcall` writes it on the words
beside it: the one that the gate built, if no other is named. Both programs are in release/ too,
packed. The exit status is 1 if one of them differs.
"""
import collections
import difflib
import pathlib
import shutil
import subprocess
import sys
import tempfile

from check_drawings import has_other_words, untrue_arrows, untrue_drawings
from repository import ROOT, blocks, pages, parser, place

FOLDER = ROOT / "tests" / "explain"
BUILT = [ROOT / "crates" / "explain" / "out" / name for name in ("explain", "explain.by-rattle")]
PROMPT = "$ wit-explain"
DRAWN = "layout --svg - "
CALLED = "call --svg - "
PICTURE = f"{DRAWN}shapes.wit"
WITCALL = ROOT / "crates" / "program" / "out" / "program"
# options by which a run may write a file: it has a copy of the files for itself
WRITING = ("-o", "--output", "--svg")
BUILDING = ("build it by `rt ci`, or unpack release/wit-explain.gz and release/witcall.gz, and name them by --program "
            "and --witcall")
BINARIES = {
    "bin -o out shapes.wit": "bin shapes.wit",
    "bin --output out wit": "bin --with wit/deps/clocks/wall.wit wit/app.wit",
    "bin --output=out wit": "bin --with wit/deps/clocks/wall.wit wit/app.wit",
}
# a run that lays a file out, with the file and the text that it has then
LAID_OUT = {"format loose": ("loose/stock.wit", "loose/laid-out.txt")}
WRITTEN = {
    "encode -o out modules/package.wasm": "modules/package.wasm",
    "encode --world guest -o out modules/carrying.wasm": "modules/world.wasm",
    "embed modules/guest.wasm --world guest -o out modules/guest.wit": "modules/carrying.wasm",
    "embed modules/carrying.wasm --world guest -o out modules/guest.wit": "modules/carrying.wasm",
}


def stored_runs():
    """The words of each run, with the lines that it prints and its status."""
    runs = []
    for line in (FOLDER / "runs").read_text().split("\n"):
        if line == PROMPT or line.startswith(f"{PROMPT} "):
            runs.append((line.removeprefix(PROMPT).split(" ")[1:], []))
        elif runs:
            runs[-1][1].append(line)
    return [(words, "\n".join(lines).rstrip("\n")) for words, lines in runs]


def copied(folder):
    """The folder, with a copy of the files of all runs."""
    shutil.copytree(FOLDER / "files", folder)
    return folder


def printed(program, words, folder):
    """What the program prints on these words, with its status."""
    done = subprocess.run(
        [program, *words], cwd=folder, stdin=subprocess.DEVNULL, capture_output=True,
        env={"PATH": "/usr/bin:/bin", "LC_ALL": "C.UTF-8"}
    )
    said, other = (done.stderr, done.stdout) if done.returncode == 2 else (done.stdout, done.stderr)
    beside = f"on the other stream: {other.decode()}" if other else ""
    return f"{said.decode()}{beside}status {done.returncode}"


def writes(words):
    """Whether a run may write a file."""
    return words[:1] == ["format"] or any(it.startswith(WRITING) for it in words)


def has_other_layout(words, folder):
    """Whether a run of LAID_OUT wrote another text. It is told."""
    run = " ".join(words)
    file, wanted = LAID_OUT.get(run, ("", ""))
    if not file or (folder / file).read_bytes() == (folder / wanted).read_bytes():
        return False
    print(f"{PROMPT} {run}: {file} is not {wanted}")
    return True


def has_other_binary(witcall, words, folder):
    """Whether a run of BINARIES or of WRITTEN wrote another binary. It is told."""
    run = " ".join(words)
    if run in WRITTEN:
        made = (folder / WRITTEN[run]).read_bytes()
    elif run in BINARIES:
        made = subprocess.run([witcall, *BINARIES[run].split(" ")], cwd=folder, capture_output=True, check=True).stdout
    else:
        return False
    if (folder / "out").read_bytes() == made:
        return False
    print(f"{PROMPT} {run}: the file is not {WRITTEN.get(run, 'what witcall writes')}")
    return True


def differing(program, witcall):
    """How many runs of this program differ from the stored ones. Each is told."""
    found = 0
    with tempfile.TemporaryDirectory() as room:
        shared = copied(pathlib.Path(room) / "files")
        for number, (words, wanted) in enumerate(stored_runs()):
            files = copied(pathlib.Path(room) / str(number)) if writes(words) else shared
            said = printed(program, words, files)
            found += has_other_binary(witcall, words, files) + has_other_layout(words, files)
            if said != wanted:
                found += 1
                lines = difflib.unified_diff(wanted.split("\n"), said.split("\n"), "stored", "printed", lineterm="")
                print(f"{program.name}: {PROMPT} {' '.join(words)}", *lines, sep="\n")
    return found


def untrue_pages(stored):
    """How many blocks of pages are no stored runs, and pictures not what one prints. Each is told. There has to be a
    block."""
    shown = [(page, *text.split("\n", 1)) for page in pages() for _, _, text in blocks(page.read_text(), "console")]
    found = [(page, line)
             for page, line, text in shown if stored.get(line.replace("'", "").removeprefix(f"{PROMPT} ")) != text]
    for page, line in found:
        print(f"{place(page)}: {line}: this isn't what tests/explain/runs has")
    picture = ROOT / "docs" / "pictures" / "shapes.svg"
    is_current = picture.read_text() == stored.get(PICTURE)
    if not is_current:
        print(f"{place(picture)} isn't what `wit-explain {PICTURE}` prints by tests/explain/runs")
    if not shown:
        print("no page has a block of `console`")
    return len(found) + (not is_current) + (not shown)


def untrue_pictures(stored):
    """How many pictures that are stored are not to scale, or not of their call. Each is told. There has to be one of
    each kind."""
    runs = [(words, text) for words, text in stored.items()
            if words.startswith(DRAWN) and text.startswith("<svg") and words.split(" ")[3].endswith(".wit")]
    found = [f"{PROMPT} {words}: {it}" for words, text in runs
             for it in untrue_drawings((FOLDER / "files" / words.split(" ")[3]).read_text(), text)]
    for it in found:
        print(f"{it} is not to scale")
    calls = [(words, text) for words, text in stored.items() if words.startswith(CALLED) and text.startswith("<svg")]
    wrong = [words for words, text in calls
             if has_other_words(text, stored.get(words.replace(CALLED, "call "))) or untrue_arrows(text)]
    for words in wrong:
        print(f"{PROMPT} {words}: the words or the arrows aren't those of the call without --svg")
    return len(found) + len(wrong) + (not runs) + (not calls)


def stored_twice(runs):
    """How many runs are stored twice. Each is told."""
    found = [words for words, number in collections.Counter(" ".join(words) for words, _ in runs).items() if number > 1]
    for words in found:
        print(f"tests/explain/runs: {PROMPT} {words}: there are two of these")
    return len(found)


def main():
    options = parser(__doc__)
    options.add_argument("--program", action="append", type=pathlib.Path)
    options.add_argument("--witcall", type=pathlib.Path, default=WITCALL)
    given = options.parse_args()
    programs = given.program or BUILT
    missing = [it for it in (*programs, given.witcall) if not it.is_file()]
    if missing:
        sys.exit(f"tools/check_explain.py: there is no {missing[0]}: {BUILDING}")
    runs = stored_runs()
    stored = {" ".join(words): text.rpartition("status ")[0] for words, text in runs}
    found = untrue_pages(stored) + untrue_pictures(stored) + stored_twice(runs)
    found += sum(differing(program.resolve(), given.witcall.resolve()) for program in programs)
    if found or not runs:
        sys.exit(f"{found} runs, blocks or pictures differ, of {len(runs)} runs")
    print(f"{len(runs)} runs of wit-explain are as they are stored, of {len(programs)} builds")


if __name__ == "__main__":
    main()
