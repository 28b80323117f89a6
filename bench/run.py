#!/usr/bin/env python3
"""Measures witcall beside what does the same without it, and prints the tables of docs/BENCHMARKS.md.

FOLDER, outside the repository, stays for the next run; else a temporary one is taken. What is proved and built is a
copy in it of the crates that it needs, with what their checks have kept, and one of the benchmark's own. It needs `rt`
on the path, and proves these crates first where no check has kept anything.
"""
import argparse
import contextlib
import datetime
import inspect
import os
import pathlib
import platform
import re
import shutil
import subprocess
import sys
import tempfile

from opening import SHAPES, component_ld, shapes_table, times_table

sys.path.insert(0, str(pathlib.Path(__file__).resolve().parent.parent))

from tools.measure import times  # noqa: E402
from tools.measure.harness import INSTRUCTIONS, TIME, Growth, millions  # noqa: E402
from tools.repository import PROGRAM, ROOT, crate_lines, crates_below  # noqa: E402

LIBRARIES = ["atoms", "canonical_abi", "tables", "table_building", "layout", "memory"]
# of each table over a library: the library's crate and that crate's source, what it stands on, and the program over it
TABLES = {
    "values": ("bench", "library.rt.in", [*LIBRARIES, "values", "lift_lower"], "main.rs"),
    "calls": ("calls_bench", "calls.rt.in", [*LIBRARIES, "lift_lower", "adapter"], "calls.rs"),
}


# ---- copies of the crates


def copy_tree(source, target):
    """Copies a folder in the place of what was there."""
    if target.exists():
        shutil.rmtree(target)
    if source.is_dir():
        shutil.copytree(source, target)


def fill(folder, libraries, crate, source, kind=""):
    """Writes the copy: the crates, and one of the benchmark's own, of this kind, over these libraries."""
    names = crates_below(libraries)
    for name in names:
        target = folder / "crates" / name
        for part in ["src", "specs", "proofs"]:
            copy_tree(ROOT / "crates" / name / part, target / part)
        if not (target / "out").exists():
            copy_tree(ROOT / "crates" / name / "out", target / "out")
    own = folder / "crates" / crate
    (own / "src").mkdir(parents=True, exist_ok=True)
    shutil.copy(ROOT / "bench" / source, own / "src" / ("lib.rt" if kind else "main.rt"))
    shutil.copy(ROOT / "HANDLES", folder)
    listed = [crate_lines()[name] for name in names] + [f"{crate}{kind}: {' '.join(libraries)}"]
    (folder / "crates.txt").write_text("\n".join(listed) + "\n")
    return own


def kit():
    """The folder of the toolchain."""
    return pathlib.Path(answer_of("rt", "doc")).parent


def program_of(folder, libraries, source, needs_words=False):
    """The program of a crate of the benchmark's own, proved and built. If it needs words, it fails where it is run
    without."""
    crate = f"{source.partition('.')[0]}_bench"
    own = fill(folder, libraries, crate, source)
    subprocess.run(["rt", "run"], cwd=own, check=not needs_words, stdout=subprocess.DEVNULL, stderr=sys.stderr)
    return own / "out" / crate


def program_over(folder, table):
    """The program in Rust of a table over its library, both built."""
    crate, source, libraries, program = TABLES[table]
    out = fill(folder, libraries, crate, source, " staticlib") / "out"
    subprocess.run(["rt", "lib"], cwd=out.parent, check=True, stdout=sys.stderr)
    binary = folder / crate
    words = ["rustc", "--edition", "2024", "-O", "-o", binary, ROOT / "bench" / program]
    words += ["-L", f"native={out}", "-L", f"native={kit() / 'c'}"]
    if platform.machine() == "x86_64":
        # what `rt lib` builds for
        words += ["-C", "target-cpu=x86-64-v2"]
    subprocess.run(words + ["-l", f"static={crate}", "-l", "static=libc_c"], check=True)
    return binary


# ---- what is told


def answer_of(*words):
    """What a command prints, without the end of its last line."""
    ran = subprocess.run(words, capture_output=True, text=True, check=True)
    return ran.stdout.strip()


def processor():
    """The processor's name, where the system tells it."""
    info = pathlib.Path("/proc/cpuinfo")
    lines = info.read_text().splitlines() if info.exists() else []
    names = [line.split(":")[1].strip() for line in lines if line.startswith("model name")]
    return names[0] if names else "an unnamed processor"


@contextlib.contextmanager
def machine(*versions):
    """Prints what the measures inside were made on: the processor, its load, and the versions of these programs."""
    before = os.getloadavg()[0]
    yield
    load = f"load {before:.1f} before and {os.getloadavg()[0]:.1f} after"
    print(f"\n{datetime.date.today()}, {processor()}, {os.cpu_count()} cores, {load};")
    print("; ".join(answer_of(*words).splitlines()[0] for words in [("rt", "version"), *versions]) + ".")


def over_library(given):
    """Prints a table that a program over a library makes."""
    binary = program_over(given.folder, given.what)
    with machine(("rustc", "--version")):
        table = answer_of(binary)
    print(f"\n{table}")


def values(given):
    """Storing and loading, beside plain Rust. Needs `rustc` 1.88 or later."""
    over_library(given)


def calls(given):
    """Calls by `Link::call`, beside plain Rust. Needs `rustc` 1.88 or later."""
    over_library(given)


def holes(given):
    """Requests to a `FirstFit` with few and many holes."""
    program = program_of(given.folder, ["memory", "anyhow"], "holes.rt.in")
    with machine():
        rows = answer_of(program)
    print(f"\n| holes | | first | any | last | none |\n|---|---|---|---|---|---|\n{rows}")


# ---- calls through the C library


TURNS = 5


def host_program(folder):
    """bench/host.c over the library, both built in the repository."""
    crate = ROOT / "crates/witcall_c"
    subprocess.run(["rt", "lib"], cwd=crate, check=True, stdout=sys.stderr)
    words = ["clang", "-std=gnu11", "-O2", "-I", ROOT / "include", "-o", folder / "host", ROOT / "bench/host.c"]
    subprocess.run(words + [crate / "out/libwitcall_c.a", kit() / "c/liblibc_c.a"], check=True)
    return folder / "host"


def times_of(host_binary, calls_binary):
    """The nanoseconds that both programs tell, by name."""
    found = dict(line.split() for line in answer_of(host_binary).splitlines())
    found["link"] = re.search(r"\| a `u32` \| (\d+) \|", answer_of(calls_binary, "short"))[1]
    return {name: float(time) for name, time in found.items()}


def host(given):
    """Calls through the C library, beside `Link::call` and a plain copy: of five turns the least. Needs `rustc` and
    clang."""
    programs = host_program(given.folder), program_over(given.folder, "calls")
    with machine(("rustc", "--version"), ("clang", "--version")):
        turns = [times_of(*programs) for _ in range(TURNS)]
    number, link, taken, copied = (min(turn[name] for turn in turns) for name in ("number", "link", "list", "copy"))
    print("\n| | the C library | beside it | | wanted |\n|---|---|---|---|---|")
    cells = f"{number:.0f} | `Link::call` {link:.0f} | {number - link:+.0f} | at most +40"
    print(f"| a call of a `u32`, both halves, ns | {cells} |")
    cells = f"{taken:.0f} | a plain copy {copied:.0f} | {taken / copied:.2f} | at most 1.1"
    print(f"| a `list<u8>` of 1 MiB, first half, ns | {cells} |")


# ---- calls of a session


def session(given):
    """The instructions of one call more of a `u32` by `Session::call`, by callgrind."""
    libraries = ["canonical_abi", "tables", "values", "opening", "words", "witcall"]
    program = program_of(given.folder, libraries, "session.rt.in", needs_words=True)
    with machine(("valgrind", "--version")):
        once, twice = (round(1e6 * millions([program, word])) for word in ("once", "twice"))
    print(f"\n{(twice - once) / 1000:.0f} instructions, and some for what makes the calls")


# ---- JSON


# how many elements the longest list has: its JSON has less than 1 MiB, which is all that the program reads, and so have
# the blocks of two such lists, which the callee's memory holds
MOST_ELEMENTS = {"texts": 25000, "lists": 25000}


def json(given):
    """Calls with JSON of up to 100,000 elements, whose body answers the list: twice as many may take 2.3 times as
    long."""
    program = program_of(given.folder, ["atoms", "words", "witcall"], "json.rt.in", needs_words=True)

    def words(path, element, count):
        elements = times.of_elements(element, count)
        document = path.with_name(f"{count}.json")
        document.write_text(f"[{elements}]")
        answer = subprocess.run([program, path, document], capture_output=True, text=True, check=False)
        if answer.stdout != f"{elements}\n":
            sys.exit(f"{count} times {element}: {answer.stderr.strip() or 'another answer'}")
        return [program, path, document]

    def lengths(kind):
        return [MOST_ELEMENTS.get(kind, 100000) >> step for step in (4, 3, 2, 1, 0)]

    return times.grown_lists(words, lengths, Growth(INSTRUCTIONS if given.instructions else TIME, "elements"))


# ---- opening


def opening(given):
    """Opening of texts and binaries in milliseconds, beside wit-parser, without what each takes for an empty text.

    The program is crates/program/out/program, as `rt run` in crates/program leaves it, or the one of --program. All
    programs run in turn.
    """
    with machine((component_ld(), "--version")):
        lines = times_table(given.program, given.folder)
    print("\n".join(["", *lines]))


def shapes(given):
    """Opening of texts and binaries of many shapes: instructions by callgrind, beside those of wit-parser, times, page
    faults and memory. --shape takes one alone."""
    with machine((component_ld(), "--version"), ("valgrind", "--version")):
        lines = shapes_table(given.program, given.folder, given.shape)
    print("\n".join(["", *lines]))


BENCHMARKS = (values, calls, holes, host, session, json, opening, shapes)


def outside(folder):
    """A folder, which has to be outside the repository."""
    folder = pathlib.Path(folder).resolve()
    if folder == ROOT or ROOT in folder.parents:
        sys.exit("bench/run.py: the folder has to be outside the repository")
    folder.mkdir(parents=True, exist_ok=True)
    return folder


def main():
    """Measures what the command line asks for. The exit status is 1 where JSON grows too much."""
    parser = argparse.ArgumentParser(prog="bench/run.py", description=__doc__)
    benchmarks = parser.add_subparsers(metavar="WHAT", dest="what", required=True)
    for benchmark in BENCHMARKS:
        told = inspect.getdoc(benchmark)
        one = benchmarks.add_parser(benchmark.__name__, help=told.splitlines()[0], description=told)
        one.add_argument("folder", nargs="?", metavar="FOLDER")
        one.set_defaults(benchmark=benchmark)
        if benchmark is json:
            one.add_argument("--instructions", action="store_true", help="count these by callgrind, and no time")
        if benchmark in (opening, shapes):
            one.add_argument("--program", type=lambda path: pathlib.Path(path).resolve(), default=PROGRAM)
        if benchmark is shapes:
            one.add_argument("--shape", action="append", choices=SHAPES)
    given = parser.parse_args()
    with tempfile.TemporaryDirectory() as scratch:
        given.folder = outside(given.folder or scratch)
        sys.exit(given.benchmark(given) is False)


if __name__ == "__main__":
    main()
