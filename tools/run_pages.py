#!/usr/bin/env python3
"""Runs the commands and the programs of the pages as they are written, and compares what they print with the pages.

usage: tools/run_pages.py [--release FOLDER] [--only PAGE].. [--jobs N] [--verbose]

- The pages are those at the top, of docs/ and of bindings/. Each runs in a copy of its own of this checkout, in the
  folder `witcall` of a home of its own. FOLDER is laid out as release/ is, and takes its place in the copies. N pages
  run side by side, as many as there are cores if it is left out.
- Blocks of `sh` run one after another in one shell, so `cd` and `export` hold. Below a command stands what it prints,
  each line after `# `. Its status, standard output and standard error are compared (tools/shown.py). What commands of
  TALKING and TELLING print besides may be anything. Those of LEFT_OUT don't run, and LEFT is how many they are.
- A page without an installation is for those who have one: it begins with what BEFORE says of another page.
- A program is written to the file that the next commands name, as `upper.c`. If they name none, it is run where it
  stands: in Python with the page's blocks before it, in JavaScript with those since the last that begins with an
  import, in Rust in the project of the page's `cargo new`. Comments below `print` and after `console.log` say what it
  prints. A block that is no program is put into a file of tests/pages, as FRAMES says.
- After its last command a page has left no file in its copy that .gitignore doesn't cover.

There is no network, no sudo and no toolchain: `sudo dpkg` has a root of its own. The exit status is 1 if a page is
wrong, if one of PAGES has nothing to run, or if a tool is missing, whose Debian package is named.
"""
import argparse
import concurrent.futures
import os
import pathlib
import sys
import tempfile
from typing import NamedTuple

from pages_machine import Machine, check_tools, left_files
from pages_programs import parts_of, steps_of, unused_frames
from pages_steps import fault, is_left_out
from repository import ROOT, is_reference, pages, place
from shown import commands_of, outcomes

# the pages that have something to run
PAGES = (
    "README.md", "docs/ARCHITECTURE.md", "docs/C.md", "docs/EXPLAIN.md", "docs/INSTALL.md", "docs/JAVASCRIPT.md",
    "docs/LANGUAGES.md", "docs/LIBRARY.md", "bindings/js/README.md", "bindings/python/README.md",
    "bindings/rust/README.md",
)
# those that begin beside the checkout
BESIDE = ("docs/LIBRARY.md", "bindings/rust/README.md")
# what a page begins with that doesn't install: another page, and how many of its blocks of `sh`
BEFORE = {"docs/JAVASCRIPT.md": ("bindings/js/README.md", None)}
INSTALLATION = ("docs/INSTALL.md", 1)
INSTALLING = ("tools/install.sh", "npm pack")
# how many commands of the pages are left out
LEFT = 6


class Result(NamedTuple):
    """What came of a page: how many steps ran, what was wrong, and how many commands were left out."""

    steps: int
    faults: list
    left_out: int


def all_pages():
    """The pages by their names."""
    found = [*(it for it in pages() if not is_reference(it)), *sorted(ROOT.glob("bindings/*/README.md"))]
    return {place(it): it.read_text(encoding="utf-8") for it in found}


def commands_in(parts):
    """The commands of a page."""
    return [command for it in parts if it.language == "sh" for _, command, _ in commands_of(it.text)]


def steps_before(texts, name, folder):
    """The steps of the page that another one begins with, if that doesn't install."""
    commands = commands_in(parts_of(name, texts[name]))
    if name in BESIDE or any(begin in it for it in commands for begin in INSTALLING):
        return []
    other, count = BEFORE.get(name, INSTALLATION)
    parts = [it for it in parts_of(other, texts[other]) if it.language == "sh"]
    return steps_of(other, parts[:count], folder)


def run_page(machine, texts, name):
    """Runs a page, if it has something to run."""
    parts = parts_of(name, texts[name])
    commands = commands_in(parts)
    left_out = sum(is_left_out(it) for it in commands)
    folder = machine.folder / name.replace("/", "-")
    own = steps_of(name, parts, folder / "programs")
    if not own:
        return Result(0, [f"{name}: nothing of it is run"] if name in PAGES else [], left_out)
    steps = [*steps_before(texts, name, folder / "before"), *own]
    home = machine.home(folder)
    environment = machine.environment(home, any("pip" in it.split() for it in commands))
    start = home if name in BESIDE else home / "witcall"
    ran = outcomes([it.script for it in steps], folder, cwd=start, env=environment)
    faults = [wrong for step, found in zip(steps, ran) if (wrong := fault(step, found, home))]
    faults += [f"{it.where}: the shell ended before this: {it.told}" for it in steps[len(ran) :][:1]]
    faults += [f"{name}: its commands leave in the checkout, and .gitignore doesn't cover: {it}"
               for it in left_files(home / "witcall")]
    return Result(len(ran), faults, left_out)


def run_pages(texts, names, given):
    """Runs these pages. Prints what is wrong, and returns what came of each."""
    with tempfile.TemporaryDirectory() as folder, concurrent.futures.ThreadPoolExecutor(given.jobs) as pool:
        machine = Machine(pathlib.Path(folder), given.release)
        results = []
        for name, result in zip(names, pool.map(lambda it: run_page(machine, texts, it), names)):
            if given.verbose and result.steps:
                print(f"{name}: {result.steps} commands and programs")
            print("".join(f"{it}\n" for it in result.faults), end="", flush=True)
            results.append(result)
    return results


def stale_tables(texts, left_out):
    """What the tables have that the pages don't."""
    if left_out != LEFT:
        yield f"{left_out} commands of pages are left out, and LEFT says {LEFT}"
    yield from (f"tests/pages/{frame}: no page has a block for it" for frame in unused_frames(texts))


def main():
    parser = argparse.ArgumentParser(description=__doc__.splitlines()[0])
    parser.add_argument("--release", type=pathlib.Path)
    parser.add_argument("--only", action="append", metavar="PAGE")
    parser.add_argument("--jobs", type=int, default=os.cpu_count())
    parser.add_argument("--verbose", action="store_true")
    given = parser.parse_args()
    texts = all_pages()
    if unknown := set(given.only or ()) - set(texts):
        parser.error(f"there is no page {', '.join(sorted(unknown))}")
    check_tools()
    results = run_pages(texts, given.only or list(texts), given)
    steps, left_out = sum(it.steps for it in results), sum(it.left_out for it in results)
    stale = [] if given.only else list(stale_tables(texts, left_out))
    print("".join(f"{it}\n" for it in stale), end="")
    faults = sum(len(it.faults) for it in results) + len(stale)
    told = f"{left_out} are of parts that the gate has besides"
    print(f"{steps} commands and programs of pages run, {faults} are wrong, {told}")
    sys.exit(faults > 0)


if __name__ == "__main__":
    main()
