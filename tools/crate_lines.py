#!/usr/bin/env python3
"""Prints the lines of crates.txt with which a repository uses witcall's libraries.

usage: tools/crate_lines.py FOLDER

FOLDER is where this repository lies in the other one, as a path from its top. Each library gets a line with its path.
"""
import sys

from repository import ROOT, all_crates


def main():
    if len(sys.argv) != 2:
        sys.exit(__doc__)
    uses = all_crates()
    libraries = {name for name in uses if (ROOT / "crates" / name / "src" / "lib.rt").exists()}
    # not those of tests and examples, nor the one for C
    libraries = {name
                 for name in libraries if not name.startswith(("example_", "row_", "vector_", "tests_", "witcall_c"))}
    for name in (it for it in uses if it in libraries):
        deps = (f"{sys.argv[1]}/crates/{it}" if it in libraries else it for it in uses[name])
        print(f"{sys.argv[1]}/crates/{name}: {' '.join(deps)}".rstrip())


main()
