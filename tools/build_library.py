#!/usr/bin/env python3
"""Builds the static library of crates/witcall_c over the libraries below it, without proving these again.

usage: tools/build_library.py [--target TARGET] [--module FILE] [--kept FOLDER] ARCHIVE

It proves this crate alone. The libraries below have to be built, as the gate or `rt lib` leaves them. ARCHIVE is the file that the library is
written to. TARGET is x86_64-unknown-linux-gnu, as `rt lib` builds it, or another one of the toolchain. With --module, FILE gets the LLVM module
that the toolchain makes on the way, as LLVM's bitcode; it is then for processors without extensions. The check begins with what an earlier one
kept in FOLDER, and keeps its work there: crates/witcall_c/out/incremental, if it is left out. The exit status is the checker's, or 1 if there was
no module.
"""
import os
import pathlib
import shlex
import sys
import tempfile

from check_crate import ROOT, run, toolchain
from repository import parser

NAME = "witcall_c"
TARGET = "x86_64-unknown-linux-gnu"
# stands for the toolchain's clang: it keeps a copy of the module that it is given, and runs clang
KEEPING_CLANG = """#!/bin/sh
for word; do
    case "$word" in *.bc) cp -- "$word" {module} ;; esac
done
exec {clang} "$@"
"""


def keeping_toolchain(kit, folder, module):
    """A folder like the toolchain's, whose clang keeps a copy of what it compiles."""
    tools = pathlib.Path(folder) / "toolchain"
    (tools / "bin").mkdir(parents=True)
    (tools / "lib").symlink_to(f"{kit}/toolchain/lib")
    for tool in os.listdir(f"{kit}/toolchain/bin"):
        if tool != "clang":
            (tools / "bin" / tool).symlink_to(f"{kit}/toolchain/bin/{tool}")
    clang = tools / "bin" / "clang"
    clang.write_text(KEEPING_CLANG.format(module=shlex.quote(module), clang=shlex.quote(f"{kit}/toolchain/bin/clang")))
    clang.chmod(0o755)
    return str(tools)


def build(options, folder):
    """Builds the archive, and the module if one is asked for. Returns the checker's status."""
    rtlib = toolchain()
    crate = next(it for it in rtlib.crates_below(str(ROOT)) if it.name == NAME)
    os.makedirs(options.kept, exist_ok=True)
    words = ["--backend", "llvm", "--incremental", options.kept, "-o", options.archive]
    # the words of `rt lib` have no target, which is then x86-64
    if options.target != TARGET or options.module:
        words += ["--target", options.target]
    if options.module:
        words += ["--cpu", "x86-64", "--toolchain", keeping_toolchain(rtlib.KIT, folder, options.module)]
    else:
        words += ["--toolchain", f"{rtlib.KIT}/toolchain"]
    with open(os.devnull, "w", encoding="utf-8") as crate.out:
        words = ["build", *crate.words(["--jobs", os.environ.get("RT_JOBS", "1")], keeps=False), *words]
        return run(rtlib, crate, words).returncode


def main():
    options = parser(__doc__)
    options.add_argument("--target", default=TARGET)
    options.add_argument("--module", type=os.path.abspath)
    options.add_argument("--kept", type=os.path.abspath, default=ROOT / "crates" / NAME / "out" / "incremental")
    options.add_argument("archive", type=os.path.abspath)
    options = options.parse_args()
    if options.module:
        pathlib.Path(options.module).unlink(missing_ok=True)
    os.chdir(ROOT)
    with tempfile.TemporaryDirectory() as folder:
        status = build(options, folder)
    if status == 0 and options.module and not os.path.isfile(options.module):
        sys.exit("tools/build_library.py: the toolchain's clang was given no module")
    sys.exit(status)


if __name__ == "__main__":
    main()
