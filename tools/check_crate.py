#!/usr/bin/env python3
"""Checks one crate over the libraries that were built before, without proving these again, as `rt check` may do.

usage: tools/check_crate.py NAME [FLAG..]        checks a crate, and keeps its work in crates/NAME/out/incremental
       tools/check_crate.py --build NAME..       proves libraries from nothing, as the gate does, for the crates above
       tools/check_crate.py --changed            does so with each crate that changed, and with those above it
       tools/check_crate.py --slowest NAME       checks a crate from nothing, and tells which functions take longest

A library is built as its statements, in crates/NAME/out/rlib. Those that a crate depends on have to be built; a check
says which are not. It doesn't look whether they are of the sources that are there: build a library again after its
contracts changed. FLAGs are those of the checker, as `--only PATH`, `--allow-holes`, `--test` or `--jobs 4`. The exit
status is the checker's.

--slowest tells the seconds of each function, by the times at which the checker keeps its modules, and of the part of it
that takes longest: Lts and Tie are the borrow checker's, Proof and Answers the contract's. What --progress prints
doesn't say this, since the checker takes some modules of a function long before the others. The next check of the crate
begins with what this one kept.

--changed proves what is not as it was when --build or --changed proved it here, as many crates side by side as
tools/jobs.sh says. It goes on after one that isn't proved, without those above it. The exit status is 1 then.
"""
import collections
import concurrent.futures
import hashlib
import importlib.machinery
import importlib.util
import itertools
import os
import pathlib
import re
import shutil
import subprocess
import sys

sys.dont_write_bytecode = True
ROOT = pathlib.Path(__file__).resolve().parent.parent
# a module that the checker keeps: a file, or a part of what it makes of a function
PARTS = ("Answers|Carried|Code|Given|Goals|Invariants|Key|Kinds|Layout|Lts|Met|Named|Paired|Proof|Reads|Statement|Symbol|"
         "TheLink|Tie")
MODULE = re.compile(rf"Rattle-\w+-(?:proofs|specs\.contracts|specs)\.(.+?)(?:\.({PARTS})\b.*)?\.oantt")
# how many functions are told
MOST = 30
# what a check keeps of a crate, in its folder
KEPT = "out/incremental"


def toolchain():
    """The toolchain's own library, which knows how it calls the checker."""
    kit = pathlib.Path(subprocess.run(["rt", "doc"], capture_output=True, text=True, check=True).stdout.strip()).parent
    loader = importlib.machinery.SourceFileLoader("rtlib", str(kit / "bin" / "rtlib.py"))
    module = importlib.util.module_from_spec(importlib.util.spec_from_loader("rtlib", loader))
    sys.modules["rtlib"] = module
    loader.exec_module(module)
    module.Crate.cuts_libraries = True
    return module


def run(rtlib, crate, words, **how):
    """Runs the checker on a crate, and returns how it ended."""
    lacking = [it.name for it in crate.below() if not os.path.isdir(it.rlib)]
    if lacking:
        print(f"tools/check_crate.py: not built: {' '.join(lacking)}", file=sys.stderr)
        return subprocess.CompletedProcess(words, 2)
    return subprocess.run([*rtlib.guarded(), rtlib.RATTLE, *words], cwd=crate.folder, **how)


def checked(rtlib, crate, flags, **how):
    """Checks a crate over what was kept of it."""
    jobs = [] if "--jobs" in flags else ["--jobs", "1"]
    words = crate.words([*jobs, *flags], keeps=False)
    tests = ["--test"] if "--test" in flags and "--test" not in words else []
    os.makedirs(f"{crate.folder}/{KEPT}", exist_ok=True)
    return run(rtlib, crate, ["check", *words, *tests, "--incremental", KEPT], **how)


def built(rtlib, crate, jobs, **how):
    """Proves a library from nothing, and writes its statements; checks a program."""
    words = crate.words(["--jobs", jobs], keeps=False)
    if not crate.makes_rlib():
        return run(rtlib, crate, ["check", *words, "--empty-contracts"], **how)
    os.makedirs(os.path.dirname(crate.rlib), exist_ok=True)
    return run(rtlib, crate, ["build", *words, "--empty-contracts", "--statements", "-o", crate.rlib], **how)


# ---- what is slow


def slowest(rtlib, crate):
    """Checks a crate from nothing, prints which functions took longest, and returns how the checker ended."""
    kept = pathlib.Path(crate.folder, KEPT)
    shutil.rmtree(kept, ignore_errors=True)
    ended = checked(rtlib, crate, [], stdout=subprocess.DEVNULL)
    files = sorted((path.stat().st_mtime, path.name) for path in kept.glob("*/*.oantt"))
    parts = collections.defaultdict(collections.Counter)
    for (before, _), (at, name) in itertools.pairwise(files):
        if found := MODULE.fullmatch(name.replace(".decls", "")):
            parts[found[1]][found[2] or "its own"] += at - before
    for name in sorted(parts, key=lambda it: -parts[it].total())[:MOST]:
        part, seconds = parts[name].most_common(1)[0]
        print(f"{parts[name].total():6.1f}  {name}: {part} {seconds:.1f}")
    return ended


# ---- what changed


def sums_of(rtlib, crates):
    """A sum of what each crate is made of, those below it too."""
    found = {}
    for crate in crates.values():
        whole = hashlib.sha256("".join(found[it.name] for it in crate.deps).encode())
        for path in rtlib.files_of(crate.folder):
            whole.update(path.encode() + pathlib.Path(path).read_bytes())
        found[crate.name] = whole.hexdigest()
    return found


def mark_of(crate):
    """The file with the sum of what was proved of a crate."""
    return pathlib.Path(crate.folder, "out", "proved")


def is_current(crate, total):
    """Whether a crate of this sum was proved here."""
    mark = mark_of(crate)
    return mark.is_file() and mark.read_text() == total and (os.path.isdir(crate.rlib) or not crate.makes_rlib())


def by_chain(crates):
    """The crates in an order in which those with the longest chain of others above them come first."""
    lines = {name: crate.count(rb"\n") for name, crate in crates.items()}
    for crate in reversed(crates.values()):
        for below in crate.deps:
            own = below.count(rb"\n")
            lines[below.name] = max(lines[below.name], own + lines[crate.name])
    return sorted(crates, key=lambda name: -lines[name])


def prove(rtlib, crate, total):
    """Proves a crate from nothing, notes its sum, and returns how the checker ended."""
    mark_of(crate).unlink(missing_ok=True)
    ended = built(rtlib, crate, "1", stdout=subprocess.PIPE, stderr=subprocess.STDOUT, text=True, errors="replace")
    if ended.returncode == 0:
        mark_of(crate).parent.mkdir(exist_ok=True)
        mark_of(crate).write_text(total)
    return ended


def prove_changed(rtlib, crates):
    """Proves each crate that changed and those above it, and returns the names of those that are not proved."""
    sums, left = sums_of(rtlib, crates), by_chain(crates)
    lanes = int(subprocess.run([ROOT / "tools" / "jobs.sh"], capture_output=True, text=True, check=True).stdout)
    proved = {name for name in crates if is_current(crates[name], sums[name])}
    left, running, failed = [name for name in left if name not in proved], {}, []
    with concurrent.futures.ThreadPoolExecutor(lanes) as pool:
        while True:
            ready = [name for name in left if proved.issuperset(it.name for it in crates[name].below())]
            for name in ready[: lanes - len(running)]:
                left.remove(name)
                running[pool.submit(prove, rtlib, crates[name], sums[name])] = name
            if not running:
                return failed + left
            for done in concurrent.futures.wait(running, return_when=concurrent.futures.FIRST_COMPLETED).done:
                name, ended = running.pop(done), done.result()
                if ended.returncode == 0:
                    print(f"{name} is proved", flush=True)
                    proved.add(name)
                else:
                    print(f"{ended.stdout}{name} is NOT proved", flush=True)
                    failed.append(name)


def main():
    """Checks a crate, proves libraries, or proves what changed."""
    words = sys.argv[1:]
    if not words or words[0].startswith("--") and words[0] not in ("--build", "--changed", "--slowest"):
        sys.exit(__doc__.split("\n\n")[1])
    if len(words) == 1 and words[0] in ("--build", "--slowest"):
        sys.exit(__doc__.split("\n\n")[1])
    os.chdir(ROOT)
    rtlib = toolchain()
    crates = {it.name: it for it in rtlib.crates_below(str(ROOT))}
    if words[0] == "--changed":
        rtlib.guarded()  # the first call is for the main thread
        if failed := prove_changed(rtlib, crates):
            sys.exit(f"not proved: {' '.join(failed)}")
        return
    for name in words[1:] if words[0] in ("--build", "--slowest") else words[:1]:
        if name not in crates:
            sys.exit(f"tools/check_crate.py: crates.txt has no {name}")
        with open(os.devnull, "w", encoding="utf-8") as crates[name].out:
            if words[0] == "--build":
                ended = built(rtlib, crates[name], os.environ.get("RT_JOBS", "1"))
            elif words[0] == "--slowest":
                ended = slowest(rtlib, crates[name])
            else:
                ended = checked(rtlib, crates[name], words[1:])
        if ended.returncode:
            sys.exit(ended.returncode)


if __name__ == "__main__":
    main()
