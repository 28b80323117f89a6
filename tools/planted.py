#!/usr/bin/env python3
"""Plants faults in copies of this checkout, one at a time, and looks whether the check that has to notice each does.

usage: tools/planted.py [--only TEXT].. [--jobs N]

The faults are those of tools/planted_faults.py. The check of each is a line of `pages` in tools/test.sh, or a script of
another part that needs no toolchain. A copy is a clone with the changes that are not committed yet. N of them are used
side by side, as many as tools/jobs.sh says if it is left out. Each check runs once without a fault, and once for each.

A fault is noticed if its check fails and prints a line that names it, which it doesn't print without the fault. What
names it is a word that the fault states, or the path that it changes. A change that can't be made is a failure too: the
files have changed, and the fault has to follow.

It prints a table: the fault, its check, and whether it was noticed. With --only it plants those alone whose name or
check has one of these texts. The exit status is 1 if a fault was not noticed, or could not be planted.
"""
import argparse
import concurrent.futures
import pathlib
import queue
import shutil
import subprocess
import sys
import tempfile

from planted_faults import FAULTS
from repository import ROOT, parser

# what a check may take, in seconds
MOST_SECONDS = 900
NAME, EMAIL = "user.name=planted", "user.email=planted@localhost"


# ---- copies


def git(folder, *words):
    """Runs git in a folder, and returns what it prints."""
    done = subprocess.run(["git", "-c", NAME, "-c", EMAIL, *words], cwd=folder, capture_output=True, text=True,
                          check=True)
    return done.stdout


def copied(folder):
    """Makes a copy of the checkout, in which all changes are committed."""
    git(ROOT, "clone", "--quiet", "--shared", str(ROOT), str(folder))
    changed = git(ROOT, "diff", "--name-only", "-z", "HEAD") + git(ROOT, "ls-files", "-z", "--others",
                                                                   "--exclude-standard")
    for name in filter(None, changed.split("\0")):
        if not (ROOT / name).exists():
            (folder / name).unlink()
            continue
        (folder / name).parent.mkdir(parents=True, exist_ok=True)
        shutil.copy(ROOT / name, folder / name)
    git(folder, "add", "--all")
    git(folder, "commit", "--quiet", "--allow-empty", "--message", "the state without a fault")
    git(folder, "tag", "whole")
    return folder


def restored(folder):
    """Undoes all that was changed in a copy."""
    git(folder, "reset", "--quiet", "--hard", "whole")
    git(folder, "clean", "--quiet", "-d", "--force")


# ---- checks


def run(check, folder):
    """The lines that a check prints in a copy, and whether it fails."""
    words = check.split()
    if words[0].endswith(".py") or words[0] == "-m":
        words = [sys.executable, "-B", *words]
    done = subprocess.run(words, cwd=folder, stdin=subprocess.DEVNULL, stdout=subprocess.PIPE, text=True,
                          stderr=subprocess.STDOUT, errors="replace", timeout=MOST_SECONDS, check=False)
    return set(done.stdout.splitlines()), done.returncode != 0


def planted(fault, folder):
    """Plants a fault in a copy. Returns what can't be changed, or nothing."""
    for change in fault.changes:
        if not change.make(folder):
            return change.path
    if fault.is_committed:
        git(folder, "commit", "--quiet", "--all", "--message", fault.name)
    return None


def judged(fault, folder, whole):
    """Plants a fault in a copy, runs its check, and undoes it. Returns what came of it; nothing if it was noticed."""
    try:
        if lost := planted(fault, folder):
            return f"can't be planted in {lost}"
        lines, fails = run(fault.check, folder)
    finally:
        restored(folder)
    if fails and any(fault.told in line for line in lines - whole):
        return None
    return "told without its name" if fails and lines - whole else "not noticed"


# ---- all


class Copies:
    """Copies that are used side by side, each by one at a time."""

    def __init__(self, room, count):
        self.free = queue.Queue()
        for number in range(count):
            self.free.put(copied(room / str(number)))

    def use(self, function, *words):
        """Calls a function with a copy that is free, and words after it."""
        folder = self.free.get()
        try:
            return function(folder, *words)
        finally:
            self.free.put(folder)


def all_judged(faults, copies, workers):
    """What came of each fault, in their order: each after its check ran without one."""
    checks = dict.fromkeys(it.check for it in faults)
    whole = {check: workers.submit(copies.use, lambda folder, it=check: run(it, folder)) for check in checks}
    asked = [workers.submit(lambda it=it: copies.use(lambda folder: judged(it, folder, whole[it.check].result()[0])))
             for it in faults]
    yield from zip(faults, (it.result() for it in asked))
    yield from ((check, None) for check, found in whole.items() if found.result()[1])


def jobs():
    """How many copies are used if the command line doesn't say."""
    return int(subprocess.run([ROOT / "tools/jobs.sh"], capture_output=True, text=True, check=True).stdout)


def report(found):
    """Prints the table. Returns whether each fault was noticed."""
    missed = 0
    for fault, what in found:
        if isinstance(fault, str):
            print(f"`{fault}` fails without a fault, too", flush=True)
            continue
        missed += what is not None
        print(f"{'!' if what else ' '} {fault.check:34} {what or 'noticed':11} {fault.name}", flush=True)
    print(f"{missed} of the faults were not noticed")
    return not missed


def main():
    options = parser(__doc__)
    options.add_argument("--only", action="append", default=[])
    options.add_argument("--jobs", type=int)
    given = options.parse_args()
    faults = [it for it in FAULTS if not given.only or any(text in f"{it.check} {it.name}" for text in given.only)]
    if not faults:
        sys.exit(__doc__)
    count = given.jobs or jobs()
    with tempfile.TemporaryDirectory(prefix="planted-") as room, \
            concurrent.futures.ThreadPoolExecutor(count) as workers:
        well = report(all_judged(faults, Copies(pathlib.Path(room), count), workers))
    sys.exit(not well)


if __name__ == "__main__":
    main()
