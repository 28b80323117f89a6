#!/usr/bin/env python3
"""Keeps what the prover said of each must-fail edit, and over which sources.

usage: tools/edit_results.py [--check | --take | CRATE ..]

tests/edit-results has a line for each edit of edits/ and of crates/*/must-fail: its crate and name, a sum of what it
changes, a sum of the crate's sources when it was tried, the date, and what stayed open. A sum `-` is one that was not
kept: then the edit was tried over an earlier state of the crate.

Without words it tries all edits of the crates whose sources have changed since, or that have an edit without a result,
by tools/try_edits.py, and stores each result at once. With CRATE .. it does so with these crates. --take stores the
lines that tools/try_edits.py has printed, from standard input, as of today and of today's sources.

--check compares: an edit that is new or changed and has no result is a failure, and so is a result of no edit. A crate
that has changed since is told in a line, and is no failure: its edits may wait for the next landing. The exit status is
1 if something is wrong, or if an edit is not refused.
"""
import datetime
import hashlib
import sys

from repository import ROOT, crates, crates_below, edits, place
from try_edits import results

STORED = ROOT / "tests" / "edit-results"
HEAD = "# What stays open by each must-fail edit: crate/edit, sums of the edit and of the crate's sources, date, goal."
PARTS = ("src", "specs", "proofs")


def digest(*parts):
    """A short sum of bytes."""
    return hashlib.sha256(b"\0".join(parts)).hexdigest()[:12]


def edit_sum(path):
    """The sum of what an edit changes: its lines without comments."""
    return digest(*(line for line in path.read_bytes().splitlines() if not line.startswith(b"#")))


def crate_sum(crate):
    """The sum of a crate's sources, with its definitions and proofs."""
    files = sorted(path for part in PARTS for path in (ROOT / "crates" / crate / part).rglob("*") if path.is_file())
    return digest(*(it for path in files for it in (place(path).encode(), path.read_bytes())))


def all_edits():
    """The paths of all edits by `crate/edit`."""
    return {f"{crate}/{path.stem}": path for path, crate in edits()}


def stored():
    """The stored results by `crate/edit`: two sums, the date, and what stayed open."""
    lines = STORED.read_text().splitlines() if STORED.exists() else []
    return {line.split(" ", 1)[0]: line.split(" ", 4)[1:] for line in lines if not line.startswith("#")}


def store(found):
    """Writes results, in the order of the crates."""
    order = {name: number for number, name in enumerate(crates())}
    there = all_edits()
    names = sorted((it for it in found if it in there), key=lambda it: (order[it.partition("/")[0]], it))
    STORED.write_text("".join(f"{line}\n" for line in [HEAD, *(" ".join([it, *found[it]]) for it in names)]))


def result(name, goal):
    """A result of today, over today's sources."""
    return [edit_sum(all_edits()[name]), crate_sum(name.partition("/")[0]), datetime.date.today().isoformat(), goal]


def changed(crate, found):
    """Whether a crate has changed since the results of its edits, or has an edit without one."""
    now = crate_sum(crate)
    return any(name not in found or found[name][:2] != [edit_sum(path), now]
               for name, path in all_edits().items() if name.partition("/")[0] == crate)


def tried(asked):
    """Tries the edits of crates, and stores each result; whether each is refused."""
    well = True
    for crate in asked:
        for path, shows, goal in results(crate, crates_below([crate]), None):
            name = f"{crate}/{path.stem}"
            print(f"{' ' if shows else '!'} {name}: {goal}", flush=True)
            well &= shows
            if shows:
                store({**stored(), name: result(name, goal)})
    return well


def taken(lines):
    """Stores the results that lines of tools/try_edits.py have; whether each names an edit that is refused."""
    found, well = stored(), True
    for line in filter(None, (it.rstrip("\n") for it in lines)):
        name, _, goal = line[2:].partition(": ")
        if line.startswith("  ") and name in all_edits():
            found[name] = result(name, goal)
        elif not line.startswith("== "):
            print(f"no result: {line}")
            well = False
    store(found)
    return well


def checked():
    """Whether each edit has a result and each result an edit; tells the crates that have changed since."""
    there, found = all_edits(), stored()
    faults = [f"{place(path)}: it has no result; try it by tools/edit_results.py {name.partition('/')[0]}"
              for name, path in there.items() if name not in found]
    faults += [f"{place(path)}: it has changed since its result" for name, path in there.items()
               if name in found and found[name][0] != edit_sum(path)]
    faults += [f"tests/edit-results: there is no edit {name}" for name in found if name not in there]
    sums = {crate: crate_sum(crate) for crate in {name.partition("/")[0] for name in there}}
    since = {name.partition("/")[0] for name, (_, then, *_) in found.items()
             if name in there and then != sums[name.partition("/")[0]]}
    waiting = [it for it in crates() if it in since]
    print("\n".join([*faults, f"{len(there.keys() & found.keys())} results of {len(there)} edits; crates that were "
                     f"tried over other sources: {', '.join(waiting) or 'none'}"]))
    return not faults


def main():
    words = sys.argv[1:]
    if words == ["--check"]:
        sys.exit(not checked())
    if words == ["--take"]:
        sys.exit(not taken(sys.stdin))
    if any(it not in crates() for it in words):
        sys.exit(__doc__)
    sys.exit(not tried(words or [it for it in crates() if changed(it, stored())]))


if __name__ == "__main__":
    main()
