#!/usr/bin/env python3
"""Tries the must-fail edits of crates, and tells of each which goal stayed open.

    tools/try_edits.py [NAME ..] [--only EDIT,..]

Of each crate named, or of all, the edits of crates/NAME/must-fail/ (which the gate tries too) and of edits/NAME/ are
tried on a copy of the repository, over what the crate's checks have kept, or those edits alone. Each line has the edit,
and the goal that the prover was left with: a clause of a contract (`returns-clause-..`), the condition of a callee, an
invariant; or the goal that its proof by hand doesn't meet. Where an edit is let through, can't be applied or read, or
is refused only since a proof names what is no more there, the line begins with `!` and the exit status is 1. If
tools/check_crate.py has built all libraries below the crate and has checked it, an edit takes seconds; otherwise
`rt check` proves them first.
"""
import os
import pathlib
import re
import shutil
import subprocess
import sys
import tempfile

import check_crate
from repository import ROOT, crate_lines, crates, crates_below, edits

GOAL = re.compile(r"note: (\S+?):\d+:\d+: (.*)")
# a goal that a proof by hand doesn't meet, by the function that the proof is of
BY_HAND = re.compile(r"(?:\./)?proofs/(\S+?)/\w+\.antt:\d+:\d+: error: `([^`]*)`: (.*)")
# what is told of a proof that names what the edit took away
NAMES = re.compile(r"(\./)?proofs/.*(has no field|is not in scope|has no `|was not admitted)")


def edits_of(name, only):
    """The crate's edits, those of the gate first."""
    return [path for path, crate in edits() if crate == name and (only is None or path.stem in only.split(","))]


def copied(room, crate, names):
    """Copies the crates, with what was proved of them, into the room: of the crate itself all that its checks have
    kept."""
    (room / "crates").mkdir()
    (room / "crates.txt").write_text("".join(f"{line}\n" for name, line in crate_lines().items() if name in names))
    shutil.copy(ROOT / "HANDLES", room)
    for name in names:
        for part in ("src", "specs", "proofs", "out" if name == crate else "out/rlib"):
            if (ROOT / "crates" / name / part).is_dir():
                shutil.copytree(ROOT / "crates" / name / part, room / "crates" / name / part)


def edited(edit, folder):
    """The texts of the files that the edit changes, by their path, or None where it can't be applied or changes
    nothing."""
    texts, path, old = {}, None, None
    changes = 0
    for line in edit.read_text().splitlines():
        word, _, rest = line.partition(": ")
        if word == "file":
            path = folder / rest.strip()
            texts.setdefault(path, path.read_text() if path.is_file() else "")
        elif word == "old":
            old = rest
        elif word == "new":
            if None in (path, old) or old == rest or texts[path].count(old) != 1:
                return None
            texts[path] = texts[path].replace(old, rest)
            changes += 1
    return texts if changes else None


def told(output, status):
    """Whether the edit shows something, and what its refusal is told as."""
    if not status:
        return False, "let through"
    lines = output.splitlines()
    unread = [it for it in lines if re.match(r"(\./)?src/.*: error: (?!`)", it)]
    if unread or not any(it.startswith("logic=not-proved") for it in lines):
        return False, (unread or lines[-1:] or ["nothing said"])[0]
    notes = [it for it in lines if GOAL.search(it)]
    goals = [it for it in notes if not NAMES.match(it)]
    by_hand = [it for it in lines if BY_HAND.match(it) and not NAMES.match(it)]
    if not goals and by_hand:
        function, label, _ = BY_HAND.match(by_hand[0]).groups()
        return True, f"{function}: {label}, in its hand-written answer"
    if not goals:
        return False, (notes or lines)[0]
    goal = GOAL.search(goals[0])
    label = re.search(r"\(`([^`]*)`", goal[2])
    return True, f"{goal[1]}: {label[1] if label else goal[2]}"


def command(room, name):
    """The words that check the crate: over the libraries below it if all are built, otherwise by proving them first."""
    rtlib = check_crate.toolchain()
    crate = next(it for it in rtlib.crates_below(str(room)) if it.name == name)
    if not all(os.path.isdir(it.rlib) for it in crate.below()):
        return ["rt", "check", "--jobs", "1"]
    with open(os.devnull, "w", encoding="utf-8") as crate.out:
        words = crate.words(["--jobs", "1"], keeps=False)
    return [*rtlib.guarded(), rtlib.RATTLE, "check", *words, "--incremental", "out/incremental"]


def check(words, folder):
    """Checks the crate by these words, and answers what was said and the status."""
    (folder / "out" / "incremental").mkdir(parents=True, exist_ok=True)
    ran = subprocess.run(words, cwd=folder, capture_output=True, text=True, check=False)
    return ran.stdout + ran.stderr, ran.returncode


def results(name, names, only):
    """Tries the crate's edits: of each its path, whether it shows something, and what its refusal is told as."""
    asked = edits_of(name, only)
    if not asked:
        return
    with tempfile.TemporaryDirectory(prefix="edits-") as room:
        copied(pathlib.Path(room), name, names)
        folder = pathlib.Path(room) / "crates" / name
        words = command(room, name)
        for edit in asked:
            texts = edited(edit, folder)
            before = {path: path.read_text() for path in texts or {}}
            for path, text in (texts or {}).items():
                path.write_text(text)
            shows, text = told(*check(words, folder)) if texts else (False, "can't be applied")
            for path, whole in before.items():
                path.write_text(whole)
            yield edit, shows, text


def tried(name, names, only):
    """Tries the crate's edits, and answers whether each shows something."""
    well = True
    for edit, shows, text in results(name, names, only):
        well &= shows
        print(f"{' ' if shows else '!'} {name}/{edit.stem}: {text}", flush=True)
    return well


def main():
    names, only = sys.argv[1:], None
    if "--only" in names[:-1]:
        only = names[names.index("--only") + 1]
        names = [it for it in names if it not in ("--only", only)]
    unknown = [it for it in names if it not in crates()]
    if unknown:
        sys.exit(f"no crate {unknown[0]}")
    there = {it.stem for name in names or crates() for it in edits_of(name, only)}
    lacking = sorted(set(only.split(",") if only else []) - there)
    if lacking or not there:
        sys.exit(f"no edit {lacking[0] if lacking else ''}".rstrip())
    sys.exit(0 if all([tried(name, crates_below([name]), only) for name in names or crates()]) else 1)


if __name__ == "__main__":
    main()
