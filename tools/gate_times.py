#!/usr/bin/env python3
"""Measures the gate: how many seconds of processor time each crate takes for its proofs, its tests, its must-fail edits
and its builds.

usage: tools/gate_times.py [--log FILE] [COMMAND..]
       tools/gate_times.py --table FILE [--cores N]

Runs COMMAND, `rt ci` if none is given, and looks twice a second at the prover's processes, whose own words tell the
crate and what is checked. It prints the table of docs/GATE.md, the totals and the minutes. FILE gets a line for each
process, from which --table prints the table again, and the minute in which each crate was proved. --cores computes from
it how long the run would take on N cores, if a check uses one and the one with the longest chain behind it starts
first. What a process takes after the last look is not counted: half a second of each at most. The exit status is that
of COMMAND.
"""
import collections
import itertools
import json
import os
import subprocess
import sys
import time

import repository

PROVER = "rattle"
TICKS = os.sysconf("SC_CLK_TCK")
KINDS = ("proof", "tests", "edits", "builds")


# ---- the prover's processes


def read(path):
    """A file's bytes, none where the process has ended."""
    try:
        with open(path, "rb") as file:
            return file.read()
    except OSError:
        return b""


def described(process):
    """The crate and the kind of what a process checks, if it is one of the prover's."""
    words = read(f"/proc/{process}/cmdline").decode(errors="replace").split("\0")
    if os.path.basename(words[0]) != PROVER or "--crate-name" not in words:
        return None
    crate = words[words.index("--crate-name") + 1]
    try:
        folder = os.readlink(f"/proc/{process}/cwd")
    except OSError:
        return None
    if "--crate-checked" in words:
        return crate, "builds"
    # An edit is tried on a copy of the crate, outside the repository.
    if not folder.endswith(f"/{crate}"):
        return crate, "edits"
    return crate, "tests" if "--test" in words else "proof"


def seconds_of(process):
    """The processor time of a process and of those that it has waited for, in seconds, and when it began, in ticks."""
    fields = read(f"/proc/{process}/stat").rpartition(b")")[2].split()
    return (sum(map(int, fields[11:15])) / TICKS, int(fields[19])) if len(fields) > 19 else None


def look(seen, passed):
    """Notes the time of each of the prover's processes that is there, after so many seconds of the run."""
    for process in filter(str.isdigit, os.listdir("/proc")):
        what, used = described(process), seconds_of(process)
        if what and used:
            seen[process, used[1]] = {"crate": what[0], "kind": what[1], "cpu": used[0], "until": passed}


def measured(command, seen):
    """Runs the command, and returns its status and the seconds it took."""
    began = time.time()
    running = subprocess.Popen(command)
    while running.poll() is None:
        look(seen, time.time() - began)
        time.sleep(0.5)
    return running.returncode, time.time() - began


# ---- what is told of them


def summed(rows, key_of):
    """The seconds of rows, by a key, in the order of the rows."""
    sums = collections.defaultdict(float)
    for row in rows:
        sums[key_of(row)] += row["cpu"]
    return sums


def table(rows):
    """The table's lines, of four crates each: those of the left quarter come first in the order in which the proofs
    began. At the end are the sums of the seconds as they are shown."""
    seconds = summed(rows, lambda row: (row["crate"], row["kind"]))
    names = list(dict.fromkeys(crate for crate, _ in seconds))
    shown = {key: round(used) for key, used in seconds.items()}
    sums = {kind: sum(shown.get((name, kind), 0) for name in names) for kind in KINDS}
    shown |= {("all", kind): number for kind, number in sums.items() if number}
    found = []
    for name in [*names, "all"]:
        cells = [f"{shown[name, kind]:,}" if (name, kind) in shown else "" for kind in KINDS]
        found.append(f"| {name if name == 'all' else f'`{name}`'} | {' | '.join(cells)} |")
    height = (len(found) + 3) // 4
    groups = [found[begin:begin + height] for begin in range(0, len(found), height)]
    lines = ["|" + " crate | proof | tests | edits | builds |" * 4, "|---" * 20 + "|"]
    lines += ["|" + "".join(cells.removeprefix("|") for cells in line)
              for line in itertools.zip_longest(*groups, fillvalue="| | | | | |")]
    whole, edits = sum(sums.values()), sums["edits"]
    parts = f"{100 * edits / max(whole, 1):.0f} of 100 parts for the edits"
    return [*lines, "", f"{whole:,} seconds of processor time, {parts}"]


def tasks_of(rows):
    """The tasks of a run: for each the seconds that it took and the tasks that it waits for."""
    sums = summed(rows, lambda row: (row["crate"], "proof" if row["kind"] == "builds" else row["kind"]))
    crates = repository.crates()
    waits = {key: [(it, "proof") for it in crates.get(key[0], []) if (it, "proof") in sums] for key in sums}
    for key in sums:
        if key[1] == "edits":
            waits[key] += [(key[0], kind) for kind in ("proof", "tests") if (key[0], kind) in sums]
    return sums, waits


def minutes_on(cores, rows):
    """How many minutes the tasks take on so many cores, each on one, that with the longest chain behind it first."""
    seconds, waits = tasks_of(rows)
    chains = {}

    def chain(key):
        if key not in chains:
            chains[key] = seconds[key] + max((chain(it) for it in seconds if key in waits[it]), default=0)
        return chains[key]

    left, running, done, now = sorted(seconds, key=chain, reverse=True), [], set(), 0.0
    while left or running:
        ready = [key for key in left if done.issuperset(waits[key])][: cores - len(running)]
        left = [key for key in left if key not in ready]
        running = sorted(running + [(now + seconds[key], key) for key in ready])
        now, key = running.pop(0)
        done.add(key)
    return now / 60


def proved_at(rows):
    """Lines with the minute in which each crate was proved."""
    ends = {}
    for row in rows:
        if row["kind"] == "proof":
            ends[row["crate"]] = max(ends.get(row["crate"], 0), row["until"] / 60)
    return [f"{minute:6.1f}  {crate}" for crate, minute in sorted(ends.items(), key=lambda it: it[1])]


def kept(path, cores):
    """Prints the table of a log, and how long its run would take on so many cores."""
    with open(path, encoding="utf-8") as file:
        rows = [json.loads(line) for line in file]
    print("\n".join(table(rows) + [""] + proved_at(rows)))
    if cores:
        print(f"\n{minutes_on(cores, rows):.0f} minutes on {cores} cores, computed")


def main():
    """Measures a run, or prints what was measured."""
    words = repository.parser(__doc__)
    words.add_argument("--log")
    words.add_argument("--table")
    words.add_argument("--cores", type=int)
    words.add_argument("command", nargs="...")
    given = words.parse_args()
    if given.table:
        kept(given.table, given.cores)
        return 0
    seen = {}
    status, took = measured(given.command or ["rt", "ci"], seen)
    if given.log:
        with open(given.log, "w", encoding="utf-8") as file:
            file.writelines(json.dumps(row) + "\n" for row in seen.values())
    print("\n".join(table(seen.values())))
    print(f"{took / 60:.0f} minutes on {os.cpu_count()} processors; status {status}")
    return status


if __name__ == "__main__":
    sys.exit(main())
