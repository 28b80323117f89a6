"""Measures programs: `python3 -m tools.measure WHAT -h` tells of each what it does."""
import argparse
import inspect
import pathlib
import sys

from tools.repository import ROOT

from . import amplification, changed, memory, refused, refused_calls, times
from .harness import INSTRUCTIONS, TIME

# what `python3 -m tools.measure` measures, and the words that each takes
MEASURES = {
    "tables": (times.tables, "cost", "program", "jobs"),
    "sets": (times.sets, "cost", "program"),
    "families": (times.families, "cost", "program"),
    "json": (times.json, "cost", "program"),
    "reading": (times.reading, "cost", "command"),
    "binaries": (times.reading_binaries, "cost", "command"),
    "names": (times.names, "cost", "program"),
    "memory": (memory.opening, "program"),
    "calls": (memory.of_calls, "vectors"),
    "small-memory": (memory.small, "brief", "program"),
    "largest-request": (memory.largest, "brief", "program"),
    "refused": (refused.refused, "brief", "witcall", "crates"),
    "amplification": (amplification.amplification, "brief", "library"),
    "refused-calls": (refused_calls.refused_calls, "brief", "library"),
    "changed": (changed.by_rows, "program", "rows"),
    "changed-behind-sets": (changed.behind_sets, "program"),
}


def built(crate):
    """The word for a program that `rt run` in its crate's folder leaves."""
    path = ROOT / "crates" / crate / "out" / crate
    told = f"by default {path.relative_to(ROOT)}"
    return {"nargs": "?", "type": lambda word: pathlib.Path(word).resolve(), "default": path, "help": told}


def several(word, choices, told):
    """The word for some of these."""
    return {"nargs": "*", "choices": [*choices, []], "metavar": word, "help": f"of {', '.join(choices)}; {told}"}


WORDS = {
    "cost": ("--instructions", {"action": "store_const", "const": INSTRUCTIONS, "default": TIME, "dest": "cost",
                                "help": "count instructions by callgrind in place of the time"}),
    "brief": ("--brief", {"action": "store_true", "help": "print one line, and what is wrong"}),
    "program": ("program", built("program")),
    "witcall": ("--program", {**built("program"), "nargs": None, "metavar": "PROGRAM"}),
    "vectors": ("vectors", built("vectors")),
    "library": ("library", {"type": lambda word: pathlib.Path(word).resolve(), "help": "the shared library"}),
    "rows": ("rows", built("vectors")),
    "jobs": ("jobs", several("JOB", [*times.JOBS], "call alone by default")),
    "crates": ("crates", several("CRATE", [*refused.WORDS, "program"], "all three by default")),
    "command": ("command", {"nargs": argparse.REMAINDER, "help": "a command's words, with {} for the input's path"}),
}


def main():
    """Measures what the command line asks for. The exit status is 1 where something is not as it has to be."""
    parser = argparse.ArgumentParser(prog="python3 -m tools.measure", description=__doc__)
    measures = parser.add_subparsers(metavar="WHAT", required=True)
    for name, (measure, *words) in MEASURES.items():
        told = inspect.getdoc(measure)
        one = measures.add_parser(name, help=told.splitlines()[0], description=told)
        one.set_defaults(measure=measure)
        for word in words:
            one.add_argument(WORDS[word][0], **WORDS[word][1])
    given = parser.parse_args()
    if getattr(given, "command", None) == []:
        parser.error("a command is wanted, as crates/program/out/program show {}")
    sys.exit(not given.measure(given))


if __name__ == "__main__":
    main()
