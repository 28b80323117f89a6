#!/usr/bin/env python3
"""Serves the stored calls of crates/vectors as a host does whose function a guest imports, with values as JSON.

usage: examples/c/import_vectors.py PROGRAM      PROGRAM is examples/c/json_vectors.c, built

The guest is the caller of a stored call. Two steps are taken of each call that is no other kind of row:

  receives  the arguments that the caller's core values say in its memory, as JSON: those of the model (tools/models), or
            its trap
  answers   the result, as JSON: the blocks are those that the stored call was granted, and the core values and the bytes
            of the caller are those that the stored call left. The model reads the result from these. Blocks that can't
            be lent are refused by 72. A call that ended otherwise has no such step.

It prints how many steps were the same, and each one that differs; the exit status is 1 then.
"""
import json
import pathlib
import sys

ROOT = pathlib.Path(__file__).resolve().parent.parent.parent
sys.path.insert(0, str(ROOT))
sys.dont_write_bytecode = True
from json_vectors import VECTORS, answers_of, hex_of, listed  # noqa: E402
from tools.models.calls import guests_of, line_of, numbers_of, package_of  # noqa: E402
from tools.models.crossing import Flat, Stored, value_at  # noqa: E402
from tools.models.faults import Refused, Trap  # noqa: E402
from tools.models.hosts import can_be_lent  # noqa: E402
from tools.models.memory import Bump, Memory  # noqa: E402
from tools.models.sessions import written  # noqa: E402
from vectors import filled, left_out, with_lengths  # noqa: E402

# what the program has in places that nothing was put into, which it leaves out at the end
UNTOUCHED = ["i64", 2**64 - 1]
BAD_BLOCK = {"refused": "error 72 bad block", "back": []}


def arguments_of(function, row):
    """The arguments that the caller of a row passes."""
    caller, params = guests_of(row)[0], function.params
    numbers = numbers_of(map(tuple, row["flats"]), function.lowered[0], "lift-args")
    if not function.is_spilled:
        return value_at(params, Flat(caller, numbers, 0, "lift-args"))
    caller.test(params.align, params.size, numbers[0], "lift-args")
    return value_at(params, Stored(caller, numbers[0], "lift-args"))


class Call:
    """A stored call, with its answer."""

    def __init__(self, row, stored):
        self.row, self.stored = with_lengths(row), stored
        self.after = filled(stored["caller_after"], len(self.row["caller"]) // 2)
        self.function = package_of(row).function(row["iface"], row["func"])
        self.flats = list(map(tuple, row["flats"]))

    def line(self, step, *words):
        """A line of the program, over the caller's memory."""
        row = self.row
        package = row["binary"] if "binary" in row else hex_of(row["text"])
        memory = f"{row['caller'] or '-'} {len(row['caller']) // 2}"
        return " ".join([package, row["iface"], row["func"], memory, step, listed(self.flats), *words]) + "\n"

    def received(self):
        """The arguments as JSON, or the trap that they are."""
        try:
            values = arguments_of(self.function, self.row)
        except Trap as trap:
            return {"trap": str(trap)}
        return {"received": [written(t, value) for t, value in zip(self.function.params.fields, values)]}

    def result(self):
        """The text of the result that the caller has after the call."""
        t, back = self.function.result, self.stored["outcome"]["ok"]
        if t is None:
            return ""
        memory = Memory(Bump(len(self.after) // 2), bytes.fromhex(self.after))
        place = Stored(memory, self.flats[-1][1], "take") if self.function.has_area else Flat(memory, [back[0][1]], 0, "take")
        return line_of(written(t, value_at(t, place)))

    def area(self):
        """The return area as blocks, of which there is one at most."""
        return [[1, self.function.result.size, self.flats[-1][1]]] if self.function.has_area else []

    def answered(self):
        """What is put into the caller's memory."""
        blocks, before = self.stored["caller_log"], self.row["caller"]
        if not can_be_lent(len(before) // 2, [*blocks, *self.area()]):
            return {**BAD_BLOCK, "memory": cut(before)}
        back = self.stored["outcome"]["ok"]
        return {"answered": len(back), "back": [it for it in back if it != UNTOUCHED], "memory": cut(self.after)}

    def steps(self):
        """The steps, each with its line and what is wanted of it."""
        yield "receives", self.line("receives"), self.received()
        if "ok" in self.stored["outcome"]:
            text, blocks = hex_of(self.result()), listed(self.stored["caller_log"])
            yield "answers", self.line("answers", text, blocks), self.answered()


def cut(digits):
    """The bytes of a memory without the zeros at its end."""
    return bytes.fromhex(digits).rstrip(b"\0").hex()


def calls():
    """The stored calls whose package and function are there."""
    files = ((VECTORS / name).read_text(encoding="utf-8").strip().split("\n") for name in ("stdin", "stdout"))
    for row, stored in zip(*(map(json.loads, lines) for lines in files)):
        if left_out(row) is None and "next" not in row:
            try:
                yield Call(row, stored)
            except Refused:
                pass


def main():
    if len(sys.argv) != 2:
        sys.exit(__doc__)
    steps = [(call, *step) for call in calls() for step in call.steps()]
    differ = 0
    for (call, word, _, wanted), found in zip(steps, answers_of(sys.argv[1], [line for _, _, line, _ in steps])):
        if found != line_of(wanted):
            differ += 1
            print(f"{call.row['name']}\n  step   {word}\n  wanted {line_of(wanted)}\n  found  {found}")
    counts = {word: sum(word == it for _, it, _, _ in steps) for word in ("receives", "answers")}
    print(f"{counts['receives']} calls: {counts['answers']} have an answer; {len(steps) - differ} steps the same, {differ} differ")
    sys.exit(differ > 0)


if __name__ == "__main__":
    main()
