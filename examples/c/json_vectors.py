#!/usr/bin/env python3
"""Takes the stored steps over a host's memory, with values as texts of JSON, and compares the answers.

usage: examples/c/json_vectors.py PROGRAM [room] [blocks]

The rows are those of crates/vectors that have `host` (docs/FORMATS.md, "Rows of a host's memory"). PROGRAM is
examples/c/json_vectors.c, built, or one that takes the same lines. An answer has to be the stored one to the byte.
Steps that can't be taken are left out:

  answer asks  those whose list has not just the one value of the result, which no text says
  room         if PROGRAM always has room for 17 core values: the steps that say another room
  blocks       if PROGRAM's blocks are always those that are asked for: the steps with other blocks, and with more

The exit status is 1 where an answer differs.
"""
import collections
import json
import pathlib
import subprocess
import sys

ROOT = pathlib.Path(__file__).resolve().parent.parent.parent
sys.path.insert(0, str(ROOT))
sys.dont_write_bytecode = True
from tools.models.calls import line_of, package_of  # noqa: E402
from tools.models.hosts import MOST_VALUES, Host  # noqa: E402

VECTORS = ROOT / "crates/vectors"
LACKS = {"room", "blocks"}


def rows():
    """The rows of a host's memory, each with its answers."""
    files = ((VECTORS / name).read_text(encoding="utf-8").strip().split("\n") for name in ("stdin", "stdout"))
    for row, answer in zip(*(map(json.loads, lines) for lines in files)):
        if "host" in row:
            yield row, answer["answers"]


# ---- the program's lines: words between spaces, "-" for nothing


def text_of(json_value):
    """A text of JSON, which a step says as values or as it is."""
    return json_value if isinstance(json_value, str) else line_of(json_value)


def hex_of(text):
    return text.encode().hex() or "-"


def listed(parts):
    """Lists of words, as one word."""
    return ",".join(":".join(map(str, part)) for part in parts) or "-"


def step_line(step):
    word, given, *rest = step
    if word == "asks":
        return f"asks {hex_of(text_of(given))}"
    if word == "answer asks":
        return f"answer-asks {hex_of(''.join(map(line_of, given)))}"
    if word == "fills":
        blocks, room = [*rest, MOST_VALUES][:2]
        return f"fills {hex_of(text_of(given))} {listed(blocks)} {room}"
    return f"reads {listed(given)} {rest[0] if rest else '-'}"


def line_for(row, step):
    package = row["binary"] if "binary" in row else hex_of(row["text"])
    return f"{package} {row['iface']} {row['func']} {row['callee'] or '-'} {row['lens'][1]} {step_line(step)}\n"


# ---- what is left out


def has_other_blocks(row, step):
    """Whether the blocks of a step are not the first of those that its arguments ask for."""
    asked = Host(row).asks(step[1]).get("asks")
    found = [tuple(block[:2]) for block in step[2]]
    return asked is not None and found != [tuple(request) for request in asked[: len(found)]]


def is_one_text(row, values):
    """Whether a text says the values of a result: that of one value, or no bytes where there is no result."""
    has_result = package_of(row).function(row["iface"], row["func"]).result is not None
    return isinstance(values, list) and (len(values) == 1 or not values and not has_result)


def left_out(row, step, lacks):
    """Why a step is left out, or None."""
    word = step[0]
    if word == "answer asks" and not is_one_text(row, step[1]):
        return "a list that has not just the value of the result"
    if word == "fills" and "room" in lacks and step[3:] not in ([], [MOST_VALUES]):
        return "another room"
    if word == "fills" and "blocks" in lacks and has_other_blocks(row, step):
        return "other blocks"
    return None


# ---- comparing


def answers_of(program, lines):
    """What the program answers."""
    ran = subprocess.run([program], input="".join(lines), capture_output=True, encoding="utf-8")
    answers = ran.stdout.split("\n")[:-1]
    if ran.returncode or len(answers) != len(lines) or ran.stderr:
        sys.exit(f"{program}: status {ran.returncode}, {len(answers)} answers\n{ran.stderr}")
    return answers


def main():
    program, *lacks = sys.argv[1:] or sys.exit(__doc__)
    if not set(lacks) <= LACKS:
        sys.exit(__doc__)
    steps = [(row, step, answer) for row, answers in rows() for step, answer in zip(row["host"], answers)]
    reasons = [left_out(row, step, lacks) for row, step, _ in steps]
    taken = [step for step, reason in zip(steps, reasons) if reason is None]
    found = answers_of(program, [line_for(row, step) for row, step, _ in taken])
    differ = 0
    for (row, step, answer), told in zip(taken, found):
        if told != line_of(answer):
            differ += 1
            print(f"{row['name']}\n  step   {line_of(step)}\n  wanted {line_of(answer)}\n  found  {told}")
    names = [{row["name"] for row, *_ in some} for some in (taken, steps)]
    print(f"{len(names[0])} of {len(names[1])} rows: {len(taken) - differ} steps the same, {differ} differ")
    for reason, count in collections.Counter(filter(None, reasons)).items():
        print(f"left out: {count} steps, {reason}")
    sys.exit(differ > 0)


if __name__ == "__main__":
    main()
