#!/usr/bin/env python3
"""Makes random calls by two programs, and compares what they do: core values, blocks, and all bytes of both memories.

usage: examples/c/random_calls.py BY-HAND LINKED [N]      N calls each way, 2,000 if it is not given

BY-HAND is examples/c/vectors.c, built, which makes the halves itself. LINKED is examples/c/linked_vectors.c, built,
which makes the same calls through witcall_call.h. The calls are those of tools/models/random_calls.py with a seed of
their own: of random packages, whose values are right, or in which one thing or another is wrong. Every third memory
grows if its allocator has no room. Each call is made in three ways, which examples/c/calls.h says.

It prints how the calls of each way ended, and each one that differs; the exit status is 1 then.
"""
import collections
import itertools
import pathlib
import subprocess
import sys

ROOT = pathlib.Path(__file__).resolve().parent.parent.parent
sys.path.insert(0, str(ROOT))
sys.dont_write_bytecode = True
from tools.models.random_calls import Source, calls  # noqa: E402
from vectors import line_of  # noqa: E402

SEED = "linked"
COUNT = 2000
# the ways, each with the word of the programs
WAYS = {"between two guests": [], "of a guest, with JSON": ["export"], "of the host, with JSON": ["import"]}
# of the words of a line: the allocators of caller and callee
ALLOCATORS = (5, 7)
# of the words of an answer: the requests of caller and callee
REQUESTS = (4, 6)
# WITCALL_FEW_BLOCKS
FEW_BLOCKS = 32


class Long(Source):
    """Random calls whose lists may be longer, so that a half has more blocks than witcall_call.h keeps on the stack."""

    LENGTHS, ROOM = [0, 1, 2, 3, 12], 600


def growing(number, line):
    """The line of a call, in which every third memory grows."""
    words = line.split(" ")
    for place in ALLOCATORS:
        if (number + place) % 3 == 0 and words[place].startswith("top:"):
            words[place] = words[place].replace("top:", "grows:")
    return " ".join(words)


def lines(count):
    """The lines of random calls."""
    return [growing(number, line_of(call, {"body_got": None})) for number, call in enumerate(calls(count, SEED, Long))]


def answers_of(program, words, given):
    """What a program answers."""
    ran = subprocess.run([program, *words], input="".join(given), capture_output=True, encoding="utf-8")
    answers = ran.stdout.splitlines()
    if ran.returncode or len(answers) != len(given) or ran.stderr:
        sys.exit(f"{program}: status {ran.returncode}, {len(answers)} answers\n{ran.stderr}")
    return answers


def ending(answer):
    """How a call ended: done, a trap in a step, or refused by a number."""
    word = answer.split(" ")[0]
    kind, _, rest = word.partition(":")
    return "done" if kind == "ok" else f"{rest.split(':')[1]}" if kind == "trap" else rest


def has_many_blocks(answer):
    """Whether a half asked for more blocks than witcall_call.h has in an array of its own."""
    words = answer.split(" ")
    return any(len(words[place].split(",")) > FEW_BLOCKS for place in REQUESTS)


def compared(way, given, found):
    """Prints what the two programs do in one way; how many calls differ."""
    different = [it for it in zip(given, *found) if it[1] != it[2]]
    for line, by_hand, linked in different:
        print(f"{way}\n  call    {line}  by hand {by_hand}\n  linked  {linked}")
    counts = sorted(collections.Counter(map(ending, found[0])).items(), key=lambda it: (-it[1], it[0]))
    print(f"{len(given)} calls {way}, {len(different)} differ: {', '.join(f'{count} {end}' for end, count in counts)}")
    return len(different)


def main():
    by_hand, linked, *count = sys.argv[1:] if 3 <= len(sys.argv) <= 4 else sys.exit(__doc__)
    given = lines(int(*count) if count else COUNT)
    differ = many = 0
    for way, words in WAYS.items():
        found = [answers_of(program, words, given) for program in (by_hand, linked)]
        differ += compared(way, given, found)
        many += sum(map(has_many_blocks, found[0]))
    grows = sum("grows:" in line for line in given)
    print(f"{grows} calls over a memory that may grow, {many} with more than {FEW_BLOCKS} blocks in a half")
    sys.exit(differ > 0 or not many)


if __name__ == "__main__":
    main()
