#!/usr/bin/env python3
"""Takes steps over a host's memory that are said on standard input, one a line, and tells what each
did, one a line.

The lines are those of examples/c/json_vectors.c, so that examples/c/json_vectors.py compares what
they do with the stored answers of crates/vectors.

usage: examples/c/json_vectors.py bindings/python/tests/json_vectors.py room blocks
"""

import json
import pathlib
import sys

sys.path.insert(0, str(pathlib.Path(__file__).resolve().parent.parent))
sys.dont_write_bytecode = True
import witcall  # noqa: E402

from tests.vectors import NO_LIMIT, bytes_of, parts_of, values_of  # noqa: E402

# What a place for a core value has before one is put there.
UNSET = ["i64", 2**64 - 1]


def error_told(error):
    """Why nothing was done, as a member."""
    return {"trap" if isinstance(error, witcall.Trap) else "refused": error.line}


def handed_told(values, kinds):
    """The core values up to the last that was put."""
    found = [[kind, number] for kind, number in zip(kinds, values)]
    while found and found[-1] == UNSET:
        found.pop()
    return found


class Host:
    """The function of a step, and the bytes that its memory begins with."""

    def __init__(self, package, words):
        interface, name, front, length = words
        self.package = package
        self.function = package.find(interface, name)
        self.data = bytearray(bytes_of(front).ljust(int(length), b"\0"))

    def filled(self, text, allocate):
        """Puts arguments into the memory: the core values."""
        memory = witcall.ArrayMemory(self.data, allocate)
        self.data = memory.data
        return witcall.fill(self.package, self.function, text, memory, NO_LIMIT)

    def asked(self, put):
        """The blocks that an allocator is asked for, which has room for all at the same place."""
        asked = []

        def allocate(alignment, size):
            asked.append([alignment, size])
            return 0

        try:
            put(allocate)
        except witcall.WitcallError as error:
            return {"asks": asked} if asked else error_told(error)
        return {"asks": asked}

    def asks(self, given):
        """The blocks that arguments ask for."""
        return self.asked(lambda allocate: self.filled(bytes_of(given).decode(), allocate))

    def answer_asks(self, given):
        """The blocks that a result asks for, in a memory with room where its call has zeros."""
        text, flats = bytes_of(given).decode(), [0] * len(self.function.lowered.parameters)

        def put(allocate):
            memory = witcall.ArrayMemory(1 << 20, allocate)
            witcall.answer(self.package, self.function, flats, text, memory, NO_LIMIT)

        return self.asked(put)

    def fills(self, given, blocks, _room):
        """What is put into the blocks."""
        places = (int(block.split(":")[2]) for block in parts_of(blocks))
        handed = ()
        try:
            handed = self.filled(bytes_of(given).decode(), lambda *_: next(places, None))
            told = {"filled": len(handed)}
        except witcall.WitcallError as error:
            told = error_told(error)
        told["handed"] = handed_told(handed, self.function.lifted.parameters)
        return {**told, "memory": self.data.rstrip(b"\0").hex()}

    def reads(self, answer, limit):
        """The text of the result, or why there is none."""
        most = NO_LIMIT if limit == "-" else int(limit)
        before = bytes(self.data)
        try:
            text = witcall.read(self.package, self.function, values_of(answer), self.data, most)
        except witcall.WitcallError as error:
            return error_told(error)
        assert self.data == before
        return "nothing" if text is None else text


def line_of(told):
    """A step's answer as a line. What is read is a text of JSON already."""
    if isinstance(told, str):
        return '"nothing"' if told == "nothing" else f'{{"read":{told}}}'
    return json.dumps(told, separators=(",", ":"))


def main():
    sys.stdout.reconfigure(encoding="utf-8")
    for line in sys.stdin:
        package_bytes, *words = line.rstrip("\n").split(" ")
        with witcall.open(bytes_of(package_bytes)) as package:
            step, *given = words[4:]
            told = getattr(Host(package, words[:4]), step.replace("-", "_"))(*given)
        print(line_of(told))


if __name__ == "__main__":
    main()
