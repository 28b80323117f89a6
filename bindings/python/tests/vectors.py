#!/usr/bin/env python3
"""Makes calls that are said on standard input, one a line, and tells what each did, one a line.

The lines are those of examples/c/vectors.c, so that examples/c/vectors.py compares what they do
with the stored answers of crates/vectors.

usage: examples/c/vectors.py bindings/python/tests/vectors.py
"""

import pathlib
import sys

sys.path.insert(0, str(pathlib.Path(__file__).resolve().parent.parent))
sys.dont_write_bytecode = True
import witcall  # noqa: E402

import tests  # noqa: E402, F401

# The stored calls are made without a limit.
NO_LIMIT = 2**64 - 1


def parts_of(word):
    return [] if word == "-" else word.split(",")


def bytes_of(word):
    return bytes.fromhex("" if word == "-" else word)


def values_of(word):
    found = (part.split(":") for part in parts_of(word))
    return [witcall.CoreValue(kind, int(number) % 2 ** int(kind[1:])) for kind, number in found]


def flats_line(values, kinds):
    return ",".join(f"{kind}:{number}" for kind, number in zip(kinds, values)) or "-"


class LoggedMemory(witcall.ArrayMemory):
    """A memory whose allocator grants above a top or gives answers in turn, with a log of both."""

    def __init__(self, data, allocator):
        super().__init__(bytearray(bytes_of(data)))
        kind, _, words = allocator.partition(":")
        self.script = parts_of(words) if kind == "script" else None
        self._top = 0 if self.script is not None else int(words)
        self.log = []

    def allocate(self, alignment, size):
        if self.script is None:
            address = super().allocate(alignment, size)
        else:
            word = self.script.pop(0) if self.script else "none"
            address = None if word == "none" else int(word)
        self.log.append(f"{alignment}:{size}:{'none' if address is None else address}")
        return address

    def line(self):
        return f"{self.data.hex() or '-'} {','.join(self.log) or '-'}"


class Core:
    """A core function that logs what it got, writes bytes, and answers or stops."""

    def __init__(self, answer, stops, write=lambda: None):
        self.answer, self.stops, self.write, self.got = answer, stops, write, None

    def __call__(self, *values):
        self.got = values
        self.write()
        if self.stops:
            raise witcall.Stopped
        return self.answer

    def line(self, kinds):
        if self.got is None:
            return "none"
        values = (it.bits if isinstance(it, witcall.CoreValue) else it for it in self.got)
        return flats_line(values, kinds)


class StoredFunction:
    """A function that is called, and what its body does."""

    def __init__(self, name, flats, answer, stop="no"):
        self.name, self.flats = name, values_of(flats)
        self.body = Core(values_of(answer), stop == "body")
        self.post = Core(None, stop == "post")
        self.signature = witcall.CoreSignature((), ())

    def made(self, package, interface, sides):
        """Makes the call, and tells its core values as a line."""
        full_name = f"{interface}#{self.name}"
        bodies = {full_name: self.body, f"cabi_post_{full_name}": self.post}
        imports = witcall.link(package, *sides, bodies, limit=NO_LIMIT)
        function = package.find(interface, self.name)
        self.signature = function.lifted
        back = imports[full_name](*self.flats)
        return flats_line([] if back is None else [back], function.lowered.results)

    def told(self, package, interface, sides):
        """Makes the call, and tells how it ended and what the body and the post-return got."""
        outcome = outcome_of(lambda: f"ok:{self.made(package, interface, sides)}")
        body = self.body.line(self.signature.parameters)
        return f"{outcome} {body} {self.post.line(self.signature.results)}"


def outcome_of(run):
    try:
        return run()
    except witcall.Trap as trap:
        return f"trap:K{trap.number}:{trap.step}"
    except witcall.Refused as error:
        return f"refused:{error.number}"


class StoredCall:
    """A call of a line, and the one after it, if there is one."""

    def __init__(self, line):
        words = line.split(" ")
        self.package, self.interface = bytes_of(words[0]), words[1]
        self.sides = LoggedMemory(*words[4:6]), LoggedMemory(*words[6:8])
        self.functions = [StoredFunction(*words[2:4], *words[8:10])]
        place, _, digits = words[10].partition(":")
        if digits:
            self.functions[0].body.write = lambda: self.write(int(place), bytes_of(digits))
        if words[11] != "-":
            self.functions.append(StoredFunction(*words[11:14]))

    def write(self, place, data):
        self.sides[1].data[place : place + len(data)] = data

    def runs(self):
        """What is told of each call."""
        with witcall.open(self.package) as package:
            return [it.told(package, self.interface, self.sides) for it in self.functions]

    def line(self):
        try:
            first, *after = self.runs()
        except witcall.Refused as error:
            first, after = f"refused:{error.number} none none", []
        return " ".join([first, *(it.line() for it in self.sides), *after])


def main():
    for line in sys.stdin:
        print(StoredCall(line.rstrip("\n")).line())


if __name__ == "__main__":
    main()
