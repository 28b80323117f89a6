"""What each call of the library for C takes for the bytes that a stranger hands in: memory and instructions.

A family is a function from a size to what a call is given. It is measured at a size, at twice and at four times as
much.
"""
import collections
import math
import re
import shutil
import struct
import subprocess
import sys
import tempfile
from dataclasses import dataclass

from tools.models.binary import PREAMBLE, extern, label, section, vector
from tools.models.component import number

from . import texts
from .harness import Folder, driver

# the most bytes of memory for a byte that is given, and the most that memory and instructions may grow for twice that
BOUNDS = (64, 2.1, 2.1)
# how much a number may differ from one that is known
SLACK = 1.03
# bytes and instructions: what costs less is no measure of growth
LEAST_BYTES, LEAST = 8192, 200000
UNLIMITED = 1 << 32


@dataclass(frozen=True)
class Given:
    """What a call is given: a file, a second one, and a limit."""

    file: bytes
    other: bytes = b""
    limit: int = UNLIMITED


# ---- texts


def text(shape):
    """The text of a shape."""
    return lambda size: Given(shape(size).encode())


def flags(count):
    """Flags of 32 labels of 200 letters each."""
    labels = ",".join(f"l{n}" + "a" * 198 for n in range(32))
    return texts.interface("".join(f"flags {texts.label(n)}{{{labels}}}" for n in range(-(-count // 50))))


def enum(count):
    """An enum of so many cases."""
    return texts.interface("enum e{" + ",".join(map(texts.label, range(count))) + "}")


TEXTS = {
    "names": texts.TABLES["named"],
    "cases": enum,
    "long labels": flags,
    "functions": texts.TABLES["functions"],
    "lists within each other": texts.TABLES["nested"],
    "tuples": texts.TABLES["tuples"],
    "records": texts.records,
    "interfaces": texts.MEMORY["small interfaces"][0],
    "interfaces that use each other": texts.chain,
    "worlds": texts.MEMORY["worlds"][0],
    "a comment": lambda count: f"{texts.PACKAGE}interface c {{}}\n//" + "x" * 8 * count,
}


def is_refused(count):
    """A text that is refused at its end, with a long name."""
    return f"{texts.PACKAGE}interface c {{\n type t = {'a' * 100}-{'b' * 100};\n}}\n" + " " * count


def set_of(parts):
    """A set of texts, and their lengths."""
    inputs = [part.encode() for part in parts]
    return Given(b"".join(inputs), struct.pack(f"<{len(inputs)}Q", *map(len, inputs)))


SETS = {
    "packages": lambda count: set_of(f"package a:b{n}; interface c{{}}" for n in range(count)),
    "packages that use the one before": lambda count: set_of(
        f"package a:b{n}; interface c{{ use a:b{n - 1}/c.{{t}}; }}" if n else "package a:b0; interface c{ type t=u8; }"
        for n in range(count)),
    "files of one package": lambda count: set_of(f"package a:b; interface c{n}{{}}" for n in range(count)),
    "one package again and again": lambda count: set_of("package a:b; interface c{}" for _ in range(count)),
    "packages that are missing": lambda count: set_of(
        f"package a:b{n}; interface c{{ use z:z{n}/c.{{t}}; }}" for n in range(count)),
    "texts that are refused": lambda count: set_of(f"package a:b{n}; interface c{{ x }}" for n in range(count)),
    "empty texts": lambda count: set_of(" " for _ in range(count)),
}


# ---- binaries of other tools


def world(declarations, name="x:y/w"):
    """A component that exports one world."""
    scope = b"\x41" + vector([b"\x01\x41" + vector(declarations), b"\x04" + extern(name) + b"\x04\x00"])
    encoding = section(0, label("wit-component-encoding") + b"\x04\x00")
    types, exports = section(7, vector([scope])), section(11, vector([extern("w") + b"\x03\x00\x00"]))
    return PREAMBLE + encoding + types + exports


def instance(declarations):
    """An instance type."""
    return b"\x01\x42" + vector(declarations)


def imported(name="x:y/i", index=0):
    """An import of an instance."""
    return b"\x03" + extern(name) + b"\x05" + number(index)


def named(name, index):
    """A type that is exported."""
    return b"\x04" + extern(name) + b"\x03\x00" + number(index)


def function(name, index):
    """A function that is exported."""
    return b"\x04" + extern(name) + b"\x01" + number(index)


def binary(*declarations):
    """A world of these declarations."""
    return Given(world(declarations))


def doubled(count):
    """Tuples of two of the one before, so deep that their text has `count` elements."""
    deep = max(1, count.bit_length() - 1)
    tuples = [b"\x01\x6f" + vector([b"\x7d", b"\x7d"])]
    tuples += [b"\x01\x6f" + vector([number(n), number(n)]) for n in range(deep)]
    of = b"\x01\x40" + vector([label("a") + number(deep)]) + b"\x01\x00"
    return binary(instance([*tuples, of, function("f", deep + 1)]), imported())


def types(count):
    """Types of one interface."""
    made = [it for n in range(count) for it in (b"\x01\x7d", named(f"t{n}", 2 * n))]
    return binary(instance(made), imported())


MODULES = {
    "names": types,
    "cases": lambda count: binary(
        instance([b"\x01\x6d" + vector([label(f"c{n}") for n in range(count)]), named("t", 0)]), imported()),
    "functions": lambda count: binary(
        instance([b"\x01\x40\x00\x01\x00", *(function(f"f{n}", 0) for n in range(count))]), imported()),
    "packages": lambda count: binary(*[
        it for n in range(count) for it in (instance([b"\x01\x7d", named("t", 0)]), imported(f"x:p{n}/i", n))]),
    "one interface in many places": lambda count: binary(
        instance([b"\x01\x7d", named("t", 0)]), *[imported(f"x:y/i{n}") for n in range(count)]),
    "tuples of two of the one before": doubled,
}


# ---- values as JSON

LONG = "a" * 200
LONG_FLAGS = f"flags w {{ {','.join(f'l{n}{LONG}' for n in range(32))} }}"
# of each kind the items that its type names, the type, and an element as JSON
ELEMENTS = {
    "numbers": ("", "u8", "1"),
    "texts": ("", "string", '"t"'),
    "empty texts": ("", "string", '""'),
    "empty lists": ("", "list<u8>", "[]"),
    "records": ("record r { a: u8 }", "r", '{"a":1}'),
    "records of records": ("record q { a: u8 } record r { a: q } record s { a: r }", "s", '{"a":{"a":{"a":1}}}'),
    "cases": ("enum e { x, y }", "e", '"y"'),
    "options": ("", "option<u64>", '"none"'),
    "large records": (
        f"record r {{ {','.join(f'{texts.label(n)}: u64' for n in range(100))} }} variant v {{ p, q(r) }}", "v", '"p"'),
    "flags": ("flags w { a, b }", "w", "[]"),
    "flags with long labels": (LONG_FLAGS, "w", "[]"),
}


def values(items, element, value):
    """A list of so many values, as arguments."""
    wit = texts.of_lists(items, element).encode()
    return lambda count: Given(wit, ("[[" + ",".join([value] * count) + "]]").encode())


def wrong_values(items, element, value):
    """The same with an object at its end that nothing has."""
    wit = texts.of_lists(items, element).encode()
    return lambda count: Given(wit, ("[[" + ",".join([value] * count + ['{"no":1}']) + "]]").encode())


def long_text(count):
    """One text."""
    return Given(texts.of_lists("", "string").encode(), ('[["' + "x" * 4 * count + '"]]').encode())


JSON = {name: values(*of) for name, of in ELEMENTS.items()} | {"a long text": long_text}
WRONG_JSON = {name: wrong_values(*of) for name, of in ELEMENTS.items()}


# ---- memories


def memory(items, element, size, content):
    """A list of so many elements, each of these bytes, behind its address and length."""
    wit = texts.of_lists(items, element).encode()

    def made(count):
        data = struct.pack("<II", 8, count) + (content * count)[:size * count]
        return Given(wit, data.ljust(8 + size * count + 8, b"\0"), 64 * (8 + size * count))

    return made


def shared(depth):
    """Lists of so many levels, whose elements all lie at one address; the limit grows."""
    wit = texts.of_lists("", "list<" * depth + "u8" + ">" * depth).encode()
    return lambda count: Given(wit, struct.pack("<II", 0, 64) * 64, 16 * count)


MEMORIES = {
    "numbers": memory("", "u8", 1, b"\1"),
    "records": memory("record r { a: u8 }", "r", 1, b"\1"),
    "records of records": memory("record q { a: u8 } record r { a: q } record s { a: r }", "s", 1, b"\1"),
    "records of long labels": memory(f"record r {{ a{LONG}: u8 }}", "r", 1, b"\1"),
    "flags with long labels": memory(LONG_FLAGS, "w", 4, b"\xff" * 4),
    "no flags": memory("flags w { a, b }", "w", 1, b"\0"),
    "cases": memory("enum e { x, y }", "e", 1, b"\1"),
    "texts": memory("", "string", 8, struct.pack("<II", 0, 1)),
    "empty texts": memory("", "string", 8, bytes(8)),
    "empty lists": memory("", "list<u8>", 8, bytes(8)),
    "options": memory("", "option<u64>", 16, bytes(16)),
    "lists that share memory": shared(6),
}

OPENED = {name: text(shape) for name, shape in TEXTS.items()}
EXPLAINED = {name: lambda size, made=made: set_of([made(size).file.decode()]) for name, made in OPENED.items()}


def some(families, *names):
    """These of some families."""
    return {name: families[name] for name in names}


FEW_JSON = some(JSON, "texts", "records", "records of records", "flags with long labels")
FEW_MEMORIES = some(
    MEMORIES, "records", "records of records", "flags with long labels", "texts", "lists that share memory")
CALLS = {
    "open": OPENED,
    "open_set": SETS,
    "open_module": MODULES,
    "explain": EXPLAINED | SETS,
    "line": {"a long name": text(is_refused)},
    "to_binary": OPENED,
    "to_text": OPENED,
    "describe": OPENED,
    "json_requests": JSON,
    "fill_json": JSON,
    "json_fault": WRONG_JSON,
    "result_json_requests": FEW_JSON,
    "fill_result_json": FEW_JSON,
    "read_json": MEMORIES,
    "read_arguments_json": FEW_MEMORIES,
    "enter_requests": MEMORIES,
    "leave_requests": FEW_MEMORIES,
    "enter": MEMORIES,
    "leave": FEW_MEMORIES,
}
# The sizes: of sets fewer, of which 64 packages may be opened.
SIZE = 250
SIZES = {("explain", name): 100 for name in SETS} | {("open_set", name): 16 for name in SETS} | {
    ("open_module", "packages"): 14}


# ---- measuring


@dataclass(frozen=True)
class Cost:
    """What a call took: its status, the bytes that it was given, the most bytes held, and its instructions."""

    code: int
    number: int
    base: int
    held: int
    count: int
    instructions: int


class Measurer:
    """Runs the driver, alone for memory and under callgrind for instructions."""

    def __init__(self, folder, library):
        self.folder, self.program = folder, driver(folder, library, "amplified")

    def line(self, call, given):
        """A line for the driver."""
        file = self.folder.keep(given.file)
        other = self.folder.keep(given.other) if given.other else "-"
        return f"{call}\t{file}\t{other}\t{given.limit}\n"

    def run(self, words, lines):
        """What the driver prints."""
        ran = subprocess.run([*words, self.program], input="".join(lines), capture_output=True, text=True, check=False)
        if ran.returncode:
            sys.exit(f"status {ran.returncode}: {ran.stderr[-500:]}")
        return [list(map(int, line.split())) for line in ran.stdout.splitlines()]

    def instructions(self, lines):
        """The instructions of each line's call."""
        dumps = self.folder.path / "dumps"
        dumps.mkdir()
        words = ["valgrind", "--quiet", "--tool=callgrind", "--collect-atstart=no",
                 f"--callgrind-out-file={dumps}/dump"]
        self.run(words, lines)
        found = [int(re.search(r"^totals: (\d+)", (dumps / f"dump.{n + 1}").read_text(), re.M)[1])
                 for n in range(len(lines))]
        shutil.rmtree(dumps)
        return found

    def costs(self, asked):
        """The costs of these calls, each a name and what it is given."""
        lines = [self.line(call, given) for call, given in asked]
        return [Cost(*told, count) for told, count in zip(self.run([], lines), self.instructions(lines))]


# ---- what is known


# What misses a bound today, each with the most that it may take: the memory for a byte, the growth of memory, and that
# of instructions.
KNOWN = {
    ("open_set", "packages"): (15.5, 2.03, 2.67),
    ("open_set", "packages that use the one before"): (34.7, 1.97, 4.38),
    ("open_module", "packages"): (63.2, 2.08, 2.59),
    ("explain", "packages that use the one before"): (217.6, 1.20, 1.38),
    ("explain", "empty texts"): (87.1, 1.99, 2.02),
    ("json_requests", "records"): (138.4, 2.00, 1.97),
    ("json_requests", "records of records"): (159.4, 2.00, 2.03),
    ("fill_json", "records"): (138.4, 2.00, 1.93),
    ("fill_json", "records of records"): (159.4, 2.00, 2.00),
    ("json_fault", "records"): (138.2, 2.00, 1.97),
    ("json_fault", "records of records"): (159.4, 2.00, 2.02),
    ("result_json_requests", "records"): (138.3, 2.00, 1.98),
    ("result_json_requests", "records of records"): (159.4, 2.00, 2.03),
    ("fill_result_json", "records"): (138.4, 2.00, 1.93),
    ("fill_result_json", "records of records"): (159.4, 2.00, 2.00),
    ("read_json", "records"): (139.4, 2.00, 1.99),
    ("read_json", "records of records"): (161.0, 2.00, 2.05),
    ("read_arguments_json", "records"): (139.4, 2.00, 1.99),
    ("read_arguments_json", "records of records"): (161.0, 2.00, 2.04),
}


def grew(costs, of, least):
    """How much a cost grew for twice the bytes given, by the first and the last; 0 if it is too small to measure."""
    first, last = costs[0], costs[-1]
    if of(first) < least:
        return 0.0
    given = last.base / first.base
    return 2 * (of(last) / of(first) / given) ** (1 / math.log2(given))


@dataclass(frozen=True)
class Measured:
    """What a family of a call took at its three sizes."""

    call: str
    family: str
    costs: list

    def numbers(self):
        """The most memory for a byte, the growth of memory, and that of instructions."""
        held = max(cost.held / cost.base for cost in self.costs)
        memory_growth = grew(self.costs, lambda cost: cost.held, LEAST_BYTES)
        return held, memory_growth, grew(self.costs, lambda cost: cost.instructions, LEAST)

    def each(self):
        """The instructions for a byte of the last."""
        return self.costs[-1].instructions / self.costs[-1].base

    def misses(self):
        """Whether it misses a bound."""
        return any(number > bound for number, bound in zip(self.numbers(), BOUNDS))

    def is_worse(self):
        """Whether it misses a bound by more than is known."""
        known = KNOWN.get((self.call, self.family), (0, 0, 0))
        limits = (bound if most <= bound else most * SLACK for most, bound in zip(known, BOUNDS))
        return any(number > limit for number, limit in zip(self.numbers(), limits))

    def told(self):
        """A line of numbers."""
        held, memory_growth, growth = self.numbers()
        last = self.costs[-1]
        return (f"{self.call:22} {self.family:34} {last.base:9} {held:8.1f} {memory_growth:5.2f} {growth:5.2f} "
                f"{self.each():9.1f}  {last.code} {last.number}")


def measured(library):
    """What each family of each call takes."""
    asked = []
    for call, families in CALLS.items():
        for family, made in families.items():
            size = SIZES.get((call, family), SIZE)
            asked += [(call, family, made(n * size)) for n in (1, 2, 4)]
    with tempfile.TemporaryDirectory() as path:
        costs = Measurer(Folder(path), library).costs([(call, given) for call, _, given in asked])
    found = collections.defaultdict(list)
    for (call, family, _), cost in zip(asked, costs):
        found[call, family].append(cost)
    return [Measured(call, family, costs) for (call, family), costs in found.items()]


def most_of_calls(found):
    """Prints for each call the most memory for a byte and the most instructions for one, each with its family."""
    for call in CALLS:
        those = [it for it in found if it.call == call]
        held, time = (max(those, key=of) for of in (lambda it: it.numbers()[0], Measured.each))
        print(f"| `witcall_{call}` | {held.numbers()[0]:.1f}, {held.family} | {time.each():.0f}, {time.family} |")


def amplification(given):
    """Measures each call of the library on families of inputs, at a size, at twice and at four times as much.

    A line has the bytes given, the most memory for one of them, how memory and instructions grew for twice as many, and
    the instructions for a byte. A call may take 64 times its bytes, and 2.1 times as much for twice as many. What
    misses that today is known (KNOWN), and may not get worse.
    """
    found = measured(given.library)
    worse = [it for it in found if it.is_worse()]
    open_ones = [it for it in found if it.misses() and it not in worse]
    if not given.brief:
        print("call, family, bytes, memory for a byte, growth of memory and of instructions, instructions for a byte")
        print("\n".join(it.told() for it in found))
        most_of_calls(found)
    for word, those in (("WRONG", worse), ("known and open", open_ones)):
        for it in those:
            numbers = ", ".join(f"{number:.2f}" for number in it.numbers())
            print(f"{word}: {it.call}, {it.family}: memory for a byte, growth of it and of instructions: {numbers}")
    for call, family in KNOWN:
        if not any((it.call, it.family) == (call, family) and it.misses() for it in found):
            print(f"mended, so take it from KNOWN: {call}, {family}")
    told = f"{len(open_ones)} misses are known and open, {len(worse)} are new"
    print(f"{len(found)} families of {len(CALLS)} calls: {told}")
    return not worse
