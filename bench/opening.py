"""The opening of packages beside wit-parser, the reader of WIT that wasm-tools and wasmtime use.

wit-parser is the one in `wasm-component-ld` of the Rust toolchain, which reads a text as a component's type
(--component-type) and writes a component without code; a stub stands for the linker that it calls.
"""
import pathlib
import resource
import subprocess
import sys

import writer

sys.path.insert(0, str(pathlib.Path(__file__).resolve().parent.parent))

from tools.measure import times  # noqa: E402
from tools.measure.harness import Cost, Folder, Starter, millions, milliseconds  # noqa: E402
from tools.measure.texts import PACKAGE, each, interface, label  # noqa: E402

LENGTHS = {"10 KB": 10000, "100 KB": 100000, "1 MB": 1000000}
MEMBERS = 10
ABSENT = ["a:b/none", "none", "[]", "[]"]
# of these many runs the least counts; what has taken so many milliseconds isn't run again
OPENING, ENOUGH = Cost(milliseconds, "ms", 300), 3000
# a module without anything, and a linker that writes it
MODULE = b"\0asm\x01\0\0\0"
LINKER = """#!/bin/sh
while [ "$1" != -o ]; do shift; done
cp "$(dirname "$0")/empty.module" "$2"
"""


def component_ld():
    """The linker of components that the Rust toolchain has."""
    root = subprocess.run(["rustc", "--print", "sysroot"], capture_output=True, text=True, check=True).stdout.strip()
    found = sorted(pathlib.Path(root).glob("lib/rustlib/*/bin/wasm-component-ld"))
    if not found:
        sys.exit("bench/run.py: the Rust toolchain has no wasm-component-ld")
    return found[0]


class Peer:
    """Has wit-parser read texts."""

    def __init__(self, folder):
        self.folder = folder
        (folder / "empty.module").write_bytes(MODULE)
        (folder / "linker").write_text(LINKER)
        (folder / "linker").chmod(0o755)

    def reads(self, name, text):
        """The command that reads a text, which has a world for it."""
        path = self.folder / f"{name} in a world.wit"
        path.write_text(text + "world w {\n}\n")
        words = [component_ld(), "--wasm-ld-path", self.folder / "linker", "--wasi-adapter", "none"]
        return [*words, "-o", self.folder / "out.wasm", "--component-type", path, self.folder / "empty.module"]


def opens(program, *files):
    """The command that opens a package behind others, and calls a function that it doesn't have."""
    return [program, "call", *times.behind(files), *ABSENT]


def stop_unless_done(words):
    """Stops where a run doesn't end as it has to: a call of a function that isn't there is refused."""
    ran = subprocess.run(words, stdout=subprocess.DEVNULL, stderr=subprocess.DEVNULL, check=False)
    if ran.returncode != int(words[-len(ABSENT):] == ABSENT):
        sys.exit(f"bench/run.py: status {ran.returncode} of {' '.join(map(str, words))}")


def written(program, text):
    """The path of a text's binary."""
    path = text.with_suffix(".wasm")
    with open(path, "wb") as file:
        subprocess.run([program, "bin", text], stdout=file, check=True)
    return path


# ---- times


def measured(program, folder):
    """What is timed: the program's commands, by what they do, and wit-parser's, by the length of the text."""
    kept, peer = Folder(folder), Peer(folder)
    texts = {"empty": PACKAGE} | {told: writer.text_of(length) for told, length in LENGTHS.items()}
    paths = {told: kept.keep(text, f"{told}.wit") for told, text in texts.items()}
    members = [kept.keep(writer.text_of(LENGTHS["100 KB"], f"a:p{number}")) for number in range(MEMBERS)]
    ours = {told: opens(program, path) for told, path in paths.items()}
    ours["bin"] = [program, "bin", paths["1 MB"]]
    ours["binary"] = opens(program, written(program, paths["1 MB"]))
    ours["set"] = opens(program, *members)
    return ours, {told: peer.reads(told, text) for told, text in texts.items()}


def beyond_empty(commands, costs):
    """What each costs beyond the first, which has nothing to do."""
    nothing, *rest = costs
    return dict(zip([*commands][1:], [cost - nothing for cost in rest]))


def times_table(program, folder):
    """The times of a program beside those of wit-parser, taken in turn."""
    ours, peers = measured(program, folder)
    commands = [*ours.values(), *peers.values()]
    for words in commands:
        stop_unless_done(words)
    costs = OPENING.least(commands, ENOUGH)
    mine, parser = beyond_empty(ours, costs[:len(ours)]), beyond_empty(peers, costs[len(ours):])
    rows = [(f"a text of {told}, beside wit-parser", mine[told], parser[told], "0.25") for told in LENGTHS]
    rows.append(("`bin` of 1 MB, beside wit-parser's reading", mine["bin"], parser["1 MB"], "0.7"))
    rows.append(("the binary of 1 MB, beside wit-parser's reading", mine["binary"], parser["1 MB"], "0.25"))
    rows.append(("ten packages of 100 KB, beside one text of 1 MB", mine["set"], mine["1 MB"], "1.2"))
    return ["| | witcall | beside it | ratio | target |", "|---|---|---|---|---|",
            *(f"| {told} | {time:.2f} | {beside:.2f} | {time / beside:.2f} | {wanted} |"
              for told, time, beside, wanted in rows)]


# ---- shapes


def in_turn(entry, count, start=0):
    """A package of these entries, behind an interface that has a type."""
    return f"{PACKAGE}interface {label(start - 1)} {{ type t = u8; }}\n" + each(entry, count, start)


def worlds(count, imported=25):
    """Worlds that import a score of interfaces and export two more."""
    uses = "".join(f"import {label(n)};" for n in range(imported - 2)) + f"export {label(30)};export {label(31)};"
    head = PACKAGE + each("interface {0} {{ type t = u8; f: func(x: t) -> t; }}\n", 32)
    return head + "".join(f"world w{n} {{ {uses} export run: func(); }}\n" for n in range(count))


def family(count):
    """So many packages of 1 MB together, each of which uses a type of the one before."""
    used = "interface used {{ type t = u8; }}\ninterface using {{ use a:p{0}/used.{{t as u}}; }}\n"
    bodies = [writer.text_of(LENGTHS["1 MB"] // count, f"a:p{number}") for number in range(count)]
    return [text + used.format(number - 1) if number else text + used.partition("\n")[0].format() + "\n"
            for number, text in enumerate(bodies)]


FUNCTION = "call-{0}: func(name: string, size: u32, at: option<u64>, tags: list<string>) -> result<list<u8>, string>;\n"
RECORD = "record {0} {{ name: string, size: u32, at: option<u64>, tags: list<string> }}\n"
# of each shape the texts of its packages: a megabyte, or as much as the limits allow
SHAPES = {
    "mixed": lambda: [writer.text_of(LENGTHS["1 MB"])],
    "functions": lambda: [interface(each(FUNCTION, 8000))],
    "records": lambda: [interface(each(RECORD, 13000))],
    "small interfaces": lambda: [in_turn("interface {0} {{ type t = u8; f: func(x: t) -> string; }}\n", 12730, 1)],
    "a chain": lambda: [in_turn("interface {0} {{ use {1}.{{t}}; }}\n", 12730, 1)],
    "a chain, reversed": lambda: [PACKAGE + each("interface {0} {{ use {2}.{{t}}; }}\n", 12730)
                                  + f"interface {label(12730)} {{ type t = u8; }}\n"],
    "types of types": lambda: [interface(f"type {label(0)} = u8;\n" + each("type {0} = {1};\n", 40000, 1))],
    "worlds": lambda: [worlds(1965)],
    "comments": lambda: [interface(each("/// What {0} is, and what it is for.\ntype {0} = u8;\n", 17000))],
    "a set of 10": lambda: family(10),
    "a set of 64": lambda: family(64),
}


def faults(words):
    """The page faults of one run."""
    before = resource.getrusage(resource.RUSAGE_CHILDREN).ru_minflt
    subprocess.run(words, stdout=subprocess.DEVNULL, stderr=subprocess.DEVNULL, check=False)
    return resource.getrusage(resource.RUSAGE_CHILDREN).ru_minflt - before


COSTS = (Cost(millions, "M", 1), Cost(milliseconds, "ms", 9), Cost(faults, "faults", 3))


class Shapes:
    """Measures a program on shapes, and what wit-parser does with the same texts."""

    def __init__(self, program, folder):
        self.program, self.kept = program, Folder(folder)
        self.peer, self.starter = Peer(self.kept.path), Starter(self.kept)
        self.empty = opens(program, self.kept.keep(PACKAGE, "empty.wit"))
        self.empty_peer = self.peer.reads("empty", PACKAGE)

    def cells(self, files, beside):
        """Of a package behind others: its bytes, what its opening costs beyond that of an empty one, and how many times
        its bytes its most memory is. `beside` is what wit-parser needs for it, if it is known."""
        words, size = opens(self.program, *files), sum(file.stat().st_size for file in files)
        stop_unless_done(words)
        found, time, pages = (cost.beyond(self.empty, [words])[0] for cost in COSTS)
        _, _, most = self.starter.run(words)
        of_peer = f"{found / beside:.2f}" if beside else ""
        return [f"{size // 1000}", f"{found:.1f}", of_peer, f"{time:.1f}", f"{pages:,}", f"{most * 1024 / size:.1f}"]

    def row(self, name):
        """The row of a shape: its text, and its binary if it is one package."""
        texts = SHAPES[name]()
        paths = [self.kept.keep(text, f"text{number}.wit") for number, text in enumerate(texts)]
        if len(texts) > 1:
            cells = self.cells(paths, None)
        else:
            beside, = COSTS[0].beyond(self.empty_peer, [self.peer.reads("shape", *texts)])
            cells = self.cells(paths, beside) + self.cells([written(self.program, *paths)], beside)
        return f"| {name} | {' | '.join(cells)} |{' |' * (12 - len(cells))}"


def shapes_table(program, folder, names):
    """What the opening of each shape costs, as a text and as a binary."""
    shapes = Shapes(program, folder)
    head = "KB | million instructions | beside wit-parser | ms | page faults | memory / bytes"
    rows = [shapes.row(name) for name in names or SHAPES]
    return [f"| text of | {head} | binary: {head} |", "|---" * 13 + "|", *rows]
