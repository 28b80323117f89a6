"""Rows and commands that are asked while one of the allocations that they make is refused: the first, the second, and
so on."""
import collections
import json
import re
import sys
import tempfile
import time

from tools.repository import ROOT

from .harness import Counter, Folder

# the program that answers rows
ROWS = ROOT / "crates/vectors/out/vectors"
PLAIN = "memory allocation failed"
# What the programs that answer rows tell of themselves: of the allocator, of their files, of their JSON and of what
# they keep; and the library of an output that is kept in memory and can't grow.
OWN = [PLAIN, "Out of memory", "out of memory", "no memory", 66, "error 65 write"]
STOPPED = "trap K7 body in body"
OPENED, OPENED_BINARY = [35, 46, 52], [21, 46, 52]
TEXT = (
    "package a:b@1.0.0; interface c { record r { a: u8, b: list<string> } variant v { p, q(r) } "
    "f: func(x: r, y: option<v>) -> result<r>; } interface d { use c.{r as a-record-of-an-interface-before}; "
    "g: func(x: a-record-of-an-interface-before) -> list<u8>; } world w { import c; export h: func(x: u8); }"
)
BINARY = (
    "0061736d0d000100071e0141020142020140010178790079040001660100040005613a622f6305000b0d0100077061636b616765030000"
)
USED = "package d:e@1.0.0; interface y { type t = u16; }"
USING = "package a:b; interface x { use d:e/y@1.0.0.{t}; f: func(p: t) -> t; }"
USING_BINARY = (
    "0061736d0d000100074c014105014202017b0400017403000003000b643a652f7940312e302e30050002030000017401420402030201010400"
    "01740300000140010170010001040001660102040005613a622f7805020b0d0100077061636b616765030000"
)
LABEL = "a-label-of-more-than-twenty-three-bytes"
ITEMS_OF_JSON = "record t { a: u8, b: list<string> } f: func(x: t) -> result<t>;"
VALUE, REPLY = '{"a":1,"b":["x","yz"]}', '[{"ok":{"a":3,"b":["w"]}}]'
ROW = {
    "text": f"package a:b; interface c {{ {ITEMS_OF_JSON} }}",
    "func": "f",
    "caller": "",
    "callee": "",
    "lens": [128, 128],
    "kinds": ["first-fit", "bump"],
    "body": [{"writes": [64, "00" * 8], "answer": [["i32", 64]]}],
}
STEPS = [["place", "f", json.loads(VALUE)], ["read", 0], ["call", "f", [json.loads(VALUE)]], ["release", 0, 12]]
GROWN = {"lens": [65536, 65536], "max": [131072, 131072]}
HOSTED = {
    "iface": "a:b/c",
    "host": [
        ["asks", [json.loads(VALUE)]],
        ["fills", [json.loads(VALUE)], [[4, 16, 32], [1, 1, 16], [1, 2, 20]]],
        ["answer asks", [{"ok": json.loads(VALUE)}]],
        ["reads", [["i32", 64]]],
    ],
}
LIFTED = {"text": "package a:b; interface c { f: func(x: string); }", "lift": [["i32", 0], ["i32", 2]]}
# Of each crate whose rows the program `vectors` answers, rows, and the words, by their number, that each has to tell at
# least once.
WORDS = {
    "rows_texts": [
        (f"label {LABEL}", [5]),
        ("full-name a-namespace-of-many-bytes:b/c@1.0.0-rc.1", [5, PLAIN]),
        ("version 1.0.0-rc.1+build.5", [PLAIN]),
        ("write-u32 4294967295", [5, PLAIN]),
        ("write-s33 4294967295", [5, PLAIN]),
        ("words witcall call --with other file a:b/c f [7] [8]", [66, PLAIN]),
        (f"tokens {TEXT}", [35]),
        (f"tree {TEXT}", [35]),
        (f"print {TEXT}", [35, PLAIN]),
        (f"decode {BINARY}", [21]),
        (f"drip {BINARY}", [21]),
        (f"encode {BINARY}", [21]),
        (f'open "{TEXT}"', OPENED),
        (f"open bytes {BINARY}", OPENED_BINARY),
        (f'show "{TEXT}"', [*OPENED, 66]),
        (f'bin "{TEXT}"', [*OPENED, 66, 21]),
        (f'text "{TEXT}"', [*OPENED, 66]),
        (f'layout "{TEXT}"', [*OPENED, 66]),
        (f'copy "{TEXT}"', [*OPENED, PLAIN]),
        (f'bin "{USED}", "{USING}"', [*OPENED, 21, 66]),
        (f'open "{USED}", bytes {USING_BINARY}', [*OPENED, 21]),
        (f"json {ITEMS_OF_JSON} | {VALUE}", [*OPENED, 66, PLAIN]),
        (f"json-call {ITEMS_OF_JSON} | [{VALUE}] | {REPLY}", [*OPENED, 54, 66, STOPPED]),
    ],
    "vectors": [
        (json.dumps({**ROW, "steps": STEPS}), [*OPENED, 54, 66]),
        (json.dumps({**ROW, **GROWN, "steps": STEPS[:2]}), [*OPENED, 54, 66]),
        (json.dumps({**ROW, **LIFTED}), [*OPENED, 54, PLAIN]),
        (json.dumps({**ROW, "lower": json.loads(VALUE)}), [*OPENED, 54, 66]),
        (json.dumps({**ROW, **HOSTED}), [*OPENED, 54, PLAIN]),
    ],
}
WITH = [word for name in ("clocks", "random", "cli") for word in ("--with", f"examples/wasi/{name}.wit")]
ORDER = ["examples/orders.wit", "demo:orders/desk", "place"]
ITEMS = '[[{"item":"tea","count":2}],["rush"],{"card":"4711"}]'
RECEIPT = '[{"ok":{"number":12,"total":[1,50]}}]'
# The program's commands, and the words that each has to tell at least once.
COMMANDS = [
    (["show", "examples/orders.wit"], [*OPENED, 66]),
    (["bin", "examples/orders.wit"], [*OPENED, 66, 21]),
    (["text", "examples/orders.wit"], [*OPENED, 66]),
    (["layout", "examples/orders.wit"], [*OPENED, 66]),
    (["bin", *WITH, "examples/wasi/app.wit"], [*OPENED, 66, 21]),
    (["call", "examples/c.wit", "a:b/c", "f", "[7]", "[8]"], [*OPENED, 54, 66]),
    (["call", *ORDER, ITEMS, RECEIPT], [*OPENED, 54, 66, STOPPED]),
]


def words(word):
    """A want of memory as it is told."""
    return f"error {word} no memory" if isinstance(word, int) else word


class Refuser:
    """Refuses the allocations of calls, and counts these and the calls."""

    def __init__(self, folder, is_brief):
        self.counter, self.is_brief = Counter(folder), is_brief
        self.refused = self.calls = 0

    def answers(self, command, data, told, whole, count):
        """How often each answer came of refusing each allocation of a run in turn, and lines of those that aren't
        right."""
        counts, wrong = collections.Counter(), []
        for refused in range(1, count + 1):
            ran, _ = self.counter.run(command, data, refused)
            word = told(whole, ran)
            if word is None:
                wrong.append(f"  {refused}: status {ran.returncode} {ran.stdout[:200]!r} {ran.stderr[:200]!r}")
            else:
                counts[word] += 1
        return counts, wrong

    def tried(self, name, command, data, told, wanted):
        """Prints how the refusals of a call's allocations were answered, and tells whether each was right."""
        whole, requests = self.counter.counted(command, data)
        if whole.returncode:
            sys.exit(f"{name}: status {whole.returncode}")
        counts, wrong = self.answers(command, data, told, whole, requests.made)
        wrong += [f"  never told: {words(word)}" for word in wanted if not counts[words(word)]]
        self.calls, self.refused = self.calls + 1, self.refused + requests.made
        listed = ", ".join(f"{word} {number}" for word, number in sorted(counts.items()))
        if wrong or not self.is_brief:
            print("\n".join([f"{name}: {requests.made} allocations; {listed}", *wrong]), flush=True)
        return not wrong


def answers_in(output):
    """The answers of a run, some of more lines than one."""
    return re.split(r"^(?=first: |again: |\{)", output, flags=re.MULTILINE)


def told_by_rows(allowed):
    """How a run of two rows is told, or none where it isn't right."""
    spelt = {words(word) for word in [*allowed, *OWN]}

    def told(whole, ran):
        if ran.returncode == 1 and whole.stdout.startswith(ran.stdout):
            return "the program's own"
        wanted, found = answers_in(whole.stdout), answers_in(ran.stdout)
        if ran.returncode or len(wanted) != len(found):
            return None
        differing = [other for line, other in zip(wanted, found) if line != other]
        if not differing:
            return "as with all memory"
        if len(differing) > 1:
            return None
        line = differing[0]
        is_json = line.startswith('{"error"')
        word = json.loads(line)["error"] if is_json else line.partition(": ")[2].strip().split(" (")[0]
        return word if word in spelt else None

    return told


def told_by_program(allowed):
    """How a run of the program is told, or none where it isn't right."""
    statuses = {words(word) + "\n": 3 if word == STOPPED else 1 for word in allowed}

    def told(whole, ran):
        if ran.returncode == 0 and ran.stdout == whole.stdout and not ran.stderr:
            return "as with all memory"
        if not ran.stdout and statuses.get(ran.stderr) == ran.returncode:
            return ran.stderr.rstrip()
        return None

    return told


def asked_twice(crate, row, folder):
    """The words of the program, and its input, by which a row is asked twice."""
    if crate == "vectors":
        return [], f"{row}\n{row}\n"
    return [folder.keep(f"first: {row} => \nagain: {row} => \n", "asked.rows")], ""


def calls_of(crate, program, folder):
    """What is asked of a program: a name, the command, its input, how a run is told, and the words that have to be
    told."""
    if crate == "program":
        for arguments, allowed in COMMANDS:
            yield " ".join(arguments[:2]), [program, *arguments], "", told_by_program(allowed), allowed
    for row, allowed in WORDS.get(crate, ()):
        arguments, given = asked_twice(crate, row, folder)
        yield row[:60], [ROWS, *arguments], given, told_by_rows(allowed), allowed


def refused(given):
    """Refuses each allocation of rows, each asked twice, and of the program's commands.

    The row whose allocation was refused has to tell a want of memory in the words of one of the layers that it passes
    (WORDS), or in those of the program that asks it (OWN); the other one has to be answered as with all memory; and
    each word of WORDS has to be told at least once. A refusal of what the program itself asks for, as for a line that
    it reads, ends the run with status 1. Each command ends with one line `error N no memory` and status 1, or as it
    does with all memory.
    """
    begun, right = time.monotonic(), True
    with tempfile.TemporaryDirectory() as path:
        folder = Folder(path)
        refuser = Refuser(folder, given.brief)
        for crate in given.crates or [*WORDS, "program"]:
            for call in calls_of(crate, given.program, folder):
                right &= refuser.tried(*call)
    told = f"{refuser.calls} calls, {refuser.refused} allocations refused, {time.monotonic() - begun:.0f} seconds"
    print(f"{told}; {'all right' if right else 'not right'}")
    return right
