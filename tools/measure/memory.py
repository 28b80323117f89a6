"""The memory that programs take: the most of opening and of calls, what they do with little, and the largest
request."""
import collections
import re
import sys
import tempfile
import time

from tools.models import random_calls

from . import binaries, texts
from .harness import Counter, Folder, Starter, limited

MEGABYTE = 1000000
# the refusal of a function that no package has, so that the input is read, its tables are made and laid out, and
# nothing after that
ACCEPTED = "error 63 no function"
ASKED = ["a:b/none", "none", "[]", "[]"]
# a call of `f` of the text of every shape
CALLED = ["a:b/c", "f", '[{"a":1,"b":["x"]},"none"]', '[{"ok":{"a":3,"b":["w"]}}]']
WANTS = {f"error {number} no memory".encode() for number in (5, 21, 35, 46, 52, 54, 66)} | {b"trap K7 body in body"}
# megabytes: the least with which commands are run, and with which each is done
FEWEST, ENOUGH = 8, 200
# how many bytes longer the line of a refusal may be
SLACK = 4
# the refusal of bytes that begin no item
UNREAD = re.compile(r"error (?:13|23) .* at \d+")


# ---- opening


class Openings:
    """Opens inputs, and tells the most memory that it takes beyond that of an empty text."""

    def __init__(self, program, folder):
        self.program, self.folder, self.starter, self.told = program, folder, Starter(folder), []
        self.empty = self.run("")[0]

    def run(self, content):
        """The most memory of opening this, in KiB, and the line of the refusal."""
        words = [self.program, "call", self.folder.keep(content, "input"), *ASKED]
        ran, lines, most = self.starter.run(words)
        if ran.returncode != 1 or len(lines) != 1:
            sys.exit(f"status {ran.returncode}: {ran.stderr[:200]!r}")
        return most, lines[0]

    def greatest(self, made, most):
        """The greatest count, up to `most`, whose text has at most a megabyte and is accepted."""
        low, high = 1, most + 1
        while high - low > 1:
            middle = (low + high) // 2
            text = made(middle)
            fits = len(text) <= texts.MEGABYTE and self.run(text)[1] == ACCEPTED
            low, high = (middle, high) if fits else (low, middle)
        return low

    def binary(self, text):
        """The text's binary; nothing if that would be too long."""
        return limited([self.program, "bin", self.folder.keep(text, "input")], 0).stdout

    def tell(self, name, content):
        """Prints what an input takes."""
        most, line = self.run(content)
        line = "accepted" if line == ACCEPTED else line[:40]
        times = (most - self.empty) * 1024 / len(content)
        print(f"| {name} | {len(content):,} | {line} | {most - self.empty:,} | {times:.1f} |", flush=True)
        self.told.append((times, name))


def opening(given):
    """Opens each shape of text as long as it is accepted, its binary, one with a definition more, and a longer one.

    Texts that are refused at their end are opened, too.
    """
    with tempfile.TemporaryDirectory() as path:
        openings = Openings(given.program, Folder(path))
        print("| input | bytes | answer | KiB | times its bytes |\n|---|---|---|---|---|")
        for name, (made, most) in texts.MEMORY.items():
            count = openings.greatest(made, most)
            text = made(count)
            openings.tell(name, text)
            if binary := openings.binary(text):
                openings.tell(f"{name}, binary", binary)
            for more, words in ((1, "one more"), (count // 4, "longer")):
                longer = made(count + more)
                if len(longer) <= texts.MEGABYTE:
                    openings.tell(f"{name}, {words}", longer)
        for name, made in texts.READING.items():
            openings.tell(f"{name}, cut", made(texts.MEGABYTE))
    times, name = max(openings.told)
    print(f"the worst: {name}, {times:.1f} times its bytes")
    return True


# ---- calls


def of_calls(given):
    """Whether 5,000 random calls through `vectors` take no more memory than the 500 longest of them."""
    lines, found = sorted(random_calls.lines(5000), key=len, reverse=True), {}
    with tempfile.TemporaryDirectory() as path:
        starter = Starter(Folder(path))
        for number in (500, 5000):
            started = time.perf_counter()
            ran, _, found[number] = starter.run([given.vectors], input="".join(f"{line}\n" for line in lines[:number]))
            seconds = time.perf_counter() - started
            if ran.returncode:
                sys.exit(f"{number} calls: status {ran.returncode}")
            print(f"{number} calls: at most {found[number]} KiB, {number / seconds:.0f} calls a second")
    return found[5000] <= found[500] * 1.05 + 256


# ---- little memory


def tried(words, whole):
    """How often a command reports each want of memory, what else it does, and the megabytes with which it is done."""
    told, wrong = collections.Counter(), []
    for limit in range(FEWEST, ENOUGH + 1):
        ran = limited(words, limit * MEGABYTE)
        if ran.returncode == 0 and ran.stdout == whole.stdout:
            return told, wrong, limit
        line = ran.stderr.rstrip(b"\n")
        told[line] += 1
        if ran.returncode not in (1, 3) or ran.stdout or line not in WANTS:
            wrong.append(f"{words[1]} at {limit} MB: status {ran.returncode}, {ran.stderr[:200]!r}")
    return told, [*wrong, f"{words[1]} isn't done with {ENOUGH} MB"], ENOUGH


def small(given):
    """Runs commands under a limit of their memory: each writes what it writes without one, or reports a want of
    memory."""
    runs, faults, most = 0, [], 0
    with tempfile.TemporaryDirectory() as path:
        source = Folder(path).keep(texts.mixed(), "long.wit")
        binary = Folder(path).keep(limited([given.program, "bin", source], 0).stdout, "long.wasm")
        asked = [[job, source] for job in ("show", "bin", "text", "layout")]
        asked += [["call", it, *CALLED] for it in (source, binary)]
        for words in asked:
            whole = limited([given.program, *words], 0)
            if whole.returncode:
                sys.exit(f"{words[0]}: {whole.stderr[:200]!r}")
            told, wrong, limit = tried([given.program, *words], whole)
            runs, faults, most = runs + sum(told.values()), faults + wrong, max(most, limit)
            lines = ", ".join(f"{line.decode(errors='replace')} {count} times" for line, count in told.items())
            if not given.brief:
                print(f"{words[0]} {words[1].name}: done with {limit} MB; {lines}", flush=True)
    print("\n".join([*faults, f"{len(asked)} commands, {runs} runs with little memory; all are done with {most} MB"]))
    return not faults and runs > 0


# ---- the largest request


def row(*cells):
    """Prints a row of the largest requests."""
    print("  ".join(f"{cell:>14,}" if isinstance(cell, int) else f"{cell:<24}" for cell in cells), flush=True)


def line_of(ran):
    """The first line of a run's errors, or its status."""
    return ran.stderr.splitlines()[0] if ran.stderr else f"status {ran.returncode}"


def are_alike(few, many):
    """Whether a binary that states few items and one that states many ask for the same, and are refused for the same
    reason."""
    (_, less), (_, more) = few, many
    lines = [line_of(ran) for ran, _ in (few, many)]
    # The place of a refusal depends on how long the count is.
    reasons = {line.partition(" at ")[0] for line in lines}
    is_same = less.largest == more.largest > 0 and abs(more.sum - less.sum) <= SLACK
    return is_same and bool(UNREAD.fullmatch(lines[0])) and len(reasons) == 1


def stated(program, counter, folder, is_brief):
    """Whether no stated count changes the requests."""
    right = True
    for shape, (made, most) in binaries.STATED.items():
        few, many = (counter.counted([program, "bin", folder.keep(made(count))]) for count in (4, most))
        alike = are_alike(few, many)
        right &= alike
        if not (alike and is_brief):
            numbers = [getattr(requests, it) for it in ("largest", "sum") for _, requests in (few, many)]
            row(shape, len(made(most)), *numbers, line_of(many[0]), "" if alike else "NOT ALIKE")
    return right


def recorded(program, counter, folder):
    """Prints the largest request of commands on long inputs."""
    for shape, content in texts.LONG.items():
        path = folder.keep(content)
        for command in ("show", "bin"):
            ran, requests = counter.counted([program, command, path])
            row(f"{command} {shape}", len(content), requests.largest, line_of(ran))
    source = folder.keep("package a:b;\ninterface c { f: func(x: list<u8>) -> u8; }\n")
    document = "[[" + ",".join(["7"] * 60000) + "]]"
    ran, requests = counter.counted([program, "call", source, "a:b/c", "f", document, "[8]"])
    row("call with a list", len(document), requests.largest, line_of(ran))


def largest(given):
    """Gives binaries that state a large count: it may not change the requests for memory. Records those of long
    inputs."""
    with tempfile.TemporaryDirectory() as path:
        folder = Folder(path)
        counter = Counter(folder)
        if not given.brief:
            told = "largest request if 4 is stated, and if the most is, and the same of the sum of all requests"
            print(f"stated: bytes read, {told}")
        right = stated(given.program, counter, folder, given.brief)
        if given.brief:
            which = "no" if right else "a"
            print(f"{len(binaries.STATED)} shapes of binaries; {which} stated count changes the requests for memory")
        else:
            print("long: bytes read, largest request")
            recorded(given.program, counter, folder)
    return right
