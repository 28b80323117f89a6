#!/usr/bin/env python3
"""Compares what the library did with inputs of the harnesses with the models of tools/models.

usage: tests/fuzz/compare.py FILE      FILE has a case a line, as a harness writes it if WITCALL_CASES names that file

- open: the text of what is opened, or the line of its refusal.
- enter, leave: what is asked for, or the trap of the source, or that it is more than the limit; then the status of the
  half, its core values, and each byte of the memory that it writes.
- json: the JSON of an answer; what a text of arguments asks for; then the status of the call that puts them into a
  memory, its core values, and each byte of that memory.

It prints how many cases of each kind were the same, and each one that differs; the exit status is 1 then.
"""
import collections
import json
import pathlib
import sys

ROOT = pathlib.Path(__file__).resolve().parent.parent.parent
sys.path.insert(0, str(ROOT))
sys.dont_write_bytecode = True
from tools.models.abi import up  # noqa: E402
from tools.models.calls import Link, line_of, numbers_of  # noqa: E402
from tools.models.crossing import Flat, Stored, Way  # noqa: E402
from tools.models.faults import NotModelled, Refused, Trap  # noqa: E402
from tools.models.hosts import UNSET, Host  # noqa: E402
from tools.models.jobs import JOBS  # noqa: E402
from tools.models.memory import Bump, Memory, Scripted  # noqa: E402
from tools.models.opening import opened  # noqa: E402

# the numbers of a status
DONE, REFUSED, TRAP = 0, 1, 2
STEPS = {"place": 0, "lift-args": 2, "lower-args": 3, "lift-result": 5, "lower-result": 6}
BAD_JSON, NO_ROOM, BAD_BLOCK, OTHER_BLOCK, ABOVE_LIMIT = 61, 71, 72, 73, 76


def core_values(given):
    """Core values of a host: an i32 is the low 32 bits of what the host has."""
    return [("i64" if kind else "i32", bits if kind else bits % (1 << 32)) for kind, bits in given]


class AboveLimit(Exception):
    """More bytes are asked for than the limit."""


class OtherBlock(Exception):
    """A block of another size or alignment than was asked for, by its index."""


class Limited(Bump):
    """Grants each block, up to so many bytes in all. An alignment adds at most 7 bytes to a block."""

    def __init__(self, place, limit):
        super().__init__(place + 8 * limit + 8, place)
        self.left = limit

    def alloc(self, align, size):
        """The address of a block."""
        self.left -= size
        if self.left < 0:
            raise AboveLimit
        return super().alloc(align, size)


class Granting(Scripted):
    """Grants these blocks in turn, if they are those that are asked for."""

    def __init__(self, length, blocks):
        super().__init__(length, [at for _, _, at in blocks])
        self.blocks, self.index = blocks, 0

    def alloc(self, align, size):
        """The address of the next block, or None."""
        if self.index < len(self.blocks) and self.blocks[self.index][:2] != [align, size]:
            raise OtherBlock(self.index)
        self.index += 1
        return super().alloc(align, size)


def text_of(digits):
    """A text of its bytes."""
    return bytes.fromhex(digits).decode()


# ---- packages that are opened


def model_of(data):
    """What the model says of an input: its text, or the line of its refusal."""
    try:
        return "\n".join(JOBS["text"](opened([data]))) + "\n"
    except Refused as refused:
        return str(refused)


def compare_opened(case):
    """By which rule an input is opened or refused as it has to be; None if it isn't."""
    found = bytes.fromhex(case["line"] if "line" in case else case["text"]).decode()
    try:
        wanted = model_of(bytes.fromhex(case["input"]))
    except (NotModelled, RecursionError):
        return "not modelled"
    return "the same" if wanted == found else None


# ---- halves


class Half:
    """A half of a case, in the model."""

    def __init__(self, case):
        self.case, self.leaves = case, case["of"] == "leave"
        text = bytes.fromhex(case["text"])
        package = opened([text if text.startswith(b"\0asm") else text.decode()])
        self.function = package.function(text_of(case["iface"]), text_of(case["func"]))

    def kinds(self, key):
        """Core values with their kinds in words; the library takes each kind but 0 as an i64."""
        return core_values(self.case[key])

    def source(self):
        """The memory that is read."""
        data = bytes.fromhex(self.case["source"])
        return Memory(Scripted(len(data), []), data)

    def cross(self, source, target):
        """The core values that a half hands out, between these memories."""
        if not self.leaves:
            params, _ = self.function.lowered
            return Link(self.function, source, target).arguments(numbers_of(self.kinds("flats"), params, "lift-args"))
        params, _ = self.function.lowered
        given = numbers_of(self.kinds("flats"), params, "lower-result")
        return Link(self.function, target, source).results(self.answered(), given)

    def answered(self):
        """The numbers of the answer."""
        _, results = self.function.lifted
        return numbers_of(self.kinds("answer"), results, "lift-result")

    def ask(self):
        """Takes the values into a memory with room for all, within the limit; what they ask for."""
        t, source = self.function.result, self.source()
        place = up(t.size, 8) if self.leaves and t else 0
        target = Memory(Limited(place, self.case["limit"]))
        if not self.leaves:
            self.cross(source, target)
        elif self.function.has_area:
            at, = self.answered()
            source.test(t.align, t.size, at, "lift-result")
            Way().cross(t, Stored(source, at, "lift-result"), Stored(target, 0, "lower-result"))
        else:
            numbers = self.answered()
            if numbers:
                Way().cross(t, Flat(source, numbers, 0, "lift-result"), Flat(target, [0], 0, "lower-result"))
        return [[align, size] for align, size, _ in target.log]

    def area(self):
        """The return area, as a block."""
        if not (self.leaves and self.function.has_area):
            return 1, 0, 0
        return 1, self.function.result.size, self.kinds("flats")[-1][1]


def trap_status(trap):
    """The status of a trap."""
    kind, step = trap.args
    return [TRAP, int(kind[1]), STEPS[step], 0]


def asked_of(half):
    """The status of the requests, and the requests."""
    try:
        requests = half.ask()
    except AboveLimit:
        return [REFUSED, ABOVE_LIMIT, 0, 0], []
    except Trap as trap:
        return trap_status(trap), []
    return [DONE, 0, 0, len(requests)], requests


def meet(one, other):
    """Whether two blocks have a byte in common."""
    (_, size, at), (_, length, start) = one, other
    return size > 0 and length > 0 and at < start + length and start < at + size


def can_be_lent(blocks, length, area):
    """Whether the blocks may be written."""
    placed = all(align in (1, 2, 4, 8) and at % align == 0 and at + size <= length for align, size, at in blocks)
    if not placed or any(meet(area, block) for block in blocks):
        return False
    full = sorted((at, at + size) for _, size, at in blocks if size)
    return all(end <= start for (_, end), (start, _) in zip(full, full[1:]))


def half_of(half):
    """The status of a half, its core values, and the memory that it writes."""
    case = half.case
    before = bytes.fromhex(case["target"])
    target = Memory(Granting(len(before), case["blocks"]), before)
    params, _ = half.function.lowered
    try:
        numbers_of(half.kinds("flats"), params, "lower-result" if half.leaves else "lift-args")
        if not can_be_lent(case["blocks"], len(before), half.area()):
            return [REFUSED, BAD_BLOCK, 0, 0], [], before
        values = half.cross(half.source(), target)
    except OtherBlock as other:
        return [REFUSED, OTHER_BLOCK, 0, other.args[0]], [], bytes(target.bytes)
    except Trap as trap:
        return trap_status(trap), [], bytes(target.bytes)
    return [DONE, 0, 0, len(values)], [[int(kind == "i64"), bits] for kind, bits in values], bytes(target.bytes)


def compare_half(case):
    """By which rule a half did what it had to; None if it didn't."""
    if "iface" not in case:
        return "of a world"
    half = Half(case)
    status, requests = asked_of(half)
    is_early = case["asked"] == [REFUSED, ABOVE_LIMIT, 0, 0] and status[0] == TRAP
    if not is_early and (status, requests) != (case["asked"], case["requests"]):
        return None
    found = case["half"], case["values"], bytes.fromhex(case["after"])
    if half_of(half) != found:
        return None
    kind = "done" if case["half"][0] == DONE else "a trap" if case["half"][0] == TRAP else "refused"
    return "76 before a trap" if is_early else f"{kind}, {'asked' if status[0] == DONE else 'not asked'}"


# ---- values as JSON


class JsonCase:
    """A case of a call with values as JSON, in the model."""

    def __init__(self, case):
        self.case = case
        self.source, self.target = self.host("source"), self.host("target")

    def host(self, memory):
        """The function, and one of the memories."""
        case, data = self.case, self.case[memory]
        text = bytes.fromhex(case["text"])
        package = {"binary": case["text"]} if text.startswith(b"\0asm") else {"text": text.decode()}
        names = {"iface": text_of(case["iface"]), "func": text_of(case["func"])}
        return Host({**package, **names, "caller": "", "callee": data, "lens": [0, len(data) // 2]})

    def is_told(self):
        """Whether the answer was told as it has to be."""
        case, answer = self.case, core_values(self.case["answer"])
        wanted = self.source.reads(answer, case["limit"])
        if wanted == "nothing":
            return case["told"] == [DONE, 0, 0, 0]
        if "read" not in wanted:
            is_early = case["told"] == [REFUSED, ABOVE_LIMIT, 0, 0] and "trap" in wanted
            return is_early or case["told"] == status_of(wanted)
        text = line_of(wanted["read"]).encode()
        is_whole = not case["is_read"] or bytes.fromhex(case["json"]) == text
        return is_whole and case["told"] in ([DONE, 0, 0, len(text)], [REFUSED, NO_ROOM, 0, len(text)])

    def arguments(self):
        """The text of the arguments, or None where it is no UTF-8."""
        try:
            return text_of(self.case["json"])
        except UnicodeDecodeError:
            return None

    def asked(self):
        """The status of the requests, and the requests."""
        text = self.arguments()
        if text is None:
            return [REFUSED, BAD_JSON, 0, 0], []
        told = self.target.asks(text)
        if "asks" not in told:
            return status_of(told), []
        if sum(size for _, size in told["asks"]) > self.case["limit"]:
            return [REFUSED, ABOVE_LIMIT, 0, 0], []
        return [DONE, 0, 0, len(told["asks"])], [list(request) for request in told["asks"]]

    def filled(self):
        """The status of the call, its core values up to the last that was put, and the memory."""
        text = self.arguments()
        if text is None:
            return [REFUSED, BAD_JSON, 0, 0], [], bytes.fromhex(self.case["target"])
        told = self.target.fills(text, self.case["blocks"])
        status = [DONE, 0, 0, told["filled"]] if "filled" in told else status_of(told)
        values = [[int(kind == "i64"), bits] for kind, bits in told["handed"]]
        return status, values, bytes.fromhex(told["memory"]).ljust(len(self.case["target"]) // 2, b"\0")


def status_of(told):
    """The status of a step of a host that ends in a trap or is refused."""
    if "trap" in told:
        return trap_status(Trap(*told["trap"].removeprefix("trap ").split(" in ")))
    _, number, *words = told["refused"].split()
    return [REFUSED, int(number), 0, int(words[-1]) if words[-1].isdigit() else 0]


def compare_json(case):
    """By which rule a call with values as JSON did what it had to; None if it didn't."""
    if "iface" not in case:
        return "of a world"
    json_case, values = JsonCase(case), list(case["values"])
    while values and values[-1] == [int(UNSET[0] == "i64"), UNSET[1]]:
        values.pop()
    asked = json_case.asked()
    is_early = case["asked"] == [REFUSED, ABOVE_LIMIT, 0, 0] and asked[0][0] == TRAP
    if not json_case.is_told() or not is_early and asked != (case["asked"], case["requests"]):
        return None
    if json_case.filled() != (case["filled"], values, bytes.fromhex(case["after"])):
        return None
    code, number = case["filled"][:2]
    return "done" if code == DONE else "a trap" if code == TRAP else f"refused {number}"


COMPARE = {"open": compare_opened, "enter": compare_half, "leave": compare_half, "json": compare_json}


def main():
    if len(sys.argv) != 2:
        sys.exit(__doc__)
    counts, differ = collections.Counter(), 0
    with open(sys.argv[1], encoding="utf-8") as lines:
        for line in lines:
            case = json.loads(line)
            rule = COMPARE[case["of"]](case)
            counts[case["of"], rule or "DIFFER"] += 1
            if rule is None:
                differ += 1
                if differ <= 5:
                    print(line, end="")
    for (of, rule), count in sorted(counts.items()):
        print(f"{of}: {count} {rule}")
    print(f"{sum(counts.values())} cases, {differ} differ")
    sys.exit(differ > 0)


if __name__ == "__main__":
    main()
