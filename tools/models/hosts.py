"""Values in a memory that a host keeps: the blocks that they ask for, how they are put there, and how they are read.
Rows of crates/vectors say such steps (docs/FORMATS.md, "Rows of a host's memory")."""
from . import json_values
from .calls import guests_of, line_of, numbers_of, package_of
from .crossing import Given, Stored, Way, lifted, lowered
from .faults import Refused, Trap
from .memory import Bump, Lent, Memory, can_be_lent
from .sessions import written

# the most core values that a core function takes, and what a place for one has before any is put there
MOST_VALUES = 17
UNSET = ("i64", (1 << 64) - 1)


def boundless():
    """A memory that grants each block."""
    return Memory(Bump(0, most=1 << 40))


def argument_requests(function, values):
    """The alignments and sizes that arguments ask for, as they are found where each is granted."""
    memory = boundless()
    lowered(function, values, memory, "place")
    return [request[:2] for request in memory.log]


def result_requests(t, value, step="place"):
    """Those that a value of this type asks for, besides the block that it lies in itself."""
    memory = boundless()
    at = memory.request(t.align, t.size)
    Way().cross(t, Given(value), Stored(memory, at, step))
    return [request[:2] for request in memory.log[1:]]


def lowered_into(memory, function, values):
    """The core values of arguments that are put into the blocks of a memory that is lent."""
    try:
        return lowered(function, values, memory, "place")
    except Trap as trap:
        given, blocks = memory.allocator.given, memory.allocator.blocks
        if trap.args[0] == "K6 full" and given < len(blocks):
            raise Refused(f"73 other block {given}") from None
        raise


def read(function, answer, memory, limit):
    """The value of the result that the core values of an answer say; None where there is no result."""
    numbers, result = numbers_of(answer, function.lifted[1], "lift-result"), function.result
    if result is None:
        return None
    value = lifted(result, function.has_area, numbers, memory, "lift-result")
    if limit is not None and sum(size for _, size in result_requests(result, value, "lift-result")) > limit:
        raise Refused("76 above the limit")
    return value


def outcome(answer):
    """What is answered, or why nothing is."""
    try:
        return answer()
    except Trap as trap:
        return {"trap": str(trap)}
    except Refused as refused:
        return {"refused": str(refused)}


class Host:
    """The function and the memory of a row. Each step is taken over the memory as the row has it."""

    def __init__(self, row):
        self.function = package_of(row).function(row["iface"], row["func"])
        self.bytes = bytes(guests_of(row)[1].bytes)

    def values(self, arguments):
        """The arguments that a step says, as a list or as a text of JSON."""
        return json_values.arguments(self.function, arguments if isinstance(arguments, str) else line_of(arguments))

    def asks(self, arguments):
        """The requests of arguments."""
        return outcome(lambda: {"asks": argument_requests(self.function, self.values(arguments))})

    def answer_asks(self, values):
        """The requests of a result: of a list of one value, or of none where there is no result."""

        def told():
            value, result = json_values.reply(self.function, line_of(values)), self.function.result
            return {"asks": [] if result is None else result_requests(result, value)}

        return outcome(told)

    def fills(self, arguments, blocks, room=MOST_VALUES):
        """What is put into these blocks, and the memory and the core values behind it."""
        memory, handed = Memory(Lent(len(self.bytes), blocks), self.bytes), []

        def told():
            values = self.values(arguments)
            if room < MOST_VALUES:
                raise Refused(f"71 no room for {MOST_VALUES}")
            if not can_be_lent(len(self.bytes), blocks):
                raise Refused("72 bad block")
            handed.extend(lowered_into(memory, self.function, values))
            return {"filled": len(handed)}

        ended = outcome(told)
        while handed and handed[-1] == UNSET:
            handed.pop()
        return {**ended, "handed": handed, "memory": bytes(memory.bytes).rstrip(b"\0").hex()}

    def reads(self, answer, limit=None):
        """What the core values of an answer say."""

        def told():
            value = read(self.function, map(tuple, answer), Memory(Bump(len(self.bytes)), self.bytes), limit)
            return "nothing" if self.function.result is None else {"read": written(self.function.result, value)}

        return outcome(told)

    def answer(self, step):
        """What a step answers."""
        word, *rest = step
        return getattr(self, word.replace(" ", "_"))(*rest)


def row_told(row):
    """What the steps of a row answer."""
    host = Host(row)
    return {"answers": [host.answer(step) for step in row["host"]]}
