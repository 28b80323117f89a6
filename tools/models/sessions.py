"""Sessions: typed values placed, read, released and passed by calls, and the rows of crates/vectors that are lists of
such steps."""
import json

from . import calls, json_values
from .calls import Acting, Link, guests_of, line_of, memories_told, package_of
from .crossing import Flat, Given, Stored, Way, lifted, lowered, value_at
from .faults import Stopped, Trap
from .memory import PAGE, FirstFit, Memory

MOST_MEMORY = 16 * PAGE


class Session:
    """A caller and a callee, with a body."""

    def __init__(self, caller, callee, body):
        self.caller, self.callee, self.body = caller, callee, body

    def place(self, t, value):
        """The address at which the caller has a value from now on."""
        at = self.caller.grant(t.align, t.size, "place")
        Way().cross(t, Given(value), Stored(self.caller, at, "place"))
        return at

    def read(self, t, at):
        """The value that the caller has at an address."""
        self.caller.test(t.align, t.size, at, "take")
        return value_at(t, Stored(self.caller, at, "take"))

    def release(self, at, size):
        """Gives a block of the caller back; whether it was live."""
        return self.caller.allocator.free(at, size)

    def call(self, function, arguments):
        """The value of the result, or None."""
        flats, result = lowered(function, arguments, self.caller, "place"), function.result
        if function.has_area:
            flats.append(("i32", self.caller.grant(result.align, result.size, "place")))
        back = Link(function, self.caller, self.callee).call(flats, self.body)
        if result is None:
            return None
        numbers = [number for _, number in flats[-1:] if function.has_area] or [number for _, number in back]
        return lifted(result, function.has_area, numbers, self.caller, "take")


class Echo:
    """A body that answers what it is given.

    It answers one core value as it is; two, which are an address and a length, in a block that it asks for; more not at
    all. Its post-return stops at an answer that is 8 past a multiple of 16.
    """

    def call(self, memory, flats):
        """The body."""
        if len(flats) != 2:
            return flats if len(flats) == 1 else []
        at = memory.request(4, 8)
        if at is None:
            raise Stopped
        for place, (_, number) in enumerate(flats):
            memory.put(at + 4 * place, 4, number)
        return [("i32", at)]

    def post(self, _memory, flats):
        """Its post-return."""
        if flats and flats[0][1] % 16 == 8:
            raise Stopped


class Reply:
    """A body that answers a value, and stops where its memory has no room."""

    def __init__(self, function, value):
        self.function, self.value = function, value

    def call(self, memory, _flats):
        """The body."""
        t = self.function.result
        if t is None:
            return []
        try:
            if self.function.has_area:
                at = memory.grant(t.align, t.size, "body")
                Way().cross(t, Given(self.value), Stored(memory, at, "body"))
                return [("i32", at)]
            flats = [0]
            Way().cross(t, Given(self.value), Flat(memory, flats, 0, "body"))
            return list(zip(t.kinds, flats))
        except Trap:
            raise Stopped from None

    def post(self, _memory, _flats):
        """Its post-return."""


def called(function, arguments, reply):
    """What the program prints for a call with this JSON, without its newline: the result, or nothing where there is
    none."""
    body = Reply(function, json_values.reply(function, reply))
    values = json_values.arguments(function, arguments)
    caller, callee = (Memory(FirstFit(PAGE, MOST_MEMORY)) for _ in range(2))
    result = Session(caller, callee, body).call(function, values)
    return "" if function.result is None else json_values.write(function.result, result)


# ---- rows of steps


class Steps:
    """The steps of a row over its package and its memories. `held` has for each step so far the type and the address of
    what it placed, or None."""

    def __init__(self, row):
        self.row, self.package = row, package_of(row)
        body = Echo() if row.get("body") == "echo" else Acting(row.get("body") or [row])
        self.session = Session(*guests_of(row), body)
        self.held = []

    def answer(self, step, before=0):
        """What a step answers, in a list behind so many other steps."""
        word, *rest = step
        self.held.append(None)
        try:
            return self.read(before + rest[0]) if word == "read" else getattr(self, word)(*rest)
        except Trap as trap:
            return {"trap": str(trap)}

    def answers(self):
        """What the steps of the row answer, as many times as it says."""
        self.held, answers = [], []
        for _ in range(self.row.get("times") or 1):
            before = len(answers)
            answers += [self.answer(step, before) for step in self.row["steps"]]
        return answers

    def function(self, name):
        """A function of the interface."""
        return self.package.function("a:b/c", name)

    def place(self, name, json_value):
        """Places a value of a function's first parameter."""
        t = self.function(name).params.fields[0]
        value = json_values.read(t, line_of(json_value))
        self.held[-1] = t, self.session.place(t, value)
        return {"placed": self.held[-1][1]}

    def read(self, number):
        """Reads what a step before placed."""
        held = self.held[number] if number < len(self.held) else None
        return {"read": written(held[0], self.session.read(*held))} if held else "missing"

    def release(self, at, size):
        """Gives a block back."""
        return "released" if self.session.release(at, size) else "not released"

    def call(self, name, json_values_given):
        """Calls a function."""
        function = self.function(name)
        given = tuple(json_values.read(t, line_of(value))
                      for t, value in zip(function.params.fields, json_values_given))
        result = self.session.call(function, given)
        return "done" if function.result is None else {"answered": written(function.result, result)}


def written(t, value):
    """A value as JSON."""
    return json.loads(json_values.write(t, value))


def told(row):
    """What the steps of a row answer, and what they answer behind that if they are taken twice."""
    steps = Steps(row)
    answers = steps.answers()
    then = steps.answers() if row.get("twice") else []
    return {"answers": answers, "then": then, **memories_told(steps.session.caller, steps.session.callee, True)}


def converted(row, t, memory):
    """A value of a type that core values denote or that is at an address, the core values of one, or that it is
    stored."""
    flats = [0] * len(t.kinds)
    try:
        if "load" in row:
            memory.test(t.align, t.size, row["load"], "take")
            return {"loaded": written(t, value_at(t, Stored(memory, row["load"], "take")))}
        if "store" in row:
            memory.test(t.align, t.size, row["at"], "place")
            Way().cross(t, Given(json_values.read(t, line_of(row["store"]))), Stored(memory, row["at"], "place"))
            return "stored"
        if "lower" in row:
            Way().cross(t, Given(json_values.read(t, line_of(row["lower"]))), Flat(memory, flats, 0, "place"))
            return {"lowered": list(zip(t.kinds, flats))}
        numbers = calls.numbers_of(map(tuple, row["lift"]), t.kinds, "take")
        return {"lifted": written(t, value_at(t, Flat(memory, numbers, 0, "take")))}
    except Trap as trap:
        return {"trap": str(trap)}


def held_told(row):
    """What a session reads at an address, whatever is there, and the memories behind it."""
    caller, callee = guests_of(row)
    t = package_of(row).function("a:b/c", row["func"]).params.fields[0]
    return {"answers": [read_at(row["held"], t, Session(caller, callee, None))], **memories_told(caller, callee, True)}


def read_at(at, t, session):
    """The value of a type that a session reads at an address, or its trap."""
    try:
        return {"read": written(t, session.read(t, at))}
    except Trap as trap:
        return {"trap": str(trap)}


def converted_told(row):
    """What lifting, lowering, loading or storing answers, and the memories behind it."""
    caller, callee = guests_of(row)
    t = package_of(row).function("a:b/c", row["func"]).params.fields[0]
    return {"answers": [converted(row, t, caller)], **memories_told(caller, callee, True)}
