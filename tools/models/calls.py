"""Calls over two memories by core values, and the lines of JSON in which crates/vectors has them (docs/FORMATS.md,
"Call rows")."""
import json

from .crossing import Flat, Stored, Way
from .faults import Refused, Stopped, Trap
from .memory import Bump, FirstFit, Headers, Memory, Scripted
from .opening import opened


class Link:
    """A function of a callee for a caller. A core value is a pair of its kind and an unsigned number; `nodes` has those
    of both ways."""

    def __init__(self, function, caller, callee):
        self.function, self.caller, self.callee = function, caller, callee
        self.ways = Way(), Way()

    @property
    def nodes(self):
        """How many nodes were visited on the way of the arguments, and on that of the result."""
        return [way.nodes for way in self.ways]

    def call(self, flats, body):
        """What the caller is answered."""
        params, _ = self.function.lowered
        _, results = self.function.lifted
        given = self.arguments(numbers_of(flats, params, "lift-args"))
        answer = run(body.call, self.callee, given, "body")
        back = self.results(numbers_of(answer, results, "lift-result"), [number for _, number in flats])
        run(body.post, self.callee, answer, "post")
        return back

    def arguments(self, numbers):
        """The body's core values."""
        params, way = self.function.params, self.ways[0]
        if self.function.is_spilled:
            self.caller.test(params.align, params.size, numbers[0], "lift-args")
            at = self.callee.grant(params.align, params.size, "lower-args")
            way.cross_fields(params, Stored(self.caller, numbers[0], "lift-args"),
                             Stored(self.callee, at, "lower-args"))
            return [("i32", at)]
        into = [0] * len(params.kinds)
        way.cross_fields(params, Flat(self.caller, numbers, 0, "lift-args"), Flat(self.callee, into, 0, "lower-args"))
        return list(zip(params.kinds, into))

    def results(self, numbers, given):
        """The caller's core values, of those that the body answered; an area for the result is the last that was
        given."""
        t, way = self.function.result, self.ways[1]
        if self.function.has_area:
            self.callee.test(t.align, t.size, numbers[0], "lift-result")
            self.caller.test(t.align, t.size, given[-1], "lower-result")
            way.cross(t, Stored(self.callee, numbers[0], "lift-result"), Stored(self.caller, given[-1], "lower-result"))
            return []
        into = [0] * len(numbers)
        if numbers:
            way.cross(t, Flat(self.callee, numbers, 0, "lift-result"), Flat(self.caller, into, 0, "lower-result"))
        return list(zip(self.function.result_kinds, into))


def numbers_of(flats, kinds, step):
    """The numbers of core values, which have to be of these kinds."""
    flats = list(flats)
    if [kind for kind, _ in flats] != list(kinds):
        raise Trap("K8 coresignature", step)
    return [number for _, number in flats]


def run(code, memory, flats, step):
    """What the body or its post-return answers."""
    try:
        return code(memory, flats)
    except Stopped:
        raise Trap("K7 body", step) from None


class Acting:
    """A body that does what these acts say, run by run, and keeps what it was given."""

    def __init__(self, acts):
        self.acts, self.runs, self.posts = acts, [], []

    def call(self, memory, flats):
        """The body: asks for blocks, writes bytes, and answers core values or stops."""
        self.runs.append(flats)
        if len(self.runs) > len(self.acts):
            raise Stopped
        act = self.acts[len(self.runs) - 1]
        for align, size in act.get("asks") or []:
            if memory.request(align, size) is None:
                raise Stopped
        at, data = act.get("writes") or (0, "")
        if at + len(data) // 2 > len(memory.bytes):
            raise Stopped
        memory.write(at, bytes.fromhex(data))
        if act.get("stop") == "body":
            raise Stopped
        return act.get("answer") or []

    def post(self, memory, flats):
        """Its post-return: fills the front of its memory with ee, and may stop."""
        self.posts.append(flats)
        act = self.acts[len(self.runs) - 1]
        fills = min(act.get("fills") or 0, len(memory.bytes))
        memory.write(0, b"\xee" * fills)
        if act.get("stop") == "post":
            raise Stopped


# ---- lines


def of_side(call, key, side):
    """What a pair has for the caller or for the callee; None if there is no pair."""
    return (call.get(key) or [None, None])[side]


def allocator_of(call, side, length):
    """The allocator of a side: it gives the answers of a script, or grants blocks from a top on, or the lowest free
    ones, or keeps notes in the memory."""
    script, most = of_side(call, "script", side), of_side(call, "max", side)
    if script is not None:
        return Scripted(length, script)
    kind = of_side(call, "kinds", side)
    if kind in ("first-fit", "headers"):
        return {"first-fit": FirstFit, "headers": Headers}[kind](length, most)
    return Bump(length, of_side(call, "tops", side) or 0, most)


def guests_of(call):
    """The caller's memory and the callee's."""
    guests = []
    for side, key in enumerate(("caller", "callee")):
        data = bytes.fromhex(call[key])
        length = of_side(call, "lens", side)
        guests.append(Memory(allocator_of(call, side, len(data) if length is None else length), data))
    return guests


def package_of(call):
    """The package of a row."""
    return opened([call["text"] if "text" in call else bytes.fromhex(call["binary"])])


def memories_told(caller, callee, are_cut):
    """The bytes of both memories and the requests to their allocators; zeros at the end are left out if the row says
    lengths."""
    front, behind = (bytes(memory.bytes).rstrip(b"\0") if are_cut else memory.bytes for memory in (caller, callee))
    return {"caller_after": front.hex(), "callee_after": behind.hex(), "caller_log": caller.log,
            "callee_log": callee.log}


def outcome_of(link, flats, body):
    """How a call ended."""
    try:
        return {"ok": link.call(flats, body)}
    except Trap as trap:
        return {"trap": str(trap)}


def made(call, caller, callee, body):
    """How the call and the one behind it ended, and the nodes of the first."""
    try:
        package, others = package_of(call), [call["next"]] if call.get("next") else []
        functions = [package.function(call["iface"], one["func"]) for one in [call, *others]]
    except Refused as refused:
        return {"refused": str(refused)}, [0, 0], []
    links = [Link(function, caller, callee) for function in functions]
    outcome = outcome_of(links[0], call["flats"], body)
    return outcome, links[0].nodes, [outcome_of(link, other["flats"], body) for link, other in zip(links[1:], others)]


def told(call):
    """What a call does, and the one behind it if there is one."""
    caller, callee = guests_of(call)
    body = Acting(call.get("body") or [call])
    outcome, nodes, others = made(call, caller, callee, body)
    given = {"bodies_got": body.runs, "posts_got": body.posts}
    if not call.get("next"):
        given = {key: runs[0] if runs else None for key, runs in zip(("body_got", "post_got"), given.values())}
    memories = memories_told(caller, callee, call.get("lens") is not None)
    return {"outcome": outcome, **given, "nodes": nodes, **memories, **{"next": other for other in others}}


def line_of(value):
    """A value as a line of JSON."""
    return json.dumps(value, separators=(",", ":"), ensure_ascii=False)
