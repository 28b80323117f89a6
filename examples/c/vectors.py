#!/usr/bin/env python3
"""Makes the stored calls of crates/vectors through the C library, and compares what they do with the stored answers.

usage: examples/c/vectors.py PROGRAM      PROGRAM is examples/c/vectors.c, built

Left out are a call whose body asks for blocks, one whose allocators keep notes in the memories, and the rows that are
no calls. Each call has to do the same: its answer or trap, the core values of its runs, the bytes of both memories, and
the blocks that were asked for. A call in halves differs by its form in four ways, and any other difference is a failure:

  fault first  the source's fault is told before any block is asked for. The stored call met it on its way, behind
               blocks that were granted and written. The trap is the same; nobody was asked, and the target is as it
               was.
  fault alone  the stored call met a refused or bad block first. What is told is the fault that the source has, as the
               model of calls (tools/models) finds it if each block is granted; nobody was asked, and the target is as
               it was.
  bad blocks   blocks of the stored call's allocator that can't be lent (misaligned, outside, meeting each other or the
               return area) are refused by 72, and the target is as it was.
  area last    the return area is tested in the second half, behind the requests of the result's blocks. The trap is the
               same, and the caller is as it was.

The exit status is 1 where something else differs.
"""
import collections
import json
import pathlib
import subprocess
import sys

ROOT = pathlib.Path(__file__).resolve().parent.parent.parent
sys.path.insert(0, str(ROOT))
sys.dont_write_bytecode = True
from tools.models import calls as model  # noqa: E402

VECTORS = ROOT / "crates/vectors"
WORDS = {
    "K1": "char",
    "K2": "case",
    "K3": "align",
    "K4": "bounds",
    "K5": "utf8",
    "K6": "full",
    "K7": "body",
    "K8": "coresignature",
}
# of each way of a call: the ends of its steps' names, its target, and that target's requests
WAYS = [("args", "callee", "callee_log"), ("result", "caller", "caller_log")]
NO_BLOCKS = 72
# what a row has that is no call over a link, and what it is about
OTHER_ROWS = {
    "steps": "sessions",
    "held": "sessions",
    "host": "a host's memory",
    "lift": "a value",
    "lower": "a value",
    "load": "a value",
    "store": "a value",
    "head_at": "a head",
    "head_of": "a head",
}
SIDES = ("caller", "callee")


# ---- the program's lines: words between spaces, "-" for nothing


def listed(parts):
    return ",".join(parts) or "-"


def flats_line(flats):
    return listed(f"{kind}:{number}" for kind, number in flats)


def allocator_line(top, script):
    """What an allocator does: grants from a top, or gives these answers and then refuses."""
    if script is None:
        return f"top:{top or 0}"
    return "script:" + listed("none" if at is None else str(at) for at in script)


def bodies_of(call, wanted):
    """What the body does in the call, and in the next one. A body that doesn't run in the call runs in the next one."""
    bodies = call.get("body") or [call]
    if "next" not in call:
        return bodies[0], {}
    return bodies if wanted["body_got"] is not None else ({}, bodies[0])


def writes_word(body):
    return ":".join(map(str, body["writes"])) if body.get("writes") else "-"


def line_of(call, wanted):
    tops = call.get("tops") or [None, None]
    scripts = call.get("script") or [None, None]
    first, last = bodies_of(call, wanted)
    package = call["binary"] if "binary" in call else call["text"].encode().hex()
    words = [package or "-", call["iface"], call["func"], flats_line(call["flats"])]
    for side, top, script in zip(SIDES, tops, scripts):
        words += [call[side] or "-", allocator_line(top, script)]
    words += [flats_line(first.get("answer") or []), first.get("stop") or "no", writes_word(first)]
    after = call.get("next") or {"func": "-", "flats": []}
    words += [after["func"], flats_line(after["flats"]), flats_line(last.get("answer") or [])]
    return " ".join(words) + "\n"


def parts_of(word):
    return [] if word == "-" else word.split(",")


def flats_of(word):
    if word == "none":
        return None
    return [[kind, int(number)] for kind, number in (part.split(":") for part in parts_of(word))]


def requests_of(word):
    found = [part.split(":") for part in parts_of(word)]
    return [[int(align), int(size), None if at == "none" else int(at)] for align, size, at in found]


def outcome_of(word):
    kind, _, rest = word.partition(":")
    if kind == "ok":
        return {"ok": flats_of(rest)}
    if kind == "trap":
        number, step = rest.split(":")
        return {"trap": f"trap {number} {WORDS[number]} in {step}"}
    return {"refused": int(rest)}


def told(line):
    """What the program tells of a call, in the form of the stored answers."""
    outcome, body_got, post_got, caller, caller_log, callee, callee_log, *after = line.split(" ")
    return {
        **run_of(outcome, body_got, post_got),
        "caller_after": "" if caller == "-" else caller,
        "callee_after": "" if callee == "-" else callee,
        "caller_log": requests_of(caller_log),
        "callee_log": requests_of(callee_log),
        "next": run_of(*after) if after else None,
    }


def run_of(outcome, body_got, post_got):
    return {"outcome": outcome_of(outcome), "body_got": flats_of(body_got), "post_got": flats_of(post_got)}


# ---- the rows


def filled(digits, length):
    """The bytes of a memory, with the zeros at its end."""
    return digits if length is None else digits.ljust(2 * length, "0")


def left_out(row):
    """Why a row is left out, or None."""
    for key, what in OTHER_ROWS.items():
        if key in row:
            return what
    if "headers" in (row.get("kinds") or []):
        return "an allocator with notes"
    asks = any(body.get("asks") for body in row.get("body") or [])
    return "a body that asks for blocks" if asks else None


def with_lengths(row):
    """A row with all bytes of its memories."""
    sides = zip(SIDES, row.get("lens") or [None, None])
    return {**row, **{side: filled(row[side], length) for side, length in sides}, "lens": [None, None]}


def parted(row, stored):
    """A stored answer, in which what the bodies got is told of the call and of the next one."""
    if "next" not in row:
        return {**stored, "next": None}
    bodies, posts = stored["bodies_got"], stored["posts_got"]
    after = {"outcome": stored["next"], "body_got": bodies[-1], "post_got": posts[-1]}
    got = {"body_got": [None, *bodies][-2], "post_got": [None, *posts][-2], "next": after}
    rest = {key: value for key, value in stored.items() if key not in ("bodies_got", "posts_got")}
    return {**rest, **got}


def expected_of(row, stored):
    """A stored answer as the library tells it: no nodes, a refusal by its number, and all bytes of the memories."""
    wanted = {key: value for key, value in parted(row, stored).items() if key != "nodes"}
    for side, length in zip(SIDES, row.get("lens") or [None, None]):
        wanted[f"{side}_after"] = filled(wanted[f"{side}_after"], length)
    (kind, words), = stored["outcome"].items()
    if kind == "refused":
        wanted["outcome"] = {"refused": int(words.split()[1])}
    return wanted


# ---- the rules


def differs_only(wanted, found, keys):
    return all(wanted[key] == found[key] for key in wanted if key not in keys)


def is_untouched(call, found, way):
    """Whether nobody was asked on this way, and its target is as it was."""
    _, side, log = way
    return found[f"{side}_after"] == call[side] and found[log] == []


def trap_of(answer):
    return answer["outcome"].get("trap", "")


def is_fault_first(call, wanted, found, way):
    ends, side, log = way
    faulty = trap_of(wanted).endswith(f"lift-{ends}") and is_untouched(call, found, way)
    return faulty and differs_only(wanted, found, {f"{side}_after", log})


def with_room(call, side):
    """The same call where this memory has room for every block, above all that it holds."""
    place = ("caller", "callee").index(side)
    tops, scripts = list(call.get("tops") or [None, None]), list(call.get("script") or [None, None])
    tops[place], scripts[place] = len(call[side]) // 2, None
    return {**call, side: call[side] + "00" * 100000, "tops": tops, "script": scripts}


def is_fault_alone(call, wanted, found, way):
    ends, side, log = way
    if not trap_of(wanted).endswith(f"lower-{ends}") or not is_untouched(call, found, way):
        return False
    stands = model.told(with_room(call, side))["outcome"]
    faulty = found["outcome"] == stands and trap_of(found).endswith(f"lift-{ends}")
    return faulty and differs_only(wanted, found, {"outcome", f"{side}_after", log})


def meet(first, other):
    (_, size, at), (_, length, start) = first, other
    return size > 0 and length > 0 and at < start + length and start < at + size


def area_of(call):
    """The caller's return area, as a block."""
    function = model.package_of(call).function(call["iface"], call["func"])
    if not function.has_area:
        return 1, 0, 0
    return function.result.align, function.result.size, call["flats"][-1][1]


def can_be_lent(blocks, length, area):
    placed = all(at % align == 0 and at + size <= length for align, size, at in blocks)
    apart = not any(meet(block, other) for place, block in enumerate(blocks) for other in blocks[:place])
    return placed and apart and not any(meet(area, block) for block in blocks)


def is_bad_blocks(call, wanted, found, way):
    ends, side, log = way
    if found["outcome"] != {"refused": NO_BLOCKS}:
        return False
    granted = [request for request in found[log] if request[2] is not None]
    area = area_of(call) if ends == "result" else (1, 0, 0)
    if can_be_lent(granted, len(call[side]) // 2, area):
        return False
    asked_alike = found[log][: len(wanted[log])] == wanted[log]
    ran = found["body_got"] == (None if ends == "args" else wanted["body_got"]) and found["post_got"] is None
    other, other_log = ("caller", "caller_log") if side == "callee" else ("callee", "callee_log")
    same_other = ends == "args" or differs_only(wanted, found, wanted.keys() - {f"{other}_after", other_log})
    is_kept = found[f"{side}_after"] == call[side] and found["next"] == wanted["next"]
    return asked_alike and ran and same_other and is_kept


def requests_behind_area(call):
    """What the result asks the caller for if there is room for all, and for the return area."""
    roomy = with_room(call, "caller")
    area = [[*roomy["flats"][-1][:1], len(roomy["caller"]) // 4 // 8 * 8]]
    return model.told({**roomy, "flats": roomy["flats"][:-1] + area})["caller_log"]


def is_area_last(call, wanted, found, way):
    ends, side, log = way
    is_of_area = ends == "result" and trap_of(wanted).endswith("lower-result") and wanted[log] == []
    if not is_of_area or found[f"{side}_after"] != call[side]:
        return False
    asked, needed = ([list(request[:2]) for request in log_of] for log_of in (found[log], requests_behind_area(call)))
    return asked == needed and differs_only(wanted, found, {log})


RULES = [
    ("fault first", is_fault_first),
    ("fault alone", is_fault_alone),
    ("bad blocks", is_bad_blocks),
    ("area last", is_area_last),
]


def rule_of(call, wanted, found):
    """By which rule the call did what it should; none where it didn't."""
    if wanted == found:
        return "the same"
    kept = [name for name, is_kept in RULES if any(is_kept(call, wanted, found, way) for way in WAYS)]
    return kept[0] if kept else None


def main():
    if len(sys.argv) != 2:
        sys.exit(__doc__)
    files = (VECTORS / name for name in ("stdin", "stdout"))
    rows = list(zip(*(map(json.loads, file.read_text().splitlines()) for file in files)))
    reasons = [left_out(row) for row, _ in rows]
    made = [
        (with_lengths(row), expected_of(row, stored)) for (row, stored), reason in zip(rows, reasons) if reason is None
    ]
    ran = subprocess.run([sys.argv[1]], input="".join(line_of(*it) for it in made), capture_output=True, text=True)
    lines = ran.stdout.splitlines()
    if ran.returncode or len(lines) != len(made) or ran.stderr:
        sys.exit(f"{sys.argv[1]}: status {ran.returncode}, {len(lines)} answers\n{ran.stderr}")
    counts = {"the same": 0, **{name: 0 for name, _ in RULES}, "differ": 0}
    for (call, wanted), line in zip(made, lines):
        found = told(line)
        rule = rule_of(call, wanted, found) or "differ"
        counts[rule] += 1
        if rule == "differ":
            print(f"{call['name']}\n  call   {json.dumps(call)}")
            print(f"  wanted {json.dumps(wanted)}\n  found  {json.dumps(found)}")
    print(f"{len(made)} calls: " + ", ".join(f"{count} {name}" for name, count in counts.items()))
    others = collections.Counter(filter(None, reasons)).items()
    print("left out: " + ", ".join(f"{count} of {reason}" for reason, count in others))
    sys.exit(counts["differ"] > 0)


if __name__ == "__main__":
    main()
