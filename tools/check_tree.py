#!/usr/bin/env python3
"""Compares the trees of WIT texts with what the program answers, and their faults and findings with what was written
down before.

usage: tools/check_tree.py [--listing TREE_LISTING] [--witcall WITCALL] [N [SEED]]      N changed texts, or 5,000

The texts are those of the repository, those of stored rows, the cases of tests/tree, and N changed ones. The same N and
SEED give the same changes. For each text, the tree has

- no fault exactly if `witcall show` gets past the grammar, to a package or to an error of 40 and more;
- a fault of the text if it answers 30, 31, 32 or 34;
- the same feature at the same place, as the first that is not read, if it answers 33.

What is told of each text is something exactly if it answers one of these, and not notes alone if it answers 30, 31, 32
or 34. No two findings begin at one byte. Each edit, applied alone, gives a text of which less is told.

Each case of tests/tree is a broken text with places that a good compiler would name, which were written down before
anything was run. A place is told if a fault begins there, or is mended within a character of it. The cases say which of
their places are not told today, and how many other faults are. Those in the file held-back.json are not looked at when
recovery is changed.

Each row of findings.json is a broken text with all that is to be told of it: where, a phrase that the hint has, one
that it has not, and whether there is an edit, as a good compiler would say it. Most were written down before anything
was run. Their edits are applied, too. The exit status is 1 if something differs.
"""
import collections
import concurrent.futures
import json
import pathlib
import random
import re
import subprocess
import sys
import tempfile

ROOT = pathlib.Path(__file__).resolve().parent.parent
sys.path.insert(0, str(ROOT))

from tools.changed_texts import texts  # noqa: E402
from tools.models.damaged import stored_inputs  # noqa: E402
from tools.models.mutants import MARK, changed_text  # noqa: E402
from tools.repository import PROGRAM, parser  # noqa: E402

LISTING = ROOT / "crates" / "tree_listing" / "out" / "tree_listing"
CASES = ("cases.json", "held-back.json")
ROWS = "findings.json"
FAULT = re.compile(r"fault (\d+)\.\.(\d+) (.*?)(?:; insert `.+?` at (\d+))?")
ANSWER = re.compile(r"error (\d+) (?:unsupported )?(.*?)(?: at (\d+)\.\.(\d+))?")
OUTSIDE = "unsupported "
# what the grammar refuses a text with: a fault of the text, and what is WIT but not read
WRONG, UNREAD = (30, 31, 32, 34), 33
# the files that are listed at a time
MOST = 400

# a fault: its bytes, its words, and where a mark is missing, if one is
Fault = collections.namedtuple("Fault", "start end words insert")


# ---- what the programs answer


def listed(program, paths):
    """The faults of each file."""
    found = {}
    for begin in range(0, len(paths), MOST):
        words = [program, "faults", *paths[begin : begin + MOST]]
        told = subprocess.run(words, capture_output=True, check=True).stdout.decode()
        for line in told.splitlines():
            if line.startswith("== "):
                own = found.setdefault(pathlib.Path(line.removeprefix("== ")), [])
            elif fault := FAULT.fullmatch(line):
                insert = fault[4] and int(fault[4])
                own.append(Fault(int(fault[1]), int(fault[2]), fault[3].partition("; ")[0], insert))
            else:
                sys.exit(f"tools/check_tree.py: {program} prints this: {line}")
    return found


def told(program, paths):
    """What is told of each file: the findings, as objects."""
    found = {}
    for begin in range(0, len(paths), MOST):
        words = [program, "findings", *paths[begin : begin + MOST]]
        for line in subprocess.run(words, capture_output=True, check=True).stdout.decode().split("\n")[:-1]:
            if line.startswith("== "):
                own = found.setdefault(pathlib.Path(line.removeprefix("== ")), [])
            else:
                own.append(json.loads(line))
    return found


def told_of_texts(options, room, all_texts):
    """What is told of each text, in their order."""
    paths = [room / f"told-{place}.wit" for place in range(len(all_texts))]
    for path, text in zip(paths, all_texts):
        path.write_bytes(text)
    found = told(options.listing, paths)
    return [found[path] for path in paths]


def judged(program, path):
    """The number of the error that the program answers, 0 if it is none, with its words and its first byte."""
    done = subprocess.run([program, "show", path], capture_output=True, check=False)
    found = ANSWER.fullmatch(done.stderr.decode().removesuffix("\n"))
    if done.returncode == 0:
        return 0, "", 0
    return int(found[1]), found[2], int(found[3] or 0)


# ---- whether they agree


def is_of_gate_version(text, start, faults):
    """Whether the lexer refuses a character of a version in a gate, as in `@since(version = 1.0.0-rc)`: a tree has none."""
    return text[start : start + 1] in (b"-", b"+") and [it.words for it in faults] == [f"{OUTSIDE}gate"]


def differs(text, answer, faults):
    """What differs, or nothing."""
    number, words, start = answer
    outside = [it for it in faults if it.words.startswith(OUTSIDE)]
    if number in WRONG:
        known = number == WRONG[0] and is_of_gate_version(text, start, faults)
        return "" if len(outside) < len(faults) or known else "no fault"
    if number == UNREAD:
        if outside and (outside[0].words, outside[0].start) == (OUTSIDE + words, start):
            return ""
        return "" if faults and faults[0].start <= start and faults[0] not in outside else "another feature"
    return "a fault" if faults else ""


def findings_differ(answer, faults, findings):
    """What differs between the answer and what is told, or nothing. A tree may know more than the lexer, see `differs`."""
    starts = [it["start"] for it in findings]
    if any(first >= second for first, second in zip(starts, starts[1:])):
        return "two findings at one place"
    is_wrong = answer[0] in WRONG and any(not it.words.startswith(OUTSIDE) for it in faults)
    if is_wrong and all(it["note"] for it in findings):
        return "notes alone"
    is_refused = answer[0] in (*WRONG, UNREAD)
    return "" if bool(findings) == (is_refused and bool(faults)) else "findings and the answer"


def given_texts():
    """The texts of the repository and of stored rows, each once, that are text."""
    found = texts() + stored_inputs(ROOT / "crates" / "vectors" / "data")
    found += ["\n".join(case["text"]).encode() for name in CASES for case in cases(name)]
    return [it for it in dict.fromkeys(found) if not it.startswith(MARK) and is_text(it)]


def is_text(data):
    """Whether these bytes are UTF-8."""
    try:
        return data.decode() is not None
    except UnicodeDecodeError:
        return False


def changed_texts(given, count, seed):
    """So many changed texts, of those that are not empty."""
    source, found, given = random.Random(seed), [], [it for it in given if it]
    while len(found) < count:
        made = changed_text(source.choice(given), source)
        found += [made] if is_text(made) else []
    return found


def compare(options, room):
    """Compares the tree of each text with the program's answer, and returns how many differ."""
    given = given_texts()
    made = given + changed_texts(given, options.count, options.seed)
    paths = [room / f"{place}.wit" for place in range(len(made))]
    for path, text in zip(paths, made):
        path.write_bytes(text)
    faults, findings = listed(options.listing, paths), told(options.listing, paths)
    with concurrent.futures.ThreadPoolExecutor(2) as pool:
        answers = list(pool.map(lambda path: judged(options.witcall, path), paths))
    counts, differing = collections.Counter(), 0
    for path, text, answer in zip(paths, made, answers):
        counts[answer[0] if answer[0] in (*WRONG, UNREAD) else 0] += 1
        what = differs(text, answer, faults[path]) or findings_differ(answer, faults[path], findings[path])
        if what:
            differing += 1
            print(f"{what}: {text!r}\n  program {answer}\n  tree    {faults[path]}\n  told    {findings[path]}")
    kinds = ", ".join(f"{counts[it]} {it or 'accepted'}" for it in sorted(counts))
    print(f"{len(given)} texts and {options.count} changed ones ({kinds}): {differing} differ")
    return differing + check_edits(options, room, made, [findings[path] for path in paths])


# ---- places


def cases(name):
    """The cases of a file."""
    return json.loads((ROOT / "tests" / "tree" / name).read_text())


def place_of(text, byte):
    """The line and the column of a byte, both from 1."""
    front = text.encode()[:byte].decode(errors="ignore")
    return front.count("\n") + 1, len(front) - (front.rfind("\n") + 1) + 1


def tells(text, fault, places):
    """Whether a fault tells one of these places."""
    line, column = place_of(text, fault.insert) if fault.insert is not None else (0, 0)
    near = [(line, column + it) for it in (-1, 0, 1)]
    return place_of(text, fault.start) in places or any(it in places for it in near)


def told_places(case, faults):
    """Which places of a case are told, and how many faults tell none of them."""
    text, wanted = "\n".join(case["text"]), [
        [tuple(map(int, place.split(":"))) for place in it["at"]] for it in case["places"]]
    told = [any(tells(text, fault, places) for fault in faults) for places in wanted]
    return told, sum(not any(tells(text, fault, places) for places in wanted) for fault in faults)


def check_places(options, room, name):
    """Compares the faults of the cases of a file with their places, and returns how many cases differ."""
    counts, differing, all_cases = collections.Counter(), 0, cases(name)
    paths = [room / f"{name}-{number}.wit" for number in range(len(all_cases))]
    for path, case in zip(paths, all_cases):
        path.write_text("\n".join(case["text"]), newline="")
    faults = listed(options.listing, paths)
    for path, case in zip(paths, all_cases):
        told, others = told_places(case, faults[path])
        wanted = [not it.get("missed", False) for it in case["places"]]
        counts.update(places=len(told), told=sum(told), others=others)
        if told != wanted or others != case.get("others", 0):
            differing += 1
            print(f"{name}: {case['kind']}: told {told}, and not {wanted}; {others} others: {faults[path]}")
    print(f"{name}: {len(all_cases)} texts, {counts['told']} of {counts['places']} places told, "
          f"{counts['others']} other faults: {differing} differ")
    return differing


# ---- findings


def row_differs(text, row, findings):
    """What differs between a row and what is told of its text."""
    found = {":".join(map(str, place_of(text, it["start"]))): it for it in findings}
    for wanted in row["findings"]:
        own = found.pop(wanted["at"], None)
        if own is None:
            yield f"nothing is told at {wanted['at']}"
            continue
        if wanted["hint"] not in own["hint"]:
            yield f"{wanted['at']}: the hint has no {wanted['hint']!r}: {own['hint']!r}"
        if wanted.get("not", "\0") in own["hint"]:
            yield f"{wanted['at']}: the hint has {wanted['not']!r}: {own['hint']!r}"
        if wanted.get("edit", "edit" in own) != ("edit" in own):
            yield f"{wanted['at']}: an edit is {'not ' if wanted['edit'] else ''}wanted: {own}"
    yield from (f"{place}: this is not to be told: {own}" for place, own in found.items())


def with_edit(text, finding):
    """A text with the edit of a finding."""
    start, end, written = finding["edit"]
    return text[:start] + written.encode() + text[end:]


def check_edits(options, room, all_texts, all_findings):
    """Applies each edit of these texts alone, and returns of how many no less is told then."""
    edited = [(len(findings), with_edit(text, it))
              for text, findings in zip(all_texts, all_findings) for it in findings if "edit" in it]
    differing = 0
    for (before, text), findings in zip(edited, told_of_texts(options, room, [text for _, text in edited])):
        if len(findings) >= before:
            differing += 1
            print(f"an edit mends nothing: {text!r}\n  told    {findings}")
    print(f"{len(edited)} edits: {differing} mend nothing")
    return differing


def check_findings(options, room):
    """Compares what is told of each row's text with the row, and returns how many differ."""
    rows, differing = cases(ROWS), 0
    all_texts = ["\n".join(row["text"]) for row in rows]
    encoded = [it.encode() for it in all_texts]
    all_findings = told_of_texts(options, room, encoded)
    for row, text, findings in zip(rows, all_texts, all_findings):
        if what := list(row_differs(text, row, findings)):
            differing += 1
            print(f"{ROWS}: {row['kind']}: {'; '.join(what)}")
    print(f"{ROWS}: {len(rows)} texts: {differing} differ")
    return differing + check_edits(options, room, encoded, all_findings)


def main():
    options = parser(__doc__)
    options.add_argument("--listing", type=pathlib.Path, default=LISTING)
    options.add_argument("--witcall", type=pathlib.Path, default=PROGRAM)
    options.add_argument("count", nargs="?", type=int, default=5000)
    options.add_argument("seed", nargs="?", type=int, default=1)
    options = options.parse_args()
    for name in ("listing", "witcall"):
        program = getattr(options, name).resolve()
        setattr(options, name, program)
        if not program.is_file():
            sys.exit(f"tools/check_tree.py: there is no {program}: run the gate, or name a program by --{name}")
    with tempfile.TemporaryDirectory() as room:
        room = pathlib.Path(room)
        differing = compare(options, room) + sum(check_places(options, room, name) for name in CASES)
        differing += check_findings(options, room)
    sys.exit(differing > 0)


if __name__ == "__main__":
    main()
