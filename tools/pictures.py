#!/usr/bin/env python3
"""Makes the pictures of the pages, docs/pictures/*.svg, each from what is there.

usage: tools/pictures.py [--check] [--program WITCALL]

- way.svg (docs/PROMISE.md): the way from a text to a call. The words are what the program prints of examples/c.wit, the
  stored run of crates/program and the first row of crates/vectors. Each clause on an arrow has to be one of its
  function's contract.
- bytes.svg (docs/LIBRARY.md): the bytes of a call with a list of records, in both memories: a row of crates/vectors.
- halves.svg (docs/C.md): the steps of a call in halves, with the numbers of a row of crates/vectors, which
  examples/c/vectors.c runs through the header. Each call that it names has to be one of include/witcall.h.
- crates.svg (docs/ARCHITECTURE.md): which crates depend on which, of crates.txt, in the groups of docs/crate-facts.txt.

If two boxes or two texts of a picture overlap, or one is not all in it, none is written and the exit status is 1. With
--check nothing is written, and the exit status is 1 also if a picture is not current, or one is there that no script
makes (OTHERS are of tools/check_explain.py and tools/page_test.py). The program is the one that was built,
crates/program/out/program, if no other is named.
"""
import argparse
import functools
import itertools
import json
import pathlib
import re
import subprocess
import sys
from html import escape

import crates_page
from repository import PROGRAM, ROOT, all_crates, functions, sources, vectors

sys.path.insert(0, str(ROOT))

from tools.models.opening import opened  # noqa: E402

WIDTH = 800
# light and dark: fill, line and text of a page, then of each group in turn
PLAIN = (("#ffffff", "#57606a", "#1f2328"), ("#0d1117", "#8b949e", "#e6edf3"))
HUES = (210, 130, 30, 280, 60, 330, 175, 0, 245, 95, 15, 300)
# groups of docs/crate-facts.txt that the picture of crates leaves out, since nothing depends on them
# pixels of the texts of a class, if not 12
SIZES = {"small": 11, "crate": 10}
TESTS = ("Programs that answer rows", "Tests")
OTHERS = {"shapes.svg", *(f"page{it}.png" for it in ("", "-call", "-dark", "-fault", "-module", "-world"))}
ROW = "lists: padding of the target stays too"
HALVES = "strings: random 5"


class Picture:
    """An SVG: shapes and words, in the colours of the reader's page."""

    def __init__(self, height, title):
        self.height, self.title, self.parts = height, title, []
        self.boxes, self.texts = [], []

    def add(self, part):
        self.parts.append(part)

    def text(self, x, y, words, kind="", anchor="start"):
        """Words at a place; `kind` is a class of the style below."""
        style = f'class="{kind}" text-anchor="{anchor}" xml:space="preserve"'
        size = next((it for name, it in SIZES.items() if name in kind.split()), 12)
        begin = x - len(words) * size * 0.6 * {"start": 0, "middle": 0.5, "end": 1}[anchor]
        self.texts.append((begin, y - size * 0.8, begin + len(words) * size * 0.6, y + size * 0.2, words))
        self.add(f'<text x="{x:g}" y="{y:g}" {style}>{escape(words, quote=False)}</text>')

    def box(self, x, y, width, height, kind="box"):
        if kind != "frame":
            self.boxes.append((x, y, x + width, y + height, kind))
        self.add(f'<rect x="{x:g}" y="{y:g}" width="{width:g}" height="{height:g}" rx="4" class="{kind}"/>')

    def arrow(self, *points):
        """A line through points, with a head at its end."""
        path = " ".join(f"{'ML'[number > 0]}{x:g} {y:g}" for number, (x, y) in enumerate(points))
        self.add(f'<path d="{path}" class="line" marker-end="url(#head)"/>')

    def curve(self, top, bottom):
        """A line from one place down to another."""
        (x, y), (to_x, to_y) = top, bottom
        half = (y + to_y) / 2
        self.add(f'<path d="M{x:g} {y:g}C{x:g} {half:g} {to_x:g} {half:g} {to_x:g} {to_y:g}" class="edge"/>')

    def refuse_overlaps(self):
        """Ends the program if two boxes or two texts overlap, or one is not all in the picture."""
        for parts in (self.boxes, self.texts):
            pairs = [(one, other) for one, other in itertools.combinations(parts, 2)
                     if all(one[it] < other[it + 2] - 0.01 and other[it] < one[it + 2] - 0.01 for it in (0, 1))]
            pairs += [(it, "the edge") for it in parts
                      if it[0] < 0 or it[1] < 0 or it[2] > WIDTH or it[3] > self.height]
            if pairs:
                told = "; ".join(f"{one} and {other}" for one, other in pairs[:4])
                sys.exit(f"tools/pictures.py: {self.title}: these overlap: {told}")

    def svg(self):
        self.refuse_overlaps()
        style = "".join(f"{'@media (prefers-color-scheme:dark){' if dark else ''}{colours(dark)}{'}' if dark else ''}"
                        for dark in (0, 1))
        return "\n".join([
            f'<svg xmlns="http://www.w3.org/2000/svg" viewBox="0 0 {WIDTH} {self.height:g}" '
            f'width="{WIDTH}" height="{self.height:g}" role="img">',
            f"<title>{escape(self.title)}</title>",
            f"<style>text{{font:12px ui-monospace,Menlo,Consolas,monospace}}"
            f".name{{font-weight:bold}}.small{{font-size:11px}}"
            f".line,.edge,.frame{{fill:none}}.frame{{stroke-dasharray:4 3}}.edge{{stroke-width:.8}}{style}</style>",
            '<defs><marker id="head" viewBox="0 0 8 8" refX="8" refY="4" markerWidth="7" markerHeight="7" '
            'orient="auto">'
            '<path d="M0 0L8 4L0 8z" class="head"/></marker></defs>',
            f'<rect width="{WIDTH}" height="{self.height:g}" class="page"/>',
            *self.parts,
            "</svg>",
        ]) + "\n"


def colours(dark):
    """The style of a light page or a dark one."""
    page, line, ink = PLAIN[dark]
    lights = ("35%", "22%") if dark else ("70%", "90%")
    groups = "".join(f".g{number}{{fill:hsl({hue},{lights[0]},{lights[1]})}}" for number, hue in enumerate(HUES))
    return (f".page{{fill:{page}}}text,.head{{fill:{ink}}}.line,.edge,.frame,.box,rect[class^=g]{{stroke:{line}}}"
            f".box{{fill:{'#161b22' if dark else '#f6f8fa'}}}.clause{{fill:{'#79c0ff' if dark else '#0550ae'}}}"
            f".dim{{fill:{line}}}{groups}")


# The way from a text to a call

@functools.cache
def all_functions():
    """The functions of crates/, with their contracts."""
    return [it for path in sources(".rt") for it in functions(path)]


def clauses(function, *names):
    """`FUNCTION: CLAUSE, CLAUSE`, of clauses that a function of this name has, or parts that the definition of the
    promise has."""
    there = {clause for it in all_functions() if it.name == function.split("::")[-1] for clause in it.clauses}
    if "promise" in there:
        there.update(re.findall(r"^  pub (\w+) : ",
                                (ROOT / "crates" / "canonical_abi" / "specs" / "Headline.antt").read_text(), re.M))
    for name in names:
        if name not in there:
            sys.exit(f"tools/pictures.py: {function} has no clause {name}")
    return f"{function}: {', '.join(names)}"


def printed(program, *words):
    """The lines that the program prints on these words."""
    return subprocess.run([program, *words], capture_output=True,
                          check=True).stdout.decode("utf-8", "replace").splitlines()


def told(flats):
    """Core values."""
    return ", ".join(f"{kind} {number}" for kind, number in flats)


def steps(picture, x, y, width, rows):
    """Boxes from top to bottom, each a title with lines, and the clauses on the arrow to the next one. Answers where
    each begins."""
    tops = []
    for place, (title, lines, arrows) in enumerate(rows):
        height = 26 + 16 * len(lines)
        tops.append(y)
        picture.box(x, y, width, height)
        picture.text(x + 10, y + 18, title, "name")
        for number, line in enumerate(lines):
            picture.text(x + 10, y + 35 + 16 * number, line)
        y += height
        if place < len(rows) - 1:
            gap = 18 + 16 * len(arrows)
            picture.arrow((x + 20, y), (x + 20, y + gap))
            for number, arrow in enumerate(arrows):
                picture.text(x + 32, y + 20 + 16 * number, arrow, "clause")
            y += gap
    return tops, y


def way(program):
    """The way from a text to a call."""
    file, crate = str(ROOT / "examples" / "c.wit"), ROOT / "crates" / "program"
    given, run = (crate / "args").read_text().splitlines(), (crate / "stdout").read_text().split()
    call, done = vector("scalars: a function of a number")
    signature = printed(program, "layout", file)[0]
    at = signature.index(" lift ")
    binary = subprocess.run([program, "bin", file], capture_output=True, check=True).stdout
    picture = Picture(0, "The way from a text to a call, with the clause that proves each step")
    left, bottom = steps(picture, 30, 56, 340, [
        ("FILE, a text",
         pathlib.Path(file).read_text().replace("; ", ";\n").splitlines()[:1] + [call["text"].partition("; ")[2]],
         [clauses("lex", "ok"), clauses("parse", "found", "only")]),
        ("syntax tree", [], [clauses("PackageSet::add_ast", "ok", "only")]),
        ("tables: witcall show", printed(program, "show", file), [clauses("Layouts::of", "ok")]),
        ("layouts: witcall layout", [signature[:at], signature[at + 1:]], []),
    ])
    picture.box(30, bottom + 58, 340, 42)
    picture.text(40, bottom + 76, f"FILE, a binary of {len(binary)} bytes", "name")
    picture.text(40, bottom + 93, f"{binary[:8].hex(' ')} ..")
    picture.arrow((60, bottom + 58), (60, bottom + 40), (20, bottom + 40), (20, left[2] + 30), (30, left[2] + 30))
    picture.text(72, bottom + 36, clauses("decode", "spelt", "only"), "clause")
    picture.text(72, bottom + 52, clauses("PackageSet::add_raw", "ok", "only"), "clause")
    right, end = steps(picture, 430, 56, 340, [
        ("ARGS", [given[4]], [clauses("from_json", "ok")]),
        ("the caller passes", [told(call["flats"])], [clauses("Session::call", "promise", "finds")]),
        ("the callee finds, and is run once", [told(done["body_got"])], []),
        ("the body returns", [told(call["answer"])], [clauses("Session::call", "promise", "lifts")]),
        ("the caller lifts", [told(done["outcome"]["ok"])], [clauses("to_json", "written", "read_back")]),
        ("printed", run, []),
    ])
    picture.arrow((370, left[3] + 30), (400, left[3] + 30), (400, right[1] + 20), (430, right[1] + 20))
    picture.height = max(bottom + 120, end + 56)
    picture.box(10, 10, 376, picture.height - 20, "frame")
    picture.text(30, 38, clauses("open_set", "ok", "only", "err"), "clause")
    picture.box(414, 10, 376, picture.height - 20, "frame")
    picture.text(430, 38, clauses("run_call", "ok", "begun", "err"), "clause")
    picture.text(430, end + 26, clauses("Session::call", "promise", "unchanged") + ":", "clause")
    picture.text(430, end + 40, "no other byte of the caller changes", "small")
    return picture.svg()


# The bytes of a call

def vector(name):
    """A row of crates/vectors, the call and what it did."""
    row = vectors().get(name) or sys.exit(f"tools/pictures.py: crates/vectors has no row {name}")
    return json.loads(row.asked), json.loads(row.answer)


def owners(record, start, count):
    """Which field of its records each address of a list belongs to, and the value that is there."""
    found = {}
    for element in range(count):
        for number, (begin, end) in enumerate(record.ends):
            for at in range(begin, end):
                found[start + element * record.size + at] = number
    return found


def memory(picture, y, title, data, fields):
    """The bytes of a memory, one cell each, in the colours of the fields that own them."""
    picture.text(20, y - 10, title, "name")
    for at, byte in enumerate(bytes.fromhex(data)):
        picture.box(20 + 44 * at, y, 44, 30, f"g{fields[at]}" if at in fields else "box")
        picture.text(42 + 44 * at, y + 20, f"{byte:02x}", "" if at in fields else "dim", "middle")
        picture.text(42 + 44 * at, y + 44, str(at), "small dim", "middle")


def in_bytes():
    """The bytes of a call with a list of records, in both memories."""
    call, done = vector(ROW)
    record = opened([call["text"]]).function(call["iface"], call["func"]).params.fields[0].element
    (_, start), (_, count) = call["flats"]
    (_, to), _ = done["body_got"]
    align, size, at = done["callee_log"][0]
    source, target = owners(record, start, count), owners(record, to, count)
    picture = Picture(392, "The bytes of a call with a list of records, in both memories")
    head, _, items = call["text"].partition("; ")
    picture.text(20, 26, f"{head}; {items}")
    picture.text(20, 46, f"the caller passes  i32 {start}  (address)   i32 {count}  (length)", "small")
    memory(picture, 90, "the caller's memory", call["caller"], source)
    for number, (begin, end) in enumerate(record.ends):
        middle = 20 + 44 * (start + (begin + end) / 2)
        reached = 20 + 44 * (to + (begin + end) / 2)
        label, value = record.labels[number], int.from_bytes(bytes.fromhex(call["caller"])[start + begin:start + end],
                                                             "little")
        picture.arrow((middle, 140), (reached, 196))
        picture.text(middle + 8, 162, f"{label}: {record.fields[number].word}", "name")
        picture.text(middle + 8, 178, f"= {value}")
    memory(picture, 200, "", done["callee_after"], target)
    picture.text(20 + 44 * len(bytes.fromhex(call["caller"])) + 12, 162, "the callee's memory,", "name")
    picture.text(20 + 44 * len(bytes.fromhex(call["caller"])) + 12, 178, "after the call", "name")
    asked = f"{size} bytes, aligned to {align}, and granted address {at}"
    picture.text(20, 272, f"the callee's allocator was asked for {asked}", "small")
    picture.text(20, 292, f"the callee is passed  i32 {to}  (address)   i32 {count}  (length)", "small")
    memory(picture, 332, "the callee's memory, before the call", call["callee"], {})
    return picture.svg()


# A call in halves

def declared(name):
    """The name of a function that the header declares."""
    if f" {name}(" not in (ROOT / "include" / "witcall.h").read_text():
        sys.exit(f"tools/pictures.py: include/witcall.h has no {name}")
    return name


def steps_of_halves(call, done):
    """The steps of a call of a text that a text answers. Each has its number, what the library is called for and what
    that does, the lines of the caller and of the callee, and which way bytes go."""
    (_, start), (_, length), (_, area) = call["flats"]
    (_, at), _ = done["body_got"]
    (_, answer), = call["answer"]
    caller, callee = bytes.fromhex(call["caller"]), bytes.fromhex(call["callee"])
    back, size = (int.from_bytes(callee[answer + place:answer + place + 4], "little") for place in (0, 4))
    (asked,), (given,) = done["callee_log"], done["caller_log"]
    argument, result = caller[start:start + length].decode(), callee[back:back + size].decode()
    after = [bytes.fromhex(done[side])[begin:end].decode() for side, begin, end in (
        ("callee_after", at, at + length), ("caller_after", given[2], given[2] + size))]
    if done["outcome"] != {"ok": []} or after != [argument, result]:
        sys.exit(f"tools/pictures.py: {HALVES} is no call that this picture shows")
    wants = lambda request: f"asks for {request[1]} bytes, aligned to {request[0]}"  # noqa: E731
    grants = lambda request: ["its allocator grants", f"{request[1]} bytes at {request[2]}"]  # noqa: E731
    got, answered = told(done["body_got"]), told(call["answer"])
    return [
        ("once", declared("witcall_open") + ", " + declared("witcall_find"),
         call["text"].partition("{ ")[2].strip().rpartition(";")[0], [], [], 0),
        ("1", declared("witcall_enter_requests"), wants(asked), ["passes", told(call["flats"])], grants(asked), 1),
        ("2", declared("witcall_enter"), f"writes {got}", [f"at {start}:", f'"{argument}"'],
         [f"at {at}:", f'"{argument}"'], 1),
        ("3", "", "", [], ["the core function gets", got, f"and answers {answered}"], 0),
        ("4", declared("witcall_leave_requests"), wants(given), grants(given),
         [f"at {answer}: address {back},", f"length {size}"], -1),
        ("5", declared("witcall_leave"), "fills the block and the return area",
         [f'at {given[2]}: "{result}"', f"return area at {area}:", f"address {given[2]}, length {size}"],
         [f"at {back}:", f'"{result}"'], -1),
        ("6", "", "", [], ["post-return gets", answered], 0),
    ]


def draw_step(picture, y, row):
    """Draws a step, and answers where the next one begins."""
    step, title, line, left, right, way = row
    height = 22 + 16 * max(len(left), len(right), 1 if way or title else 0, 2 if title else 0)
    middle = y + height / 2
    if title:
        picture.box(250, y, 290, height, "g0")
        picture.text(300, middle - 4, title, "name")
        picture.text(300, middle + 13, line, "small")
        picture.text(275, middle + 5, step, "name", "middle")
    for x, lines in ((20, left), (600, right)):
        if lines:
            picture.box(x, y, 180, height, "box" if title else "g1")
        for number, words in enumerate(lines):
            picture.text(x + 10, y + 23 + 16 * number, words, "small")
    if not title:
        picture.text(580, middle + 5, step, "name", "middle")
    for begin, end in ((200, 250), (540, 600))[::way] if way else ():
        picture.arrow(*((x, middle) for x in (begin, end)[::way]))
    return y + height + 16


def in_halves():
    """The steps of a call of a text that a text answers: what the library is called for, what the host does, and what
    crosses."""
    picture = Picture(0, "The steps of a call in halves")
    for x, title in ((20, "the caller"), (300, "the library"), (610, "the callee")):
        picture.text(x, 28, title, "name")
    y = 44
    for row in steps_of_halves(*vector(HALVES)):
        y = draw_step(picture, y, row)
    for x, kind, words in ((20, "g0", "a call of the library"), (250, "g1", "code of the callee, which the host runs"),
                           (600, "box", "memories, allocators")):
        picture.box(x, y, 14, 12, kind)
        picture.text(x + 22, y + 10, words, "small")
    picture.height = y + 28
    return picture.svg()


# The graph of crates

def bottom_up(below):
    """The same crates, each after those that it depends on."""
    placed = {}

    def place(name):
        if name not in placed:
            for it in below[name]:
                place(it)
            placed[name] = below[name]

    for name in below:
        place(name)
    return placed


def levels(below):
    """The level of each crate: above all that it depends on, and as high as the crates allow that depend on it, if it
    has few of its own."""
    level = {}
    for name in below:
        level[name] = 1 + max((level[it] for it in below[name]), default=-1)
    for name in reversed(below):
        above = [level[it] for it in below if name in below[it]]
        if len(above) > len(below[name]):
            level[name] = min(above) - 1
    return level


def reduced(below):
    """The same crates, each with those alone that it doesn't reach by another."""
    reach = {}
    for name, parts in below.items():
        reach[name] = set(parts).union(*(reach[it] for it in parts))
    return {name: [it for it in parts if not any(it in reach[by] for by in parts)] for name, parts in below.items()}


def chains(below, level):
    """Rows from the lowest on, of crates and of places on long edges, and the edges between neighbouring rows."""
    rows, edges = [[] for _ in range(max(level.values()) + 1)], []
    for name in below:
        rows[level[name]].append(name)
    for name, parts in below.items():
        for part in parts:
            last = part
            for height in range(level[part] + 1, level[name]):
                place = (part, name, height)
                rows[height].append(place)
                edges.append((place, last))
                last = place
            edges.append((name, last))
    return rows, edges


def order(rows, edges):
    """Puts each row in the order of what its members are joined to, some times up and down."""
    place = {it: number - len(row) / 2 for row in rows for number, it in enumerate(row)}
    joined = {it: [] for it in place}
    for upper, lower in edges:
        joined[upper].append((lower, -1))
        joined[lower].append((upper, 1))
    for turn in range(24):
        side = -1 if turn % 2 == 0 else 1
        for row in rows if side < 0 else reversed(rows):
            means = {}
            for it in row:
                others = [place[to] for to, toward in joined[it] if toward == side]
                means[it] = sum(others) / len(others) if others else place[it]
            row.sort(key=lambda it: (means[it], place[it]))
            for number, it in enumerate(row):
                place[it] = number - len(row) / 2
    return rows


def width_in_row(it):
    """The pixels of a crate in its row, or of a place on a long edge."""
    return 6.2 * len(it) + 12 if isinstance(it, str) else 10


def is_full(row):
    """Whether a row has no room for all beside each other."""
    return sum(map(width_in_row, row)) + 6 * (len(row) + 1) > WIDTH - 20


def lines_of(row):
    """How many lines a row takes, if its crates stand in them in turn: a full row two, or as many as it needs."""
    crates = [width_in_row(it) + 4 for it in row if isinstance(it, str)]
    least = 2 if is_full(row) else 1
    return next(count for count in range(least, len(row) + 2)
                if all(sum(crates[line::count]) <= WIDTH - 8 for line in range(count)))


def heights(rows):
    """Where each row begins, from the lowest on, and where the picture of them ends."""
    bottom, tops = 20, []
    for row in reversed(rows):
        tops.insert(0, bottom)
        bottom += 28 + 34 * lines_of(row)
    return tops, bottom


def placed_in(row, top):
    """The middle, the top and the width of each place of a row. Those of a full row are nearer to each other, and
    stand in its lines in turn."""
    full, lines, widths = is_full(row), lines_of(row), [width_in_row(it) for it in row]
    space = 0 if full else (WIDTH - 20 - sum(widths)) / (len(row) + 1)
    scale = min(1, (WIDTH - 20) / sum(widths))
    x, found, line = 10 + space, {}, 0
    for it, width in zip(row, widths):
        middle = min(max(x + width * scale / 2, 4 + width / 2), WIDTH - 4 - width / 2)
        found[it] = (middle, top + 34 * line, width)
        line = (line + 1) % lines if isinstance(it, str) else line
        x += width * scale + space
    return apart(found) if full else found


def apart(places):
    """The same places, with the crates of each line moved apart where they would overlap: to the right, and then to the
    left, as far as the picture's edge asks."""
    for line in {y for _, y, _ in places.values()}:
        names = [it for it, (_, y, _) in places.items() if y == line and isinstance(it, str)]
        for side, row in ((1, names), (-1, names[::-1])):
            edge = 4 if side > 0 else WIDTH - 4
            for it in row:
                x, y, width = places[it]
                x = max(x, edge + width / 2) if side > 0 else min(x, edge - width / 2)
                places[it] = (x, y, width)
                edge = x + side * (width / 2 + 4)
    return places


def graph():
    """Which crates depend on which."""
    everything = all_crates()
    groups, missing = crates_page.facts(everything)
    if missing:
        sys.exit("tools/pictures.py: docs/crate-facts.txt has no line of " + ", ".join(sorted(missing)))
    group = {name: number % len(HUES) for number, (title, found) in enumerate(groups)
             for name in found if title not in TESTS}
    below = reduced(bottom_up({name: [it for it in parts if it in group]
                               for name, parts in everything.items() if name in group}))
    rows, edges = chains(below, levels(below))
    order(rows, edges)
    titles = [(number, title) for number, (title, found) in enumerate(groups) if number in group.values()]
    tops, bottom = heights(rows)
    lines = -(-len(titles) // 2)
    picture = Picture(bottom + 18 * lines, "Which crates depend on which")
    at = {it: place for row, top in zip(rows, tops) for it, place in placed_in(row, top).items()}
    for upper, lower in edges:
        (x, y, _), (to_x, to_y, _) = at[upper], at[lower]
        picture.curve((x, y + (24 if isinstance(upper, str) else 12)),
                      (to_x, to_y + (0 if isinstance(lower, str) else 12)))
    for name, number in group.items():
        x, y, width = at[name]
        picture.box(x - width / 2, y, width, 24, f"g{number}")
        picture.text(x, y + 16, name, "crate", "middle")
    for line, (number, title) in enumerate(titles):
        x, y = 20 + 380 * (line // lines), bottom - 10 + 18 * (line % lines)
        picture.box(x, y, 14, 12, f"g{number}")
        picture.text(x + 22, y + 10, title, "small")
    return picture.svg().replace(".small{", ".crate{font-size:10px}.small{", 1)


def main():
    parser = argparse.ArgumentParser(description=__doc__.splitlines()[0])
    parser.add_argument("--check", action="store_true")
    parser.add_argument("--program", type=pathlib.Path, default=PROGRAM)
    given = parser.parse_args()
    folder, stale, pictures = ROOT / "docs" / "pictures", [], {"bytes.svg": in_bytes(), "halves.svg": in_halves(),
                                                               "crates.svg": graph()}
    if given.program.is_file():
        pictures["way.svg"] = way(given.program)
    else:
        missing = (f"tools/pictures.py: way.svg needs the program, and there is no {given.program}: build it, or name "
                   "another by --program")
        if given.check:
            sys.exit(missing)
        print(missing, file=sys.stderr)
    for name, svg in pictures.items():
        if not given.check:
            (folder / name).write_text(svg)
        elif not (folder / name).is_file() or (folder / name).read_text() != svg:
            stale.append(name)
    unknown = sorted({it.name for it in folder.iterdir()} - set(pictures) - OTHERS)
    if unknown and given.check:
        sys.exit(f"tools/pictures.py: no script makes {', '.join(unknown)}")
    if stale:
        sys.exit(f"tools/pictures.py: not current: {', '.join(stale)}; run tools/pictures.py")


if __name__ == "__main__":
    main()
