#!/usr/bin/env python3
"""Compares the packages of tests/real with what is written down of them, and with what programs tell of them.

usage: tools/check_real.py [--listing TREE_LISTING] [--witcall WITCALL]

tests/real/README.md says what is written down: what comes in of a package, and what is left out and why. For each
package

- no file has a fault, except features that are not read here, a comma after the last parameter, and no `package` line;
- `witcall show` opens the package, or fails with the number and the words that are written down;
- each interface, world, type and function of the texts is written down once, in one of the ways, and nothing else is;
- what comes in has nothing outside of the profile, and mentions nothing that is left out;
- what is left out has the reason that the rules give;
- the sums are those of what is written down.

The exit status is 1 if something differs.
"""
import collections
import dataclasses
import json
import pathlib
import re
import subprocess
import sys
import tempfile

ROOT = pathlib.Path(__file__).resolve().parent.parent
sys.path.insert(0, str(ROOT))

from tools.check_tree import LISTING, OUTSIDE, listed  # noqa: E402
from tools.repository import PROGRAM, parser  # noqa: E402

REAL = ROOT / "tests" / "real"
TOKEN = re.compile(r"%?[A-Za-z][A-Za-z0-9]*(?:-[A-Za-z0-9]+)*|->|@?[0-9](?:[0-9A-Za-z.+-]*[0-9A-Za-z])?|\S")
WITH_PARTS = ("record", "variant", "enum", "flags")
TYPES = ("type", "resource", *WITH_PARTS)
READ = set("bool s8 u8 s16 u16 s32 u32 s64 u64 char string list option tuple result _".split())
# words of types that are outside the profile, and the comma of a list, each with its reason
OUTSIDE_TYPES = {"f32": "float", "f64": "float", "own": "resource", "borrow": "resource", ",": "fixed-length-list"}
OUTSIDE_TYPES |= {it: it for it in ("async", "stream", "future", "map", "error-context")}
ANSWER = re.compile(r"error (\d+ .*?)(?: at \d+\.\.\d+)?\n")


# ---- texts


@dataclasses.dataclass
class Item:
    """An item of a file, of a package in it, of an interface, a resource or a world: the word that it begins with, or
    `function`, its name, its tokens after that, its gates as a word and a value each, and the items in it."""

    kind: str
    name: str
    tokens: list
    gates: list
    inside: list = dataclasses.field(default_factory=list)


def end_of_comment(text, at):
    """Where a comment of `/*` ends, which may have others in it."""
    depth = 0
    for mark in re.compile(r"/\*|\*/").finditer(text, at):
        depth += 1 if mark[0] == "/*" else -1
        if not depth:
            return mark.end()
    return len(text)


def without_comments(text):
    """A text with a blank in the place of each comment."""
    made, at = [], 0
    while found := re.compile(r"//[^\n]*|/\*").search(text, at):
        made.append(text[at : found.start()])
        at = end_of_comment(text, found.start()) if found[0] == "/*" else found.end()
    return " ".join([*made, text[at:]])


class Reader:
    """Reads the items of texts without faults."""

    def __init__(self, text):
        self.tokens, self.at = TOKEN.findall(without_comments(text)), 0

    def ahead(self, count=0):
        return self.tokens[self.at + count] if self.at + count < len(self.tokens) else ""

    def take(self):
        self.at += 1
        return self.tokens[self.at - 1]

    def up_to(self, *ends):
        """The tokens up to one of these, which is not among them and not in braces, and with it passed over."""
        found, depth = [], 0
        while depth or self.ahead() not in ends:
            found.append(self.take())
            depth += {"{": 1, "}": -1}.get(found[-1], 0)
        self.take()
        return found

    def gates(self):
        """The gates of an item: a word and a value each."""
        found = []
        while self.ahead() == "@":
            _, word, *value = self.up_to(")")
            found.append((word, value[-1]))
        return found

    def items(self, end=""):
        """The items up to an end."""
        found = []
        while self.ahead() != end:
            found.append(self.item())
        self.at += 1
        return found

    def item(self):
        gates, head = self.gates(), self.take()
        if head == "package":
            name = []
            while self.ahead() not in ("{", ";"):
                name.append(self.take())
            return Item(head, plain("".join(name)), [], gates, self.body())
        if head in ("interface", "world", "resource"):
            return Item(head, plain(self.take()), [], gates, self.body())
        if head in WITH_PARTS:
            return Item(head, plain(self.take()), self.up_to("{") + self.up_to("}"), gates)
        if head == "type":
            return Item(head, plain(self.take()), self.up_to(";"), gates)
        if head == "include":
            return Item(head, "", self.include(), gates)
        if head in ("import", "export") and self.ahead(2) in ("func", "async", "interface"):
            return self.named(head, gates)
        if head in ("use", "import", "export"):
            return Item(head, "", self.up_to(";"), gates)
        return Item("function", plain(head), self.up_to(";"), gates)

    def body(self):
        """The items in braces; there are none behind a semicolon."""
        return self.items("}") if self.take() == "{" else []

    def include(self):
        found = [self.take()]
        while self.ahead(-1) != "}" and self.ahead() != ";":
            found.append(self.take())
        self.at += self.ahead() == ";"
        return found

    def named(self, head, gates):
        """An import or an export with a name of its own."""
        name = plain(self.take())
        self.take()
        if self.ahead() != "interface":
            return Item(head, name, self.up_to(";"), gates)
        found = Item(head, name, [self.take()], gates, self.body())
        self.at += self.ahead() == ";"
        return found


def plain(name):
    """A name without `%`."""
    return name.replace("%", "")


def pairs(tokens):
    """The names in the braces of a `use` or an `include`, each with the one that it has there."""
    inside = tokens[tokens.index("{") + 1 : -1] if "{" in tokens else []
    words = plain(" ".join(inside)).split(",")
    return [(it.split()[0], it.split()[-1]) for it in words if it.strip()]


def types_of(item):
    """The words of the types that a type or a function has, in order, with the comma of a list of a fixed length."""
    around, before = [], ":" if item.kind in ("import", "export") else ""
    for token in item.tokens:
        is_type = before in (":", "->", "=") or item.kind == "variant" and before == "("
        if token == "<":
            around.append(before)
        elif token == ">":
            around.pop()
        elif token == ",":
            yield from [token] * (around[-1:] == ["list"])
        elif (around or is_type) and token not in ("func", "("):
            yield token
        before = token


def named(token):
    """The name of a type that a word is, if it is one."""
    return "" if token in READ or token in OUTSIDE_TYPES else plain(token)


# ---- sets of packages


@dataclasses.dataclass
class Place:
    """Where an item is: its package, and what the names of `use` at the top of its file mean."""

    package: str
    names: dict

    def full(self, name):
        """The full name of an interface or a world of this package."""
        front, at, version = self.package.partition("@")
        return f"{front}/{name}{at}{version}"

    def meaning(self, tokens):
        """The full name that a path means."""
        path = plain("".join(tokens))
        return path if ":" in path else self.names.get(path) or self.full(path)


class Set:
    """The interfaces and worlds of a package and of those in its folder `deps`, by their full names."""

    def __init__(self, folder, features):
        self.features, self.interfaces, self.worlds, self.off = features, {}, {}, []
        files = [*sorted(folder.glob("*.wit")), *sorted(folder.glob("deps/**/*.wit"))]
        read = {path: Reader(path.read_text()).items() for path in files}
        packages = {path.parent: it.name for path, items in read.items() for it in items
                 if it.kind == "package" and not it.inside and "deps" not in path.parts}
        for path, items in read.items():
            own = [it.name for it in items if it.kind == "package" and not it.inside]
            self.add(items, (own or [packages.get(path.parent)])[0])

    def add(self, items, package):
        """Adds what a file or a package in it has."""
        place = Place(package, {})
        for item in items:
            if item.kind == "use":
                path, _, name = " ".join(item.tokens).partition(" as ")
                full = place.meaning(path.split())
                place.names[name or re.split("[/@]", full)[1]] = full
        for item in items:
            if item.kind == "package" and item.inside:
                self.add(item.inside, item.name)
            elif item.kind in ("interface", "world") and self.is_on(item, place.full(item.name)):
                found = self.interfaces if item.kind == "interface" else self.worlds
                found[place.full(item.name)] = (item, place)

    def is_on(self, item, name):
        """Whether no gate switches an item off; one that is off is kept by its name."""
        missing = [value for word, value in item.gates if word == "unstable" and value not in self.features]
        self.off += [name] if missing and name else []
        return not missing

    def functions(self, item):
        """How many functions an item is, or has."""
        if item.kind == "resource" or item.tokens == ["interface"]:
            return sum(self.functions(it) for it in item.inside if self.is_on(it, ""))
        return int(item.kind == "function" or "func" in item.tokens[:2])

    def scope(self, full):
        """The types of an interface or a world: each name with its item, and the name of a `use` in the other one."""
        item, _ = self.interfaces.get(full) or self.worlds[full]
        own = {it.name: (it, it.name) for it in item.inside if it.kind in TYPES}
        return own | {name: (it, other) for it in item.inside if it.kind == "use" for other, name in pairs(it.tokens)}

    def used(self, full, item):
        """The full name of the interface that a `use` uses."""
        _, place = self.interfaces.get(full) or self.worlds[full]
        return place.meaning(item.tokens[: item.tokens.index("{") - 1])

    def has_parts(self, full, name):
        """Whether a type is or has a record, a variant, an enum or flags."""
        item, other = self.scope(full)[name]
        if item.kind == "use":
            return self.has_parts(self.used(full, item), other)
        return item.kind != "type" or any(self.has_parts(full, named(it)) for it in types_of(item) if named(it))

    def parts(self, full, item):
        """What an interface has, and the types of a world: each name with its item."""
        for it in item.inside:
            if it.kind == "use":
                for _, name in pairs(it.tokens):
                    if self.is_on(it, f"{full} {name}"):
                        yield f"{full} {name}", it
            elif it.kind in ("function", *TYPES) and self.is_on(it, f"{full} {it.name}"):
                yield f"{full} {it.name}", it

    def externs(self, full):
        """What a world imports and exports, what it includes, too: each direction and name with its item, and with the
        world that has it written."""
        item, place = self.worlds[full]
        found = {}
        for it in item.inside:
            if it.kind == "include":
                found |= self.included(full, it, place)
            elif it.kind == "use" and self.is_on(it, ""):
                found.setdefault(("import", self.used(full, it)), (it, full))
            elif it.kind in ("import", "export"):
                name = it.name or place.meaning(it.tokens)
                if self.is_on(it, f"{full} {it.kind} {name}"):
                    found[it.kind, name] = (it, full)
        return found

    def included(self, full, item, place):
        """What comes of an `include` in a world, under its new names."""
        end = item.tokens.index("with") if "with" in item.tokens else None
        other, names = place.meaning(item.tokens[:end]), dict(pairs(item.tokens))
        if not self.is_on(item, f"{full} include {other}"):
            return {}
        off = len(self.off)
        found = self.externs(other)
        del self.off[off:]
        return {(way, names.get(name, name)): it for (way, name), it in found.items()}

    def all(self):
        """All that has to be written down: its name, its item, and the interface or world whose types it mentions."""
        for full, (item, _) in [*self.interfaces.items(), *self.worlds.items()]:
            yield from ((name, it, full) for name, it in self.parts(full, item))
        for full in self.worlds:
            yield from ((f"{full} {way} {name}", *it) for (way, name), it in self.externs(full).items())

    def reason(self, name, item, home, left):
        """Why an item is left out if these are, or nothing."""
        if item.kind == "resource" or item.tokens == ["interface"]:
            return "resource" if item.kind == "resource" else "inline-interface"
        if "/" in name.split()[-1]:
            return ""
        if item.kind == "use":
            used, other = self.used(home, item), self.scope(home)[name.split()[-1]][1]
            if f"{used} {other}" in left:
                return f"mentions {other}"
            return "world-use" if home in self.worlds and self.has_parts(used, other) else ""
        if item.kind in WITH_PARTS and home in self.worlds:
            return "world-type"
        for token in types_of(item):
            if token in OUTSIDE_TYPES or f"{home} {named(token)}" in left:
                return OUTSIDE_TYPES.get(token) or f"mentions {named(token)}"
        return ""


# ---- what is written down


def told(wanted):
    """Each name that is written down, and where."""
    for key in ("comes_in", "types"):
        yield from ((f"{front} {name}", key) for front, names in wanted[key].items() for name in names)
    yield from ((it["item"], "left_out") for it in wanted["left_out"])
    yield from ((name, "written_out") for name in wanted.get("written_out", []))


def is_in(kind, name, item, home, there):
    """Whether an item that is not left out may be written down there."""
    if item.kind not in TYPES and (item.kind != "use" or "/" in name.split()[-1]):
        return kind == "comes_in"
    return kind == ("written_out" if home in there.worlds else "types")


def item_differs(there, name, found, kind, entries):
    """What is wrong with an item that is written down."""
    reason = there.reason(name, *found, entries)
    if reason != entries.get(name, {}).get("reason", ""):
        return f"it has the reason {reason!r}"
    return "" if reason or is_in(kind, name, *found, there) else f"it is in {kind}"


def sums(found, wanted):
    """The sum of each package and of all, from what is written down."""
    came, total = collections.Counter(), collections.Counter()
    left = {it["item"] for it in wanted["left_out"]}
    for name, count in found.items():
        package = re.sub("/[^@ ]*", "", name.split()[0])
        total[package] += count
        came[package] += 0 if name in left else count
    lines = {it: f"{came[it]} of {total[it]} functions" for it in total}
    return lines, f"{sum(came.values())} of {sum(total.values())} functions"


def wanted_differs(folder, wanted):
    """What differs between the texts of a folder and what is written down of them."""
    there = Set(folder, wanted["features"])
    items = {name: (item, home) for name, item, home in there.all()}
    entries = {it["item"]: it for it in wanted["left_out"]}
    fronts = {*there.interfaces, *(f"{it} {way}" for it in there.worlds for way in ("import", "export"))}
    yield from (f"{it} is no interface and no direction of a world" for it in set(wanted["comes_in"]) - fronts)
    yield from (f"{it} is not written down" for it in fronts - set(wanted["comes_in"]))
    names = collections.Counter(name for name, _ in told(wanted))
    yield from (f"{it} is written down {count} times" for it, count in names.items() if count > 1)
    yield from (f"{it} is not written down" for it in items if it not in names)
    for name, kind in told(wanted):
        what = item_differs(there, name, items[name], kind, entries) if name in items else "it is in no text"
        yield from [f"{name}: {what}"] * bool(what)
    counts = {name: there.functions(item) for name, (item, _) in items.items()}
    yield from (f"{name} has {counts.get(name)} functions" for name, it in entries.items()
                if it.get("functions", 0) != counts.get(name, 0))
    if sorted(there.off) != sorted(wanted.get("off", [])):
        yield f"what is off is {there.off}"
    if sums(counts, wanted) != (wanted["sums"], wanted["sum"]):
        yield f"the sums are {sums(counts, wanted)}"


# ---- what programs tell


def is_allowed(path, fault):
    """Whether a file may have this fault."""
    text = path.read_bytes()
    is_comma = re.match(rb",\s*\)", text[fault.start :])
    is_part = fault.words.startswith("`package` has") and not re.search(rb"(?m)^package ", text)
    return fault.words.startswith(OUTSIDE) or is_part or bool(is_comma)


def fault_differs(listing, folder):
    """The faults of the files of a folder that none may have."""
    for path, faults in listed(listing, sorted(folder.rglob("*.wit"))).items():
        for fault in faults:
            if not is_allowed(path, fault):
                yield f"{path.name}: {fault.words} at {fault.start}..{fault.end}"


def joined(paths):
    """The text of a package of these files."""
    texts = [path.read_text() for path in paths]
    line = re.search(r"(?m)^package [^;{]*;", "\n".join(texts))[0]
    return line + "\n" + "\n".join(re.sub(r"(?m)^package [^;{]*;", "", it, count=1) for it in texts)


def opened(program, folder, room):
    """What `witcall show` answers of a package after those of its folder `deps`, or `opens`."""
    words = [word for path in sorted(folder.glob("deps/**/*.wit")) for word in ("--with", str(path))]
    own = pathlib.Path(room) / "own.wit"
    own.write_text(joined(sorted(folder.glob("*.wit"))))
    done = subprocess.run([program, "show", *words, own], capture_output=True, text=True, check=False)
    return "opens" if done.returncode == 0 else ANSWER.fullmatch(done.stderr)[1]


def differing(options, folder, room):
    """What differs of a package."""
    yield from fault_differs(options.listing, folder)
    answer = opened(options.witcall, folder, room)
    for path in sorted(folder.glob("wanted*.json")):
        wanted = json.loads(path.read_text())
        yield from (f"{path.name}: {it}" for it in wanted_differs(folder, wanted))
        if wanted["witcall"] != answer:
            yield f"{path.name}: witcall answers {answer}, and not {wanted['witcall']}"


def main():
    options = parser(__doc__)
    options.add_argument("--listing", type=pathlib.Path, default=LISTING)
    options.add_argument("--witcall", type=pathlib.Path, default=PROGRAM)
    options = options.parse_args()
    for name in ("listing", "witcall"):
        program = getattr(options, name).resolve()
        setattr(options, name, program)
        if not program.is_file():
            sys.exit(f"tools/check_real.py: there is no {program}: run the gate, or name a program by --{name}")
    faults, folders = 0, sorted(path for path in REAL.iterdir() if path.is_dir())
    with tempfile.TemporaryDirectory() as room:
        for folder in folders:
            for fault in differing(options, folder, room):
                faults += 1
                print(f"{folder.name}: {fault}")
    print(f"{len(folders)} packages: {faults} differences")
    sys.exit(faults > 0)


if __name__ == "__main__":
    main()
