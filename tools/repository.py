"""What the scripts read of the repository: its pages, its crates with their contracts and edits, and its stored
rows."""
import argparse
import functools
import itertools
import json
import pathlib
import re
import sys
from dataclasses import dataclass, field

ROOT = pathlib.Path(__file__).resolve().parent.parent
PROGRAM = ROOT / "crates/program/out/program"
# a word in backquotes
SPAN = re.compile(r"`([^`]+)`")
WORD = re.compile(r"[A-Za-z_][A-Za-z0-9_]*")
BLOCK = re.compile(r"^```(\w*)([^\n]*)\n(.*?)^```$", re.M | re.S)
COMMENTS = {".antt": re.compile(r"--.*"), ".rt": re.compile(r"//.*"), ".h": re.compile(r"/\*.*?\*/", re.S)}
# strings, of which nothing is kept but their quotes, and comments
NO_CODE = re.compile(r'"(?:[^"\\\n]|\\.)*"|//.*')


def place(path):
    """A path from the top of the repository, as it is told."""
    return str(path.relative_to(ROOT))


# ---- pages


TOP = ("README.md", "CONTRIBUTING.md", "SECURITY.md")


def pages(*more):
    """The pages at the top that describe the present, other files, and the pages of docs/."""
    return [*(ROOT / name for name in (*TOP, *more)), *sorted((ROOT / "docs").rglob("*.md"))]


def is_reference(page):
    """Whether a page says what sources say: one of docs/api but its index."""
    return page.parent == ROOT / "docs" / "api" and page.name != "README.md"


def line_at(text, position):
    """The number of the line in which a place of a text is."""
    return text.count("\n", 0, position) + 1


def blocks(text, *languages):
    """The blocks of code of these languages: the number of each one's first line, its language and its content."""
    for found in BLOCK.finditer(text):
        if found[1] in languages and not found[2]:
            yield line_at(text, found.start()), found[1], found[3]


def without_blocks(text):
    """A text without its blocks of code, whose lines are empty."""
    return BLOCK.sub(lambda block: "\n" * block[0].count("\n"), text)


def columns(text):
    """The cells of a page's tables: the number of a line, the head of the column, and the cell."""
    heads = []
    for number, line in enumerate(text.splitlines(), 1):
        cells = [it.strip() for it in line.strip("|").split(" | ")] if line.startswith("|") else []
        if not cells:
            heads = []
        elif not heads:
            heads = cells
        else:
            yield from ((number, head, cell.strip("| ")) for head, cell in zip(heads, cells))


def counted(numeral):
    """A number as pages write it."""
    return int(numeral.replace(",", ""))


# ---- crates


def crate_lines():
    """The lines of crates.txt by the names of their crates, in its order and without comments."""
    lines = [line.partition("#")[0].strip() for line in (ROOT / "crates.txt").read_text().splitlines()]
    return {line.partition(":")[0].split()[0]: line for line in lines if ":" in line}


def all_crates():
    """The repository's crates in the order of crates.txt, each with those that it names, of the toolchain too."""
    return {name: line.partition(":")[2].split() for name, line in crate_lines().items()}


def crates():
    """The same with the repository's crates alone."""
    found = all_crates()
    return {name: [it for it in below if it in found] for name, below in found.items()}


def crates_below(names):
    """These crates and all of the repository that they stand on, in the order of crates.txt."""
    own, left = crates(), list(names)
    found = set()
    while left:
        name = left.pop()
        if name in own and name not in found:
            found.add(name)
            left += own[name]
    return [name for name in own if name in found]


def sources(*suffixes):
    """The files of crates/ that hold code, definitions and lemmas."""
    for path in sorted((ROOT / "crates").rglob("*")):
        if path.suffix in suffixes and "out" not in path.parts:
            yield path


def code(path):
    """The text of a file without its comments."""
    return COMMENTS[path.suffix].sub("", path.read_text())


def code_alone(path):
    """The text of a file of code without its comments and what its strings hold."""
    return NO_CODE.sub(lambda found: '""' if found[0].startswith('"') else "", path.read_text())


def edits():
    """All must-fail edits, those of the gate too, each with its crate."""
    found = [(path, path.parents[1].name) for path in sorted(ROOT.glob("crates/*/must-fail/*.edit"))]
    return found + [(path, path.parent.name) for path in sorted(ROOT.glob("edits/*/*.edit"))]


# ---- contracts


# the line of a function, of the block that it is in, and its clauses and conditions, of which some have no name
FUNCTION = re.compile(r"( *)(?:pub\(\w+\) |(pub ))?(?:const )?(?:unsafe )?(extern \"\" |extern )?fn (\w+)")
OWNER = re.compile(r"(?:pub(?:\(\w+\))? )?(?:unsafe )?(?:impl|trait)\b")
ENSURES = re.compile(r"\bensures (\w*) ?\{")
REQUIRES = re.compile(r"(?:^|[\s)>\]])requires\b ?(\w*)")


@dataclass
class Function:
    """A function: the head of the block that it is in, if it is in one, what its own line says, and the names of its
    clauses and conditions."""

    name: str
    block: str
    is_public: bool
    is_for_c: bool
    clauses: list = field(default_factory=list)
    conditions: list = field(default_factory=list)

    @property
    def is_of_trait(self):
        """Whether it is a method that a trait declares."""
        return "trait" in self.block.split()


def functions(path):
    """The functions of a file, with their contracts."""
    found, block, lines = [], "", code_alone(path).splitlines()
    for number, line in enumerate(lines):
        if OWNER.match(line):
            block = " ".join(lines[number:]).partition("{")[0]
        if head := FUNCTION.match(line):
            found.append(Function(head[4], block if head[1] else "", bool(head[2]), bool(head[3])))
        if found:
            found[-1].clauses.extend(ENSURES.findall(line))
            found[-1].conditions.extend(REQUIRES.findall(line))
    return found


# ---- stored rows


@dataclass(frozen=True)
class Row:
    """A row: what is asked, and the stored answer."""

    asked: str
    answer: str


@functools.cache
def vectors():
    """The rows of JSON of crates/vectors by their names, each two lines. Behind their answers stand others."""
    asked, answers = ((ROOT / "crates/vectors" / name).read_text().splitlines() for name in ("stdin", "stdout"))
    return {json.loads(row)["name"]: Row(row, answer) for row, answer in zip(asked, answers)}


@functools.cache
def text_rows():
    """The rows of crates/rows_texts by their names; what is asked has what stands under its names, too."""
    found = {}
    for path in sorted((ROOT / "crates/vectors/data").glob("*.rows")):
        kept, lines = {}, path.read_text().splitlines()
        for number, line in enumerate(lines):
            if line.startswith("let "):
                name, _, given = line.removeprefix("let ").partition(" = ")
                kept[name] = whole_input(given, kept)
            elif line and not line.startswith(("#", "|")):
                behind = itertools.takewhile(lambda it: it.startswith("|"), lines[number + 1 :])
                asked, _, answer = line.partition(" =>")
                name, _, asked = asked.partition(": ")
                found[name] = Row(whole_input(asked, kept), answer[1:] + "".join(f"{it[2:]}\n" for it in behind))
    return found


def whole_input(given, kept):
    """An input, and what it has by its names."""
    names = re.sub(r'"[^"]*"', "", given).replace(",", " ").split()
    return " ".join([given, *(kept[name] for name in names if name in kept)])


# ---- scripts


def parser(doc):
    """A parser of the words that the head of a script says in its second paragraph."""
    return argparse.ArgumentParser(usage=doc.split("\n\n")[1].removeprefix("usage: "))


def keep_page(doc, page, made):
    """What a script of a page does: it writes the page, or checks with --check that it is the one that is made."""
    keep_texts(doc, {page}, lambda: {page: made()})


def keep_pages(doc, folder, made):
    """The same for all pages of a folder, whose texts are made by their files."""
    keep_texts(doc, set(folder.glob("*.md")), made)


def keep_texts(doc, pages, made):
    """The same for pages, of which those that are not made are none."""
    if sys.argv[1:] not in ([], ["--check"]):
        sys.exit(doc)
    texts = made()
    there = {path: path.read_text() if path.exists() else None for path in pages | set(texts)}
    changed = sorted(path for path, text in there.items() if texts.get(path) != text)
    if sys.argv[1:] and changed:
        script = place(pathlib.Path(sys.argv[0]).resolve())
        are = "is" if len(changed) == 1 else "are"
        sys.exit(f"{script}: {', '.join(map(place, changed))} {are} not current: run {script}")
    for path in changed:
        path.parent.mkdir(exist_ok=True)
        path.write_text(texts[path]) if path in texts else path.unlink()


def finish(faults):
    """Prints what is wrong, and ends the script with status 1 if something is."""
    faults = list(faults)
    print("".join(f"{fault}\n" for fault in faults), end="")
    sys.exit(bool(faults))
