#!/usr/bin/env python3
"""Compares what pages show of errors, values, rows, runs and sources with what the program prints and what is stored.

usage: tools/check_outputs.py [--program WITCALL]

What is checked:

- docs/ERRORS.md: each line of an error, of a trap or of the usage. An example is a row of errors.rows, whose input is
  given to the program, and so is what stands in the page. RUNS has commands for lines without an example. Each other
  line is in a stored answer of ANSWERS.
- docs/FORMATS.md: each example of the table of JSON is read as a value of its type and written as it stands. The rows
  in blocks without a language are stored rows. A row may be broken into lines, of which each but the first begins
  with a space.
- Blocks without a language of the pages of HOSTS: the lines are those of a stored run of an example, one after
  another.
- Blocks of `rust` of the pages of RATTLE: their lines are those of a source of crates/, in its order. A block may have
  lines that are far from each other there, and may be indented less.

Of each command the exit status, standard output and standard error are compared, each by itself (tools/shown.py). The
commands of pages are run by tools/run_pages.py.

The program is the one that was built, crates/program/out/program, if no other is named. The exit status is 1 if a
page is wrong, and if one of these has nothing to compare.
"""
import argparse
import collections
import pathlib
import re
import subprocess
import sys
import tempfile

from pages_programs import RATTLE
from repository import PROGRAM, ROOT, blocks, columns, pages as all_pages, place, sources
from shown import done, outcomes

sys.path.insert(0, str(ROOT))

from tools.measure import refused  # noqa: E402
from tools.models.text_rows import Inputs  # noqa: E402

HOSTS = ("README.md", "docs/LIBRARY.md", "docs/C.md")
# an example of docs/ERRORS.md: a text or the parts of a call, and the line that answers it
EXAMPLE = re.compile(r"`(package [^`]*)`( twice)?: `(error [^`]*)`")
CALL = re.compile(r"`(f: [^`]*)`, ARGS `([^`]*)`: `([^`]*)`")
SHELL = re.compile(r"`(witcall [^`]*)`")
JSON = re.compile(r"`([^`]*)`: ((?:`[^`]*`(?:, )?)+)")
# a row of a text file, and one of JSON
ROW = re.compile(r"let \w+ = |[^:|]+: .*=>|\{\"", re.M)
EXAMPLES = "example, and its answer"
ROWS = ROOT / "crates" / "vectors" / "data"
# commands that are answered by lines of docs/ERRORS.md without an example
RUNS = {
    "error 20 read at P": "witcall show examples",
    "error 36 limit at 1048576..1048576": "head -c 1048577 /dev/zero > long.wit && witcall show long.wit",
    "error 64 file": "witcall show absent.wit",
    "error 65 write": "witcall show examples/c.wit > /dev/full",
    "usage: witcall show|bin|text|layout FILE, or call FILE IFACE FUNC ARGS REPLY": "witcall show",
}
NO_MEMORY = "error 21 no memory"
# the stored answers of what the program doesn't do: of the library, and of calls over other memories than its own
ANSWERS = ("examples/c/faults.expected", "crates/vectors/data/reading.rows", "crates/vectors/stdout")
TOLD = re.compile(r"(?:error|trap) [^\n\"]+")


class Pages:
    """The pages as they are checked: the program, a folder to run in, and what was found wrong."""

    def __init__(self, program, folder):
        self.folder, self.faults, self.checked = folder, 0, collections.Counter()
        commands = folder / "bin"
        commands.mkdir()
        (commands / "witcall").symlink_to(program)
        (folder / "examples").symlink_to(ROOT / "examples")
        self.environment = {"PATH": f"{commands}:/usr/bin:/bin", "HOME": str(folder), "LC_ALL": "C.UTF-8"}

    def expect(self, kind, where, what, found, said):
        """Counts one comparison of a kind, and prints it if the two differ."""
        self.checked[kind] += 1
        if found != said:
            self.faults += 1
            print(f"{where}: {what}\n  the page says: {said!r}\n  it prints:     {found!r}")

    def witcall(self, *words):
        """What the program does on these words: its status, and what it prints on each stream."""
        run = [self.folder / "bin" / "witcall", *words]
        ran = subprocess.run(run, cwd=self.folder, capture_output=True, text=True, check=False)
        return ran.returncode, ran.stdout, ran.stderr

    def shell(self, command):
        """What a command of a shell does."""
        return outcomes([command], self.folder, cwd=self.folder, env=self.environment)[0]


def examples(text):
    """The rows of the tables of docs/ERRORS.md that have examples: the number of each, its line of an error, and the
    example."""
    line = ""
    for number, head, cell in columns(text):
        if head == "line":
            line = cell.strip("`")
        if head == EXAMPLES and set(cell) != {"-"}:
            yield number, line, cell


def is_line(line, answer):
    """Whether an answer is one that the page has this line for, in which words in capitals stand for something."""
    return re.fullmatch(re.sub(r"\b[A-Z]+\b", ".+", re.escape(line)), answer) is not None


def check_examples(pages, name, text, answers):
    """The examples of docs/ERRORS.md, by the program, and by the answers of errors.rows."""
    file = pages.folder / "example.wit"
    for number, line, example in examples(text):
        where = f"{name}:{number}"
        if found := SHELL.search(example):
            pages.expect("errors", where, found[1], pages.shell(found[1]), done(line))
            continue
        if found := EXAMPLE.search(example):
            file.write_text(found[1])
            first = ["--with", file.name] if found[2] else []
            pages.expect("errors", where, found[1], pages.witcall("show", *first, file.name), done(found[3]))
        elif found := CALL.search(example):
            file.write_text(f"package a:b; interface c {{ {found[1]}; }}")
            reply = "[0]" if "->" in found[1] else "[]"
            words = ["call", file.name, "a:b/c", "f", found[2], reply]
            pages.expect("errors", where, found[1], pages.witcall(*words), done(found[3]))
        said = re.findall(r"`(error [^`]*)`", example)[-1:] or ["no answer"]
        there = [it for it in said if it in answers and is_line(line, it)]
        pages.expect("errors", where, "an answer to its line, and a row of errors.rows", there, said)


def words_of(pages, command, given):
    """The words by which the program is asked for a row's command, whose inputs are written to files."""
    *words, inputs = given.split(" ", 4) if command == "call" else [given]
    files = []
    for number, data in enumerate(Inputs(ROWS).of(inputs)):
        files.append(f"input.{number}")
        (pages.folder / files[-1]).write_bytes(data)
    earlier = [word for file in files[:-1] for word in ("--with", file)]
    return ["call" if words else "show", *earlier, files[-1], *words]


def check_errors_rows(pages):
    """The rows of errors.rows, by the program. Returns their answers."""
    answers = set()
    for line in (ROWS / "errors.rows").read_text().splitlines():
        if line and not line.startswith("#"):
            name, command, given = line.partition(" => ")[0].replace(": ", " ", 1).split(" ", 2)
            answer = re.sub(r" \(\d\)$", "", line.partition(" => ")[2])
            words = words_of(pages, command, given)
            pages.expect("rows of errors", "errors.rows", name, pages.witcall(*words), done(answer))
            answers.add(answer)
    return answers


def without_memory():
    """The lines that the sample of tools/measure/refused.py asks for."""
    asked = [words for _, words in (*refused.WORDS["rows_texts"], *refused.COMMANDS)]
    return {word for words in asked for word in words if isinstance(word, int)}


def check_lines(pages, name, text):
    """The lines of docs/ERRORS.md without an example, by RUNS or by stored answers; and the steps."""
    with_example = {line for _, line, _ in examples(text)}
    stored = {line for path in ANSWERS for line in TOLD.findall((ROOT / path).read_text())}
    steps = {line.rpartition(" in ")[2] for line in stored if line.startswith("trap ")}
    for number, head, cell in columns(text):
        where, line = f"{name}:{number}", cell.partition("`, ")[0].strip("`").replace("\\|", "|")
        if head not in ("line", "step") or set(cell) <= set("-|") or line in with_example:
            continue
        if head == "step":
            pages.expect("steps", where, "a step of a stored answer", line if line in steps else None, line)
        elif line in RUNS:
            status, output, errors = pages.shell(RUNS[line])
            told = line if is_line(line, errors.removesuffix("\n")) else errors
            pages.expect("lines", where, RUNS[line], (status, output, f"{told}\n"), done(line))
        else:
            is_stored = any(is_line(line, it) for it in stored)
            pages.expect("lines", where, "a stored answer", line if is_stored else None, line)
        if line == NO_MEMORY:
            numbers = {int(it) for it in re.findall(r"\d+", cell)}
            pages.expect("lines", where, "the numbers of tools/measure/refused.py", without_memory(), numbers)


def check_errors(pages, name, text):
    """docs/ERRORS.md."""
    check_examples(pages, name, text, check_errors_rows(pages))
    check_lines(pages, name, text)


def check_json(pages, text):
    """The examples of the table of JSON in docs/FORMATS.md."""
    file = pages.folder / "example.wit"
    section = text[text.index("## JSON\n"):]
    cells = [cell
             for _, head, cell in columns(section[:section.index("\n## ")]) if head == "example" and set(cell) != {"-"}]
    for cell in cells:
        found = JSON.fullmatch(cell)
        if not found:
            pages.expect("json", "docs/FORMATS.md", "an example", None, cell)
            continue
        shape, said_of_it = found.groups()
        kind, _, members = shape.partition(" ")
        item, name = (f"{kind} t {members}", "t") if members.startswith("{") else ("", shape)
        file.write_text(f"package a:b; interface c {{ {item} f: func(x: {name}) -> {name}; }}")
        for said in re.findall(r"`([^`]*)`", said_of_it):
            words = ["call", file.name, "a:b/c", "f", f"[{said}]", f"[{said}]"]
            pages.expect("json", "docs/FORMATS.md", shape, pages.witcall(*words), done(said))


def plain_blocks(name, text):
    """The lines of each block without a language, with its place."""
    return [(f"{name}:{number}", block.splitlines()) for number, _, block in blocks(text, "")]


def check_rows(pages, name, text):
    """The rows in blocks of docs/FORMATS.md."""
    crates = ROOT / "crates"
    files = [*ROWS.glob("*.rows"), crates / "vectors" / "stdin", crates / "vectors" / "stdout"]
    stored = {line for it in files for line in it.read_text().splitlines()}
    for where, lines in plain_blocks(name, text):
        if ROW.match("\n".join(lines)):
            whole = re.sub(r"\n +", "", "\n".join(lines)).splitlines()
            pages.expect("rows", where, "stored rows", [line for line in whole if not line or line in stored], whole)


def check_hosts(pages, name, text):
    """Blocks without a language, which show what an example prints."""
    stored = [*ROOT.glob("crates/example_*/stdout"), *ROOT.glob("examples/**/*.expected")]
    runs = [it.read_text().splitlines() for it in stored]
    for where, lines in plain_blocks(name, text):
        there = any(run[at:at + len(lines)] == lines for run in runs for at in range(len(run)))
        pages.expect("hosts", where, "a stored run of an example", lines if there else None, lines)


def check_code(pages, name, text):
    """Blocks of `rust`, whose lines are those of a source."""
    files = [[line.strip() for line in it.read_text().splitlines()] for it in sources(".rt")]
    for number, _, block in blocks(text, "rust"):
        lines = [line.strip() for line in block.splitlines() if line.strip()]
        is_there = any(has_lines(it, lines) for it in files)
        pages.expect("code", f"{name}:{number}", "lines of a source", lines if is_there else None, lines)


def has_lines(text, lines):
    """Whether a text has these lines, in this order."""
    left = iter(text)
    return all(line in left for line in lines)


def main():
    parser = argparse.ArgumentParser(description=__doc__.splitlines()[0])
    parser.add_argument("--program", type=pathlib.Path, default=PROGRAM)
    given = parser.parse_args()
    if not given.program.is_file():
        sys.exit(f"tools/check_outputs.py: there is no {given.program}: build it, or name another by --program")
    with tempfile.TemporaryDirectory() as folder:
        pages = Pages(given.program.resolve(), pathlib.Path(folder))
        for page in all_pages():
            name, text = place(page), page.read_text()
            if name in RATTLE:
                check_code(pages, name, text)
            if name in HOSTS:
                check_hosts(pages, name, text)
            if page.name == "ERRORS.md":
                check_errors(pages, name, text)
            if page.name == "FORMATS.md":
                check_json(pages, text)
                check_rows(pages, name, text)
    kinds = ("code", "errors", "rows of errors", "lines", "steps", "json", "rows", "hosts")
    nothing = [kind for kind in kinds if not pages.checked[kind]]
    if nothing:
        print(f"nothing is compared of: {', '.join(nothing)}")
    print(f"{sum(pages.checked.values())} outputs of pages compared, {pages.faults} differ")
    sys.exit(pages.faults > 0 or bool(nothing))


if __name__ == "__main__":
    main()
