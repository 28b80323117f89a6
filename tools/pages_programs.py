"""The programs of a page that runs (tools/run_pages.py): which file each one is, and what runs it."""
import itertools
import re
from typing import NamedTuple

from pages_steps import Step, is_left_out, steps_of_commands
from repository import ROOT, blocks, columns, line_at, without_blocks

LANGUAGES = ("c", "cpp", "js", "json", "python", "rust", "toml", "wit")
FOLDER = ROOT / "tests" / "pages"
PLACE = "@BLOCK@"
# what a page's commands say of the program before them: a word with this end is its file, or this is what runs it
SUFFIXES = {"c": ".c", "cpp": ".cpp", "js": ".mjs", "python": ".py", "ts": ".ts"}
BUILT = {"rust": ("cargo run", "src/main.rs")}
# what a whole program has, and what one begins with that may go on in the next block
WHOLE = {"c": "int main(", "cpp": "int main(", "rust": "fn main(", "wit": "package "}
BEGINS = {"js": "import ", "python": ""}
# those whose blocks are all parts of another file
FRAMED = ("ts",)
# what is told by comments: a line that prints, and the lines below it
PRINTING = {"js": ("console.log(", "// "), "python": ("print(", "# ")}
# the file of tests/pages that a block is put into, by what the block begins with, and what the file gives it
FRAMES = {
    "witcall_package package = WITCALL_NONE;": "halves.c",  # two memories, and what the allocators grant
    "witcall_guest caller = {.context = one": "linked.c",  # two guests, and a core function
    "witcall_array_memory own = {": "values.c",  # a guest
    "uint8_t name[WITCALL_MAX_LABEL];": "rows.c",  # a package that is open
    "size_t lengths[] = {clocks_len, app_len};": "sets.c",  # two texts, one after another
    "demo_shop_desk_order_parameters given = {": "caller.c",  # a caller's memory with a result
    "demo_shop_desk_order_parameters given = demo_shop_desk_order_receive(": "callee.c",  # a callee's memory
    "witcall = {": "Cargo.toml",  # a program
    "import type { DemoShopDesk }": "order.ts",  # a package that is open, and a callee; shop.ts is beside it
    "place: func(": "orders.wit",  # the types of the function
}
# what frames print
PRINTED = {"rows.c": ("order", "  customer at 0", "  lines at 8")}
# what runs a file, $1, of a language or of a frame: it is in a folder of its own, and the shell is where the page is
C_FLAGS = '-Wall -Wextra -Werror -I. $(pkg-config --cflags --libs witcall) -o "$1.out"'
METADATA = "cargo metadata --format-version 1"
SHOP = '"$EXPLAIN" bind ts examples/c/shop.wit'
TSC = "tsc --strict --noEmit --target es2020 --module es2020 --moduleResolution node"
RUNNING = {
    "c": f'cc -std=c11 "$1" {C_FLAGS} && "$1.out"',
    "cpp": f'c++ -std=c++17 "$1" {C_FLAGS} && "$1.out"',
    "js": 'cp "$1" ./block.mjs; node block.mjs; set -- $?; rm block.mjs; [ "$1" = 0 ]',
    "json": 'python3 -m json.tool "$1" "$1.out"',
    # in the environment that the page made, if it made one
    "python": 'set -- "$1" */bin/python; [ -x "$2" ] || set -- "$1" python3; "$2" "$1"',
    "rust": 'cp "$1" src/main.rs && cargo run --quiet',
    "toml": "sed -i '/^\\[dependencies\\]$/d' Cargo.toml && cat \"$1\" >>Cargo.toml",
    "ts": f'{SHOP} >shop.ts; cp "$1" ./block.ts; {TSC} block.ts; set -- $?; rm shop.ts block.ts; [ "$1" = 0 ]',
    "Cargo.toml": f'cp "$1" .; {METADATA} >"$1.out"; set -- $?; rm Cargo.toml Cargo.lock; [ "$1" = 0 ]',
    # each package is a file
    "wit": """awk -v to="$1" '/^package /{n++} {print >to "." n ".wit"}' "$1" && "$EXPLAIN" check "$1".*.wit""",
}
# the pages whose blocks of `rust` are lines of crates/ (tools/check_outputs.py)
RATTLE = ("docs/ARCHITECTURE.md", "docs/LIBRARY.md")
# a column whose cells are commands, lines of a file or else Rattle, and what they begin with
CELLS = "in the build or the shell"
KINDS = {"`cc ": "sh", "`export ": "sh", "`npm ": "sh", "`witcall = {": "toml"}
NEW = re.compile(r"`(cargo new ([a-z]+))`")


class Part(NamedTuple):
    """A block of a page, or a command of its text: the line, the language and what it is."""

    line: int
    language: str
    text: str


def parts_of(name, text):
    """The parts of a page in its order: its blocks, `cargo new` in its text, and the cells of CELLS."""
    languages = [it for it in ("sh", *LANGUAGES) if it != "rust" or name not in RATTLE]
    found = [Part(*it) for it in blocks(text, *languages)]
    found += [Part(line, "ts", code) for line, _, code in blocks(text, "") if code.startswith("import type ")]
    prose = without_blocks(text)
    found += [Part(line_at(prose, it.start()) - 1, "sh", f"{it[1]}\ncd {it[2]}\n") for it in NEW.finditer(prose)]
    for line, head, cell in columns(prose):
        if head == CELLS and (kind := next((it for begin, it in KINDS.items() if cell.startswith(begin)), None)):
            found.append(Part(line - 1, kind, f"{cell.strip('`')}\n"))
    return sorted(found)


def goes_on(parts, at):
    """Whether the program of a block has more in the next block of its language."""
    _, language, text = parts[at]
    later = [it.text for it in parts[at + 1 :] if it.language == language]
    if language not in BEGINS or frame_of(text) or not later or frame_of(later[0]):
        return False
    return not (BEGINS[language] and later[0].startswith(BEGINS[language]))


def frame_of(text):
    """The file that a block is put into, or None."""
    return next((file for begin, file in FRAMES.items() if text.startswith(begin)), None)


def named_file(parts, at):
    """The file that the next commands of a page name for a program, or None."""
    language = parts[at].language
    later = itertools.takewhile(lambda it: it.language != language, parts[at + 1 :])
    text = "".join(it.text for it in later if it.language == "sh")
    if language in BUILT and BUILT[language][0] in text:
        return BUILT[language][1]
    end = SUFFIXES.get(language)
    return next((it for it in text.split() if end and it.endswith(end) and "/" not in it), None)


def printed(language, text):
    """The lines that the comments of a program say it prints."""
    if language not in PRINTING:
        return ()
    call, comment = PRINTING[language]
    found, is_told = [], False
    for line in text.splitlines():
        code, has_comment, told = line.partition(comment)
        is_told = call in code or is_told and not code.strip()
        if is_told and has_comment:
            found.append(told)
    return tuple(found)


class Programs:
    """The programs of a page, whose files are made in a folder."""

    def __init__(self, name, folder):
        self.name, self.folder, self.held = name, folder, {}

    def steps(self, parts, at):
        """The steps of one of a page's blocks, none if its program goes on."""
        language = parts[at].language
        text = self.held.pop(language, "") + parts[at].text
        if goes_on(parts, at):
            self.held[language] = text
            return []
        return [self.step(parts, at, text)]

    def step(self, parts, at, text):
        """The step of a program with this text, which ends with a block of the page."""
        line, language, _ = parts[at]
        where, told, frame = f"{self.name}:{line}", f"the block of {language}", frame_of(text)
        if frame:
            path = self.made(line, frame, (FOLDER / frame).read_text().replace(f"{PLACE}\n", text))
            lines = PRINTED.get(frame, printed(language, text))
            running = RUNNING.get(frame, RUNNING[language])
            return Step(where, f"{told}, in tests/pages/{frame}", f"set -- '{path}'; {running}", lines)
        if file := named_file(parts, at):
            return Step(where, f"{told}, {file}", f"cp '{self.made(line, 'named', text)}' {file}")
        if language in FRAMED or WHOLE.get(language, "") not in text:
            return Step(where, f"{told}: it is no program, and FRAMES does not have it", "false")
        path = self.made(line, f"block{SUFFIXES.get(language, '')}", text)
        return Step(where, told, f"set -- '{path}'; {RUNNING[language]}", printed(language, text))

    def made(self, line, file, text):
        """The path of a file that is made of a block."""
        path = self.folder / str(line) / file
        path.parent.mkdir(parents=True)
        path.write_text(text)
        return path


def unused_frames(texts):
    """The frames that no block of these pages is put into."""
    used = {frame_of(it.text) for name, text in texts.items() for it in parts_of(name, text)}
    return sorted(set(FRAMES.values()) - used)


def steps_of(name, parts, folder):
    """The steps of a page, without those that are left out. The files of its programs are made in a folder."""
    found, programs = [], Programs(name, folder)
    for at, (line, language, text) in enumerate(parts):
        if language == "sh":
            found += steps_of_commands(name, line, text)
        else:
            found += programs.steps(parts, at)
    return [it for it in found if not is_left_out(it.script)]
