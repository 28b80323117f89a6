"""The files that hold answers of the models: stored runs of crates, and rows."""
import collections
import itertools
import pathlib

from . import text_rows, vectors

ROOT = pathlib.Path(__file__).resolve().parent.parent.parent


def lines_of(path):
    """The lines of a file."""
    return path.read_text().removesuffix("\n").split("\n")


class Stored:
    """A file of answers: `answers` makes its lines of those of another file, or of its own."""

    def __init__(self, path, answers, asked=None):
        self.path, self.answers, self.asked = path, answers, asked or path

    def is_named(self, path):
        """Whether a path is the file's, that of its input, or of a folder up to the crate's."""
        return path in (self.path, self.asked) or path in self.path.parents and ROOT / "crates" in path.parents

    def wanted(self):
        """The answers to the stored input."""
        return list(self.answers(lines_of(self.asked)))

    def rows(self, lines):
        """The names of the rows in these lines."""
        is_text = self.path.suffix == ".rows"
        return [line.split(": ", 1)[0] for line in lines if text_rows.is_row(line)] if is_text else []

    def faults(self, wanted):
        """The names that two of these rows have."""
        return [f"two rows {name}" for name, number in collections.Counter(self.rows(wanted)).items() if number > 1]

    def write(self):
        """Writes the answers anew."""
        self.path.write_text("".join(f"{line}\n" for line in self.wanted()))


def rows_in(path):
    """A file of rows, which have their answers."""
    return Stored(path, lambda lines: text_rows.answers(lines, path.parent))


def names_of(file):
    """The names of a file's rows; a wrong one is followed by the answer."""
    lines = lines_of(TEXT_ROWS / file)
    answered = text_rows.answers(lines, TEXT_ROWS) if file == "wrong.rows" else lines
    for line, right in zip(lines, answered):
        if text_rows.is_row(line):
            yield line.split(": ", 1)[0] + ("" if line == right else f": {right.split(' => ', 1)[1]}")


def all_names(files):
    """What is written of files: of each its name and the names of its rows, since these are answered as they say."""
    return [line for file in files for line in (f"# {file}", *names_of(file))]


def output(rows):
    """The output of `vectors`: the answers of its rows of JSON, and what it writes of the files that its words name."""
    return [*vectors.answers(rows), *all_names(lines_of(WORDS))]


TEXT_ROWS = ROOT / "crates/vectors/data"
WORDS = ROOT / "crates/vectors/args"
OUTPUT = Stored(ROOT / "crates/vectors/stdout", output, ROOT / "crates/vectors/stdin")
# the rows of `wrong.rows` have wrong answers, of which OUTPUT has the right ones
FILES = ("grammar", "texts", "errors", "sets", "packages", "changes", "layouts", "json", "reading")
ALL = [OUTPUT, *(rows_in(TEXT_ROWS / f"{name}.rows") for name in FILES)]


def unlisted():
    """The files of rows that nothing of ALL is the answers of, or that the words of `vectors` don't name."""
    asked = lines_of(WORDS)
    known = {it.path for it in ALL} | {TEXT_ROWS / "wrong.rows"}
    rows = sorted(TEXT_ROWS.glob("*.rows"))
    return [f"{it.relative_to(ROOT)}: no model answers these rows" for it in rows if it not in known] + [
        f"{it.relative_to(ROOT)}: vectors is not asked for these rows" for it in rows if it.name not in asked]


def named(paths):
    """What is stored in these files or folders; everything where there is none. A file of rows may be any."""
    found = []
    for path in (pathlib.Path(path).resolve() for path in paths):
        of_path = [it for it in ALL if it.is_named(path)] or [rows_in(path)] * (path.suffix == ".rows")
        if not of_path:
            raise SystemExit(f"{path}: nothing of the models is stored there")
        found += of_path
    return found or ALL


def shown(line):
    """The beginning of a line, or nothing past the end."""
    return "nothing" if line is None else line[:300]


def is_right(it):
    """Whether one of these is what the models answer; prints where it isn't."""
    wanted, where = it.wanted(), it.path.relative_to(ROOT) if it.path.is_relative_to(ROOT) else it.path
    pairs = enumerate(itertools.zip_longest(lines_of(it.path), wanted), 1)
    differing = [(place, *pair) for place, pair in pairs if pair[0] != pair[1]]
    for place, *pair in differing[:10]:
        print(f"{where}:{place}\n  stored {shown(pair[0])}\n  wanted {shown(pair[1])}")
    faults = it.faults(wanted)
    print("\n".join([*faults, f"{where}: {len(wanted)} lines, {len(differing)} differ"]))
    return not differing and not faults


def check(paths):
    """Whether what is stored is what the models answer; prints where it isn't."""
    missing = [] if paths else unlisted()
    for line in missing:
        print(line)
    right = all([is_right(it) for it in named(paths)])
    return right and not missing


def write(paths):
    """Writes what is stored anew."""
    for it in named(paths):
        it.write()
    return True
