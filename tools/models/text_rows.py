"""Rows of texts, binaries and sets of packages, and of what is read alone (docs/FORMATS.md, "Text rows", "Reading
rows")."""
import re

from . import atoms, changed, component, memory_rows, reading, rows, sessions
from .faults import Refused, Trap
from .jobs import JOBS
from .opening import opened
from .tables import function_number, set_rows, work

TOKEN = re.compile(r'"([^"]*)"|([^\s",]+)|(,)')
STATUS = {Trap: " (3)"}
# the commands whose answer is one line, of what stands behind them
ALONE = {**atoms.COMMANDS, **component.COMMANDS, **changed.COMMANDS, **memory_rows.COMMANDS}
CHANGED = {"fronts": changed.fronts, "changes": changed.changes}
# the commands that name a function, and how many words stand before the inputs
NAMING = {"call": 4, "find": 2}


def letters(number):
    """A number as four letters, which are its digits to the base 26."""
    return "".join(chr(97 + number // 26**place % 26) for place in (3, 2, 1, 0))


def copies(count, part):
    """Copies of a part, each with its number."""
    rules = {"{n}": str, "{m}": lambda number: str(number + 1), "{a}": letters}
    found = []
    for number in range(count):
        copy = part
        for rule, spelled_as in rules.items():
            copy = copy.replace(rule, spelled_as(number)) if rule in part else copy
        found.append(copy.encode())
    return found


class Inputs:
    """The inputs that were kept so far, by their names: a list of bytes each."""

    def __init__(self, folder):
        self.folder, self.kept = folder, {}

    def keep(self, line):
        """Keeps what a line behind `let` has."""
        name, given = line.split(" = ", 1)
        path = given.removeprefix("file ")
        self.kept[name] = self.of(given) if path == given else [(self.folder / path).read_bytes()]

    def of(self, line):
        """The inputs of a line."""
        found, tokens = [b""], [it.groups() for it in TOKEN.finditer(line)]
        while tokens:
            text, word, comma = tokens.pop(0)
            parts = [b"", b""] if comma else [text.encode()] if word is None else self.part(word, tokens)
            found[-1] += parts[0]
            found += parts[1:]
        return found

    def part(self, word, tokens):
        """What a word begins, of which the first goes on with the input before it."""
        if word == "bytes":
            return [bytes.fromhex(tokens.pop(0)[1])]
        if word not in ("repeat", "each"):
            return self.kept[word]
        count, (text, name, _) = int(tokens.pop(0)[1]), tokens.pop(0)
        parts = copies(count, text) if name is None else self.kept[name][-1:] * count
        return parts if word == "each" else [b"".join(parts)]


def again(inputs):
    """Whether the set's binary and its text are the last input."""
    packages = opened(inputs)
    made = {name: job(packages) for name, job in JOBS.items()}
    written = bytes.fromhex(*made["bin"]), "\n".join(made["text"])
    return all({name: job(opened([*inputs[:-1], data])) for name, job in JOBS.items()} == made for data in written)


def short(lines, room):
    """What is written of an output where there is so much room, in hexadecimal digits, and how that ends."""
    data = "".join(f"{line}\n" for line in lines).encode() if isinstance(lines, list) else lines
    end = "done" if len(data) <= room else "error 65 write"
    return f"{data[:room].hex()}, {end}"


def streamed(job, inputs, length, room):
    """What a job writes into so much room of an input that fails behind so many bytes."""
    if length <= len(inputs[-1]):
        return f", error 20 read at {length}"
    lines = JOBS[job](opened(inputs))
    return short(bytes.fromhex(*lines) if job == "bin" else lines, room)


def called(inputs, words):
    """What a call prints."""
    interface, name, arguments, reply = words
    return sessions.called(opened(inputs).function(interface, name), arguments, reply)


def stream_answer(kept, command, rest):
    """The answer to a row whose streams end early."""
    if command == "streamed":
        length, room, job, rest = rest.split(" ", 3)
        return streamed(job, kept.of(rest), int(length), int(room))
    room, *words, rest = rest.split(" ", 5)
    printed = called(kept.of(rest), words)
    return short([printed] if printed else [], int(room))


def answer_to(command, inputs):
    """The lines of an answer."""
    if command == "parse":
        reading.read(inputs[-1])
        return ["read"]
    if command == "cuts":
        return changed.cuts(inputs)
    if command == "again":
        return ["the same" if again(inputs) else "something else"]
    packages = opened(inputs)
    if command == "work":
        return [str(work(list(set_rows(packages))))]
    return ["opened"] if command == "open" else JOBS["text" if command == "copy" else command](packages)


def answer(kept, asked):
    """The lines of the answer to a row, and whether they are one line by its command."""
    command, _, rest = asked.partition(" ")
    if command in rows.COMMANDS:
        return [rows.answer(command, rest)], True
    words = []
    if command in NAMING:
        *words, rest = rest.split(" ", NAMING[command])
    try:
        if command in ALONE:
            return [ALONE[command](rest)], True
        if command in ("streamed", "short-call"):
            return [stream_answer(kept, command, rest)], True
        inputs = kept.of(rest)
        if command == "find":
            return [str(function_number(opened(inputs), *words))], True
        if words:
            return [called(inputs, words)], True
        if command in CHANGED:
            return [CHANGED[command](inputs)], True
        return answer_to(command, inputs), command in ("parse", "open", "bin", "again", "work")
    except (Refused, Trap) as fault:
        return [f"{fault}{STATUS.get(type(fault), '')}"], True


def spelled(front, lines, is_one):
    """A row with its answer."""
    if is_one:
        return [f"{front} => {lines[0]}"]
    return [f"{front} =>", *(f"| {line}".rstrip() for line in lines)]


def rows_of(lines):
    """The lines, those of one row together."""
    found = []
    for line in lines:
        if line.startswith("|"):
            found[-1].append(line)
        else:
            found.append([line])
    return found


def is_row(line):
    """Whether a line begins a row."""
    return bool(line) and not line.startswith(("#", "let ", "|"))


def known(kept, row):
    """A row with the answer of the models."""
    front = row[0].partition(" =>")[0]
    asked = front.split(": ", 1)[1]
    return spelled(front, *answer(kept, asked))


def answers(lines, folder):
    """The lines with the answers that the models know; files that they name are in the folder."""
    kept = Inputs(folder)
    for row in rows_of(lines):
        if row[0].startswith("let "):
            kept.keep(row[0].removeprefix("let "))
        yield from known(kept, row) if is_row(row[0]) else row
