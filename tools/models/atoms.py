"""Rows of numbers, names, texts and command lines alone (docs/FORMATS.md, "Reading rows")."""
import json

from . import component, printing, reading, tokens

USAGE = "usage: witcall show|bin|text|layout FILE, or call FILE IFACE FUNC ARGS REPLY"
CALL = ("file", "interface", "function", "arguments", "reply")
MOST_BYTES = 5


def number_row(least, most, digits):
    """The number that begins bytes, in groups of seven bits, and how many bytes it has."""
    found, data = 0, bytes.fromhex(digits)
    for place in range(MOST_BYTES):
        if place == len(data):
            return "error 1 truncated"
        found += (data[place] & 0x7F) << 7 * place
        if data[place] < 0x80:
            sign = 1 << 7 * place + 7 if least < 0 and data[place] & 0x40 else 0
            return f"{found - sign} in {place + 1}" if 0 <= found - sign <= most else "error 2 overlong"
    return "error 2 overlong"


def name_row(is_name, fault, text):
    """A name, or what it is refused with."""
    return text if is_name(text) else fault


def words_of(line):
    """The files that come before the last one, and the other words behind the command; None if one is wrong."""
    words, earlier = line.split(" ")[2:], []
    while words and (words[0] == "--with" or words[0].startswith("--with=")):
        flag, _, file = words.pop(0).partition("=")
        # the word after a lone `--with` is no file if it is an option, or if there is none
        if not file and (not words or words[0].startswith("-") and words[0] != "-"):
            return None
        earlier.append(file or words.pop(0))
    if words and words[0] == "--":
        return earlier, words[1:]
    return None if any(word.startswith("-") and word != "-" for word in words) else (earlier, words)


def words_row(line):
    """What a command line asks for, in the words of Rust."""
    command = line.split(" ")[1] if " " in line else ""
    found = words_of(line)
    names = CALL if command == "call" else ("file",)
    if command not in ("show", "bin", "text", "layout", "call") or found is None or len(found[1]) != len(names):
        return USAGE
    earlier, words = found
    said = ", ".join(f"{name}: {json.dumps(word)}" for name, word in zip(names, words))
    front = "Call { " if command == "call" else f"Convert {{ job: {command.capitalize()}, "
    return f"{front}earlier: {json.dumps(earlier)}, {said} }}"


def printed(package):
    """The canonical text of a package behind a byte that is there before, as a Rust literal."""
    return json.dumps("x" + "".join(f"{line}\n" for line in printing.text_lines(package)))


def tree(package):
    """The name of a package, and how many items it has."""
    return f"{package.name.full()} {len(package.items)}"


COMMANDS = {
    "u32": lambda digits: number_row(0, 2**32 - 1, digits),
    "s33": lambda digits: number_row(-(2**32), 2**32 - 1, digits),
    "write-u32": lambda number: (b"\xaa" + component.number(int(number))).hex(),
    "write-s33": lambda number: (b"\xaa" + component.index_number(int(number))).hex(),
    "label": lambda text: name_row(component.is_label, "error 3 bad label", text),
    "full-name": lambda text: name_row(component.is_full_name, "error 4 bad name", text),
    "version": lambda text: str(component.is_version(text)).lower(),
    "tokens": lambda text: str(len(tokens.tokens_of(text.encode())[0])),
    "tree": lambda text: tree(reading.read(text.encode())),
    "print": lambda text: printed(reading.read(text.encode())),
    "words": words_row,
}
