"""The tokens of a WIT text, and its first fault where it has another character (docs/FORMATS.md, "WIT text")."""
import functools
import re
from typing import NamedTuple

from .component import is_label
from .faults import Refused

MOST_BYTES = 1_048_576
KEYWORDS = (
    "as async bool borrow char constructor enum error-context export f32 f64 flags from func future import include "
    "interface list map option own package record resource result s16 s32 s64 s8 static stream string tuple type u16 "
    "u32 u64 u8 use variant with world"
).split()
MARKS = ["->", *":;,.{}()<>=/@_"]
TOKEN = re.compile(
    r"(?P<blank>(?:[ \t\n\r]+|//[^\n]*)+)|(?P<comment>/\*)"
    r"|(?P<version>@[0-9](?:[0-9A-Za-z.+-]*[0-9A-Za-z+-])?)|(?P<word>%?[A-Za-z](?:[A-Za-z0-9]|-(?!>))*)"
    r"|(?P<integer>[0-9]+)|(?P<mark>->|[:;,.{}()<>=/@_])"
)
EDGE = re.compile(r"/\*|\*/")


class Token(NamedTuple):
    """A token: its kind, which is `id`, `version`, `integer`, a keyword or a mark, its text, and its span in bytes."""

    kind: str
    text: str
    start: int
    end: int


def refused(words, start, end):
    """A refusal with its span."""
    return Refused(f"{words} at {start}..{end}")


def comment_end(text, start):
    """Where the comment ends that begins there; others may stand in it."""
    depth, at = 1, start + 2
    while depth:
        edge = EDGE.search(text, at)
        if not edge:
            raise refused("31 open comment", start, len(text))
        depth, at = depth + (1 if edge.group() == "/*" else -1), edge.end()
    return at


def character_end(text, start):
    """Where the character of UTF-8 ends that begins there, of which each byte is one character here."""
    end = start + 1
    while end < len(text) and 0x80 <= ord(text[end]) < 0xC0:
        end += 1
    return end


@functools.lru_cache(1000)
def word(spelled):
    """The kind of a word, which is a keyword, or an identifier if it is a label, and its name; or None."""
    name = spelled.removeprefix("%")
    return (spelled if spelled in KEYWORDS else "id", name) if is_label(name) else None


def tokens_of(data):
    """The tokens of a text, and how many bytes it has."""
    if len(data) > MOST_BYTES:
        raise refused("36 limit", MOST_BYTES, MOST_BYTES)
    try:
        data.decode()
    except UnicodeDecodeError as fault:
        raise Refused(f"60 not UTF-8 at {fault.start}") from fault
    # of these each character is a byte
    text, tokens, at = data.decode("latin-1"), [], 0
    while at < len(text):
        found = TOKEN.match(text, at)
        if not found:
            raise refused("30 bad character", at, character_end(text, at))
        kind, start, at = found.lastgroup, at, found.end()
        if kind == "comment":
            at = comment_end(text, start)
        elif kind == "word":
            known = word(found.group())
            if known is None:
                raise refused("30 bad character", start, at)
            tokens.append(Token(*known, start, at))
        elif kind != "blank":
            tokens.append(Token(found.group() if kind == "mark" else kind, found.group(), start, at))
    return tokens, len(text)
