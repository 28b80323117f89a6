"""Texts and binaries that are cut or changed, at random or in each way.

A random change takes its chances from a `random.Random`, so the same seed gives the same changes. Data are bytes.
"""
import re

# the bytes that begin a binary
MARK = b"\0asm"
PART = re.compile(rb"[A-Za-z0-9%-]+|\s+|.", re.S)
LABEL = re.compile(rb"[a-z][a-z0-9-]*")
# what is put into a text: tokens that are allowed somewhere, and some that are allowed nowhere
WORDS = (
    b"package interface world use type record variant enum flags func import export as list option tuple result u8 "
    b"string f32 own resource async stream include a b getAll c/d @1.0.0 @1 @ ; : , . { } ( ) < > = / _ -> - 5 %type "
    b"%5 // /* */ \xc3\xa9 \xff"
).split()


def changed_binary(data, source):
    """A binary with bytes changed, put in or left out, or cut."""
    found = bytearray(data)
    for _ in range(source.choice((1, 1, 2, 3))):
        at, how = source.randrange(8, len(found)), source.randrange(6)
        if how == 0:
            del found[at : at + source.randrange(1, 4)]
        elif how == 1:
            found[at:at] = source.randbytes(source.randrange(1, 4))
        elif how == 2:
            del found[max(at, 12) :]
        else:
            found[at] = source.choice((source.randrange(256), source.randrange(8), found[source.randrange(len(found))]))
        if len(found) < 13:
            break
    return bytes(found)


def changed_text(data, source):
    """A text with tokens changed, put in, left out or exchanged, or cut."""
    parts = PART.findall(data)
    for _ in range(source.choice((1, 1, 2, 3))):
        at, other, how = source.randrange(len(parts)), source.randrange(len(parts)), source.randrange(7)
        labels = [it for it in parts if LABEL.fullmatch(it)]
        if how == 0:
            parts[at] = b""
        elif how == 1:
            parts[at] += b" " + source.choice(WORDS) + b" "
        elif how == 2:
            parts[at] = source.choice(WORDS)
        elif how == 3:
            parts[at], parts[other] = parts[other], parts[at]
        elif how == 4:
            return b"".join(parts)[: source.randrange(len(data) + 1)]
        elif LABEL.fullmatch(parts[at]):
            parts[at] = source.choice(labels)
    return b"".join(parts)


def changed(data, source):
    """An input that is cut or changed."""
    return (changed_binary if data.startswith(MARK) else changed_text)(data, source)


def with_other_byte(data, source):
    """The place of a byte, and the data with another one there, or the same."""
    at, byte = source.randrange(len(data)), source.randrange(256)
    return at, data[:at] + bytes([byte]) + data[at + 1 :]


def with_each_byte(data, place):
    """The data with each value of one byte."""
    return (data[:place] + bytes([byte]) + data[place + 1 :] for byte in range(256))
