"""The layout rows of docs/FORMATS.md: what each definition of a package's table takes in memory and as flat values, and
the work of the table."""
from . import abi
from .jobs import signature
from .opening import opened
from .tables import definitions, work


def listed(parts):
    """Parts between parentheses."""
    return f"({' '.join(map(str, parts))})"


def shape(t):
    """What a closed type is, with the places of fields or payloads."""
    if isinstance(t, abi.Record):
        return f"record {listed(t.offsets)}"
    if isinstance(t, abi.Variant):
        with_payload = [case for case, payload in enumerate(t.payloads) if payload is not None]
        return f"variant {len(t.payloads)} at {t.payload_offset} {listed(with_payload)}"
    if isinstance(t, abi.Flags):
        return f"flags {len(t.labels)}"
    return t.word if isinstance(t, abi.Scalar) else type(t).__name__.lower()


def flat(t):
    """The flat kinds of a closed type."""
    return "spilled" if len(t.kinds) > abi.MAX_FLAT else listed(t.kinds)


def definition(row):
    """What is told of a definition."""
    name = f"{row.owner}.{row.name}" if row.name else "_"
    t = row.laid
    if not row.is_function:
        return f"type {name} {shape(t)} size {t.size} align {t.align} flat {flat(t)}"
    core = f"lift {signature(row.closed.lifted)} lower {signature(row.closed.lowered)}"
    return f"func {name} {shape(t)} size {t.size} align {t.align} {core}"


def told(text):
    """What is told of a package."""
    rows = list(definitions(opened([text])))
    return "; ".join([*map(definition, rows), f"work {work(rows)}"])


def last(text):
    """The end of what is told of a package: its last definition, and the work."""
    return "; ".join(told(text).split("; ")[-2:])
