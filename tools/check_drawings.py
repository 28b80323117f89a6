"""Whether the SVG pictures of `wit-explain` are true: what `tools/check_explain.py` asks of those of stored runs.

The boxes of a type are those of `tools/models`: each case of a variant has all bytes, from the same offset on. A byte
is as wide as any other, and a box is where its first byte is, in rows of 16 bytes. The picture of a call has the words
of the same call as text, and each arrow leads from an address to the block at this address.
"""
import re
import sys
import xml.etree.ElementTree as tree

from repository import ROOT

sys.path.insert(0, str(ROOT))

from tools.models import abi  # noqa: E402
from tools.models.opening import opened  # noqa: E402
from tools.models.tables import definitions  # noqa: E402

SVG = "{http://www.w3.org/2000/svg}"
LEFT, BYTE, ROW = 72, 48, 16
MOST_ROWS = 4
# where the bytes of a memory begin
BYTES = 128
HEADING = re.compile(r"(?:type|func) [^/]+/([^@ ]+)\S* (\S+?)(?:: size (\d+), align (\d+))?$")
AREA = re.compile(r"the (parameters|result) .*: size (\d+), align (\d+)$")


def filled(parts, size):
    """Parts that begin and end somewhere, and whether each is padding: with the padding between and after them."""
    found, end = [], 0
    for begin, stop in [*parts, (size, size)]:
        found += [(end, begin, True)] if begin > end else []
        found += [(begin, stop, False)] if stop > begin else []
        end = stop
    return found


def lanes(laid):
    """The parts of the bytes of a closed type, and of each case if one has a payload."""
    if isinstance(laid, abi.Record):
        return [filled(laid.ends, laid.size)]
    if isinstance(laid, abi.Variant) and laid.size > laid.case_width:
        start, number = laid.payload_offset, (0, laid.case_width)
        return [filled([number] + ([(start, start + it.size)] if it else []), laid.size) for it in laid.payloads]
    halves = [(0, 4), (4, 8)] if isinstance(laid, (abi.String, abi.List)) else [(0, laid.size)]
    return [filled(halves, laid.size)]


def boxes(rectangle):
    """Where a box is: its first byte and how many it has, by its place. With the part that its title tells."""
    told = re.fullmatch(r"(\d+): (.*), size (\d+)", rectangle.find(f"{SVG}title").text)
    column, width = ((int(rectangle.get(it)) - less) / BYTE for it, less in (("x", LEFT), ("width", 0)))
    begin, size = int(told[1]), int(told[3])
    is_padding = rectangle.get("class") == "hatched"
    if is_padding != (told[2] == "padding"):
        return None
    return column, width, (begin, begin + size, is_padding)


def next_byte(at, end):
    """The byte of a part with which the next box begins, at a byte or after it: rows in the middle may be left out."""
    rows = (end - at - 1) // ROW
    return at + ROW * rows if at % ROW == 0 and rows >= MOST_ROWS else at


def is_to_scale(rectangles, laid):
    """Whether boxes are those of a closed type, one after the other, each where its bytes are."""
    found = list(map(boxes, rectangles))
    for part in (it for lane in lanes(laid) for it in lane):
        at = part[0]
        while at < part[1]:
            column, width, of = found.pop(0) if found and found[0] else (None, 0, None)
            if of != part or column != at % ROW or not 0 < width == min(ROW - column, part[1] - at):
                return False
            at = next_byte(at + int(width), part[1])
    return not found


def drawn(svg):
    """The drawings of a document: the heading, the size and the alignment that are told, and the boxes below."""
    found, heading = [], None
    for part in tree.fromstring(svg).iter():
        told = part.tag == f"{SVG}text" and (HEADING.match(part.text) or AREA.match(part.text))
        if told and told.re is HEADING:
            heading = told.groups()[:2]
        if told:
            found.append(((*heading, told[1] if told.re is AREA else ""), told.groups()[-2:], []))
        elif part.tag == f"{SVG}rect" and part.get("class") != "page":
            found[-1][2].append(part)
    return found


def untrue_drawings(text, svg):
    """The drawings of a document that are not to scale, by their names. The text has what is drawn."""
    closed = {(it.owner, it.name): it.closed for it in definitions(opened([text])) if it.name}
    found = []
    for (owner, name, what), told, rectangles in drawn(svg):
        of = closed[owner, name]
        laid = {"parameters": lambda: of.params, "result": lambda: of.result, "": lambda: of}[what]()
        if isinstance(laid, abi.Function):
            is_true = not rectangles
        else:
            is_true = is_to_scale(rectangles, laid) and told == (str(laid.size), str(laid.align))
        found += [] if is_true else [f"{owner} {name} {what}".strip()]
    return found


def has_other_words(svg, text):
    """Whether the picture of a call has other words than the same call as text, marks aside."""
    drawn = "".join(part.text for part in tree.fromstring(svg).iter(f"{SVG}text"))
    return text is None or re.sub(r"[\s:,]", "", drawn) != re.sub(r"[\s:,]", "", text)


def address_at(words, point):
    """The address at which an arrow begins: that of the bytes on its line, or of the core value above it."""
    x, y = point
    if (x, y - 8) in words:
        return int(words[x, y - 8].removeprefix("i32 "))
    line = sorted((at, word) for (at, top), word in words.items()
                  if top == y + 4 and at > BYTES and re.fullmatch("[0-9a-f]{2}", word))
    return int.from_bytes(bytes.fromhex("".join(word for _, word in line[:4])), "little")


def untrue_arrows(svg):
    """The arrows of a call that lead to another block than the one at their address. Without a trap there has to be one
    to each block that isn't empty."""
    parts = tree.fromstring(svg)
    words = {(int(it.get("x")), int(it.get("y"))): it.text for it in parts.iter(f"{SVG}text")}
    blocks = {y: word for (_, y), word in words.items() if re.match(r"block at \d+: size [1-9]", word)}
    found = []
    for path in parts.iter(f"{SVG}path"):
        if path.get("class") == "arrow":
            points = [tuple(map(int, it.split(" "))) for it in re.split("[ML]", path.get("d"))[1:]]
            told = blocks.pop(points[-1][1] + 4, "")
            found += [] if told.startswith(f"block at {address_at(words, points[0])}:") else [path.get("d")]
    return found + ([] if any(it.startswith("trap ") for it in words.values()) else list(blocks.values()))
