"""Memories with their allocators: `Bump`, `FirstFit`, `Headers`, `Scripted` and `Lent`."""
import itertools

from .abi import up
from .faults import Trap

PAGE = 65536


class Bump:
    """Grants blocks upwards from a top, and takes none back. It may grow by pages up to `most`, where it has one."""

    def __init__(self, length, top=0, most=None):
        self.length, self.top, self.most = length, top, most

    def free(self, _at, _size):
        """Takes nothing back."""
        return False

    def alloc(self, align, size):
        """The address of a block, or None."""
        at = up(self.top, align)
        if at + size > self.length:
            length = up(at + size, PAGE)
            if self.most is None or length > self.most:
                return None
            self.length = length
        self.top = at + size
        return at


class Scripted:
    """Gives these answers in turn, and none after them."""

    def __init__(self, length, answers):
        self.length, self.answers = length, iter(answers)

    def free(self, _at, _size):
        """Takes nothing back."""
        return False

    def alloc(self, _align, _size):
        """The next answer."""
        return next(self.answers, None)


class Lent:
    """Gives blocks that were granted before, in turn: the next one if it has the alignment and the size that are asked
    for."""

    def __init__(self, length, blocks):
        self.length, self.blocks, self.given = length, blocks, 0

    def free(self, _at, _size):
        """Takes nothing back."""
        return False

    def alloc(self, align, size):
        """The address of the next block, or None."""
        left = self.blocks[self.given :]
        if not left or left[0][:2] != [align, size]:
            return None
        self.given += 1
        return left[0][2]


def are_apart(one, other):
    """Whether no byte is in both blocks, each an alignment, a size and an address."""
    (_, size, at), (_, length, start) = one, other
    return not size or not length or at + size <= start or start + length <= at


def can_be_lent(length, blocks, place=(1, 0, 0)):
    """Whether blocks are aligned, inside a memory of so many bytes, and meet neither one another nor a place."""
    placed = all(align in (1, 2, 4, 8) and at % align == 0 and at + size <= length for align, size, at in blocks)
    return length < 1 << 32 and placed and all(are_apart(*pair) for pair in itertools.combinations([place, *blocks], 2))


class FirstFit:
    """Grants the lowest free block, and takes blocks back. It has a flag for each byte, which says whether it is live.

    Blocks begin at multiples of 8 and take such many bytes; what is behind the last multiple of 8 is never used. It may
    grow by pages up to `most`, where it has one.
    """

    def __init__(self, length, most=None):
        self.length, self.most = length, most
        self.live = bytearray(length // 8 * 8)

    def alloc(self, _align, size):
        """The address of a block, or None."""
        if size == 0:
            return 0
        size = up(size, 8)
        at = self.free_at(size)
        if at is None:
            at = self.grown(size)
        if at is not None:
            self.live[at : at + size] = b"\1" * size
        return at

    def free_at(self, size):
        """The lowest place with so many bytes that aren't live."""
        for at in range(0, len(self.live) - size + 1, 8):
            if not any(self.live[at : at + size]):
                return at
        return None

    def grown(self, size):
        """The place of a block at the end, once there are as many pages as it takes; None where these would be too
        many."""
        at = up(self.live.rfind(1) + 1, 8)
        length = up(at + size, PAGE)
        if self.most is None or length > self.most:
            return None
        self.live += bytes(length - self.length)
        self.length = length
        return at

    def free(self, at, size):
        """Takes a block back; whether it was live as a whole."""
        size = up(size, 8)
        if at % 8 or at + size > len(self.live) or not all(self.live[at : at + size]):
            return False
        self.live[at : at + size] = bytes(size)
        return True


class Headers:
    """Keeps its notes in the memory itself, as allocators of C programs do; it may grow by pages up to `most`.

    A header of 8 bytes before each block begins with the block's size, a multiple of 8. The free blocks are a list: its
    first address stands at 8, and each free block begins with the address of the next. At 12 stands the address from
    which on nothing was granted (16 at least), and at 4 is 48 after a refusal. Programs may write over all of these, so
    which units of 8 bytes are live is kept apart, and what is noted counts only where it is free.
    """

    NOTES, HEADER, UNIT = 16, 8, 8

    def __init__(self, length, most=None):
        self.length, self.most = length, length if most is None else most
        self.bytes = bytearray(length)
        self.live = set()

    def word(self, at):
        """The number that is noted at an address."""
        return int.from_bytes(self.bytes[at : at + 4], "little")

    def note(self, at, number):
        """Notes a number at an address."""
        self.bytes[at : at + 4] = number.to_bytes(4, "little")

    def units(self, start, end):
        """The units of the addresses of a range that begins and ends between units."""
        return set(range(start // self.UNIT, end // self.UNIT))

    def is_place(self, at, size):
        """Whether a block can be there: behind the notes and a header, in whole units, inside."""
        return at % self.UNIT == 0 and at >= self.NOTES + self.HEADER and at + size <= self.length

    def is_free(self, at, size):
        """Whether a block and its header can be there, and nothing of them is live."""
        return self.is_place(at, size) and not self.live & self.units(at - self.HEADER, at + size)

    def alloc(self, _align, size):
        """The address of the first free block of the list that is large enough, or of one at the top; or None."""
        if size == 0:
            return 0
        size = up(size, self.UNIT)
        link = self.link_to(size)
        at = self.at_top(size) if link is None else self.word(link)
        if at is None:
            self.note(4, 48)
            return None
        if link is not None:
            self.note(link, self.word(at))
        self.live |= self.units(at, at + size)
        return at

    def link_to(self, size):
        """Where the address of that block stands; None if there is no such block."""
        link = 8
        for _ in range(self.length // self.UNIT):
            at = self.word(link)
            if not self.is_free(at, self.UNIT):
                return None
            if self.word(at - self.HEADER) >= size:
                return link if self.is_free(at, size) else None
            link = at
        return None

    def at_top(self, size):
        """The address of a block at the top, once there are as many pages as it takes; None where there is no room."""
        top = max(self.word(12), self.NOTES)
        end = top + self.HEADER + size
        if top % self.UNIT or end > self.most or self.live & self.units(top, end):
            return None
        self.length = max(self.length, up(end, PAGE))
        self.bytes += bytes(self.length - len(self.bytes))
        self.note(top, size)
        self.note(12, end)
        return top + self.HEADER

    def free(self, at, size):
        """Takes a block back, which is the list's first from now on; whether it was live as a whole."""
        if size == 0:
            return True
        size = up(size, self.UNIT)
        if not self.is_place(at, size) or self.word(at - self.HEADER) < size:
            return False
        if not self.units(at, at + size) <= self.live:
            return False
        self.note(at, self.word(8))
        self.note(8, at)
        self.live -= self.units(at, at + size)
        return True


class Memory:
    """The bytes of a linear memory, its allocator, and a log of requests: alignment, size, and the address or None."""

    def __init__(self, allocator, data=b""):
        self.allocator, self.log = allocator, []
        self.bytes = getattr(allocator, "bytes", bytearray(allocator.length))
        self.bytes[: len(data)] = data

    def request(self, align, size):
        """What the allocator answers."""
        at = self.allocator.alloc(align, size)
        self.log.append((align, size, at))
        self.bytes += bytes(self.allocator.length - len(self.bytes))
        return at

    def grant(self, align, size, step):
        """The address of a block; a trap where there is none, or none that can be one."""
        at = self.request(align, size)
        if at is None:
            raise Trap("K6 full", step)
        self.test(align, size, at, step)
        return at

    def test(self, align, size, at, step):
        """Traps at an address that isn't aligned, or from where so many bytes go past the memory's end."""
        if at % align:
            raise Trap("K3 align", step)
        if at + size > len(self.bytes):
            raise Trap("K4 bounds", step)

    def number(self, at, width):
        """The number of so many bytes."""
        return int.from_bytes(self.bytes[at : at + width], "little")

    def put(self, at, width, number):
        """Writes a number of so many bytes."""
        self.write(at, number.to_bytes(width, "little"))

    def write(self, at, data):
        """Writes bytes."""
        self.bytes[at : at + len(data)] = data
