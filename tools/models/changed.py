"""Inputs that are cut after each byte, and binaries with each byte changed to each of its 256 values.

Answers are counted: those of no error, and those of each error by its number.
"""
import collections
import concurrent.futures
import functools
import os

from . import component
from .faults import Refused
from .jobs import JOBS
from .mutants import with_each_byte
from .opening import begun, opened_behind

# the bytes that tell a binary from a text
MARK_BYTES = 4
# fewer inputs are answered by this process
FEW = 48


@functools.cache
def pool():
    """The processes that answer."""
    return concurrent.futures.ProcessPoolExecutor(os.cpu_count())


def each(answer, numbers):
    """The answers to numbers, in their order. The function and its answers have to be such as can be sent to a
    process."""
    if len(numbers) < FEW:
        return map(answer, numbers)
    return pool().map(answer, numbers, chunksize=8)


@functools.lru_cache(maxsize=1)
def begun_or_refused(earlier):
    """The set of earlier inputs, or what refuses it."""
    try:
        return begun(earlier)
    except Refused as refused:
        return refused


def behind(earlier, data):
    """The set of these inputs."""
    before = begun_or_refused(tuple(earlier))
    if isinstance(before, Refused):
        raise before.with_traceback(None)
    return opened_behind(before, data)


def line_of(earlier, data):
    """What opening a set answers."""
    try:
        behind(earlier, data)
        return "opened"
    except Refused as refused:
        return str(refused)


def number_of(line):
    """The number of the error that a line tells, or 0."""
    return int(line.split(" ")[1]) if line.startswith("error ") else 0


def counts_of(numbers, word):
    """How often each of these numbers comes; the word is of 0."""
    counts = collections.Counter(numbers)
    told = [f"{counts[number]} {f'error {number}' if number else word}" for number in sorted(counts)]
    return ", ".join(told) or "none"


# ---- fronts


def front_line(earlier, data, length):
    """What a front of the last input answers."""
    return line_of(earlier, data[:length])


def front_lines(inputs):
    """What each front of the last input answers."""
    *earlier, data = inputs
    return list(each(functools.partial(front_line, earlier, data), range(len(data))))


def cuts(inputs):
    """What each front of the last input answers, with its length."""
    return [f"{length} {line}" for length, line in enumerate(front_lines(inputs))]


def fronts(inputs):
    """How often each answer comes of the fronts of the last input, and what the whole answers."""
    lines = front_lines(inputs)
    counts = counts_of(map(number_of, lines), "opened")
    return f"{len(lines)} fronts: {counts}; the whole: {line_of(inputs[:-1], inputs[-1])}"


def cut_line(length):
    """The line of a binary that ends too early."""
    return f"error 11 truncated at {length}"


def decoded_fronts(data):
    """What each front answers that is decoded."""
    return [component.answer(data[:length]) for length in range(len(data))]


def told_as_cut(lines):
    """How many of the lines of fronts tell that the front ends too early."""
    return sum(line == cut_line(length) for length, line in enumerate(lines))


def binary_fronts(inputs):
    """How many fronts of a binary are told as cut, decoded and opened, and how often each answer comes of those that
    are opened."""
    lines = front_lines(inputs)
    pairs = zip(decoded_fronts(inputs[-1]), lines)
    both = [decoded if place < MARK_BYTES or decoded == line else "another"
            for place, (decoded, line) in enumerate(pairs)]
    return f"{len(lines)} fronts, {told_as_cut(both)} told as cut: {counts_of(map(number_of, lines), 'opened')}"


# ---- changes


def kept_number(earlier, data):
    """The number of the error that a set is refused with, or 0 for a package, which has to be written and opened as
    itself."""
    try:
        written = JOBS["bin"](behind(earlier, data))
    except Refused as refused:
        return number_of(str(refused))
    if JOBS["bin"](behind(earlier, bytes.fromhex(*written))) != written:
        raise ValueError("another package")
    return 0


def numbers_at(earlier, data, place):
    """How often each answer comes of the values of a byte."""
    return collections.Counter(kept_number(earlier, other) for other in with_each_byte(data, place))


def decoded_at(data, place):
    """How often each answer comes of the values of a byte, which are decoded."""
    return collections.Counter(number_of(component.answer(other)) for other in with_each_byte(data, place))


def changes(inputs):
    """What the fronts of a binary answer, and how often each answer comes of its changes behind the first four
    bytes."""
    *earlier, data = inputs
    places = range(MARK_BYTES, len(data))
    counts = sum(each(functools.partial(numbers_at, earlier, data), places), collections.Counter())
    return f"{binary_fronts(inputs)}; {256 * len(places)} changed: {counts_of(counts, 'packages')}"


def component_cuts(digits):
    """How many fronts of a component are told as cut, and how often each answer comes."""
    lines = decoded_fronts(bytes.fromhex(digits))
    counts = counts_of(map(number_of, lines), "components")
    return f"{len(lines)} fronts, {told_as_cut(lines)} told as cut: {counts}"


def component_changes(arguments):
    """How often each answer comes of the changes of the first bytes of a component."""
    count, digits = arguments.split(" ")
    data = bytes.fromhex(digits)
    places = range(min(int(count), len(data)))
    counts = sum(each(functools.partial(decoded_at, data), places), collections.Counter())
    return f"{256 * len(places)} changed: {counts_of(counts, 'components')}"


COMMANDS = {"component-cuts": component_cuts, "component-changes": component_changes}
