"""Rows of memories and of numbers with a tree of their maxima (docs/FORMATS.md, "Reading rows")."""
from .faults import Refused
from .memory import PAGE, Bump, FirstFit, Headers, Lent, Scripted, can_be_lent

MOST = 256 * PAGE


def numbers(words):
    """The numbers that words are."""
    return [int(word) for word in words.split()]


def test_limit(length):
    """Refuses a memory that is too long."""
    if length > MOST:
        raise Refused("53 memory limit")


def made(kind, length, most=None):
    """A memory of a length, which grows if it has a most length."""
    if most is not None and (length % PAGE or most % PAGE or length > most):
        raise Refused("55 bad pages")
    test_limit(max(length, most or 0))
    return kind(length, most=most)


def request(memory, words):
    """What a memory answers to a request. Nothing is written but notes of its own, so that all other bytes are zeros."""
    word, *given = words.split()
    if word == "alloc":
        at = memory.alloc(*map(int, given))
        return "full" if at is None else str(at)
    if word == "free":
        return "taken" if memory.free(*map(int, given)) else "not taken"
    if word == "zeros":
        return "not zeros" if any(getattr(memory, "bytes", b"")) else "zeros"
    return str(memory.length)


def in_turn(answer, requests):
    """The answers to requests in turn."""
    return ", ".join(answer(words) for words in requests.split(", "))


def memory_row(kind, arguments):
    """What a memory of a kind answers."""
    lengths, requests = arguments.split("; ")
    memory = made(kind, *numbers(lengths))
    return in_turn(lambda words: request(memory, words), requests)


def headers_row(arguments):
    """What a memory that keeps notes in itself answers, which is a page at least."""
    lengths, requests = arguments.split("; ")
    length, most = numbers(lengths)
    if length == 0:
        raise Refused("55 bad pages")
    memory = made(Headers, length, most)
    return in_turn(lambda words: request(memory, words), requests)


def lend_row(arguments):
    """Whether blocks can be lent beside the place that comes before them."""
    length, place, *blocks = arguments.split(", ")
    return str(can_be_lent(int(length), [numbers(it) for it in blocks], numbers(place))).lower()


def lent_row(arguments):
    """What an array with blocks that are lent answers."""
    memory, requests = arguments.split("; ")
    length, *blocks = memory.split(", ")
    lent = Lent(int(length), [numbers(it) for it in blocks])
    return in_turn(lambda words: request(lent, words), requests)


def scripted_row(arguments):
    """What a memory with a script answers."""
    memory, requests = arguments.split("; ")
    length, answers = memory.split(", ")
    test_limit(int(length))
    scripted = Scripted(int(length), [None if word == "full" else int(word) for word in answers.split()])
    return in_turn(lambda words: request(scripted, words), requests)


def tree_request(row, words):
    """What a row of numbers answers."""
    word, *given = words.split()
    if word == "put":
        row[int(given[0])] = int(given[1])
        return "put"
    if word == "count":
        return str(len(row))
    number = int(given[0])
    if word == "number":
        return str(row[number])
    if word == "first":
        places = [place for place, it in enumerate(row) if it >= number]
    else:
        places = [place for place, it in enumerate(row[:number]) if it][::-1]
    return str(places[0]) if places else "none"


def tree_row(arguments):
    """What as many zeros as so many doublings of one make answer."""
    depth, requests = arguments.split("; ")
    row = [0] * 2 ** int(depth)
    return in_turn(lambda words: tree_request(row, words), requests)


COMMANDS = {
    "first-fit": lambda arguments: memory_row(FirstFit, arguments),
    "bump": lambda arguments: memory_row(Bump, arguments),
    "headers": headers_row,
    "can-lend": lend_row,
    "lent": lent_row,
    "scripted": scripted_row,
    "maxima": tree_row,
}
