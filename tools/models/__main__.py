"""Answers of the models.

usage: python3 -m tools.models check [FILE ..]        whether the stored answers are the models', of all files or of these
       python3 -m tools.models write [FILE ..]        writes the stored answers anew
       python3 -m tools.models random vectors N [SEED]
                                                      prints N random calls, as rows of crates/vectors
       python3 -m tools.models answer NAME            answers the lines of standard input: NAME is vectors or rows
       python3 -m tools.models JOB FILE ..            prints what JOB (show, layout, text, bin) makes of these files
       python3 -m tools.models compare PROGRAM N [SEED]
                                                      runs N random calls through the program `vectors`, and compares
       python3 -m tools.models damaged PROGRAM N [SEED]
                                                      gives N cut or changed inputs of rows to the program, and compares

FILE is a file that holds answers, or the folder of a crate that has such. The exit status is 1 if something differs,
and 2 if the words are none of these.
"""
import pathlib
import sys

from . import damaged, random_calls, stored, text_rows, vectors
from .faults import NotModelled, Refused
from .jobs import JOBS
from .opening import opened

ANSWERS = {"rows": lambda lines: text_rows.answers(lines, pathlib.Path()), "vectors": vectors.answers}


def print_lines(lines):
    """Prints lines, each as soon as it is there."""
    for line in lines:
        print(line)
    return True


def answer(name):
    """Answers to standard input."""
    return print_lines(ANSWERS[name](line.rstrip("\n") for line in sys.stdin))


def job(name, paths):
    """What a job makes of a set of texts and binaries."""
    return print_lines(JOBS[name](opened([pathlib.Path(path).read_bytes() for path in paths])))


def done(command, words):
    """Does what the words ask for; whether all was right, or None if they ask for nothing."""
    if command == "check":
        return stored.check(words)
    if command == "write":
        return stored.write(words)
    if command == "random" and len(words) in (2, 3) and words[0] == "vectors":
        return print_lines(random_calls.lines(int(words[1]), *words[2:]))
    if command == "answer" and len(words) == 1 and words[0] in ANSWERS:
        return answer(*words)
    if command in JOBS and words:
        return job(command, words)
    if command == "compare" and len(words) in (2, 3):
        return vectors.compare(words[0], random_calls.lines(int(words[1]), *words[2:]))
    if command == "damaged" and len(words) in (2, 3):
        return damaged.compare(words[0], stored.TEXT_ROWS, int(words[1]), *words[2:])
    return None


def main():
    """Does what the command line asks for."""
    try:
        right = done(sys.argv[1], sys.argv[2:]) if sys.argv[1:] else None
    except (NotModelled, Refused) as fault:
        sys.exit(str(fault))
    if right is None:
        print(__doc__, file=sys.stderr)
        sys.exit(2)
    sys.exit(not right)


if __name__ == "__main__":
    main()
