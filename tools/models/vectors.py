"""The rows of crates/vectors, each answered by the model of what it asks for, and by the program `vectors`."""
import collections
import itertools
import json
import subprocess

from . import calls, heads, hosts, sessions

# the key by which a row is known, and its model
MODELS = [
    ("steps", sessions.told),
    ("held", sessions.held_told),
    ("host", hosts.row_told),
    ("head_at", heads.row_told),
    ("head_of", heads.row_told),
    ("lift", sessions.converted_told),
    ("lower", sessions.converted_told),
    ("load", sessions.converted_told),
    ("store", sessions.converted_told),
    ("flats", calls.told),
]


def answers(lines):
    """The line that answers each row."""
    for line in lines:
        row = json.loads(line)
        yield calls.line_of(next(told for key, told in MODELS if key in row)(row))


def kind_of(answer):
    """How a call ended, in a word or two."""
    (kind, words), = json.loads(answer)["outcome"].items()
    return kind if kind == "ok" else words


def compare(program, lines):
    """Runs calls through the program, and prints where it differs; whether it doesn't."""
    ran = subprocess.run([program], input="".join(f"{line}\n" for line in lines), capture_output=True, text=True,
                         check=True)
    wanted, found = list(answers(lines)), ran.stdout.splitlines()
    differing = [row for row in itertools.zip_longest(lines, wanted, found) if row[1] != row[2]]
    for line, want, other in differing:
        print(f"{line}\n  wanted {want}\n  found  {other}")
    for kind, number in sorted(collections.Counter(map(kind_of, wanted)).items()):
        print(f"{number:6} {kind}")
    print(f"{len(lines)} calls, {len(differing)} differ")
    return not differing
