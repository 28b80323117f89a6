"""The program beside the models on inputs of stored rows that are cut or changed: whether `show` answers as they do."""
import collections
import concurrent.futures
import pathlib
import random
import subprocess
import tempfile

from . import text_rows
from .faults import Refused
from .jobs import JOBS
from .mutants import changed
from .opening import MARK, opened

FILES = ("grammar", "texts", "errors", "sets", "packages")
COMMANDS = ("parse", "open", "show", "layout", "text", "bin", "work", "copy", "fronts")
MOST_BYTES = 1500


def stored_inputs(folder):
    """The inputs of stored rows, those that aren't long, each once."""
    found = {}
    for name in FILES:
        kept = text_rows.Inputs(folder)
        for line in (folder / f"{name}.rows").read_text().splitlines():
            if line.startswith("let "):
                kept.keep(line.removeprefix("let "))
            elif text_rows.is_row(line):
                command, _, given = line.partition(" =>")[0].partition(": ")[2].partition(" ")
                found |= dict.fromkeys(kept.of(given) if command in COMMANDS else [])
    return [data for data in found if 12 < len(data) <= MOST_BYTES]


def wanted(data):
    """What the program does by the models: its status, and what it prints on each stream."""
    try:
        return 0, "".join(f"{line}\n" for line in JOBS["show"](opened([data]))), ""
    except Refused as refused:
        return 1, "", f"{refused}\n"


def shown(program, data):
    """What the program does on an input."""
    with tempfile.NamedTemporaryFile() as file:
        file.write(data)
        file.flush()
        ran = subprocess.run([program, "show", file.name], capture_output=True, check=False)
    return ran.returncode, ran.stdout.decode(errors="replace"), ran.stderr.decode(errors="replace")


def compare(program, folder, count, seed=1):
    """Whether the program answers so many changed inputs as the models do; prints where it differs, and the errors."""
    source, program = random.Random(int(seed)), pathlib.Path(program).resolve()
    stored = stored_inputs(folder)
    groups = [[it for it in stored if it.startswith(MARK) == is_binary] for is_binary in (False, True)]
    inputs = [changed(source.choice(groups[number % 2]), source) for number in range(count)]
    with concurrent.futures.ThreadPoolExecutor(2) as pool:
        found = list(pool.map(lambda data: shown(program, data), inputs))
    differing, kinds = 0, collections.Counter()
    for data, did in zip(inputs, found):
        right = wanted(data)
        kinds[right[2][6:8] or "none"] += 1
        if did != right:
            differing += 1
            print(f"{data!r}\n  wanted {right}\n  found  {did}")
    listed = ", ".join(f"{number} {kind}" for kind, number in sorted(kinds.items()))
    print(f"{count} changed inputs, {differing} differ; their errors: {listed}")
    return not differing
