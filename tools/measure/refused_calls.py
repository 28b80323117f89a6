"""The calls of the library for C, with each request for memory refused once, and with all refused from each on."""
import collections
import json
import subprocess
import sys
import tempfile

from tools.repository import ROOT

from .harness import Folder, driver

TESTS = ROOT / "tests"
# Wrong answers that are known, by their kind: on how many inputs they come. None may come on more.
KNOWN: dict[str, int] = {}


def inputs():
    """Binaries of other tools. In the one of this test a world imports a package before one that it depends on."""
    return [*sorted(TESTS.glob("binaries/**/*.wasm")), TESTS / "memory/across.wasm"]


def numbers(document):
    """The errors of a document of faults."""
    return sorted(fault.get("error", 0) for fault in json.loads(document))


def kind_of(call, found, wanted):
    """The kind of a wrong answer."""
    if not found.startswith("["):
        return f"{call}: {found} in place of {wanted}"
    is_same = numbers(found) == numbers(wanted)
    return f"{call}: another place or hint" if is_same else f"{call}: a fault that the packages don't have"


def ran(library):
    """What the driver prints, built beside the shared library."""
    with tempfile.TemporaryDirectory() as path:
        program = driver(Folder(path), library, "refused")
        told = subprocess.run([program, *inputs()], capture_output=True, text=True, check=False)
    if told.returncode or told.stderr:
        sys.exit(f"status {told.returncode}: {told.stderr[:500]}")
    return told.stdout.splitlines()


def refused_calls(given):
    """Makes each call of the library on small inputs, with requests for memory refused.

    Each request of a call is refused once, and then all from it on. The call has to say that it is out of memory, or to
    do what it does with all memory, and may leave no block. Kinds of wrong answers that are known (KNOWN) are listed,
    and come on no more inputs than before.
    """
    *lines, last = ran(given.library)
    found, shown = collections.defaultdict(set), {}
    for call, of, answer, wanted in (line.split("\t") for line in lines):
        kind = kind_of(call, answer, wanted)
        found[kind].add(of)
        shown.setdefault(kind, f"{of[:200]}: {answer[:300]}")
    worse = [kind for kind in found if len(found[kind]) > KNOWN.get(kind, 0)]
    for kind, of in sorted(found.items()):
        told = "WRONG" if kind in worse else "known and open"
        print(f"{told}: {kind}, on {len(of)} inputs" + ("" if given.brief else f"\n  as {shown[kind]}"))
    for kind in KNOWN:
        if len(found[kind]) < KNOWN[kind]:
            print(f"mended, so lower it in KNOWN: {kind}, on {len(found[kind])} inputs, not {KNOWN[kind]}")
    print(f"{last}, of {sum(map(bool, found.values()))} kinds")
    return not worse
