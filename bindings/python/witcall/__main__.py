"""The program: tells what is wrong with packages, writes them, and makes calls.

usage: python -m witcall check FILE..
       python -m witcall text|bin|describe FILE..
       python -m witcall call FILE INTERFACE FUNCTION ARGUMENTS ANSWER

check prints the faults of packages, each with its place and a hint. text, bin and describe write
the last of several packages, dependencies first: its text, its binary, or all of it as JSON. call
calls a function over two fresh memories, as the program `witcall` does. ARGUMENTS and ANSWER are
JSON arrays: of the arguments, and of the value that the callee returns, if there is one. The exit
status is 1 if something is refused, 2 if the words are no command, and 3 after a trap.
"""

from __future__ import annotations

import json
import sys
from pathlib import Path
from typing import Optional, Sequence

from ._errors import Trap, WitcallError
from ._faults import explain
from ._link import ArrayMemory, link
from ._package import open as open_package
from ._serving import answer
from ._values import fill, read

_SIZE = 65536


def check(paths: Sequence[str]) -> int:
    """Prints the faults of files."""
    faults = explain(*map(Path, paths))
    for it in faults:
        place = f":{it.line}:{it.column}" if it.line else ""
        print(f"{paths[it.text]}{place}: {it.message}")
        if it.hint:
            print(f"   = {it.hint}")
    return 1 if faults else 0


def write(job: str, paths: Sequence[str]) -> int:
    """Writes the last of these packages."""
    with open_package(*map(Path, paths)) as package:
        if job == "bin":
            sys.stdout.buffer.write(package.to_binary())
        elif job == "text":
            sys.stdout.write(package.to_text())
        else:
            print(json.dumps(package.describe(), ensure_ascii=False))
    return 0


def call(path: str, interface: str, name: str, arguments: str, reply: str) -> int:
    """Makes a call whose callee returns what the reply says, and prints what the caller gets."""
    caller, callee = ArrayMemory(_SIZE), ArrayMemory(_SIZE)
    with open_package(Path(path)) as package:
        function = package.find(interface, name)
        result = function.result
        has_area = result is not None and not function.lowered.results
        given = json.dumps(json.loads(reply)[0]) if result else ""

        def area(memory: ArrayMemory) -> tuple[int, ...]:
            return (
                (memory.put(bytes(result.size), result.alignment),) if has_area and result else ()
            )

        def body(*handed: int) -> Optional[int]:
            at = area(callee)
            back = answer(package, function, (*handed, *at), given, callee)
            return at[0] if at else back

        flats = fill(package, function, arguments, caller)
        at = area(caller)
        back = link(package, caller, callee, {f"{interface}#{name}": body})[f"{interface}#{name}"](
            *flats, *at
        )
        found = at or (() if back is None else (back,))
        text = read(package, function, found, caller.data)
    if text is not None:
        print(text)
    return 0


def main(words: Sequence[str]) -> int:
    """Does what words ask for, and returns the exit status."""
    try:
        if len(words) > 1 and words[0] == "check":
            return check(words[1:])
        if len(words) > 1 and words[0] in ("text", "bin", "describe"):
            return write(words[0], words[1:])
        if len(words) == 6 and words[0] == "call":
            return call(*words[1:])
    except Trap as trap:
        print(trap, file=sys.stderr)
        return 3
    except (WitcallError, OSError, ValueError) as error:
        print(error, file=sys.stderr)
        return 1
    is_help = list(words) == ["--help"]
    print((__doc__ or "").strip(), file=sys.stdout if is_help else sys.stderr)
    return 0 if is_help else 2


if __name__ == "__main__":
    sys.exit(main(sys.argv[1:]))
