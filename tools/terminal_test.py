#!/usr/bin/env python3
"""Runs wit-explain in a terminal of 80 columns, and compares what is there, with its colors, with the screens of
tests/explain/terminal.

usage: tools/terminal_test.py [--program WIT-EXPLAIN] [--write]

The program is the one of the release, if no other is named. The terminal is one of tmux. --write stores what is there.
The exit status is 1 if one of the screens differs, or if there is no tmux.
"""
import difflib
import pathlib
import re
import shutil
import subprocess
import sys
import tempfile
import time

from check_help import released
from repository import ROOT, parser

FILES, SCREENS = ROOT / "tests" / "explain" / "files", ROOT / "tests" / "explain" / "terminal"
RUNS = {
    "faults": "check keyword.wit comment.wit latin.wit uses.wit used.wit",
    "plain": "check --color never comment.wit float.wit",
    "json": "check --json keyword.wit",
    "layout": "layout shapes.wit r",
}
COLUMNS, LINES, SECONDS = 80, 60, 20
END = re.compile(r"^(?:\x1b\[[\d;]*m)*status \d+$", re.M)


def tmux(socket, *words):
    """What a tmux prints on these words, whose server is the one of this socket."""
    words = ["tmux", "-S", socket, "-f", "/dev/null", *words]
    return subprocess.run(words, check=True, capture_output=True, text=True).stdout


def screen_of(program, words, socket):
    """What stands in the terminal, with its colors, when the program has ended, and its status."""
    command = f"cd {FILES}; {program} {words}; echo status $?; exec sleep {SECONDS}"
    tmux(socket, "new-session", "-d", "-x", str(COLUMNS), "-y", str(LINES), f"unset NO_COLOR; {command}")
    try:
        for _ in range(SECONDS * 10):
            shown = tmux(socket, "capture-pane", "-e", "-p")
            if END.search(shown):
                return shown.rstrip("\n") + "\n"
            time.sleep(0.1)
    finally:
        tmux(socket, "kill-server")
    raise TimeoutError(f"wit-explain {words} did not end")


def faults_of(shown):
    """How screens differ from those that are stored."""
    for name, screen in shown.items():
        stored = SCREENS / f"{name}.txt"
        lines = stored.read_text().splitlines() if stored.exists() else []
        if lines != screen.splitlines():
            changes = difflib.unified_diff(lines, screen.splitlines(), lineterm="")
            yield "\n".join([f"{stored.name}: another screen", *changes])


def main():
    options = parser(__doc__)
    options.add_argument("--program", type=pathlib.Path)
    options.add_argument("--write", action="store_true")
    given = options.parse_args()
    if not shutil.which("tmux"):
        sys.exit("tools/terminal_test.py: no tmux: apt-get install -y tmux")
    with tempfile.TemporaryDirectory() as room:
        room = pathlib.Path(room)
        program = given.program.resolve() if given.program else released("wit-explain", room)
        shown = {name: screen_of(program, words, room / name) for name, words in RUNS.items()}
    if given.write:
        for name, screen in shown.items():
            (SCREENS / f"{name}.txt").write_text(screen)
    faults = list(faults_of(shown))
    print(*faults, f"{len(shown) - len(faults)} of {len(shown)} screens are the stored ones", sep="\n")
    sys.exit(bool(faults))


if __name__ == "__main__":
    main()
