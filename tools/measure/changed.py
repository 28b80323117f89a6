"""Inputs that are cut and changed: each is answered as it has to be, by rows and by the program."""
import concurrent.futures
import json
import re
import subprocess
import tempfile
import time

from tools.repository import ROOT

from . import texts

COMMENT = re.compile(r"//[^\n]*")
LINE = re.compile(rb"error [0-9]+ [^\n]*\n")
ERRORS = r"(?:, \d+ error \d+)*"
COUNTS = rf"\d+ (?:opened|error \d+){ERRORS}"
FRONTS = re.compile(rf"(\d+) fronts: {COUNTS}; the whole: ")
CHANGES = re.compile(rf"(\d+) fronts, \1 told as cut: {COUNTS}; (\d+) changed: (\d+) packages{ERRORS}")
EARLIER = [f"--with={ROOT}/examples/wasi/{name}.wit" for name in ("clocks", "random", "cli")]


def written(program, data, *earlier):
    """What the program's `bin` makes of these bytes behind others: its status, what it writes, and its line."""
    with tempfile.NamedTemporaryFile() as file:
        file.write(data)
        file.flush()
        ran = subprocess.run([program, "bin", *earlier, file.name], capture_output=True, check=False)
    return ran.returncode, ran.stdout, ran.stderr


# ---- by rows


def all_texts():
    """The texts of the call vectors, each once, and those of examples/, without their comments."""
    rows = [json.loads(line) for line in (ROOT / "crates/vectors/stdin").read_text().splitlines()]
    asked = [row["text"] for row in rows if row.get("text")]
    asked += [COMMENT.sub("", text) for text in texts.examples()]
    return list(dict.fromkeys(" ".join(text.split()) for text in asked))


def rows_of(program):
    """A row for each text, and for its binary where it is a package."""
    for text in all_texts():
        yield f"fronts bytes {text.encode().hex()}"
        status, made, _ = written(program, text.encode())
        if status == 0:
            yield f"changes bytes {made.hex()}"


def told(program, asked):
    """What the program of rows answers to a row."""
    with tempfile.NamedTemporaryFile("w", suffix=".rows") as file:
        file.write(f"row: {asked} =>\n")
        file.flush()
        ran = subprocess.run([program, file.name], input="", capture_output=True, text=True, check=False)
    return ran.stdout.partition("row: ")[2].strip() or ran.stderr


def counted(answer):
    """How many fronts, changed binaries and packages among them an answer has, and opened texts; none where it is no
    such answer."""
    if fronts := FRONTS.match(answer):
        return int(fronts[1]), 0, 0, int(answer[fronts.end():].startswith("opened"))
    found = CHANGES.fullmatch(answer)
    return found and (*map(int, found.groups()), 0)


def by_rows(given):
    """Cuts the texts of the call vectors and of examples/ after each byte, and their binaries, of which each byte is
    changed to all values.

    The answers have to be as crates/row_inputs/src/row_sets/changes.rt says, and the program has to make a binary of
    the texts that the rows open.
    """
    begun, asked, failed = time.monotonic(), list(rows_of(given.program)), 0
    with concurrent.futures.ThreadPoolExecutor(2) as pool:
        answers = list(pool.map(lambda row: told(given.rows, row), asked))
    counts = [counted(answer) for answer in answers]
    for row, answer, count in zip(asked, answers, counts):
        if count is None:
            failed += 1
            print(f"{row[:100]}: {answer[-200:]!r}")
    fronts, changed, packages, opened = (sum(it) for it in zip(*(count or (0, 0, 0, 0) for count in counts)))
    binaries = sum(row.startswith("changes ") for row in asked)
    if not binaries or opened != binaries:
        failed += 1
        print(f"{opened} texts are packages by {given.rows}, and {given.program} makes {binaries} binaries")
    counts_told = f"{fronts} fronts, {changed} changed binaries, {packages} of them packages"
    print(f"{len(asked)} inputs: {counts_told}; {failed} inputs failed; {time.monotonic() - begun:.0f} seconds")
    return not failed


# ---- behind a set


def is_right(program, data):
    """Whether the bytes are a package that is written as itself (True), are refused (False), or neither (None)."""
    status, out, line = written(program, data, *EARLIER)
    if status == 1 and not out and LINE.fullmatch(line):
        return False
    return True if status == 0 and not line and written(program, out, *EARLIER) == (0, out, b"") else None


def changed_binaries(whole):
    """The cut binaries and the changed ones: each byte behind the first four to 16 other values."""
    for length in range(len(whole)):
        yield whole[:length]
    for place in range(4, len(whole)):
        others = {whole[place] ^ 1 << bit for bit in range(8)}
        others |= {(whole[place] + more) % 256 for more in (1, 2, 3, 5, 255, 254, 253, 251)}
        for byte in sorted(others):
            yield whole[:place] + bytes([byte]) + whole[place + 1 :]


def behind_sets(given):
    """Cuts and changes the binary of examples/wasi/app.wit, and opens each behind the packages that it uses.

    The program has to refuse it in one line and write nothing, or to write a binary that it writes again as the same
    bytes.
    """
    begun = time.monotonic()
    status, whole, line = written(given.program, (ROOT / "examples/wasi/app.wit").read_bytes(), *EARLIER)
    if status or not whole or written(given.program, whole, *EARLIER) != (0, whole, b""):
        print(f"no binary of examples/wasi/app.wit that is opened: status {status}, {line.decode()}")
        return False
    asked = list(changed_binaries(whole))
    with concurrent.futures.ThreadPoolExecutor(3) as pool:
        answers = list(pool.map(lambda data: is_right(given.program, data), asked))
    for data, answer in zip(asked, answers):
        if answer is None:
            print(f"neither refused nor written as itself: {data.hex()}")
    kinds = f"{len(whole)} cut and {len(asked) - len(whole)} changed binaries"
    counts = f"of which {answers.count(True)} are packages; {answers.count(None)} failed"
    print(f"{kinds}, {counts}; {time.monotonic() - begun:.0f} seconds")
    return None not in answers
