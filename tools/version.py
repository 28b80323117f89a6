#!/usr/bin/env python3
"""Compares the version in VERSION with those that stand in other files, or writes a new one into all of them.

usage: tools/version.py                  compares
       tools/version.py --text           prints the version as the library and wit-explain tell it
       tools/version.py --set TEXT       writes TEXT, as 0.3.0+0123456789ab, into all files

The library and wit-explain tell a text: the version, `+`, and the commit that the release was made of, in 12 hexadecimal
digits. If the sources of what is shipped are not those of release/, the text ends in `+next` instead. All other files
have the version alone, or the version and the commit of the release. The newest heading of CHANGELOG.md with a number
is that of the version. The number of the binary interface is compared too: the header's, and the library's. README.md
names the toolchain that built release/.

It prints each file that has something else; the exit status is 1 then.
"""
import re
import subprocess
import sys

from repository import ROOT, finish

NEXT = "next"
TEXT = re.compile(r"(\d+\.\d+\.\d+)\+([0-9a-f]{12}|next)")
NUMBER, WHOLE = r"(?P<number>\d+\.\d+\.\d+)", r"(?P<text>\d+\.\d+\.\d+\+\w+)"
MINOR, COMMIT = r"(?P<minor>\d+\.\d+)", r"(?P<commit>[0-9a-f]{12})"
EXPORTS, SPECS = "crates/witcall_c/src/exports.rt", "crates/witcall_c/specs/Version.antt"
# each file, and a place in it: the version's number, its first two numbers, the library's text, or the release's commit
PLACES = [
    ("VERSION", rf"^{NUMBER}$"),
    ("include/witcall.h", rf'^#define WITCALL_VERSION "{NUMBER}"$'),
    (EXPORTS, rf'^const VERSION: &\[u8\] = b"{WHOLE}";$'),
    (SPECS, rf"^-- the version of the library: {WHOLE}$"),
    ("crates/explain/src/help.rt", rf'^pub static VERSION: &str = "wit-explain {WHOLE}\\n";$'),
    ("tests/explain/runs", rf"^wit-explain {WHOLE}$"),
    ("packaging/witcall.1", rf'^\.TH .*"witcall {NUMBER}"'),
    ("packaging/wit-explain.1", rf'^\.TH .*"wit-explain {NUMBER}"'),
    ("bindings/python/pyproject.toml", rf'^version = "{NUMBER}"$'),
    ("bindings/rust/Cargo.toml", rf'^version = "{NUMBER}"$'),
    ("bindings/js/package.json", rf'^  "version": "{NUMBER}",$'),
    ("bindings/js/README.md", rf"\bwitcall-{NUMBER}\.tgz\b"),
    ("examples/c/CMakeLists.txt", rf"^find_package\(witcall {MINOR} REQUIRED\)$"),
    ("docs/C.md", rf"`find_package\(witcall {MINOR} REQUIRED\)`"),
    ("bindings/python/README.md", rf"^# {NUMBER}(?:\+|$)"),
    ("bindings/python/README.md", rf"^# [0-9.]+\+{COMMIT}$"),
    ("README.md", rf"^# witcall {NUMBER} \("),
    ("README.md", rf"^# witcall [0-9.]+ \({COMMIT}\)"),
    ("docs/INSTALL.md", rf"^# witcall {NUMBER} \("),
    ("docs/INSTALL.md", rf"^# witcall [0-9.]+ \({COMMIT}\)"),
    ("docs/INSTALL.md", rf"\bwitcall_{NUMBER}-1_"),
]
BYTES = re.compile(r"^library_version = (.*) ∷ \[\]$", re.M)


def read(path):
    """The text of a file."""
    return (ROOT / path).read_text(encoding="utf-8")


def places():
    """Each place that was found: its file, which kind of version it has, and that version; none if there is no place."""
    for path, pattern in PLACES:
        kind = re.search(r"\?P<(\w+)>", pattern)[1]
        found = [it[kind] for it in re.finditer(pattern, read(path), re.M)]
        yield from ((path, kind, version) for version in found or ["none"])


def bytes_of(text):
    """A text as the definition of the library's version has it."""
    return " ∷ ".join(f"{byte:#04x}" for byte in text.encode())


def minor_of(number):
    """The first two numbers of a version."""
    return number.rpartition(".")[0]


def text_of_library():
    """The version that the library tells."""
    return re.search(PLACES[2][1], read(EXPORTS), re.M)["text"]


def sources_are_released():
    """Whether release/ is of these sources."""
    sources = subprocess.run([ROOT / "tools/sources.sh", "--shipped"], capture_output=True, text=True, check=True).stdout
    return sources == read("release/sources")


def faults():
    """What is wrong, a line each."""
    number, text, commit = read("VERSION").strip(), text_of_library(), read("release/commit").strip()
    wanted = {"number": number, "minor": minor_of(number), "text": text, "commit": commit}
    yield from (f"{path} has {found}, and not {wanted[kind]}" for path, kind, found in places() if found != wanted[kind])
    if not (told := TEXT.fullmatch(text)) or told[1] != number:
        yield f"{EXPORTS} has {text}, which is no version {number}"
    elif sources_are_released() != (told[2] == commit):
        yield f"{EXPORTS} ends in +{told[2]}: it ends in +{commit} if the sources are those of release/, and else in +{NEXT}"
    if BYTES.search(read(SPECS))[1] != bytes_of(text):
        yield f"{SPECS} has other bytes than those of {text}"
    heading = re.search(r"^## (\d[0-9.]*)$", read("CHANGELOG.md"), re.M)
    if not heading or heading[1] != number:
        yield f"CHANGELOG.md has no newest version {number}"
    if f"`{read('release/toolchain').splitlines()[0]}`" not in read("README.md"):
        yield "README.md does not name the toolchain that built release/"
    declared = re.search(r"^#define WITCALL_ABI (\d+)$", read("include/witcall.h"), re.M)
    returned = re.search(r"^const ABI: u32 = (\d+);$", read(EXPORTS), re.M)
    if not declared or not returned or declared[1] != returned[1]:
        yield "include/witcall.h declares another binary interface than the library returns"


def write(text):
    """Writes a version into all places. The number and the commit stay where it ends in NEXT."""
    number, commit = text.split("+")
    new = {"text": text}
    if commit != NEXT:
        new |= {"number": number, "minor": minor_of(number), "commit": commit}
    for path, pattern in PLACES:
        kind = re.search(r"\?P<(\w+)>", pattern)[1]
        if kind in new:
            changed = re.sub(pattern, lambda it: it[0].replace(it[kind], new[kind]), read(path), flags=re.M)
            (ROOT / path).write_text(changed, encoding="utf-8")
    definition = BYTES.sub(lambda _: f"library_version = {bytes_of(text)} ∷ []", read(SPECS))
    (ROOT / SPECS).write_text(definition, encoding="utf-8")


def main():
    words = sys.argv[1:]
    if words == ["--text"]:
        print(text_of_library())
    elif len(words) == 2 and words[0] == "--set" and TEXT.fullmatch(words[1]):
        write(words[1])
    elif words:
        sys.exit(__doc__)
    else:
        finish(faults())


if __name__ == "__main__":
    main()
