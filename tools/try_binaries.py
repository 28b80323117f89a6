#!/usr/bin/env python3
"""Tries `wit-explain encode` and `wit-explain decode` on random packages and on damaged binaries.

usage: tools/try_binaries.py [--program WIT-EXPLAIN] [--unjudged] [N [SEED]]      N random sets, 200 if it is not given

Each random set is encoded, as a package and as each of its worlds. What is encoded is decoded: the package's text has
to be the same, and the bytes when it is encoded again. Then one byte at a time of these binaries and of those in
tests/binaries is changed, 10 N times. No changed binary may end the program otherwise than with status 0 or 1. The same
N and SEED give the same sets and changes.

The judge is rustc's linker of components, wasm-component-ld. Of the text of each world it has to make the bytes that we
write; tools/freed_blocks.c, loaded before it, keeps them. Of a package it makes worlds that include each world, import
each interface, and export each interface: of our binary the same ones as of its text. It has to refuse each set that we
refuse, and to read each changed binary that we decode. Where it panics it says nothing of them, and this is counted.
With --unjudged it is not asked.

The exit status is 1 if something is wrong, or if there is no judge or no C compiler for what is loaded before it.
"""
import os
import pathlib
import random
import re
import shutil
import subprocess
import sys
import tempfile

ROOT = pathlib.Path(__file__).resolve().parent.parent
sys.path.insert(0, str(ROOT))

from tools.check_binaries import encoded, run, spread  # noqa: E402
from tools.models.binary import PREAMBLE, label, section  # noqa: E402
from tools.models.mutants import with_other_byte  # noqa: E402
from tools.repository import parser  # noqa: E402

BUILT = ROOT / "crates" / "explain" / "out" / "explain"
PRIMITIVES = "bool s8 u8 s16 u16 s32 u32 s64 u64 char string".split()
SHAPES = ["list<{}>", "option<{}>", "tuple<{}, {}>", "result<{}, {}>", "result<_, {}>", "result<{}>", "result"]
LABELS = "a b c-d E-f %list %record g0 h-i-j".split()
MODULE = b"\0asm\1\0\0\0"
# what the linker says of a binary that it cannot read: of a section, and of a file
UNREAD = ("decoding custom section", "unable to add component type")
# how the binary of a world begins
WORLD = PREAMBLE + section(0, label("wit-component-encoding") + b"\x04\x00")
IN_BOTH_WAYS = "both as an import and as an export"


class Sets:
    """Random sets of packages, the last of which uses the others."""

    def __init__(self, seed):
        self.random = random.Random(seed)

    def some(self, most):
        return range(self.random.randint(0, most))

    def type(self, names, depth=2):
        """A type of these names and of primitive ones."""
        if depth == 0 or self.random.random() < 0.5:
            return self.random.choice(PRIMITIVES + names * 3)
        inner = [self.type(names, depth - 1) for _ in range(2)]
        return self.random.choice(SHAPES).format(*inner)

    def definition(self, name, names):
        """The definition of a type of this name."""
        shape = self.random.choice(["record", "variant", "enum", "flags", "type", "type"])
        if shape == "type":
            return f"type {name} = {self.type(names)};"
        labels = self.random.sample(LABELS, self.random.randint(1, len(LABELS)))
        if shape == "record":
            labels = [f"{it}: {self.type(names)}" for it in labels]
        if shape == "variant":
            labels = [it if self.random.random() < 0.5 else f"{it}({self.type(names)})" for it in labels]
        return f"{shape} {name} {{ {', '.join(labels)} }}"

    def function(self, name, names):
        """A function of this name."""
        labels = self.random.sample(LABELS, self.random.randint(0, 3))
        parameters = ", ".join(f"{it}: {self.type(names)}" for it in labels)
        result = f" -> {self.type(names)}" if self.random.random() < 0.8 else ""
        return f"{name}: func({parameters}){result};"

    def interface(self, number, known):
        """An interface that may use types of known ones, which are given by their paths, and the names of its types."""
        items, names = [], []
        for path in self.random.sample(sorted(known), min(len(known), self.random.randint(0, 2))):
            for used in known[path][:2]:
                local = f"u{len(names)}"
                items.append(f"use {path}.{{{used} as {local}}};")
                names.append(local)
        for own in self.some(4):
            items.append(self.definition(f"t{own}", names))
            names.append(f"t{own}")
        items += [self.function(f"f{it}", names) for it in self.some(3)]
        return f"interface i{number} {{ {' '.join(items)} }}", names

    def world(self, number, paths):
        """A world that imports and exports interfaces of these paths, and functions."""
        items = []
        for way in ("import", "export"):
            items += [f"{way} {it};" for it in self.random.sample(paths, min(len(paths), self.random.randint(0, 3)))]
            items += [f"{way} {self.function(f'{way}-f{it}', [])}" for it in self.some(2)]
        return f"world w{number} {{ {' '.join(items)} }}"

    def package(self, name, version, known):
        """A package's text, and what others can use of it by their paths."""
        texts, own, shown = [f"package {name}{version};"], dict(known), {}
        for number in range(self.random.randint(1, 4)):
            text, names = self.interface(number, own)
            texts.append(text)
            own[f"i{number}"] = names
            shown[f"{name}/i{number}{version}"] = names
        worlds = range(self.random.randint(0, 2))
        texts += [self.world(it, sorted(own)) for it in worlds]
        return "\n".join(texts), shown, [f"w{it}" for it in worlds]

    def set(self):
        """The texts of a set, and the names of the last package's worlds."""
        known, texts, worlds = {}, [], []
        for number in range(self.random.randint(1, 3)):
            version = self.random.choice(["", "@1.2.3", "@0.1.0-rc.1"])
            text, shown, worlds = self.package(f"ns:p{number}", version, known)
            texts.append(text)
            known |= shown
        return texts, worlds


def linker():
    """rustc's linker of components, if it is there."""
    try:
        done = subprocess.run(["rustc", "--print", "sysroot"], capture_output=True, text=True, check=True)
    except (OSError, subprocess.CalledProcessError):
        return None
    found = sorted(pathlib.Path(done.stdout.strip()).glob("lib/rustlib/*/bin/wasm-component-ld"))
    return found[0] if found else None


def module(binary):
    """A core module with the binary of a world in a section."""
    return MODULE + section(0, label("component-type:x") + binary)


def without_worlds(text, kept=None):
    """The text of a package with no world but the one that is kept."""
    lines = text.splitlines()
    return "\n".join(it for it in lines if not it.startswith("world ") or it.split()[1] == kept)


def parts_of(text):
    """What the judge can make of a package: the kind of its items and their names, between the package's name and its
    version. They are its worlds if there are some, and else its interfaces."""
    found = re.match(r"package (\S+:\S+?)(@\S+)?;", text)
    for kind in ("world", "interface"):
        names = re.findall(rf"(?m)^{kind} (\S+)", text)
        if names:
            return kind, found[1], names, found[2] or ""


def interfaces(texts):
    """The interfaces of the last of printed packages, before its worlds."""
    return re.split(r"(?m)^(?=package )", texts)[-1].partition("\nworld ")[0]


def end_of(binary):
    """Where a binary ends with its section of producers, whatever is after it."""
    at = len(PREAMBLE)
    while at < len(binary):
        kind, shift, size = binary[at], 0, 0
        while binary[at + 1] & 0x80:
            at, shift, size = at + 1, shift + 7, size | (binary[at + 1] & 0x7F) << shift
        size |= binary[at + 1] << shift
        at += 2 + size
        if kind == 0 and binary[at - size:].startswith(label("producers")):
            break
    return at


class Judge:
    """The linker, with a script in the place of the linker of core modules that copies a module."""

    def __init__(self, program, room):
        self.program, self.room = program, room
        self.copier, self.core, self.freed = room / "copier", room / "core.wasm", room / "freed"
        self.keeper = room / "keeper.so"
        self.copier.write_text('#!/bin/sh\nwhile [ "$1" != -o ]; do shift; done\nexec cp "$CORE" "$2"\n')
        self.copier.chmod(0o755)
        compiler = [os.environ.get("CC", "cc"), "-O1", "-Wall", "-shared", "-fPIC", "-o", self.keeper]
        subprocess.run([*compiler, ROOT / "tools" / "freed_blocks.c", "-ldl"], check=True)

    def run(self, *types, **more):
        """What the linker says of types, and its status."""
        words = [self.program, "--wasm-ld-path", self.copier, "--wasi-adapter", "none", "-o", self.room / "made"]
        words += [word for it in types for word in ("--component-type", it)]
        environment = dict(os.environ, CORE=str(self.core), TMPDIR=str(self.room), **more)
        done = subprocess.run(words, capture_output=True, env=environment)
        return done.stderr.decode(errors="replace"), done.returncode

    def refusal(self, stem, binary):
        """What the linker says if it cannot read a binary: a file in place of a package, or a section of a module."""
        types = self.room / "types.wasm"
        self.core.write_bytes(MODULE if stem == "package" else module(binary))
        types.write_bytes(binary)
        said, status = self.run(*([types] if stem == "package" else []))
        return said if any(it in said for it in UNREAD) or status not in (0, 1) else None

    def made(self, *texts, binary=None):
        """The binary that the linker makes of the one world of the last text, or what it says. The other texts, and the
        binary of a package if there is one, are what that depends on."""
        self.core.write_bytes(MODULE)
        self.freed.unlink(missing_ok=True)
        with tempfile.TemporaryDirectory(dir=self.room) as folder:
            given = pathlib.Path(folder) / "set"
            spread("\n".join(texts) + "\n", given)
            if binary is not None:
                (given / "deps" / "binary.wasm").write_bytes(binary)
            said, _ = self.run(given, LD_PRELOAD=str(self.keeper), FREED=str(self.freed))
        copies = self.freed.read_bytes() if self.freed.exists() else b""
        worlds = [copies[it.start():] for it in re.finditer(re.escape(WORLD), copies)]
        found = {it[: end_of(it)] for it in worlds}
        return found.pop() if len(found) == 1 else said


class Trial:
    """What is tried of one program, and what is wrong."""

    def __init__(self, program, judge, room):
        self.program, self.judge, self.room = program, judge, room
        self.done, self.judged_worlds, self.panics, self.faults = 0, 0, 0, []

    def fault(self, words):
        self.faults.append(words)
        print(words, flush=True)

    def again(self, stem, binary, name, text):
        """Decodes a binary, and encodes what it has. The text is the package's."""
        file = self.room / "binary.wasm"
        file.write_bytes(binary)
        said, status = run(self.program, ["decode", file])
        if status:
            return self.fault(f"{name}: status {status} of decode: {said}")
        if stem == "package" and interfaces(said) != interfaces(text):
            self.fault(f"{name}: other interfaces: {interfaces(said)}")
        with tempfile.TemporaryDirectory(dir=self.room) as folder:
            spread(said, pathlib.Path(folder) / "set")
            said, status, written = encoded(self.program, stem, pathlib.Path(folder) / "set", pathlib.Path(folder))
        self.done += 1
        if written != binary:
            return self.fault(f"{name}: other bytes, or status {status}: {said}")
        return self.read(stem, binary, name)

    def read(self, stem, binary, name):
        """Has the judge read a binary."""
        refusal = self.judge and self.judge.refusal(stem, binary)
        if refusal and "panicked at" in refusal:
            self.panics += 1
        elif refusal:
            self.fault(f"{name}: {refusal}")

    def world(self, texts, world, written, name):
        """Has the judge make the binary of a world. Nothing is written of one that is refused."""
        made = self.judge.made(*texts[:-1], without_worlds(texts[-1], world))
        self.judged_worlds += 1
        if written is None and isinstance(made, bytes):
            self.fault(f"{name}: the judge makes a binary of {world}, which is refused")
        if written is not None and made != written:
            told = made.hex() if isinstance(made, bytes) else made
            self.fault(f"{name}: the judge makes another binary of {world}: {told}")

    def package(self, texts, binary, name):
        """Has the judge make worlds of a package's text and of its binary. A binary without worlds has no functions of
        what it depends on."""
        kind, front, inside, behind = parts_of(texts[-1])
        if kind == "interface":
            texts = [re.sub(r" f\d+: func\([^;]*;", "", it) for it in texts[:-1]] + texts[-1:]
        for item in inside:
            for way in ["include"] if kind == "world" else ["import", "export"]:
                probe = f"package judged:probe; world probe {{ {way} {front}/{item}{behind}; }}"
                self.judged_worlds += 1
                made = self.judge.made(*texts, probe)
                if not isinstance(made, bytes) or made != self.judge.made(probe, binary=binary):
                    self.fault(f"{name}: the judge makes other binaries of the package and of its text: {way} {item}")

    def judged(self, texts, written, name):
        """Has the judge make what was written of a set, by the stems. Worlds of other packages may be refused."""
        texts = [without_worlds(it) for it in texts[:-1]] + texts[-1:]
        for stem, binary in written.items():
            if stem != "package":
                self.world(texts, stem.removeprefix("world-"), binary, name)
        if written["package"] is not None:
            self.package(texts, written["package"], name)

    def set(self, texts, worlds, name):
        """Encodes a random set, and answers its binaries."""
        written = {}
        with tempfile.TemporaryDirectory(dir=self.room) as folder:
            folder = pathlib.Path(folder)
            spread("\n".join(texts) + "\n", folder / "set")
            text, _ = run(self.program, ["text", folder / "set"])
            for stem in ["package", *(f"world-{it}" for it in worlds)]:
                said, status, written[stem] = encoded(self.program, stem, folder / "set", folder)
                (folder / "out").unlink(missing_ok=True)
                if written[stem] is None and IN_BOTH_WAYS not in said:
                    self.fault(f"{name}: {stem}: status {status}: {said}")
        if self.judge:
            self.judged(texts, written, name)
        binaries = [(stem, binary) for stem, binary in written.items() if binary is not None]
        for stem, binary in binaries:
            self.again(stem, binary, f"{name}: {stem}", text)
        return binaries

    def damaged(self, stem, binary, chance):
        """Decodes a binary with one byte changed."""
        at, changed = with_other_byte(binary, chance)
        file = self.room / "changed.wasm"
        file.write_bytes(changed if stem == "package" else module(changed))
        said, status = run(self.program, ["decode", file])
        self.done += 1
        name = f"byte {at} of {stem} is {changed[at]:02x} in {binary.hex()}"
        if status not in (0, 1):
            self.fault(f"{name}: status {status}: {said}")
        if status == 0 and changed != binary:
            self.read(stem, changed, name)


def judge_of(room):
    """The judge; the script ends if it is not there."""
    program, compiler = linker(), os.environ.get("CC", "cc")
    if program is None:
        sys.exit("tools/try_binaries.py: rustc has no wasm-component-ld: Debian's has none, and that of rustup does")
    if not shutil.which(compiler):
        sys.exit(f"tools/try_binaries.py: no {compiler}: apt-get install -y gcc")
    return Judge(program, room)


def main():
    options = parser(__doc__)
    options.add_argument("--program", type=pathlib.Path, default=BUILT)
    options.add_argument("--unjudged", action="store_true")
    options.add_argument("count", nargs="?", type=int, default=200)
    options.add_argument("seed", nargs="?", type=int, default=1)
    given = options.parse_args()
    program = given.program.resolve()
    if not program.is_file():
        sys.exit(f"tools/try_binaries.py: there is no {program}: run the gate, or name a program by --program")
    with tempfile.TemporaryDirectory() as room:
        room = pathlib.Path(room)
        trial = Trial(program, None if given.unjudged else judge_of(room), room)
        sets, chance = Sets(given.seed), random.Random(given.seed)
        binaries = [(it.stem, it.read_bytes()) for it in sorted((ROOT / "tests" / "binaries").glob("[0-9]*/*.wasm"))]
        for number in range(given.count):
            binaries += trial.set(*sets.set(), f"set {number} of seed {given.seed}")
        for _ in range(given.count * 10):
            trial.damaged(*chance.choice(binaries), chance)
    judged = "" if given.unjudged else f", {trial.judged_worlds} worlds made by the judge, {trial.panics} panics of it"
    print(f"{given.count} sets of seed {given.seed}, {trial.done} binaries{judged}: {len(trial.faults)} faults")
    sys.exit(bool(trial.faults))


if __name__ == "__main__":
    main()
