#!/usr/bin/env python3
"""Checks the declarations that `wit-explain bind ts` and `bind python` print: those for TypeScript by the compiler `tsc`
(Debian's node-typescript), those for Python by `mypy --strict` (Debian's mypy), and by importing them.

usage: tools/check_declarations.py [--program WIT-EXPLAIN]

The declarations of each file and each folder of examples/ and of tests/explain/files that has no fault are compiled:
for TypeScript with --strict, each as a module and as a file of declarations. tests/explain/values.ts and values.py are
compiled beside those of bind/kinds.wit: they have values as bindings/js and bindings/python take and give them, and
after `@ts-expect-error` and before `type: ignore` values of other types. The program is the one that was built,
crates/explain/out/explain, if no other is named. The exit status is 1 if something is refused.
"""
import os
import pathlib
import shutil
import subprocess
import sys
import tempfile

from repository import ROOT, parser, place

BUILT = ROOT / "crates" / "explain" / "out" / "explain"
FOLDERS = [ROOT / "examples", ROOT / "tests" / "explain" / "files"]
VALUES = ROOT / "tests" / "explain"
KINDS = ROOT / "tests" / "explain" / "files" / "bind" / "kinds.wit"
BINDING = ROOT / "bindings" / "python"
TSC = ["tsc", "--strict", "--noEmit", "--target", "es2020", "--module", "es2020"]
MYPY = ["mypy", "--strict", "--no-error-summary", "--cache-dir", "cache"]


def paths():
    """The files and folders that may be packages."""
    for folder in FOLDERS:
        files = sorted(folder.rglob("*.wit"))
        yield from sorted({it.parent for it in files})
        yield from files


def printed(program, language, path):
    """What `bind` prints, or None after a fault."""
    done = subprocess.run([program, "bind", language, path], stdin=subprocess.DEVNULL, capture_output=True)
    return None if done.returncode else done.stdout


def write(room, program, language, names):
    """Writes the declarations of all packages: their paths by the names of files, of which a package has these."""
    made = {}
    for path in paths():
        text = printed(program, language, path)
        if text is not None:
            for name in names:
                file = room / name.format(len(made))
                file.write_bytes(text)
                made[file.name] = path
    return made


def are_taken(done, made, values):
    """Whether a compiler took them, and prints what it says with the paths of packages."""
    for line in done.stdout.splitlines():
        for name in (line.partition("(")[0], line.partition(":")[0]):
            path = made.get(name, values if name == values.name else None)
            if path:
                print(f"{place(path)}: {line}")
                break
        else:
            print(line)
    return done.returncode == 0 and bool(made)


def typescript(room, program):
    """Compiles those for TypeScript: how many packages have them, or None if one is refused."""
    made = write(room, program, "ts", ["module-{}.ts", "declared-{}.d.ts"])
    values = VALUES / "values.ts"
    (room / "kinds.ts").write_bytes(printed(program, "ts", KINDS) or b"")
    shutil.copy(values, room)
    done = subprocess.run([*TSC, *made, values.name], cwd=room, capture_output=True, text=True)
    return len(set(made.values())) if are_taken(done, made, values) else None


def python(room, program):
    """Checks the types of those for Python, and imports them: how many packages have them, or None if one is refused."""
    made = write(room, program, "python", ["declared_{}.py"])
    values = VALUES / "values.py"
    (room / "kinds.py").write_bytes(printed(program, "python", KINDS) or b"")
    shutil.copy(values, room)
    search = os.pathsep.join([str(BINDING), str(room)])
    environment = {**os.environ, "MYPYPATH": str(BINDING), "PYTHONPATH": search, "PYTHONDONTWRITEBYTECODE": "1"}
    checked = subprocess.run([*MYPY, *made, "kinds.py", values.name], cwd=room, env=environment, capture_output=True,
                             text=True)
    names = [pathlib.Path(it).stem for it in (*made, "kinds.py", values.name)]
    imported = subprocess.run([sys.executable, "-c", f"import {', '.join(names)}"], cwd=room, env=environment,
                              capture_output=True, text=True)
    print(imported.stderr, end="")
    is_taken = are_taken(checked, made, values)
    return len(made) if is_taken and imported.returncode == 0 else None


def main():
    options = parser(__doc__)
    options.add_argument("--program", type=pathlib.Path, default=BUILT)
    program = options.parse_args().program.resolve()
    missing = [it for it in ("tsc", "mypy") if not shutil.which(it)]
    if not program.is_file() or missing:
        sys.exit(f"tools/check_declarations.py: there is no {missing[0] if missing else program}")
    with tempfile.TemporaryDirectory() as room:
        for language, compiled in (("TypeScript", typescript), ("Python", python)):
            folder = pathlib.Path(room) / language
            folder.mkdir()
            count = compiled(folder, program)
            if count is None:
                sys.exit(f"declarations for {language} are refused")
            print(f"the declarations for {language} of {count} files and folders are taken")


if __name__ == "__main__":
    main()
