#!/usr/bin/env python3
"""Builds and runs a program of docs/LANGUAGES.md, which is the block of its language there, or examples/cpp/upper.cpp.

usage: examples/languages.py c|cpp|rust|python|js PREFIX BUILD

PREFIX is where tools/install.sh installed the library, and BUILD a folder for what is built. CC and CXX name the
compilers of C and C++. It prints what the program prints, and the exit status is the program's.
"""
import gzip
import os
import pathlib
import shutil
import subprocess
import sys

ROOT = pathlib.Path(__file__).resolve().parent.parent
sys.path.insert(0, str(ROOT / "tools"))
sys.dont_write_bytecode = True
from repository import blocks  # noqa: E402

CARGO = """
[package]
name = "upper"
version = "0.1.0"
edition = "2021"

[dependencies]
witcall = {{ path = "{}" }}

[workspace]
"""


def run(*words, **options):
    """Runs a command, and ends with its status if that isn't 0."""
    status = subprocess.run([str(word) for word in words], check=False, **options).returncode
    if status:
        sys.exit(status)


def run_compiled(source, prefix, folder, compiler):
    program = folder / "upper"
    flags = ["-Wall", "-Wextra", "-Werror", f"-I{prefix}/include"]
    run(*compiler, *flags, "-o", program, source, f"{prefix}/lib/libwitcall.a")
    run(program)


def run_c(source, prefix, folder):
    run_compiled(source, prefix, folder, [os.environ.get("CC", "cc"), "-std=c11"])


def run_cpp(source, prefix, folder):
    run_compiled(source, prefix, folder, [os.environ.get("CXX", "c++"), "-std=c++17"])


def run_rust(source, prefix, folder):
    (folder / "src").mkdir(exist_ok=True)
    source.rename(folder / "src/main.rs")
    (folder / "Cargo.toml").write_text(CARGO.format(ROOT / "bindings/rust"))
    places = {**os.environ, "WITCALL_LIB_DIR": f"{prefix}/lib"}
    run("cargo", "run", "--quiet", "--offline", cwd=folder, env=places)


def run_python(source, prefix, _):
    places = {"WITCALL_LIBRARY": f"{prefix}/lib/libwitcall.so", "PYTHONPATH": str(ROOT / "bindings/python")}
    run(sys.executable, "-B", source, env={**os.environ, **places})


def run_js(source, _, folder):
    run("node", ROOT / "bindings/js/examples/make.mjs", folder)
    installed = folder / "node_modules/witcall"
    shutil.copytree(ROOT / "bindings/js", installed, dirs_exist_ok=True)
    packed = os.environ.get("WITCALL_MODULE", ROOT / "release/witcall.wasm.gz")
    module = pathlib.Path(packed).read_bytes()
    is_packed = module.startswith(b"\x1f\x8b")
    (installed / "witcall.wasm").write_bytes(gzip.decompress(module) if is_packed else module)
    run("node", source, cwd=folder)


LANGUAGES = {
    "c": (run_c, "upper.c"),
    "cpp": (run_cpp, "upper.cpp"),
    "rust": (run_rust, "upper.rs"),
    "python": (run_python, "upper.py"),
    "js": (run_js, "upper.mjs"),
}


def main():
    if len(sys.argv) != 4 or sys.argv[1] not in LANGUAGES:
        sys.exit(__doc__)
    language = sys.argv[1]
    page = (ROOT / "docs/LANGUAGES.md").read_text(encoding="utf-8")
    found = [text for _, _, text in blocks(page, language)]
    (code,) = found or [(ROOT / "examples/cpp/upper.cpp").read_text(encoding="utf-8")]
    runner, name = LANGUAGES[language]
    folder = pathlib.Path(sys.argv[3]).resolve() / language
    folder.mkdir(parents=True, exist_ok=True)
    (folder / name).write_text(code, encoding="utf-8")
    runner(folder / name, pathlib.Path(sys.argv[2]).resolve(), folder)


if __name__ == "__main__":
    main()
