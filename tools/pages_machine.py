"""What pages run on (tools/run_pages.py): copies of the checkout, each in a home of its own, and the machine's tools."""
import gzip
import os
import pathlib
import shutil
import subprocess
import sys

from repository import ROOT

# the tools that pages and programs need, and Debian's packages that have them
TOOLS = {
    "aarch64-linux-gnu-gcc": "gcc-aarch64-linux-gnu", "ar": "binutils", "c++": "g++", "cargo": "cargo", "cc": "gcc",
    "clang": "clang", "cmake": "cmake", "dpkg-deb": "dpkg", "git": "git", "make": "make", "node": "nodejs",
    "npm": "npm", "pkg-config": "pkgconf", "qemu-aarch64": "qemu-user", "tsc": "node-typescript", "wasm-ld": "lld",
}
MODULES = ("ensurepip", "setuptools", "wheel")
NO_MODULES = "python3-venv, python3-setuptools and python3-wheel"
# a root of its own for dpkg, in which the C library is installed as it is here
SUDO = """#!/bin/sh
set -eu
[ "${1-}" = dpkg ] || { echo "sudo: pages run dpkg alone" >&2; exit 1; }
shift
root="$HOME/root"
mkdir -p "$root/var/lib/dpkg/info" "$root/var/lib/dpkg/updates" "$root/var/lib/dpkg/triggers"
[ -e "$root/var/lib/dpkg/status" ] || dpkg-query -s libc6 >"$root/var/lib/dpkg/status"
as_root=''
[ "$(id -u)" = 0 ] || as_root=fakeroot
PATH="$PATH:/usr/sbin:/sbin" $as_root dpkg --root="$root" --log="$HOME/dpkg.log" "$@"
"""
NO_TOOLCHAIN = """#!/bin/sh
echo "rt: pages run without the toolchain" >&2
exit 127
"""
# there is no network
OFFLINE = {
    "CARGO_NET_OFFLINE": "true", "PIP_NO_INDEX": "1", "PIP_DISABLE_PIP_VERSION_CHECK": "1",
    # pip takes the value of this one for that of --build-isolation
    "PIP_NO_BUILD_ISOLATION": "0",
    "npm_config_offline": "true", "npm_config_audit": "false", "npm_config_fund": "false",
    "npm_config_update_notifier": "false",
}
SYSTEM = ("/usr/bin", "/bin")
NO_NAME = ["-c", "user.name=pages", "-c", "user.email=pages@example.org"]


def check_tools():
    """Ends the script if a tool is missing."""
    missing = [f"{name} (Debian's package {package})" for name, package in TOOLS.items() if not shutil.which(name)]
    if os.getuid() and not shutil.which("fakeroot"):
        missing.append("fakeroot (Debian's package fakeroot)")
    if missing:
        sys.exit(f"tools/run_pages.py: there is no {', no '.join(missing)}")


def python():
    """A Python that builds wheels without a network."""
    for found in (sys.executable, "/usr/bin/python3"):
        done = subprocess.run([found, "-c", f"import {', '.join(MODULES)}"], capture_output=True, check=False)
        if not done.returncode:
            return found
    return sys.exit(f"tools/run_pages.py: python3 builds no wheel: Debian's packages {NO_MODULES} do")


class Machine:
    """A folder with the copy that all pages begin with, with what stands in for commands, and the pages' homes."""

    def __init__(self, folder, release):
        self.folder, self.source, self.commands = folder, folder / "source", folder / "commands"
        listed = subprocess.run(["git", "ls-files", "-z"], cwd=ROOT, capture_output=True, check=True).stdout
        for name in listed.decode().rstrip("\0").split("\0"):
            if (ROOT / name).exists():
                (self.source / name).parent.mkdir(parents=True, exist_ok=True)
                shutil.copy2(ROOT / name, self.source / name, follow_symlinks=False)
        if release:
            shutil.rmtree(self.source / "release")
            shutil.copytree(release, self.source / "release")
        for words in (["init", "-q"], ["config", "core.trustctime", "false"], ["add", "-f", "."], [*NO_NAME, "commit", "-q", "-m", "the checkout"]):
            subprocess.run(["git", *words], cwd=self.source, check=True)
        self.explain = folder / "wit-explain"
        self.explain.write_bytes(gzip.decompress((self.source / "release/wit-explain.gz").read_bytes()))
        self.explain.chmod(0o755)
        self.commands.mkdir()
        for name, text in (("rt", NO_TOOLCHAIN), ("sudo", SUDO)):
            (self.commands / name).write_text(text)
            (self.commands / name).chmod(0o755)

    def home(self, folder):
        """Makes a home in a folder, with a copy of the checkout in it. Its files are links: a page that changes one is
        wrong."""
        made = folder / "you"
        made.mkdir(parents=True)
        no_git = shutil.ignore_patterns(".git")
        shutil.copytree(self.source, made / "witcall", symlinks=True, ignore=no_git, copy_function=os.link)
        (made / "witcall" / ".git").write_text(f"gitdir: {self.source / '.git'}\n")
        return made

    def environment(self, home, has_pip):
        """The variables that a page begins with. No folder of PATH has a witcall that was installed before. If it uses
        pip, the page has an environment of Python that is its own."""
        own = [self.commands]
        if has_pip:
            own.append(home.parent / "python" / "bin")
            subprocess.run([python(), "-m", "venv", "--system-site-packages", own[1].parent], check=True)
        there = [it for it in os.environ["PATH"].split(":") if it in SYSTEM or not pathlib.Path(it, "witcall").exists()]
        rust = pathlib.Path(os.environ.get("RUSTUP_HOME", pathlib.Path.home() / ".rustup"))
        kept = {"RUSTUP_HOME": str(rust)} if rust.is_dir() else {}
        kept["RUSTFLAGS"] = os.environ.get("RUSTFLAGS", "")
        path = ":".join([*map(str, own), *there])
        return {**OFFLINE, **kept, "PATH": path, "HOME": str(home), "LC_ALL": "C.UTF-8", "EXPLAIN": str(self.explain)}


def left_files(checkout):
    """The files in a copy that are neither in the checkout nor covered by .gitignore, and those that were changed."""
    words = ["git", "--no-optional-locks", "status", "--porcelain", "--untracked-files=normal"]
    return subprocess.run(words, cwd=checkout, capture_output=True, text=True, check=True).stdout.splitlines()
