"""Runs of programs: what they cost, how that grows with the input, and the memory that they ask for."""
import os
import pathlib
import re
import resource
import shutil
import subprocess
import sys
from dataclasses import dataclass, replace
from typing import Callable

from tools.repository import ROOT

# how many times as much twice the input may cost
MOST = 2.3
# milliseconds, or millions of instructions: what costs less is no measure
LEAST = 1.0
# what stands before the C library's `malloc`: it counts the requests, and refuses that of the number REFUSED
COUNTER = r"""
#include <errno.h>
#include <stddef.h>
#include <stdlib.h>
extern void *__libc_malloc(size_t), *__libc_calloc(size_t, size_t);
extern void *__libc_realloc(void *, size_t), *__libc_memalign(size_t, size_t);
static long made, refused = -1;
static size_t largest, sum;
static int is_refused(size_t size) {
    if (refused < 0) {
        const char *word = getenv("REFUSED");
        refused = word ? atol(word) : 0;
    }
    sum += size;
    if (size > largest) largest = size;
    if (++made != refused) return 0;
    errno = ENOMEM;
    return 1;
}
void *malloc(size_t size) { return is_refused(size) ? NULL : __libc_malloc(size); }
void *calloc(size_t count, size_t size) { return is_refused(count * size) ? NULL : __libc_calloc(count, size); }
void *realloc(void *old, size_t size) { return is_refused(size) ? NULL : __libc_realloc(old, size); }
void *memalign(size_t align, size_t size) { return is_refused(size) ? NULL : __libc_memalign(align, size); }
void *aligned_alloc(size_t align, size_t size) { return memalign(align, size); }
int posix_memalign(void **out, size_t align, size_t size) {
    *out = memalign(align, size);
    return *out ? 0 : ENOMEM;
}
__attribute__((destructor)) static void tell(void) {
    const char *path = getenv("REQUESTS");
    if (!path) return;
    extern int open(const char *, int, ...), dprintf(int, const char *, ...), close(int);
    int file = open(path, 01101, 0600);
    dprintf(file, "%ld %zu %zu", made, largest, sum);
    close(file);
}
"""
# starts a program, and tells the most memory that it had: a child of Python is told to have had at least what Python
# has
STARTER = r"""
#include <stdio.h>
#include <sys/resource.h>
#include <sys/wait.h>
#include <unistd.h>
int main(int count, char **words) {
    (void)count;
    if (!fork()) { execv(words[1], words + 1); _exit(127); }
    int status; struct rusage used;
    wait4(-1, &status, 0, &used);
    fprintf(stderr, "%ld\n", used.ru_maxrss);
    return WIFEXITED(status) ? WEXITSTATUS(status) : 126;
}
"""


class Folder:
    """A folder for inputs and for what is built."""

    def __init__(self, path):
        self.path, self.count = pathlib.Path(path), 0

    def keep(self, content, name=None):
        """The path of a file of this content, a text or bytes."""
        self.count += 1
        path = self.path / (name or f"input{self.count}")
        path.write_bytes(content.encode() if isinstance(content, str) else content)
        return path

    def compile(self, source, name, *flags, after=()):
        """The path of a program or library in C. What it is linked with comes after its source."""
        path = self.path / name
        subprocess.run(["cc", "-O2", *flags, "-x", "c", "-", *after, "-o", path], input=source.encode(), check=True)
        return path


def driver(folder, library, name):
    """The path of a program of tests/memory, over a shared library, which is copied beside it under its own name."""
    number = re.search(r"#define WITCALL_ABI (\d+)", (ROOT / "include/witcall.h").read_text())[1]
    beside = folder.path / f"libwitcall.so.{number}"
    shutil.copy(library, beside)
    tests = ROOT / "tests/memory"
    flags = ["-std=gnu11", "-Wall", "-Wextra", "-Werror", f"-I{ROOT}/include", f"-I{tests}"]
    links = ["-x", "none", beside, f"-Wl,-rpath,{folder.path}"]
    return folder.compile((tests / f"{name}.c").read_text(), name, *flags, after=links)


# ---- costs


def milliseconds(words):
    """The processor time of one run, which is done or refused; another end stops the script."""
    before = resource.getrusage(resource.RUSAGE_CHILDREN)
    ran = subprocess.run(words, stdout=subprocess.DEVNULL, stderr=subprocess.DEVNULL, check=False)
    after = resource.getrusage(resource.RUSAGE_CHILDREN)
    if ran.returncode not in (0, 1):
        sys.exit(f"{' '.join(map(str, words))[:200]}: status {ran.returncode}")
    return 1000 * (after.ru_utime + after.ru_stime - before.ru_utime - before.ru_stime)


def millions(words):
    """The instructions of one run, in millions."""
    words = ["valgrind", "--tool=callgrind", "--callgrind-out-file=/dev/null", *words]
    ran = subprocess.run(words, stdout=subprocess.DEVNULL, stderr=subprocess.PIPE, text=True, check=False)
    return int(re.search(r"Collected : (\d+)", ran.stderr)[1]) / 1e6


@dataclass(frozen=True)
class Cost:
    """What is measured of a run: how, in which unit, and of how many runs the least counts."""

    of: Callable
    unit: str
    runs: int

    def least(self, commands, enough=float("inf")):
        """The least cost of each command, taken in turn so that a busy moment of the machine meets them all.

        What has cost `enough` in all is not run again.
        """
        best, spent = [float("inf")] * len(commands), [0.0] * len(commands)
        for _ in range(self.runs):
            for place, words in enumerate(commands):
                if spent[place] < enough:
                    cost = self.of(words)
                    spent[place] += cost
                    best[place] = min(best[place], cost)
        return best

    def of_fewer(self, runs):
        """The same of at most so many runs."""
        return replace(self, runs=min(self.runs, runs))

    def beyond(self, empty, commands, **more):
        """The least cost of each command beyond that of the first, which has nothing to do."""
        nothing, *costs = self.least([empty, *commands], **more)
        return [cost - nothing for cost in costs]


TIME = Cost(milliseconds, "ms", 20)
INSTRUCTIONS = Cost(millions, "million instructions", 1)


class Growth:
    """Prints what inputs of growing sizes cost, each twice the one before, and keeps the most that a step took."""

    def __init__(self, cost, unit):
        self.cost, self.unit, self.worst = cost, unit, 0.0

    def tell(self, name, sizes, costs):
        """Prints the costs of a shape, and answers them."""
        for size, before, cost in zip(sizes, [0.0, *costs], costs):
            grew = cost / before if before > LEAST else 0.0
            self.worst = max(self.worst, grew)
            told = f"{grew:.2f} times" if grew else ""
            print(f"{name:28} {size:7} {self.unit} {cost:9.2f} {self.cost.unit} {told}".rstrip(), flush=True)
        return costs

    def is_right(self):
        """Whether no step took more than MOST. The script stops where each cost too little to be a measure."""
        if not self.worst:
            sys.exit("nothing is measured: each run takes too little")
        print(f"at most {self.worst:.2f} times as much for twice as many {self.unit}")
        return self.worst <= MOST


# ---- memory


class Starter:
    """Starts programs, and tells the most memory that each run had."""

    def __init__(self, folder):
        self.program = folder.compile(STARTER, "starter")

    def run(self, words, **more):
        """A run with its lines of errors, and the most memory that it had, in KiB."""
        words = [self.program, *words]
        ran = subprocess.run(words, capture_output=True, text=True, errors="replace", check=False, **more)
        *lines, most = ran.stderr.splitlines()
        return ran, lines, int(most)


@dataclass(frozen=True)
class Requests:
    """What a run asks for: how many requests, the bytes of the largest, and those of all."""

    made: int
    largest: int
    sum: int


class Counter:
    """Runs programs whose requests for memory are counted, and of which one may be refused."""

    def __init__(self, folder):
        self.library, self.told = folder.compile(COUNTER, "counter.so", "-shared", "-fPIC"), folder.path / "requests"

    def run(self, words, data="", refused=0):
        """A run in which the request of this number is refused, and its requests; None where it ended before it told
        them."""
        self.told.unlink(missing_ok=True)
        env = {**os.environ, "LD_PRELOAD": str(self.library), "REFUSED": str(refused), "REQUESTS": str(self.told)}
        streams = {"capture_output": True, "text": True, "errors": "backslashreplace"}
        ran = subprocess.run(words, input=data, env=env, cwd=ROOT, check=False, **streams)
        return ran, Requests(*map(int, self.told.read_text().split())) if self.told.exists() else None

    def counted(self, words, data=""):
        """A run of which nothing is refused, and its requests. The script stops where they are not counted."""
        ran, requests = self.run(words, data)
        if requests is None:
            sys.exit(f"{' '.join(map(str, words))[:60]}: status {ran.returncode}; is malloc that of the C library?")
        return ran, requests


def limited(words, limit):
    """A run with at most this many bytes of memory; 0 is no limit."""
    def limits():
        resource.setrlimit(resource.RLIMIT_AS, (limit, limit))
    return subprocess.run(words, capture_output=True, preexec_fn=limits if limit else None, check=False)
