#!/usr/bin/env python3
"""Checks the headers that `wit-explain bind c` writes: of every package in examples/, of some with names that are hard
for C, and of random ones.

usage: tools/check_bindings.py [--program WIT-EXPLAIN] [N [SEED]]      N random packages or sets, 200 if it is not given

Each header is compiled by gcc and by clang, as C11 and as C++17, with all warnings as errors; its asserts are those of
sizes, alignments and offsets. Each function is then called with random values in a program in C or C++: the core values
and the memory that its `fill` leaves are those of the model of the Canonical ABI (tools/models), and what its `read`
reads is the value that the model put there. So is what the callee's `receive` reads, and the model reads the value that
its `answer` gave. Each header is compiled with its short names, too.

The program is the one that was built, crates/explain/out/explain, if no other is named. The same N and SEED give the
same packages, values and compilers. It prints each package that fails, and a line with the numbers of all. The exit
status is 1 if one fails, or if a compiler or its sanitizers are missing.
"""
import argparse
import os
import pathlib
import random
import shutil
import subprocess
import sys
import tempfile
from concurrent.futures import ThreadPoolExecutor

ROOT = pathlib.Path(__file__).resolve().parent.parent
sys.path.insert(0, str(ROOT))

from tools.c_headers import Header  # noqa: E402
from tools.models import abi  # noqa: E402
from tools.models.crossing import Flat, Given, Stored, Way, lifted, lowered  # noqa: E402
from tools.models.faults import Refused  # noqa: E402
from tools.models.memory import Bump, Memory  # noqa: E402
from tools.models.opening import opened  # noqa: E402
from tools.models.random_calls import Source  # noqa: E402

EXAMPLES = sorted(it for it in (ROOT / "examples").rglob("*.wit") if it.parent.name != "wasi")
# in an order in which each comes after those that it uses
WASI = [ROOT / "examples" / "wasi" / f"{name}.wit" for name in ("clocks", "random", "cli", "app")]
STRICT = ["-Wall", "-Wextra", "-Werror", "-pedantic", f"-I{ROOT}/include"]
DIALECTS = {"c": ["-x", "c", "-std=c11"], "c++": ["-x", "c++", "-std=c++17"]}
# the compilers of programs, each with its language, and Debian's package of it and of its sanitizers
COMPILERS = {"gcc": "c", "clang": "c", "g++": "c++", "clang++": "c++"}
PACKAGES = {"gcc": ["gcc", "gcc"], "g++": ["g++", "g++"], "clang": ["clang", "libclang-rt-14-dev"],
            "clang++": ["clang", "libclang-rt-14-dev"]}
SANITIZED = ["-g", "-fsanitize=address,undefined", "-fno-sanitize-recover=all"]
CALLS = 3
START, ROOM = 16, 1 << 16
# packages of which two names become one in C, or a name one that C has
COLLIDING = [
    "package a:b; interface c { record d-e { x: u8, y: u16 } variant v { b-c(u8) } variant v-b { c(u8) } "
    "record f-parameters { z: u32 } f: func(x: d-e, y: v) -> v-b; record g-load { a: u8 } record g { b: u64 } "
    "h: func(x: g-load, y: g, z: f-parameters) -> list<g-load>; } "
    "interface c-d { record e { x: u64 } f: func(x: e); } interface wit { type %string = u8; }",
    "package int:class; interface default { record NULL { %char: u8, INT-MAX: u8, errno: u16, %record: list<u8> } "
    "flags true { EOF, stdin } enum false { %union, virtual } f: func(%list: NULL, return: true) -> false; }",
    "package wit:%string; interface load { record store { a: string } option-u8: func(x: option<u8>) -> store; } "
    "interface %list { type u8s = list<u8>; record %u8 { x: bool } f: func(x: list<u8>, y: list<%u8>) -> u8s; }",
]
# labels that are hard for C, of which each is another one in lower case
LABELS = """a int class NULL errno two-words A1 x-Y default stdin true %bool %record %list %u8 INT-MAX tag %as address
length memory value at area flats parameters kind bits f0 ok none some this namespace""".split()


class Fault(Exception):
    """What is wrong of a package."""


# ---- packages


class Hard(Source):
    """Makes random packages of labels that are hard for C."""

    COUNTS = {"record": [1, 2, 4, 18], "variant": [1, 2, 3, 5, 5, 300], "enum": [1, 3, 8, 9, 16, 17, 32, 257],
              "flags": [1, 3, 8, 9, 16, 17, 32], "type": []}

    def labels(self, count):
        """So many labels."""
        labels = LABELS + [f"more-x{number}" for number in range(count)]
        return self.random.sample(labels[: max(count, len(LABELS))], count)

    def call(self, name, names):
        """A function."""
        return self.function(name, self.labels(self.random.choice([0, 1, 2, 3, 17])), names)

    def package_of(self, name, interface, use="", names=()):
        """A package of an interface of types and functions, and one that uses it."""
        names, items = list(names), []
        for number in range(3):
            own = f"t{number}" if not use else f"own-t{number}"
            items.append(self.definition(own, names))
            names.append(own)
        functions = [self.call(f"{word}-call", names) for word in ("first", "other")]
        after = f"interface after {{ use {interface}.{{{names[-1]} as last}}; {self.call('%list', ['last'])} }}"
        return f"package {name}; interface {interface} {{ {use} {' '.join(items)} {' '.join(functions)} }} {after}"


def random_set(number, seed):
    """The texts of a set: one package of the models' kind, one with hard names, or two of which one uses the other."""
    hard = Hard(seed, 0)
    if number % 3 == 0:
        return [Source(seed, 0).package()]
    if number % 3 == 1:
        return [hard.package_of("hard:names@1.0.0-Rc.1", "types")]
    use = "use low:level/base.{t0, t1 as other-one};"
    return [hard.package_of("low:level", "base"), hard.package_of("top:level", "over", use, ["t0", "other-one"])]


# ---- values


def random_scalar(source, t):
    """A bool, a char or a number."""
    if t.word == "bool":
        return source.random() < 0.5
    if t.word == "char":
        return source.choice("a\u00e9\u20ac\U0001f600\U0010ffff")
    bits = 8 * t.size
    small = [source.randrange(0, 4), 8 * source.randrange(0, 16)]
    number = source.choice([*small, (1 << bits) - 1, 1 << bits - 1, source.getrandbits(bits), source.getrandbits(bits)])
    return number - (1 << bits) if t.word[0] == "s" and number >> bits - 1 else number


def random_value(source, t):
    """A value of a type."""
    if isinstance(t, abi.Scalar):
        return random_scalar(source, t)
    if isinstance(t, abi.String):
        length = source.choice([0, 1, 2, 5, 8, 13])
        return "".join(source.choice("abcxyz \"\\\0\u00e4\u20ac\U0001f600\n") for _ in range(length))
    if isinstance(t, abi.List):
        return [random_value(source, t.element) for _ in range(source.choice([0, 1, 1, 2, 3, 5]))]
    if isinstance(t, abi.Record):
        return tuple(random_value(source, field) for field in t.fields)
    if isinstance(t, abi.Flags):
        return source.getrandbits(len(t.labels))
    case = source.randrange(len(t.payloads))
    return case, t.payloads[case] and random_value(source, t.payloads[case])


def shown(t, value):
    """A value as the program in C prints it."""
    if isinstance(t, abi.Scalar):
        return str(ord(value) if t.word == "char" else int(value))
    if isinstance(t, abi.String):
        return f'"{value.encode().hex()}"'
    if isinstance(t, abi.List):
        return f"[{''.join(shown(t.element, item) + ';' for item in value)}]"
    if isinstance(t, abi.Flags):
        return str(value)
    if isinstance(t, abi.Record):
        return f"({''.join(shown(field, item) + ';' for field, item in zip(t.fields, value))})"
    case, payload = value
    return str(case) if t.payloads[case] is None else f"{case}({shown(t.payloads[case], payload)})"


def part_of(t, made, case):
    """The part of a case, or None if it holds nothing."""
    if t.payloads[case] is None:
        return None
    return made.parts[sum(payload is not None for payload in t.payloads[:case])]


def tag_of(made, case):
    """The number of a case in C: options and results have numbers of their own."""
    return made.constants[case] if made.constants else case


# ---- a program that calls the functions of a header

PRELUDE = """
#include "header.h"
#include <inttypes.h>
#include <stdio.h>

static uint8_t memory[65536];
static uint32_t top;

static inline uint32_t block(uint32_t align, uint32_t size) {
    uint32_t at = (top + align - 1) / align * align;
    top = at + size;
    return at;
}

static inline wit_string text(const char *bytes, uint32_t length) {
    wit_string made;
    made.address = block(1, length);
    made.length = length;
    memcpy(memory + made.address, bytes, length);
    return made;
}

static inline void show_text(wit_string text) {
    printf("\\"");
    for (uint32_t i = 0; i < text.length; i++)
        printf("%02x", memory[text.address + i]);
    printf("\\"");
}

static inline void show_call(const witcall_value *flats, size_t count) {
    for (size_t i = 0; i < count; i++)
        printf("%s:%" PRIu64 " ", flats[i].kind ? "i64" : "i32", flats[i].bits);
    printf("\\n");
    for (uint32_t i = 0; i < top; i++)
        printf("%02x", memory[i]);
    printf("\\n");
}
"""


class Program:
    """Writes the program, and keeps what it is to print."""

    def __init__(self, seed):
        self.random = random.Random(seed)
        self.lines, self.calls, self.checks, self.shows = ['#include "prelude.h"'], [], [], {}

    # ---- how values are made

    def literal(self, t, made, value):
        """The C expression of a number."""
        if isinstance(t, abi.Flags):
            names = [constant for place, constant in enumerate(made.constants) if value >> place & 1]
            return f"({made.c})({' | '.join(names) or 0})"
        number = ord(value) if isinstance(value, str) else int(value)
        if isinstance(t, abi.Scalar) and t.word == "bool" and value:
            number = self.random.choice([1, 2, 255])
        return f"({made.c})UINT64_C({number % (1 << 8 * t.size)})"

    def make(self, t, made, value, target):
        """The lines that put a value into a C variable, blocks in the order of the model."""
        if isinstance(t, abi.String):
            data = value.encode()
            octal = "".join(f"\\{byte:03o}" for byte in data)
            return [f'{target} = text("{octal}", {len(data)});']
        if isinstance(t, abi.List):
            return self.make_list(t, made, value, target)
        if isinstance(t, abi.Record):
            return self.make_record(t, made, value, target)
        if not isinstance(t, abi.Variant):
            return [f"{target} = {self.literal(t, made, value)};"]
        case, payload = value
        if made.form == "number":
            return [f"{target} = {made.constants[case]};"]
        part = part_of(t, made, case)
        inner = self.make(t.payloads[case], part.type, payload, f"{target}.as.{part.label}") if part else []
        return [f"{target}.tag = {tag_of(made, case)};", *inner]

    def make_list(self, t, made, value, target):
        """The lines for a list."""
        element = made.parts[0].type
        lines = [f"{target}.address = block(alignof({element.c}), {len(value)} * (uint32_t)sizeof({element.c}));"]
        lines.append(f"{target}.length = {len(value)};")
        for place, item in enumerate(value):
            lines += ["{", f"{made.c} list = {target};", f"{element.c} item;", "memset(&item, 0, sizeof item);"]
            lines += self.make(t.element, element, item, "item")
            lines += [f"{made.c}_set(memory, list, {place}, item);", "}"]
        return lines

    def make_record(self, t, made, value, target):
        """The lines for a record."""
        lines = []
        for field, part, item in zip(t.fields, made.parts, value):
            lines += self.make(field, part.type, item, f"{target}.{part.label}")
        return lines

    # ---- how values are shown

    def show(self, t, made):
        """The name of a C function that shows values of a type."""
        key = made.c, t.word if isinstance(t, abi.Scalar) else ""
        if key not in self.shows:
            body = self.show_body(t, made)
            self.shows[key] = name = f"show_{len(self.shows)}"
            self.lines.append("\n".join([f"static void {name}({made.c} value) {{", *body, "}", ""]))
        return self.shows[key]

    def show_body(self, t, made):
        """The lines of that function."""
        if isinstance(t, abi.String):
            return ["show_text(value);"]
        if isinstance(t, abi.List):
            show = self.show(t.element, made.parts[0].type)
            each = [f"{show}({made.c}_get(memory, value, i));", 'printf(";");']
            return ['printf("[");', "for (uint32_t i = 0; i < value.length; i++) {", *each, "}", 'printf("]");']
        if isinstance(t, abi.Record):
            lines = []
            for field, part in zip(t.fields, made.parts):
                lines += [f"{self.show(field, part.type)}(value.{part.label});", 'printf(";");']
            return ['printf("(");', *lines, 'printf(")");']
        if made.form == "variant":
            return self.show_case(t, made)
        if isinstance(t, abi.Scalar) and t.word == "bool":
            return ['printf("%d", value != 0);']
        sign = "PRId64, (int64_t)" if isinstance(t, abi.Scalar) and t.word[0] == "s" else "PRIu64, (uint64_t)"
        return [f'printf("%" {sign}value);']

    def show_case(self, t, made):
        """The lines that show a variant."""
        lines = ['printf("%u", (unsigned)value.tag);']
        for case, payload in enumerate(t.payloads):
            if payload is not None:
                part = part_of(t, made, case)
                show = self.show(payload, part.type)
                lines += [f"if (value.tag == {tag_of(made, case)}) {{", 'printf("(");',
                          f"{show}(value.as.{part.label});", 'printf(")");', "}"]
        return lines

    # ---- calls

    def call(self, t, made):
        """Adds a call of a function, with what it is to show."""
        name, arguments = f"call_{len(self.calls)}", random_value(self.random, t.params)
        body = [f"witcall_value flats[{made.count} + 1];", "memset(memory, 0, sizeof memory);", f"top = {START};"]
        given = ["flats"]
        if t.is_spilled:
            body.append(f"uint32_t at = block({t.params.align}, {t.params.size});")
            given += ["memory", "at"]
        if t.params.fields:
            body += [f"{made.parameters.c} parameters;", "memset(&parameters, 0, sizeof parameters);"]
            body += self.make(t.params, made.parameters, arguments, "parameters")
            given.append("&parameters")
        if t.has_area:
            body.append(f"uint32_t area = block({t.result.align}, {t.result.size});")
            given.append("area")
        body += [f"{made.fill}({', '.join(given)});", f"show_call(flats, {made.count});"]
        self.checks.append((filled(t, arguments), t.params, t.is_spilled, arguments))
        if t.result is not None:
            body += ["{", *self.read(t, made), "}", "{", *self.answer(t, made), "}"]
        if t.params.fields:
            body += self.receive(t, made, arguments)
        self.calls.append(name)
        self.lines.append("\n".join([f"static void {name}(void) {{", *body, "}", ""]))

    def read(self, t, made):
        """The lines that read a result that the model put there, beside noise."""
        value = random_value(self.random, t.result)
        memory = Memory(Bump(ROOM, START), self.random.randbytes(ROOM))
        if t.has_area:
            at = memory.grant(t.result.align, t.result.size, "lower-result")
            Way().cross(t.result, Given(value), Stored(memory, at, "lower-result"))
            given, lines = f"memory, {at}", []
        else:
            into = [0]
            Way().cross(t.result, Given(value), Flat(memory, into, 0, "lower-result"))
            kind = int(t.result_kinds[0] == "i64")
            noise = 0 if kind else self.random.getrandbits(32) << 32
            given, lines = "&back", ["witcall_value back;", f"back.kind = {kind};",
                                     f"back.bits = UINT64_C({into[0] | noise});"]
        lines += image_of(memory)
        self.checks.append(shown(t.result, value))
        return [*lines, f"{self.show(t.result, made.result)}({made.read}({given}));", 'printf("\\n");']

    def receive(self, t, made, arguments):
        """The lines that read arguments in a callee where the model put them, beside noise."""
        memory = Memory(Bump(ROOM, START), self.random.randbytes(ROOM))
        flats = lowered(t, arguments, memory, "lower-args")
        lines = [f"witcall_value handed[{len(t.params.kinds) + 1}];"]
        for place, (kind, number) in enumerate(flats):
            noise = 0 if kind == "i64" else self.random.getrandbits(32) << 32
            lines.append(f"handed[{place}].kind = {int(kind == 'i64')};")
            lines.append(f"handed[{place}].bits = UINT64_C({number | noise});")
        lines += image_of(memory)
        self.checks.append(shown(t.params, arguments))
        given = "handed, memory" if t.is_spilled else "handed"
        return [*lines, f"{self.show(t.params, made.parameters)}({made.receive}({given}));", 'printf("\\n");']

    def answer(self, t, made):
        """The lines that give a result."""
        value, given = random_value(self.random, t.result), "result"
        lines = [f"{made.result.c} result;", "witcall_value answer;", "memset(memory, 0, sizeof memory);",
                 f"top = {START};"]
        if t.has_area:
            size, align = (next(name for name in made.blocks if name.endswith(f"_AREA_{word}"))
                           for word in ("SIZE", "ALIGN"))
            lines.append(f"uint32_t at = block({align}, {size});")
            given = "memory, at, result"
        lines += ["memset(&result, 0, sizeof result);", *self.make(t.result, made.result, value, "result")]
        self.checks.append((answered(t, value), t.result, t.has_area, value))
        return [*lines, f"answer = {made.answer}({given});", "show_call(&answer, 1);"]

    def text(self):
        """The whole program."""
        return "\n".join([*self.lines, "int main(void) {", *(f"{name}();" for name in self.calls), "return 0;", "}",
                          ""])

    def faults(self, printed):
        """What was not printed as it is to be."""
        lines = iter(printed.splitlines())
        for check in self.checks:
            if isinstance(check, str):
                found = next(lines, "nothing")
                if found != check:
                    yield f"reads {found}, not {check}"
            else:
                wanted, *lifting, value = check
                flats, data = next(lines, "").split(), bytes.fromhex(next(lines, ""))
                if flats != wanted:
                    yield f"core values {flats}, not {wanted}"
                elif (found := read_back(*lifting, flats, data)) != value:
                    yield f"value {found}, not {value}"


def image_of(memory):
    """The lines that put what the model has in its memory into that of the program in C."""
    image = ",".join(map(str, memory.bytes[: memory.allocator.top]))
    return ["{", f"static const uint8_t image[] = {{{image}}};", "memcpy(memory, image, sizeof image);", "}"]


def told(flats):
    """Core values as the program in C prints them."""
    return [f"{kind}:{number}" for kind, number in flats]


def filled(t, arguments):
    """The core values of a call as the model makes them, whose blocks are granted in the same order."""
    memory = Memory(Bump(ROOM, START))
    flats = lowered(t, arguments, memory, "lower-args")
    area = [("i32", memory.grant(t.result.align, t.result.size, "lower-result"))] if t.has_area else []
    return told([*flats, *area])


def answered(t, value):
    """The core value of a result as the model makes it."""
    memory, numbers = Memory(Bump(ROOM, START)), [0]
    if t.has_area:
        return told([("i32", memory.grant(t.result.align, t.result.size, "lower-result"))])
    Way().cross(t.result, Given(value), Flat(memory, numbers, 0, "lower-result"))
    return told([(t.result_kinds[0], numbers[0])])


def read_back(t, is_stored, flats, data):
    """The value that the model lifts of what the program in C printed: core values, and the bytes of the memory."""
    return lifted(t, is_stored, [int(flat[4:]) for flat in flats], Memory(Bump(len(data)), data), "lift")


# ---- one package


def run(words):
    """What a command prints; a fault where it fails."""
    done = subprocess.run(words, capture_output=True, text=True, check=False)
    if done.returncode:
        raise Fault(f"{words[0]}: status {done.returncode}\n{(done.stdout + done.stderr)[:2000]}")
    return done.stdout


def missing_tools(folder):
    """What is said of each compiler that is not there or makes no program with sanitizers that runs."""
    source, binary = folder / "empty.c", folder / "empty"
    source.write_text("int main(void) { return 0; }\n")
    for compiler, dialect in COMPILERS.items():
        package, sanitizers = PACKAGES[compiler]
        if not shutil.which(compiler):
            yield f"no {compiler}: apt-get install -y {package}"
            continue
        try:
            run([compiler, *DIALECTS[dialect], *SANITIZED, "-o", str(binary), str(source)])
            run([str(binary)])
        except Fault:
            yield f"{compiler} has no sanitizers here: apt-get install -y {sanitizers}"


def compile_alone(folder):
    """Compiles a header that nothing else is with, twice in a row, with its short names. How often."""
    source = folder / "alone.h.c"
    twice = '#include "header.h"\n' * 2
    source.write_text(f"#define WIT_SHORT_NAMES\n{twice}int main(void) {{ return 0; }}\n")
    ways = [(compiler, dialect) for compiler in ("gcc", "clang") for dialect in DIALECTS.values()]
    for compiler, dialect in ways:
        run([compiler, *dialect, *STRICT, "-fsyntax-only", str(source)])
    return len(ways)


def path_of(files, folder):
    """The path of the last of these files with those before it: a folder with its dependencies, if there are some."""
    *before, last = files
    if not before:
        return last
    deps = folder / "wit" / "deps"
    deps.mkdir(parents=True, exist_ok=True)
    for place, file in enumerate(before):
        shutil.copy(file, deps / f"{place}.wit")
    shutil.copy(last, folder / "wit" / "last.wit")
    return folder / "wit"


def test_functions(header, packages):
    """Fails if the header doesn't have the functions of the packages' interfaces, each once."""
    wanted = sorted(function.name for package in packages.packages for interface in package.interfaces
                    for function in interface.functions)
    found = sorted(made.name for made in header.functions)
    if found != wanted:
        raise Fault(f"functions {' '.join(found)}, not {' '.join(wanted)}")


def check(program, files, folder, number):
    """Checks the header of a set of files; how often it was compiled, and how many calls and values were compared."""
    text = run([program, "bind", "c", str(path_of(files, folder))])
    header = Header(text)
    (folder / "header.h").write_text(text)
    (folder / "prelude.h").write_text(PRELUDE)
    compiled = compile_alone(folder)
    model = opened(header.texts)
    test_functions(header, model)
    calls = Program(number)
    for made in header.functions:
        for _ in range(CALLS):
            calls.call(model.function(made.full_name, made.name), made)
    source, binary = folder / "calls.c", folder / "calls"
    source.write_text(calls.text())
    compiler, dialect = list(COMPILERS.items())[number % 4]
    run([compiler, *DIALECTS[dialect], *STRICT, *SANITIZED, "-o", str(binary), str(source)])
    for fault in calls.faults(run([str(binary)])):
        raise Fault(fault)
    return compiled + 1, len(calls.calls), len(calls.checks)


def written(folder, name, texts):
    """The files of these texts."""
    files = [folder / f"{name}-{place}.wit" for place in range(len(texts))]
    for file, text in zip(files, texts):
        file.write_text(text)
    return files


def packages_of(count, seed, folder):
    """The sets of files, each with its title: those of examples/, those whose names collide, and random ones."""
    for path in EXAMPLES:
        yield path.name, [path]
    for place, path in enumerate(WASI):
        yield path.name, WASI[: place + 1]
    for number, text in enumerate(COLLIDING):
        yield f"colliding {number}", written(folder, f"colliding-{number}", [text])
    for number in range(count):
        yield f"random {seed}:{number}", written(folder, number, random_set(number, f"{seed}:{number}"))


def checked(program, folder, numbered):
    """What was compared of a set, and what is wrong or None."""
    number, (title, files) = numbered
    with tempfile.TemporaryDirectory(dir=folder) as own:
        try:
            return check(program, files, pathlib.Path(own), number), None
        except (Fault, Refused) as fault:
            return (0, 0, 0), f"FAILED {title}: {fault}\n" + "\n".join(file.read_text() for file in files)


def main():
    """Checks all packages."""
    parser = argparse.ArgumentParser(usage="tools/check_bindings.py [--program WIT-EXPLAIN] [N [SEED]]",
                                     allow_abbrev=False)
    parser.add_argument("--program", default=str(ROOT / "crates" / "explain" / "out" / "explain"))
    parser.add_argument("count", nargs="?", type=int, default=200)
    parser.add_argument("seed", nargs="?", default="1")
    words = parser.parse_args()
    if not os.access(words.program, os.X_OK):
        sys.exit(f"tools/check_bindings.py: there is no program {words.program}")
    with tempfile.TemporaryDirectory() as name, ThreadPoolExecutor(len(os.sched_getaffinity(0))) as pool:
        folder = pathlib.Path(name)
        missing = list(missing_tools(folder))
        sets = enumerate(packages_of(words.count, words.seed, folder)) if not missing else []
        results = list(pool.map(lambda numbered: checked(words.program, folder, numbered), sets))
    faults = [*missing, *(fault for _, fault in results if fault)]
    for fault in faults:
        print(fault)
    headers, calls, values = (sum(found[place] for found, _ in results) for place in range(3))
    compared = f"{headers} compilations, {calls} calls and {values} values compared"
    print(f"{len(results)} packages of seed {words.seed}, {compared}, {len(faults)} failed")
    sys.exit(1 if faults else 0)


if __name__ == "__main__":
    main()
