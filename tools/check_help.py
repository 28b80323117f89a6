#!/usr/bin/env python3
"""Compares the man pages and the completions of packaging/ with the help of the programs.

usage: tools/check_help.py [--witcall WITCALL] [--wit-explain WIT-EXPLAIN]

The programs are those of the release, if no others are named. Compared is what follows, which has to be the same:

- Each line of usage, of the program and of each command, is a line of the man page's synopsis, and the program takes
  such words. The page has a paragraph for each command and each option, and is rendered without a warning.
- What bash, zsh and fish complete: the commands, the options of each, the languages of `bind` and the words of an
  option. bash and fish are asked. What zsh's functions are given is read from functions of the same names.

The usage line of witcall doesn't have --with, so the program is asked whether it takes it. A shell or man that is
missing is a failure. The exit status is 1 if something differs. The last line says how much was compared.
"""
import dataclasses
import gzip
import os
import pathlib
import re
import shutil
import subprocess
import sys
import tempfile

from repository import ROOT, finish, parser

PACKAGING = ROOT / "packaging"
# what is needed, each with the package of Debian that has it
NEEDED = {"man": "man-db", "groff": "groff-base", "bash": "bash", "zsh": "zsh", "fish": "fish"}
# options that a line of usage may leave out
UNTOLD = {"witcall": {"--with"}, "wit-explain": set()}
# short forms of options that no shell completes
SHORT = {"-h"}
OPTION = re.compile(r"(?<![\w-])--?[a-z]+\b")
VALUES = re.compile(r"(--[a-z]+) ([a-z]+(?:\|[a-z]+)+)")
# what a line of usage has in place of a word, and a word for it
PLACE, WORD = re.compile(r"\[?[A-Z]+\]?(?:\.\.)?"), "missing/file"
USAGE = 2


# ---- what a program says


def alternatives(form):
    """The forms that a line of usage with `a|b` or `a | b` stands for."""
    if " | " in form:
        return [it for part in form.split(" | ") for it in alternatives(part)]
    found = re.search(r"\{?([a-z]+(?:\|[a-z]+)+)\}?", form)
    if not found:
        return [form]
    return [it for word in found[1].split("|") for it in alternatives(form.replace(found[0], word, 1))]


def command_of(form):
    """The words that a form begins with: no more than two."""
    words = []
    for word in form.split():
        if not re.fullmatch(r"[a-z]+", word):
            break
        words.append(word)
    return " ".join(words)


@dataclasses.dataclass
class Help:
    """What the help of a program says: its forms, the options of each command, those that each command has and no form
    has to name, those of the program itself, and the words that an option takes."""

    name: str
    forms: set
    options: dict
    shared: set
    own: set = frozenset()
    values: dict = dataclasses.field(default_factory=dict)

    def firsts(self):
        """The first word of each command."""
        return {command.split()[0] for command in self.options}

    def all_options(self):
        """The options of all commands, and those of the program."""
        return self.own.union(*self.options.values())


def output(words):
    """What a command prints in the folder of this process, and its status. Both of its outputs are taken as one."""
    done = subprocess.run(words, stdin=subprocess.DEVNULL, stdout=subprocess.PIPE, stderr=subprocess.STDOUT, text=True,
                          check=False)
    return done.stdout, done.returncode


def forms_of(name, text):
    """The lines of usage of a text, without the name of the program."""
    usage = re.search(rf"^usage: ({name} .*\n(?: +{name} .*\n)*)", text, re.M)[1]
    lines = [line.strip().removeprefix(f"{name} ") for line in usage.splitlines()]
    return {it for line in lines for part in line.split(", or ") for it in alternatives(part)}


def help_of_witcall(program):
    """What witcall's usage line says, and the option that it doesn't have."""
    forms = {without(UNTOLD["witcall"], form) for form in forms_of("witcall", output([program])[0])}
    options = {command_of(form): UNTOLD["witcall"] for form in sorted(forms)}
    return Help("witcall", forms, options, UNTOLD["witcall"])


def help_of_wit_explain(program):
    """What wit-explain says of itself and of each command. An option that its help has outside the lines of usage is
    one of each command."""
    text = output([program, "--help"])[0]
    forms = forms_of("wit-explain", text)
    prose = text.rpartition("\n       wit-explain ")[2].partition("\n")[2]
    shared = {"--help", *OPTION.findall(prose)} - SHORT
    options = {}
    for command in filter(None, map(command_of, sorted(forms))):
        first, _, second = command.partition(" ")
        said = output([program, first, "--help"])[0]
        forms |= {without(shared, form) for form in forms_of("wit-explain", said)}
        told = " ".join(form for form in forms if command_of(form) == command) if second else said
        options[command] = shared | set(OPTION.findall(told))
    own = {form for form in forms if form.startswith("-")}
    values = {option: set(words.split("|")) for option, words in VALUES.findall(prose)}
    return Help("wit-explain", forms, options, shared, own, values)


def without(options, form):
    """A form without these options."""
    for option in options:
        form = re.sub(rf"\[{option} [A-Z]+\](?:\.\.)? ", "", form)
    return form


def faults_of_forms(program, told):
    """The forms that the program doesn't take, and the options that it has to take and doesn't."""
    first = sorted(told.firsts())[0]
    for form in sorted(told.forms):
        words = [PLACE.sub(WORD, word).strip("[]") for word in form.replace("COMMAND", first).split()]
        if output([program, *words])[1] == USAGE:
            yield f"{told.name} doesn't take its own `{form}`"
    for option in sorted(UNTOLD[told.name]):
        for words in ([option, WORD], [f"{option}={WORD}"]):
            if output([program, first, *words, WORD])[1] == USAGE:
                yield f"{told.name} doesn't take `{' '.join(words)}`"
    if output([program, first, "--no-such-option", WORD])[1] != USAGE:
        yield f"{told.name} takes an option that there isn't"


# ---- man pages


def section(source, name):
    """A section of a man page's source."""
    return source.partition(f"\n.SH {name}\n")[2].partition("\n.SH ")[0]


def tags(source):
    """The tags of the paragraphs of a section, without its fonts: of commands, no more."""
    return [re.sub(r"^\.[BIR]+ |\\f[A-Z]|[\",]", "", tag).replace("\\-", "-").strip()
            for tag in re.findall(r"^\.TP\n(\.B.*)$", source, re.M)]


def synopsis(name, text):
    """The forms of a rendered page's synopsis."""
    part = re.search(r"^SYNOPSIS\n(.*?)^[A-Z]", text, re.M | re.S)[1]
    lines = [" ".join(line.split()).removeprefix(f"{name} ") for line in part.strip().split("\n\n")]
    return {it for line in lines for it in alternatives(line.replace("...", ".."))}


def differences(what, found, wanted):
    """What is there and should not be, and the other way round."""
    yield from (f"{what}: no `{it}`" for it in sorted(wanted - found))
    yield from (f"{what}: `{it}`, which the program doesn't have" for it in sorted(found - wanted))


def rendered(path):
    """A man page as a terminal shows it, without fonts, and the warnings."""
    environment = {**os.environ, "LC_ALL": "C.UTF-8", "MANWIDTH": "80", "MANROFFSEQ": ""}
    done = subprocess.run(["man", "--warnings", "-E", "UTF-8", "-l", "-Tutf8", path], env=environment, text=True,
                          capture_output=True, check=False)
    return re.sub(r"\x1b\[[\d;]*m|.\x08", "", done.stdout), done.stderr.splitlines()


def options_by_command(forms, listed):
    """The options of each command in a synopsis, with the other names that the page lists beside them."""
    found = {}
    for form in forms:
        for option in OPTION.findall(form):
            names = next((names for names in listed if option in names), [option])
            found.setdefault(command_of(form), set()).update(names)
    return found


def faults_of_page(told):
    """How a man page differs from the help."""
    path = PACKAGING / f"{told.name}.1"
    page, source = path.name, path.read_text()
    text, warnings = rendered(path)
    yield from (f"{page}: {line}" for line in warnings)
    forms = synopsis(told.name, text)
    yield from differences(f"{page}, synopsis", {without(told.shared, form) for form in forms}, told.forms)
    yield from differences(f"{page}, commands", set(tags(section(source, "COMMANDS"))), set(told.options))
    listed = [OPTION.findall(tag) for tag in tags(section(source, "OPTIONS"))]
    yield from differences(f"{page}, options", set().union(*listed), told.all_options())
    found = options_by_command(forms, listed)
    for command, wanted in told.options.items():
        yield from differences(f"{page}, synopsis of `{command}`", found.get(command, set()), wanted - {"--help"})
    for option, words in told.values.items():
        said = re.search(rf"^ +{option} .*\n(?: {{9,}}.*\n)*", text[text.index("\nOPTIONS\n"):], re.M)
        yield from differences(f"{page}, {option}", words & set(re.findall(r"\w+", said[0])), words)


# ---- completions


BASH = """
compopt() { :; }
source "$0"
COMP_WORDS=("$@") COMP_CWORD=$(($# - 1)) COMPREPLY=()
"_${1//-/_}"
printf '%s\\n' "${COMPREPLY[@]}"
"""
# _describe and compadd print what may come, and _arguments what it is given, after a `=`
ZSH = """
compset() { :; }
_files() { :; }
_describe() { print -rl -- ${${(P)2}%%:*}; }
compadd() { shift; print -rl -- $@; }
_arguments() { print -rl -- "=${^@}"; }
file=$0 words=("$@") CURRENT=$#
ask() { source $file; }
ask
"""
FISH = "set fish_complete_path; source $argv[1]; complete -C \"$argv[2]\""


def asked_of_bash(name, words):
    """What bash completes."""
    return output(["bash", "-c", BASH, PACKAGING / "completions" / f"{name}.bash", name, *words])[0].split()


def asked_of_fish(name, words):
    """What fish completes. It puts a tab before what it says of each."""
    file = PACKAGING / "completions" / f"{name}.fish"
    said = output(["fish", "--no-config", "-c", FISH, file, " ".join([name, *words])])[0]
    return [line.partition("\t")[0] for line in said.splitlines()]


def asked_of_zsh(name, words):
    """What zsh completes."""
    said = output(["zsh", "-f", "-c", ZSH, PACKAGING / "completions" / f"_{name}", name, *words])[0]
    lines = said.splitlines()
    given = [line[1:] for line in lines if line.startswith("=")]
    return list(meant(words, given)) if given else lines


def meant(words, given):
    """What _arguments takes for the last word: options, the words of the option before it, or those of its place."""
    for it in given:
        option = re.match(r"(?:\([^)]*\))?(--?[a-z]+)=?\[", it)
        inside = re.search(r":\(([^)]*)\)$", it)
        if option and words[-1].startswith("-"):
            yield option[1]
        elif inside and it.startswith(f"{words[-2]}=" if words[-2].startswith("-") else f"{len(words) - 1}:"):
            yield from inside[1].split()


SHELLS = {"bash": asked_of_bash, "zsh": asked_of_zsh, "fish": asked_of_fish}
FILES = {"bash": "{}.bash", "zsh": "_{}", "fish": "{}.fish"}


def questions(told):
    """What is asked of a shell, each with the answer that it has to give."""
    yield ["", "-"], told.firsts() | told.own
    for command, options in told.options.items():
        yield [f"{command} -"], options
    seconds = {}
    for first, second in (command.split() for command in told.options if " " in command):
        seconds.setdefault(first, set()).add(second)
    for first, found in seconds.items():
        yield [f"{first} "], found
    for option, found in told.values.items():
        for command in told.options:
            if option in told.options[command]:
                yield [f"{command} {option} "], found


def faults_of_completions(told, asked):
    """How the completions of a program differ from its help. What was asked is added to a list."""
    for shell, ask in SHELLS.items():
        file = PACKAGING / "completions" / FILES[shell].format(told.name)
        said, status = output([shell, "-n", file])
        if said or status:
            yield f"{file.name}: {said or f'status {status}'}"
        for lines, wanted in questions(told) if not status else []:
            asked.append(lines)
            found = {it for line in lines for it in ask(told.name, line.split(" "))}
            yield from differences(f"{file.name}, `{told.name} {lines[-1]}`", found, wanted)


# ---- all


def released(name, room):
    """A program of the release."""
    program = room / name
    program.write_bytes(gzip.decompress((ROOT / "release" / f"{name}.gz").read_bytes()))
    program.chmod(0o755)
    return program


def check(programs):
    """Compares all, in a folder that has nothing. What is wrong, and a line that says how much was compared."""
    witcall, wit_explain = programs
    all_told = [help_of_witcall(witcall), help_of_wit_explain(wit_explain)]
    faults, asked = [], []
    for program, told in zip(programs, all_told):
        faults += faults_of_forms(program, told)
        faults += faults_of_page(told)
        faults += faults_of_completions(told, asked)
    forms = sum(len(told.forms) for told in all_told)
    options = sum(len(options) for told in all_told for options in told.options.values())
    counts = f"{forms} forms, {options} options of commands, {len(asked)} questions to shells"
    return faults, f"{counts}: {len(faults)} faults"


def main():
    options = parser(__doc__)
    options.add_argument("--witcall", type=pathlib.Path)
    options.add_argument("--wit-explain", type=pathlib.Path)
    given = options.parse_args()
    missing = [f"no {tool}: apt-get install -y {package}" for tool, package in NEEDED.items() if not shutil.which(tool)]
    if missing:
        finish(f"tools/check_help.py: {it}" for it in missing)
    named = {"witcall": given.witcall, "wit-explain": given.wit_explain}
    with tempfile.TemporaryDirectory() as room:
        room = pathlib.Path(room)
        programs = [path.resolve() if path else released(name, room) for name, path in named.items()]
        empty = room / "empty"
        empty.mkdir()
        os.chdir(empty)
        os.environ["HOME"] = str(room)
        faults, counts = check(programs)
        os.chdir(ROOT)
    print(*faults, counts, sep="\n")
    sys.exit(bool(faults))


if __name__ == "__main__":
    main()
