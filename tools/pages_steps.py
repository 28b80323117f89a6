"""The steps of a page that runs (tools/run_pages.py): what a shell is given, and what has to come of it."""
import re
from dataclasses import dataclass

from shown import commands_of, done

# commands whose standard error is their own, and those whose standard output may have more before what the page shows
TELLING = ("./witcall", "cargo", "tools/deb.sh")
TALKING = ("cmake", "npm", "pip", "sudo", "tools/install.sh")
# what commands begin with that don't run, and why
LEFT_OUT = {
    "rt": "it needs the toolchain",
    "cd app && rt": "it needs the toolchain",
    "./witcall --prove": "it needs the toolchain",
    "tools/build.sh": "it needs the toolchain",
    "tools/release.sh": "it needs the toolchain",
    "tools/check_crate.py": "it needs the toolchain",
    "tools/test.sh": "it is the gate itself",
    ".ci/run": "it is the gate itself",
    "tools/setup.sh": "it changes the machine, and the gate begins with it",
}
# what differs from one reader to another: the commit of a release
COMMIT = re.compile(r"(?<=[(+])(?:[0-9a-f]{12}|next)\b")


@dataclass(frozen=True)
class Step:
    """What a shell is given at a place of a page, how it is told, and the lines that the page shows of it."""

    where: str
    told: str
    script: str
    lines: tuple = ()

    def is_of(self, names):
        """Whether it runs one of these commands, in any folder if it is one by its name alone."""
        words = self.script.partition(" #")[0].split()
        return any(it in names or it.rpartition("/")[2] in names for it in words)


def is_left_out(command):
    """Whether a command is one of LEFT_OUT."""
    words = command.split()
    return any(words[: len(begin.split())] == begin.split() for begin in LEFT_OUT)


def steps_of_commands(name, number, block):
    """The steps of a block of `sh` whose fence is in this line of a page."""
    for line, command, lines in commands_of(block):
        yield Step(f"{name}:{number + 1 + line}", command, command, tuple(lines))


def alike(text, home):
    """A text with what differs from one reader to another as the pages write it."""
    return COMMIT.sub("0123456789ab", text.replace(str(home), "/home/you"))


def fault(step, ran, home):
    """What a step did otherwise than its page says, or None."""
    status, output, errors = done(*(alike(it, home) for it in step.lines))
    found = (ran[0], alike(ran[1], home), alike(ran[2], home))
    if step.is_of(TALKING):
        shown = found[1].splitlines(keepends=True)[-max(1, output.count("\n")):] if output else []
        is_right = found[0] == status and "".join(shown) == output and found[2].endswith(errors)
    elif step.is_of(TELLING) and not status:
        is_right = found[:2] == (status, output)
    else:
        is_right = found == (status, output, errors)
    if is_right:
        return None
    return f"{step.where}: {step.told}\n  the page says: {(status, output, errors)!r}\n  it does:       {found!r}"
