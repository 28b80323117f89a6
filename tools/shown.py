"""What pages show of commands, and what the commands do: their status and what they print on each stream."""
import pathlib
import subprocess

# the status of a failure, by how its line begins
FAILURES = {"error ": 1, "usage: ": 2, "trap ": 3}
# the most time that commands of one shell take, as a word of timeout
LIMIT = "15m"


def done(*lines):
    """What a command does of which a page shows these lines. One line of FAILURES is alone on standard error; all else
    is on standard output, with status 0."""
    text = "".join(f"{line}\n" for line in lines)
    for begin, status in FAILURES.items():
        if len(lines) == 1 and text.startswith(begin):
            return status, "", text
    return 0, text, ""


def commands_of(block):
    """The commands of a block of `sh`: for each the number of its line in the block, the command, and the lines of
    output below it, each after `# ` (or `#` alone, if it is empty)."""
    found, more = [], False
    for number, line in enumerate(block.splitlines()):
        if more:
            found[-1][1] += "\n" + line
        elif line.startswith("#"):
            if found:
                found[-1][2].append(line[1:].removeprefix(" "))
        elif line:
            found.append([number, line, []])
        more = not line.startswith("#") and line.endswith("\\")
    return found


def outcomes(commands, folder, **options):
    """What each of these commands does, run one after another in one shell, with outputs in this folder. A command that
    ends the shell, or does not end, is the last, and has no status."""
    outputs = [pathlib.Path(folder) / f"output.{number}" for number in range(len(commands))]
    script = "".join(
        f"{{ {command}\n}} >'{output}' 2>'{output}.errors'; echo $? >'{output}.status'\n"
        for command, output in zip(commands, outputs))
    subprocess.run(["timeout", LIMIT, "sh", "-c", script], stdin=subprocess.DEVNULL, check=False, **options)
    return [outcome(it) for it in outputs if it.exists()]


def outcome(output):
    """What a command did whose outputs are in files of this name."""
    status, *streams = (pathlib.Path(f"{output}{end}") for end in (".status", "", ".errors"))
    texts = [it.read_text(encoding="utf-8", errors="replace") for it in streams]
    return (int(status.read_text()) if status.exists() else None, *texts)
