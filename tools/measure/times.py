"""How what a program takes grows with its input: with texts, binaries, tables, sets of packages and JSON, and with
names that collide."""
import contextlib
import random
import subprocess
import tempfile

from tools.repository import ROOT

from . import binaries, texts
from .harness import LEAST, MOST, Folder, Growth

# bytes, from 64 KiB to 1 MiB
LENGTHS = [65536 << step for step in range(5)]
# a package has at most 65,535 type entries
DEFINITIONS = [4095 << step for step in range(5)]
USES = [1250 << step for step in range(4)]
PACKAGES, PACKAGE_BYTES = [8 << step for step in range(4)], [16000, 64000]
ELEMENTS = [12800 >> step for step in (4, 3, 2, 1, 0)]
# what has cost so much in all is not run again: milliseconds, or millions of instructions, of which one run is enough
ENOUGH = 4000
# how many times as long two packages may take as one, a package in a set as alone, and labels that collide as random
# ones
MOST_BESIDE = 1.5
# asks for a function that no package has: the input is read, its tables are made and laid out, and nothing after that
CALL = ["call", "{}", "a:b/c", "none", "[]", "[]"]
JOBS = {"call": CALL, "show": ["show", "{}"], "layout": ["layout", "{}"], "text": ["text", "{}"]}


@contextlib.contextmanager
def folder_of():
    """A folder that is there for a while."""
    with tempfile.TemporaryDirectory() as path:
        yield Folder(path)


def asked(command, path):
    """A command with an input for `{}`."""
    return [str(word).replace("{}", str(path)) for word in command]


def behind(files):
    """The words for the last of these files, behind the others."""
    return [*(word for file in files[:-1] for word in ("--with", file)), files[-1]]


def grown(command, shapes, sizes, growth):
    """What a command costs on an input of each shape and size, beyond an empty one, by the shape."""
    costs = {}
    with folder_of() as folder:
        for name, made in shapes.items():
            paths = [folder.keep(content) for content in ["", *map(made, sizes)]]
            empty, *commands = [asked(command, path) for path in paths]
            costs[name] = growth.tell(name, sizes, growth.cost.beyond(empty, commands))
    return costs


def reading(given):
    """Times a command on texts that are read to their end and then refused."""
    growth = Growth(given.cost, "bytes")
    grown(given.command, texts.READING, LENGTHS, growth)
    return growth.is_right()


def reading_binaries(given):
    """Times a command on binaries that are well formed and within the limits."""
    growth = Growth(given.cost, "bytes")
    grown(given.command, binaries.READING, LENGTHS, growth)
    return growth.is_right()


def tables(given):
    """Times jobs on packages of many definitions; none may take more than twice as long as `call`."""
    right, opening = True, {}
    for job in ["call", *(it for it in given.jobs if it != "call")]:
        growth = Growth(given.cost, f"definitions, {job}")
        costs = grown([given.program, *JOBS[job]], texts.TABLES, DEFINITIONS, growth)
        opening = opening or costs
        slow = [name for name in costs if costs[name][-1] > 2 * opening[name][-1]]
        for name in slow:
            print(f"{name}: {job} takes {costs[name][-1] / opening[name][-1]:.2f} times as much as call")
        right = growth.is_right() and not slow and right
    return right


# ---- sets of packages


def written(program, folder, files):
    """The binary of the last of these files, behind the others."""
    made = subprocess.run([program, "bin", *behind(files)], capture_output=True, check=True)
    return folder.keep(made.stdout)


def sets(given):
    """Times `show` of one package, of two as texts, and of two of which the second is a binary, all with the same
    uses."""
    right, cost = True, given.cost.of_fewer(9)
    growth = Growth(cost, "uses")
    with folder_of() as folder:
        empty = [given.program, "show", folder.keep("")]
        for name, shape in texts.SETS.items():
            commands = []
            for count in USES:
                alone, both = texts.one_and_two(shape, count)
                files = [folder.keep(text) for text in both]
                inputs = [[folder.keep(alone)], files, [files[0], written(given.program, folder, files)]]
                commands += [[given.program, "show", *behind(it)] for it in inputs]
            for words in commands:
                subprocess.run(words, stdout=subprocess.DEVNULL, check=True)
            costs = cost.beyond(empty, commands)
            for place, what in enumerate(("one package", "two texts", "text and binary")):
                growth.tell(f"{name}, {what}", USES, costs[place::3])
            more = max(two / one for one, two in zip(costs[0::3], costs[1::3]))
            print(f"{name}: two texts take at most {more:.2f} times as much as one package", flush=True)
            right &= more <= MOST_BESIDE
    return growth.is_right() and right


def in_sets(program, cost, empty, files):
    """What opening each number of these packages costs, and so many times what the second one does."""
    commands = [[program, "show", *behind(files[:number])] for number in (1, 2, *PACKAGES)]
    one, two, *costs = [cost.least([words])[0] - empty for words in commands]
    return [(number, took, one + (number - 1) * (two - one)) for number, took in zip(PACKAGES, costs)]


def families(given):
    """Times `show` of 8 to 64 packages; a package may take 1.5 times what the second of its family takes."""
    right, cost = True, given.cost.of_fewer(9)
    with folder_of() as folder:
        empty = cost.least([[given.program, "show", folder.keep("")]])[0]
        for name, uses in texts.FAMILIES.items():
            for length in PACKAGE_BYTES:
                files = [folder.keep(text) for text in texts.family(uses, length, PACKAGES[-1])]
                made = [written(given.program, folder, files[: number + 1]) for number in range(len(files))]
                for kind, inputs in (("texts", files), ("binaries", made)):
                    for number, took, alone in in_sets(given.program, cost, empty, inputs):
                        what = f"{name:18} {length // 1000:3} KB {kind:8} {number:3} packages"
                        print(f"{what} {took:9.1f} {cost.unit} {took / alone:5.2f} times", flush=True)
                        right &= took / alone <= MOST_BESIDE
    return right


# ---- JSON


def of_elements(element, count):
    """A list of so many elements, as JSON."""
    return "[" + ",".join([element] * count) + "]"


def grown_lists(words, lengths, growth):
    """What calls with lists cost: `words` has the command, of a text, an element and how many there are."""
    for name, (items, ty, element) in texts.ELEMENTS.items():
        with folder_of() as folder:
            path = folder.keep(texts.of_lists(items, ty), "c.wit")
            empty, *commands = [words(path, element, count) for count in (0, *lengths(name))]
            growth.tell(name, lengths(name), growth.cost.beyond(empty, commands))
    return growth.is_right()


def json(given):
    """Times calls with a list in and one out. A word of a command line has at most 128 KiB."""

    def words(path, element, count):
        document = f"[{of_elements(element, count)}]"
        return [given.program, "call", path, "a:b/c", "f", document, document]

    return grown_lists(words, lambda _: ELEMENTS, Growth(given.cost, "elements"))


# ---- names that collide


def colliding_labels(folder):
    """Labels of seven letters that collide."""
    program = folder.path / "labels"
    source = ROOT / "tools/colliding_labels.rs"
    subprocess.run(["rustc", "--edition", "2024", "-O", "-o", program, source], check=True)
    ran = subprocess.run([program, str(texts.MOST_LABELS)], check=True, capture_output=True, text=True)
    return ran.stdout.split()


def random_labels():
    """As many of the same length, no two the same."""
    source, found = random.Random(18), {}
    while len(found) < texts.MOST_LABELS:
        rest = "".join(source.choices("abcdefghijklmnopqrstuvwxyz0123456789", k=6))
        found[source.choice("abcdefghijklmnopqrstuvwxyz") + rest] = None
    return list(found)


def tell_beside(name, cost, costs):
    """Prints what random labels, colliding ones and half of these cost; whether that is within the bounds."""
    plain, colliding, half = costs
    fits = min(plain, half) > LEAST and colliding / plain <= MOST_BESIDE and colliding / half <= MOST
    told = f"{name:18} {plain:9.1f} {cost.unit} {colliding:9.1f} {cost.unit} {colliding / plain:6.2f} times"
    print(f"{told} {colliding / half:6.2f} times as half{'' if fits else '  !'}", flush=True)
    return fits


def names(given):
    """Times packages whose labels collide under the default hasher, beside random labels and half as many."""
    right, command = True, [given.program, *CALL]
    with folder_of() as folder:
        colliding, plain = colliding_labels(folder), random_labels()
        empty = asked(command, folder.keep(""))
        for name, (made, count) in texts.LABELS.items():
            labels = plain[:count], colliding[:count], colliding[: count // 2]
            paths = [folder.keep(made(it)) for it in labels]
            for end, inputs in (("", paths), (", binary", [written(given.program, folder, [path]) for path in paths])):
                commands = [asked(command, path) for path in inputs]
                costs = given.cost.beyond(empty, commands, enough=ENOUGH)
                right &= tell_beside(name + end, given.cost, costs)
    return right
