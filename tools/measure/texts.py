"""Texts of packages by their shape: each shape is a function from a size to a text, or to the texts of a set."""
from tools.repository import ROOT

PACKAGE = "package a:b;\n"
MEGABYTE = 1 << 20
LETTERS = "abcdefgh"
DIGITS = "0123456789abcdefghijklmnopqrstuvwxyz"


def label(number):
    """The name of this number, in four letters and digits; none is a keyword."""
    return "xyz"[number // 46656] + DIGITS[number // 1296 % 36] + DIGITS[number // 36 % 36] + DIGITS[number % 36]


def each(entry, count, start=0):
    """So many copies of an entry, each with its label `{0}`, the one before `{1}` and the one behind `{2}`, and its
    number `{3}`."""
    return "".join(entry.format(label(n), label(n - 1), label(n + 1), n) for n in range(start, count))


def interface(body):
    """A package of one interface."""
    return f"{PACKAGE}interface c {{\n{body}}}\n"


# ---- tables, by how many definitions there are


def members(entry):
    """One tuple of types without names, each a row of its own."""
    return lambda count: interface("type t = tuple<" + entry * (count - 1) + ">;\n")


def nested(count):
    """Lists that stand 60 deep in one another, side by side in one tuple."""
    whole, rest = divmod(count - 1, 60)
    entries = ("list<" * 60 + "u8" + ">" * 60 + ",") * whole
    return interface("type t = tuple<" + entries + ("list<" * rest + "u8" + ">" * rest if rest else "") + ">;\n")


def reversed_interfaces(count):
    """Interfaces each of which uses the one behind it. Each takes six type entries, and has two definitions."""
    last = count // 8
    before = each("interface {0}{{use {2}.{{t as u}};type t=u8;}}\n", last)
    return f"{PACKAGE}{before}interface {label(last)}{{type t=u8;}}\n"


TABLES = {
    "lists": members("list<u8>,"),
    "options": members("option<u64>,"),
    "results": members("result,"),
    "tuples": members("tuple<u8,u16>,"),
    "nested": nested,
    "functions": lambda count: interface("".join(f"g{number}:func();\n" for number in range(count))),
    # each names the one before
    "named": lambda count: interface(f"type {label(0)}=u8;" + each("type {0}={1};", count, 1) + "\n"),
    # each names the one behind it, so that the last is placed first
    "reversed": lambda count: interface(each("type {0}={2};", count - 1) + f"type {label(count - 1)}=u8;\n"),
    "interfaces": reversed_interfaces,
}


# ---- what takes much memory, by how many definitions there are


def chain(count):
    """Interfaces each of which uses the one after it, in as few bytes as can be."""
    return "package a:b;" + each("interface {0}{{use {2}.{{t}};}}", count) + f"interface {label(count)}{{type t=u8;}}"


def records(count):
    """Records of the type before and of a list. Every thirtieth begins anew, since types nest at most 64 deep."""
    rest = "".join(f"record {label(n)}{{a:{label(n - 1 if n % 30 else 0)},b:list<u8>}}" for n in range(1, count))
    return interface(f"type {label(0)}=u8;" + rest + "\n")


SMALL, WORLD = "interface {0}{{type t=u8;f:func()->t;}}", "world {0}{{import a;export f:func();}}"
# of each shape its text, and the greatest count that is tried
MEMORY = {name: (made, 65520) for name, made in TABLES.items()} | {
    "chain of uses": (chain, 43000),
    "small interfaces": (lambda count: "package a:b;" + each(SMALL, count), 24000),
    "worlds": (lambda count: "package a:b;interface a{type t=u8;}" + each(WORLD, count), 24000),
    "records": (records, 40000),
}


# ---- texts with a `}` too many at their end, by their length


def filled(head, entry, tail):
    """Texts of any length: as many entries as fit, each with its number."""

    def made(length):
        parts, size, number = [head], len(head), 0
        while size + len(line := entry.format(number)) + len(tail) <= length:
            parts.append(line)
            size, number = size + len(line), number + 1
        return "".join(parts) + " " * (length - size - len(tail)) + tail

    return made


INTERFACE = PACKAGE + "interface c {"
READING = {
    "functions": filled(INTERFACE + "\n", "  fn{}: func(x: list<u8>, y: t) -> result<u32, string>;\n", "} }"),
    "parameters": filled(INTERFACE + " f: func(z: u8", ", x{}: u32", "); } }"),
    "fields": filled(INTERFACE + " record r {\n", "  field{}: option<string>,\n", "} } }"),
    "cases": filled(INTERFACE + " variant v {\n", "  c{}(u8),\n", "} } }"),
    "names": filled(INTERFACE + " enum e {\n", "e{},", "} } }"),
    "members": filled(INTERFACE + " type t = tuple<", "u8,", ">; } }"),
    "nesting": filled(INTERFACE + "\n", "type t{} = " + "list<" * 63 + "u8" + ">" * 63 + ";\n", "} }"),
    "uses": filled(INTERFACE + " use d.{", "t{0} as u{0},", "}; } }"),
    "worlds": filled(PACKAGE, "world w{} {{ import a; export f: func(); }}\n", "}"),
    "comments": filled(PACKAGE, "/* /* {} */ */ // x\n", "}"),
}


# ---- long texts that are accepted


def long(entry):
    """A text of as many entries as 1 MiB has room for, and 60,000 at most."""
    made, size = [], 64
    while len(made) < 60000 and size + len(line := entry.format(len(made))) <= MEGABYTE:
        made.append(line)
        size += len(line)
    return interface("".join(made))


LONG = {
    "named types": long("type t{} = u8;\n"),
    "records": long("record r{} {{ a: u8, b: list<u8> }}\n"),
    "functions": long("g{}: func(x: u8) -> u8;\n"),
    "one tuple": interface(" type t = tuple<" + "u8," * 349000 + ">;\n"),
    "one enum": interface(" enum e { " + "".join(f"l{n}," for n in range(100000)) + " }\n"),
    "a comment": PACKAGE + "interface c { f: func(); }\n//" + "x" * (MEGABYTE - 64),
}


def mixed():
    """A text of some 750 KB, with types of every shape."""
    items = ["record r { a: u8, b: list<string> }", "variant v { p, q(r) }"]
    items.append("f: func(x: r, y: option<v>) -> result<r>;")
    items += [f"record r{n} {{ a: u8, b: list<r>, c: option<string> }} g{n}: func(x: r{n});" for n in range(7500)]
    return "package a:b; interface c { " + "\n".join(items) + " }"


# ---- uses of another package or of none, by how many there are: what is used, and the uses of what a package or "" has

TYPED = "interface {0}{{type t=u8;}}\n"


def of_types(count):
    """One interface of so many types, and a use of each."""
    used = "interface types{\n" + each("type {0}=u8;\n", count) + "}\n"
    return used, lambda package: each(f"use {package}types.{{{{{{0}}}}}};\n", count)


def of_interfaces(item):
    """So many interfaces of one type each, and an item for each."""
    return lambda count: (each(TYPED, count), lambda package: each(item.replace("PACKAGE", package), count))


# with the word of what uses them
SETS = {
    "interfaces": (of_interfaces("use PACKAGE{0}.{{t as {0}}};\n"), "interface"),
    "types": (of_types, "interface"),
    "items": (of_interfaces("import PACKAGE{0};\n"), "world"),
}


def one_and_two(shape, count):
    """The text of one package, and those of two with the same uses."""
    made, kind = shape
    used, uses = made(count)
    alone = f"package a:b;\n{used}{kind} using{{\n{uses('')}}}\n"
    return alone, [f"package a:b;\n{used}", f"package a:c;\n{kind} using{{\n{uses('a:b/')}}}\n"]


# ---- families of packages, each of which may use those before it


def name_of(number):
    """The name of the package with this number."""
    return "p" + LETTERS[number // 8] + LETTERS[number % 8]


def of_each(number, _count):
    """A use of a type of each earlier package."""
    return "".join(f"use a:{name_of(n)}/{label(0)}.{{t as t{name_of(n)}}};\n" for n in range(number))


def of_first(number, count):
    """Uses of half of the interfaces of the first package."""
    return each(f"use a:{name_of(0)}/{{0}}.{{{{t as {{0}}}}}};\n", count // 2) if number else ""


FAMILIES = {"none": lambda number, count: "", "one of each": of_each, "many of the first": of_first}


def family(uses, length, number):
    """The texts of so many packages of this family, each of at least so many bytes."""
    count = -(-length // len(each(TYPED, 1)))
    used = [uses(n, count) for n in range(number)]
    using = [f"interface using{{\n{it}}}\n" if it else "" for it in used]
    return [f"package a:{name_of(n)};\n{each(TYPED, count)}{using[n]}" for n in range(number)]


# ---- packages of given labels


def of_labels(front, entry, back, between=""):
    """One interface, with an entry for each label."""
    return lambda labels: interface(front + between.join(entry.format(it) for it in labels) + back + "\n")


def chained(labels):
    """Types each of which names the one before."""
    rest = "".join(f"type {name}={before};" for before, name in zip(labels, labels[1:]))
    return interface(f"type {labels[0]}=u8;" + rest + "\n")


def used_labels(labels):
    """Types that another interface uses, all of them."""
    used = "".join(f"type {it}=u8;" for it in labels)
    return f"{PACKAGE}interface d {{\n{used}\n}}\ninterface c {{\nuse d.{{{','.join(labels)}}};\n}}\n"


MOST_LABELS = 65533
# with the number of labels: each text has less than 1 MiB, and each package less than 65,536 type entries
LABELS = {
    "aliases": (of_labels("type aa=u8;", "type {}=aa;", ""), 51000),
    "chain": (chained, 45000),
    "types": (of_labels("", "enum {}{{a}}", ""), 32000),
    "functions": (of_labels("", "{}:func();", ""), 51000),
    "cases": (of_labels("enum e{", "{}", "}", ","), MOST_LABELS),
    "fields": (of_labels("record r{", "{}:u8", "}", ","), MOST_LABELS),
    "uses": (used_labels, 13000),
    "interfaces": (lambda labels: PACKAGE + "".join(f"interface {it}{{}}" for it in labels), 32000),
}


# ---- functions of lists

# of each kind the items that its type names, the type, and an element as JSON
ELEMENTS = {
    "numbers": ("", "u32", "70000"),
    "texts": ("", "string", '"text"'),
    "options": ("", "option<u8>", '"none"'),
    "records": ("record r { a: u8 }", "r", '{"a":1}'),
    "flags": ("flags w { a, b }", "w", '["a"]'),
    "lists": ("", "list<u8>", "[1,2]"),
}


def of_lists(items, element):
    """A function of a list, which answers one."""
    return f"package a:b; interface c {{ {items} f: func(x: list<{element}>) -> list<{element}>; }}"


# ---- texts of the repository


def examples():
    """The texts of examples/."""
    return [path.read_text() for path in sorted((ROOT / "examples").rglob("*.wit"))]
