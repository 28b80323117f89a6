"""What became of the functions and worlds of a package in another version of it, as docs/EXPLAIN.md says, and random
pairs of versions.

A type is a tuple: its word, its labels, and the types in it, in order; None is a case without a payload. Labels are
compared by where they are: a path of indexes that leads to a type, and the index of the label in it.
"""
import json
import random
import subprocess
import tempfile
from dataclasses import replace
from pathlib import Path

from . import abi
from .opening import opened
from .printing import text_lines
from .wit import Built, Function, Interface, Name, Package, PackageName, Primitive, TypeDef, World, WorldItem
from .wit import Path as WitPath

FAMILIES = {"record": "record", "tuple": "record", "list": "list", "flags": "flags",
            **dict.fromkeys(["variant", "enum", "option", "result"], "variant")}
GOOD = ("same", "renamed", "wider", "added")
UNMET = ("needed", "missing", "turned")


# ---- types


class Types:
    """The types of a set's last package, with their labels."""

    def __init__(self, packages):
        self.packages = packages

    def of(self, number, interface, ty):
        """A type of an interface of a package; None stays None."""
        if ty is None:
            return None
        if isinstance(ty, Primitive):
            return (ty.word, (), ())
        if isinstance(ty, Name):
            return self.named(number, interface, ty.name)
        labels = {"option": ("none", "some"), "result": ("ok", "error")}.get(ty.word, ())
        parts = tuple(self.of(number, interface, part) for part in ty.parts)
        return (ty.word, labels, (None, *parts) if ty.word == "option" else parts)

    def named(self, number, interface, name):
        """A type by the name that an interface has for it."""
        for use in interface.uses:
            if use.local == name:
                return self.named(*self.packages.find(number, use.path), use.name)
        typedef = next(it for it in interface.types if it.name == name)
        if typedef.kind == "alias":
            return self.of(number, interface, typedef.target)
        labels = tuple(label for label, _ in typedef.members)
        parts = () if typedef.kind == "flags" else tuple(self.of(number, interface, ty) for _, ty in typedef.members)
        return (typedef.kind, labels, parts)

    def function(self, number, interface, function):
        """The parameters of a function, as a record, and its result."""
        labels = tuple(label for label, _ in function.parameters)
        parts = tuple(self.of(number, interface, ty) for _, ty in function.parameters)
        return ("record", labels, parts), self.of(number, interface, function.result)


def closed(t):
    """A type without labels."""
    if t is None or t[0] not in FAMILIES:
        return t and t[0]
    family = FAMILIES[t[0]]
    return (family, len(t[1])) if family == "flags" else (family, *map(closed, t[2]))


def laid(c):
    """A closed type with its layout."""
    if isinstance(c, str):
        return abi.String() if c == "string" else abi.Scalar(c)
    if c[0] == "flags":
        return abi.Flags(tuple(range(c[1])))
    parts = tuple(part and laid(part) for part in c[1:])
    if c[0] == "list":
        return abi.List(*parts)
    return abi.Record(parts) if c[0] == "record" else abi.Variant(parts, ())


def is_laid_alike(c, d):
    """Whether two variants have one layout, and go by the same core values or by memory."""
    one, other = laid(c), laid(d)
    told = [(it.size, it.align, it.case_width, it.payload_offset,
             it.kinds if len(it.kinds) <= abi.MAX_FLAT else "memory") for it in (one, other)]
    return told[0] == told[1]


def widens(c, d):
    """Whether a closed type takes each value of an older one as it was."""
    if c is None or d is None or isinstance(c, str) or isinstance(d, str) or c[0] != d[0]:
        return c == d
    if c[0] == "flags":
        return c[1] <= d[1] and laid(c).size == laid(d).size
    if c[0] == "variant" and not is_laid_alike(c, d):
        return False
    is_long_enough = len(c) <= len(d) if c[0] == "variant" else len(c) == len(d)
    return is_long_enough and all(map(widens, c[1:], d[1:]))


def places(t, path=()):
    """The labels of each type in a type, by the path to it."""
    if t is not None and t[0] in FAMILIES:
        yield path, t[1]
        for index, part in enumerate(t[2]):
            yield from places(part, (*path, index))


def gone(t, u):
    """Each older label that is not where it was, with the newer labels of that place."""
    newer = dict(places(u))
    for path, labels in places(t):
        if path in newer:
            others = newer[path]
            yield from ((label, others) for index, label in enumerate(labels) if others[index : index + 1] != (label,))


def verdict(role, old, new):
    """The verdict of a function, to a host in this role."""
    may = (role == "called", role == "served")
    for wide, t, u in zip(may, old, new):
        if not (widens(closed(t), closed(u)) if wide else closed(t) == closed(u)):
            return "changed"
    if old == new:
        return "same"
    lost = [it for t, u in zip(old, new) for it in gone(t, u)]
    if any(label in others for label, others in lost):
        return "moved"
    is_equal = all(closed(t) == closed(u) for t, u in zip(old, new))
    return "renamed" if is_equal or lost else "wider"


# ---- packages


class Version:
    """The functions and the items of the worlds of a set's last package, by their names."""

    def __init__(self, text):
        self.packages = opened([text])
        self.types, self.last = Types(self.packages), self.packages.packages[-1]
        self.base = f"{self.last.name.namespace}:{self.last.name.name}/"
        self.functions, self.interfaces, self.order = {}, {}, []
        for interface in self.last.interfaces:
            for function in interface.functions:
                self.keep(self.base + interface.name, " ", function, interface)
        for world in self.last.worlds:
            for item in world.items:
                self.item(self.base + world.name, item)
        self.owners = {self.base + it.name for it in (*self.last.interfaces, *self.last.worlds)}

    def keep(self, owner, side, function, interface):
        """Keeps a function."""
        name = f"{owner}{side}{function.name}"
        self.functions[name] = self.types.function(self.packages.last, interface, function)
        self.order.append(name)

    def item(self, owner, item):
        """Keeps an item of a world."""
        if item.function:
            self.keep(owner, f" {item.direction} ", item.function, Interface(owner, (), (), ()))
            return
        path = item.path
        of = self.last.name if path.package is None else path.package
        name = f"{owner} {item.direction} {of.namespace}:{of.name}/{path.name}"
        self.interfaces[name] = path
        self.order.append(name)

    def role(self, name):
        """What a host does with a function."""
        owner, *rest = name.split(" ")
        if len(rest) == 2:
            return "served" if rest[0] == "import" else "called"
        sides = {it.split(" ")[1] for it in self.interfaces if it.split(" ")[2] == owner}
        return "both" if len(sides) == 2 else "served" if sides == {"import"} else "called"

    def has(self, name):
        """Whether there is an item of this name."""
        return name in self.functions or name in self.interfaces


def turns(name, before, after):
    """Whether an item of a world is on the other side after, and was not before."""
    owner, side, *rest = name.split(" ")
    other = " ".join([owner, {"import": "export", "export": "import"}.get(side, side), *rest])
    return bool(rest) and after.has(other) and not before.has(other)


def of_old(old, new, name):
    """What became of an item."""
    there = new.functions if name in old.functions else new.interfaces
    if name in there:
        if name in old.interfaces:
            return "same"
        return verdict(old.role(name), old.functions[name], new.functions[name])
    if turns(name, old, new):
        return "turned"
    return "missing" if name in old.interfaces and " export " in name else "removed"


def of_new(old, new, name):
    """What a new item is, or None if it is not new."""
    if old.has(name) or turns(name, new, old):
        return None
    is_served = " import " in name if name.count(" ") == 2 else new.role(name) != "called"
    return "needed" if is_served and name.split(" ")[0] in old.owners else "added"


def told(old, new):
    """What became of each item, how many functions are lost, and how many items of worlds are not met."""
    old, new = Version(old), Version(new)
    items = [(name, of_old(old, new, name)) for name in old.order]
    items += [(name, said) for name in new.order if (said := of_new(old, new, name))]
    lost = sum(said in ("moved", "changed") or said in ("removed", "turned") and old.role(name) != "served"
               for name, said in items if name in old.functions)
    return items, lost, sum(said in UNMET for _, said in items)


# ---- the program


def answer(program, old, new):
    """What the program says of a pair, as `told` does, and its exit status."""
    with tempfile.TemporaryDirectory() as folder:
        paths = [Path(folder) / name for name in ("old.wit", "new.wit")]
        for path, text in zip(paths, (old, new)):
            path.write_text(text)
        done = subprocess.run([program, "diff", "--json", *paths], capture_output=True, text=True)
    said = json.loads(done.stdout)
    items = [(it["item"], it["verdict"]) for it in said["items"] if it["kind"] != "type"]
    return (items, said["lost"], said["unmet"]), done.returncode


# ---- random pairs


class Source:
    """Makes random packages, and changes them."""

    def __init__(self, seed):
        self.random = random.Random(seed)

    def pick(self, *things):
        """One of these."""
        return self.random.choice(things)

    def type(self, names, depth=0):
        """A type, perhaps one of these names."""
        if names and self.random.random() < 0.4:
            return Name(self.random.choice(names))
        if depth > 1 or self.random.random() < 0.6:
            return Primitive(self.pick("u8", "u32", "u64", "bool", "string", "char", "s16"))
        word = self.pick("list", "option", "tuple", "result")
        parts = {"list": 1, "option": 1, "tuple": 2, "result": 2}[word]
        return Built(word, tuple(self.type(names, depth + 1) for _ in range(parts)))

    def labels(self, count):
        """Labels."""
        return self.random.sample([*"abcdefghij", "none", "some", "ok", "error"], min(count, 10))

    def members(self, kind, names):
        """The members of a type of this kind."""
        count = self.pick(1, 2, 3, 4) if kind in ("record", "variant") else self.pick(1, 2, 3, 8, 9)
        is_bare = {"record": 0, "variant": 0.4}.get(kind, 1)
        return tuple((label, None if self.random.random() < is_bare else self.type(names))
                     for label in self.labels(count))

    def interface(self, name):
        """An interface."""
        names, types = [], []
        for number in range(self.pick(1, 2, 3)):
            kind = self.pick("record", "variant", "enum", "flags", "alias")
            if kind == "alias":
                types.append(TypeDef(f"t{number}", kind, (), self.type(names)))
            else:
                types.append(TypeDef(f"t{number}", kind, self.members(kind, names)))
            names.append(f"t{number}")
        functions = tuple(self.function(f"f{number}", names) for number in range(self.pick(1, 2, 3)))
        return Interface(name, (), tuple(types), functions)

    def function(self, name, names):
        """A function."""
        parameters = tuple((label, self.type(names)) for label in self.labels(self.pick(0, 1, 2, 3)))
        return Function(name, parameters, self.type(names) if self.random.random() < 0.7 else None)

    def world(self, interfaces):
        """A world."""
        items = [WorldItem(self.pick("import", "export"), WitPath(None, name), None)
                 for name in interfaces if self.random.random() < 0.6]
        items += [WorldItem(self.pick("import", "export"), None, self.function(f"g{number}", []))
                  for number in range(self.pick(0, 1, 2))]
        return World("w", tuple(items))

    def package(self):
        """A package."""
        interfaces = [self.interface(name) for name in ("c", "d")[: self.pick(1, 2)]]
        worlds = [self.world([it.name for it in interfaces])] if self.random.random() < 0.5 else []
        return Package(PackageName("a", "b", "1.0.0"), (*interfaces, *worlds))

    # ---- changes

    def replaced(self, things, change):
        """These with one of them changed; a change gives what stands in its place."""
        if not things:
            return things
        index = self.random.randrange(len(things))
        return (*things[:index], *change(things[index]), *things[index + 1 :])

    def changed_members(self, kind, members, names):
        """Members of a type of this kind, changed."""
        how = self.pick("rename", "swap", "grow", "insert", "drop", "retype")
        if how == "rename":
            return self.replaced(members, lambda it: [(self.pick("x", "y", "z"), it[1])])
        if how == "swap":
            return self.random.sample(members, len(members))
        if how in ("grow", "insert"):
            place = len(members) if how == "grow" else self.random.randint(0, len(members))
            ty = {"record": True, "variant": self.random.random() < 0.5}.get(kind, False) and self.type(names)
            return (*members[:place], ("new", ty or None), *members[place:])
        if how == "drop" and len(members) > 1:
            return self.replaced(members, lambda it: [])
        return self.replaced(members, lambda it: [(it[0], it[1] and self.type(names))])

    def changed_type(self, typedef, names):
        """A type, changed."""
        if typedef.kind == "alias":
            return replace(typedef, target=self.type(names))
        is_bare = all(ty is None for _, ty in typedef.members)
        if is_bare and typedef.kind in ("enum", "variant") and self.random.random() < 0.2:
            return replace(typedef, kind="variant" if typedef.kind == "enum" else "enum")
        if typedef.kind == "record" and self.random.random() < 0.1:
            return TypeDef(typedef.name, "alias", (), Built("tuple", tuple(ty for _, ty in typedef.members)))
        return replace(typedef, members=tuple(self.changed_members(typedef.kind, typedef.members, names)))

    def changed_function(self, function, names):
        """What stands in place of a function."""
        how = self.pick("parameters", "parameters", "result", "gone", "added")
        if how == "gone":
            return []
        if how == "added":
            return [function, self.function(self.pick("h", "k"), names)]
        if how == "result":
            return [replace(function, result=self.type(names))]
        return [replace(function, parameters=tuple(self.changed_members("record", function.parameters, names)))]

    def changed_interface(self, interface):
        """An interface, changed."""
        names = [it.name for it in interface.types]
        if self.random.random() < 0.6:
            index = self.random.randrange(len(names))
            types = list(interface.types)
            types[index] = self.changed_type(types[index], names[:index])
            return replace(interface, types=tuple(types))
        return replace(interface, functions=self.replaced(interface.functions,
                                                          lambda it: self.changed_function(it, names)))

    def changed_item(self, item):
        """What stands in place of an item of a world."""
        how = self.pick("gone", "turned", "function", "added")
        if how == "gone":
            return []
        if how == "turned":
            return [replace(item, direction="export" if item.direction == "import" else "import")]
        if how == "function" and item.function:
            return [replace(item, function=it) for it in self.changed_function(item.function, [])]
        return [item, WorldItem(self.pick("import", "export"), None, self.function("h", []))]

    def changed(self, package):
        """A package, changed in one place."""
        def change(item):
            if isinstance(item, World):
                return [replace(item, items=self.replaced(item.items, self.changed_item))]
            return [self.changed_interface(item)]
        return replace(package, items=self.replaced(package.items, change))


def text_of(package):
    """The text of a package."""
    return "\n".join(text_lines(package)) + "\n"


def is_text(text):
    """Whether it is the text of a package."""
    try:
        return bool(opened([text]))
    except Exception:
        return False


def pairs(count, seed):
    """Random pairs of versions."""
    source = Source(seed)
    while count:
        package = newer = source.package()
        for _ in range(source.pick(0, 1, 1, 1, 2, 3)):
            newer = source.changed(newer)
        texts = text_of(package), text_of(newer)
        if all(map(is_text, texts)):
            yield texts
            count -= 1


def compare(program, count, seed=1):
    """Whether the program says of random pairs what the model says."""
    different = 0
    for old, new in pairs(int(count), int(seed)):
        wanted = told(old, new)
        said, status = answer(program, old, new)
        if said != wanted or status != int(wanted[1] + wanted[2] > 0):
            different += 1
            print(f"{old}\n{new}\nthe program: {said}, {status}\nthe model: {wanted}\n")
    print(f"{count} pairs of versions, of which {different} differ")
    return not different
