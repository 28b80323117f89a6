"""Texts of packages as people write them, of any length: interfaces of some tens of definitions, of two or three words
a name."""
import random

WORDS = """account address amount answer article balance basket branch budget cache carrier category channel charge
city client clock comment company contact content count country coupon currency customer date delivery detail device
discount document driver email entry error event factor field file filter folder format frame group handle header
history image index invoice item journal label language level limit line list location login market member message
method model module month name network node note number object offer option order owner package page parcel parent
partner path payment person phone place plan point policy position price product profile project query quota range
rate reason record region report request resource result return review role route sale sample schedule scope score
section segment sender server service session shape signal size source stage state status step stock store stream
subject supplier system table target task team term text theme ticket time title token topic total track trade
transfer type unit update user value vendor version video view visit volume week weight window worker zone""".split()
KEYWORDS = {"list", "option", "result", "record", "type", "resource", "package", "stream"}
PLAIN = ["bool", "u8", "u16", "u32", "u64", "s32", "s64", "char", "string", "string", "string", "u32"]


class Writer:
    """Writes interfaces as people do: some tens of definitions each, of two or three words a name."""

    def __init__(self):
        self.source = random.Random(7)
        self.interfaces = 0

    def name(self, taken):
        """A name that its scope doesn't have yet."""
        while True:
            words = self.source.choices(WORDS, k=self.source.choice([1, 2, 2, 2, 3]))
            found = "-".join(words)
            if found not in taken and found not in KEYWORDS:
                taken.add(found)
                return found

    def type(self, types, depth=0):
        pick = self.source.random()
        if depth < 2 and pick < 0.14:
            return f"list<{self.type(types, depth + 1)}>"
        if depth < 2 and pick < 0.24:
            return f"option<{self.type(types, depth + 1)}>"
        if depth < 2 and pick < 0.28:
            return f"tuple<{self.type(types, depth + 1)}, {self.type(types, depth + 1)}>"
        if types and pick < 0.6:
            return self.source.choice(types)
        return self.source.choice(PLAIN)

    def members(self, types, least, most):
        taken = set()
        count = self.source.randint(least, most)
        return [f"{self.name(taken)}: {self.type(types)}" for _ in range(count)]

    def labels(self, least, most):
        taken = set()
        return [self.name(taken) for _ in range(self.source.randint(least, most))]

    def definition(self, name, types):
        kind = self.source.choice(["record", "record", "record", "variant", "enum", "flags", "type"])
        if kind == "type":
            return f"  type {name} = {self.type(types)};\n"
        if kind == "record":
            parts = self.members(types, 3, 9)
        elif kind == "variant":
            labels = self.labels(2, 6)
            parts = [label + (f"({self.type(types)})" if self.source.random() < 0.5 else "") for label in labels]
        else:
            parts = self.labels(3, 9)
        return f"  {kind} {name} {{\n" + "".join(f"    {part},\n" for part in parts) + "  }\n"

    def function(self, name, types):
        params = ", ".join(self.members(types, 0, 4))
        pick = self.source.random()
        if pick < 0.5:
            return f"  {name}: func({params}) -> result<{self.type(types)}, {self.type(types)}>;\n"
        return f"  {name}: func({params})" + (f" -> {self.type(types)};\n" if pick < 0.8 else ";\n")

    def interface(self):
        taken, types, text = set(), [], ""
        for _ in range(self.source.randint(6, 20)):
            name = self.name(taken)
            text += self.definition(name, types)
            types.append(name)
        for _ in range(self.source.randint(10, 40)):
            text += self.function(self.name(taken), types)
        self.interfaces += 1
        return f"interface part-n{self.interfaces} {{\n{text}}}\n\n"


def text_of(length, package="a:b"):
    """A package's text of about this length, and no more."""
    writer = Writer()
    text = f"package {package};\n\n"
    misses = 0
    while misses < 50:
        more = writer.interface()
        if len(text) + len(more) <= length:
            text += more
        else:
            misses += 1
    return text
