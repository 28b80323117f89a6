"""Reads a header that `wit-explain bind c` made: the functions of its interfaces, and its types, by their names in
C."""
import re
from dataclasses import dataclass, field

# a part of a header: a struct, a number, the constants of cases, or a flag
STRUCT = re.compile(r"^typedef struct \{\n(.*?)^\} (\w+);\n", re.M | re.S)
NUMBER = re.compile(r"^typedef (uint\d+_t) (\w+);\n(?!static_assert)", re.M)
CASES = re.compile(r"^enum \{\n(.*?)^\};\ntypedef (?:struct \{\n.*?^\} (\w+);|uint\d+_t (\w+);)\n", re.M | re.S)
FLAGS = re.compile(r"((?:^#define \w+ \(\(uint\d+_t\)\(UINT32_C\(1\) << \d+\)\)\n)*)^typedef uint\d+_t (\w+);\n"
                   r"(?!static_assert)", re.M)
ELEMENT = re.compile(r"^static inline (\w+) \w+\(const uint8_t \*memory, (\w+) list, uint32_t place\) \{", re.M)
MEMBER = re.compile(r"^ +(\w+) (\w+);$", re.M)
TEXT = re.compile(r"^static const char \w+\[\] =(?: \{\n(.*?)^\}|\n(.*?));\n", re.M | re.S)
# the heading of an interface: a comment by itself, or the last line of the comment that the interface has in WIT
INTERFACE = re.compile(r"^/\* ---- (\S+) \*/$|^/\*\n(?: \*(?!/).*\n)*? \* ---- (\S+)\n \*/$", re.M)
FUNCTION = re.compile(
    r'^#define \w+ "([A-Za-z0-9-]+)"\n'
    r"(?:typedef struct \{\n[^}]*\} (\w+);\n(?:static_assert.*\n)+)?"
    r"#define (\w+) \d+\n"
    r"((?:#define \w+ \d+\n)*)"
    r"\n/\*(?:[^*]|\*(?!/))*\*/\n"
    r"static inline void (\w+)\(.*\{\n(?:    .*\n)*\}\n"
    r"(?:\n/\* Reads .*\*/\nstatic inline (\w+) (\w+)\(.*\{\n(?:    .*\n)*\}\n)?"
    r"(?:\n/\* For the callee: reads (?:[^*]|\*(?!/))*\*/\nstatic inline \w+ (\w+)\(.*\{\n(?:    .*\n)*\}\n)?"
    r"(?:\n/\* For the callee: (?:[^*]|\*(?!/))*\*/\nstatic inline witcall_value (\w+)\()?",
    re.M,
)


@dataclass(frozen=True)
class Part:
    """A field, or what a case holds: its C name, and its type."""

    label: str
    type: object


@dataclass(eq=False)
class Type:
    """A type: its C name, what it is (number, pair, record or variant), the parts that hold something, and the
    constants of its cases or flags. A list has its element as its one part."""

    c: str
    form: str = "number"
    parts: list = field(default_factory=list)
    constants: list = field(default_factory=list)


@dataclass(frozen=True)
class Function:
    """A function, with the C names of what is made for it. `result`, `read` and `answer` are None if it has no result,
    and `receive` is None if it has no parameters. `blocks` has the sizes and alignments of the blocks that a call
    needs, by their C names."""

    full_name: str
    name: str
    parameters: Type
    result: Type
    fill: str
    read: str
    count: str
    blocks: dict
    receive: str
    answer: str


def text_of(numbers, lines):
    """The text of a constant, which is numbers up to a 0 or strings."""
    if numbers:
        return bytes(map(int, re.findall(r"\d+", numbers)[:-1])).decode()
    return "".join(line + "\n" for line in re.findall(r'^    "(.*)\\n"', lines, re.M))


def form_of(name, body, text):
    """What a struct is: a variant has a tag that is not asserted as a field is."""
    tag = body.startswith(("    uint8_t tag;\n", "    uint16_t tag;\n", "    uint32_t tag;\n"))
    return "variant" if tag and f"static_assert(offsetof({name}, tag) " not in text else "record"


class Header:
    """The types and functions of a header, and the texts of its packages."""

    def __init__(self, text):
        self.text = text[text.index("\n/* The package "):]
        self.texts = [text_of(*found) for found in TEXT.findall(self.text)]
        self.types = {"wit_string": Type("wit_string", "pair")}
        constants = {one or other: re.findall(r"(\w+) =", body) for body, one, other in CASES.findall(self.text)}
        for defines, name in FLAGS.findall(self.text):
            self.types[name] = Type(name, "number", [],
                                    re.findall(r"#define (\w+)", defines) or constants.get(name, []))
        elements = {name: element for element, name in ELEMENT.findall(self.text)}
        for body, name in STRUCT.findall(self.text):
            self.types[name] = self.struct(name, body, elements.get(name), constants.get(name, []))
        self.functions = [function for section in self.sections() for function in self.functions_of(*section)]

    def type(self, name):
        """A type that was read before, or a number."""
        return self.types.setdefault(name, Type(name))

    def struct(self, name, body, element, constants):
        """A struct, after those that it names."""
        if element:
            return Type(name, "pair", [Part("", self.type(element))])
        form = form_of(name, body, self.text)
        members = MEMBER.findall(body)[form == "variant":]
        return Type(name, form, [Part(label, self.type(c)) for c, label in members], constants)

    def sections(self):
        """The interfaces: each full name, with the text up to the next."""
        found = list(INTERFACE.finditer(self.text))
        ends = [after.start() for after in found[1:]] + [len(self.text)]
        return [(start[1] or start[2], self.text[start.end():end]) for start, end in zip(found, ends)]

    def functions_of(self, full_name, text):
        """The functions of an interface."""
        for name, parameters, count, blocks, fill, result, read, receive, answer in FUNCTION.findall(text):
            record = self.types[parameters] if parameters else Type("", "record")
            made = self.type(result) if result else None
            numbers = {constant: int(number) for constant, number in re.findall(r"#define (\w+) (\d+)", blocks)}
            yield Function(full_name, name, record, made, fill, read or None, count, numbers, receive or None,
                           answer or None)
