#!/usr/bin/env python3
"""Counts the lines that a reader has to believe: the definitions that the clauses of two calls lead to.

usage: tools/believed.py [--names] [ITEM..]

An ITEM is a function, CRATE/FILE:NAME, as opening/set.rt:open_set; with :CLAUSE behind it, as
opening/set.rt:open_set:ok, that clause alone is read. Or it is a definition, CRATE/specs/FILE:NAME, as
opening/specs/ToldSet:IsToldSetOf, which is counted with all that it leads to. Left out, they are `IsToldSetOf` and
`Session::call`, which the program's answer rests on. From their clauses it follows every name: definitions of specs/,
those of blocks (`mutual`, `module`) too, and the structs and enums of src/ that these cite. It counts their lines
without comments and blank lines, closing lines too, and prints the sums by file; with --names also each name. The
toolchain's own definitions are left out, and of a struct or an enum its attributes and its invariants: a clause speaks of its fields,
and what holds of them besides is proved, not believed.
A name means what the file that cites it defines or imports; of src/ an import leads to the file of the crate that
declares the name, or to what the crate exports of another. It reads text alone: a local name that is also a
definition's counts as one.
"""
import collections
import re
import sys

from repository import ROOT, parser

CALLS = ["opening/specs/ToldSet:IsToldSetOf", "witcall/session.rt:call"]
WORD = re.compile(r"[^\s(){}\[\],;:→λ×⊎∥₁\"|¬?«»&<>=*#!+/]+")
IMPORT = re.compile(r"^(?:ghost )?(?:pub )?use (Rattle\.[\w.+]+?)(?:\.\{(.*)\})?(?: as (\S+?))?;?$")
HEAD = re.compile(r"^(?:(?:abbrev|unfoldable|opaque|instance|pub|record|data)\s+)*(\S+)")
BLOCK = re.compile(r"^(?:(?:abbrev|unfoldable|opaque|pub)\s+)*(?:mutual$|module )")
# what a line of specs/ begins with that goes on with the definition before it
CONTINUES = (" ", "}", ")", "]", "(")
DECLARED = re.compile(r"^pub (?:struct|enum) (\w+)")
# an import of src/, and what one imports: a path, or a path and several in braces
USE = re.compile(r"^(?:pub(?:\(\w+\))? )?use ([^;]+);", re.M)
BRACES = re.compile(r"^((?:\w+::)*)\{(.*)\}$", re.S)


def imports(text):
    """Returns what an import of src/ imports: of each name the path and the name there."""
    found = BRACES.match(text.strip())
    if not found:
        path, _, alias = text.strip().partition(" as ")
        *modules, own = path.split("::")
        return {alias or own: (modules, own)}
    parts, depth = [""], 0
    for sign in found[2]:
        depth += {"{": 1, "}": -1}.get(sign, 0)
        if sign == "," and not depth:
            parts.append("")
        else:
            parts[-1] += sign
    return {name: it for part in parts if part.strip() for name, it in imports(found[1] + part.strip()).items()}


def code_lines(text):
    """Returns a text's lines without comments and blank ones."""
    lines = (re.sub(r"(--|//).*", "", line).rstrip() for line in text.split("\n"))
    return [line for line in lines if line]


class File:
    """A file of specs/ or src/: its definitions, each with its lines, and what its imports stand for."""

    def __init__(self, module, path):
        self.module, self.path = module, path
        self.definitions = collections.defaultdict(list)
        self.names, self.modules = {}, {}
        text = path.read_text()
        # of src/: each imported name with its path
        self.imported = {}
        for found in USE.findall(text) if path.suffix == ".rt" else ():
            self.imported |= imports(found)
        for line in text.split("\n"):
            found = IMPORT.match(line.strip())
            if found:
                self.keep_import(*found.groups())
        (self.keep_specs if path.suffix == ".antt" else self.keep_types)(code_lines(text))

    def keep_import(self, module, names, alias):
        if names is None:
            self.modules[alias or module.rpartition(".")[2]] = module
        for name in (names or "").split(","):
            own, _, other = name.strip().partition(" as ")
            self.names[other or own] = module, own

    def keep_specs(self, lines):
        name, margin = None, 0
        for line in lines:
            margin = margin if line.startswith(" ") else 0
            if line.startswith(("use ", "pub use ", "mod ", "pub mod ")) or BLOCK.match(line):
                name, margin = None, 2 * bool(BLOCK.match(line))
                continue
            if not line[margin:].startswith(CONTINUES):
                name = HEAD.match(line[margin:]).group(1)
            if name:
                self.definitions[name].append(line[margin:])

    def keep_types(self, lines):
        name = None
        for line in lines:
            if line.lstrip().startswith(("#[", "ghost ", "pub ghost ")):
                continue
            found = DECLARED.match(line)
            name = found.group(1) if found else name
            if name:
                self.definitions[name].append(line)
            if line.startswith("}") or line.endswith(";") and not line.startswith(" "):
                name = None


def files():
    """Returns each file by its module's name; a file of src/ by that of the modules that its types declare."""
    found = {}
    for pattern, part in (("specs/**/*.antt", "specs"), ("src/**/*.rt", "specs.declared")):
        for path in sorted((ROOT / "crates").glob(f"*/{pattern}")):
            crate, _, *inside = path.relative_to(ROOT / "crates").with_suffix("").parts
            module = ".".join(["Rattle", crate, part, *inside])
            found[module] = File(module, path)
    return found


def place_of(all_files, module, name):
    """Returns the file and the name of what an import means, if it is of this repository."""
    if ".declared." in module:
        parts = module.removesuffix(".TheVariants").split(".")
        for end in range(len(parts), 3, -1):
            module = ".".join(parts[:end])
            if module in all_files:
                return (module, parts[end] if end < len(parts) else name)
        return None
    return (module, name) if module in all_files else None


def meant(all_files, types, file, word):
    """Returns where a word of a file is defined, if it is in this repository."""
    if word in file.definitions:
        return file.module, word
    if word in file.names:
        return place_of(all_files, *file.names[word])
    first, _, rest = word.partition(".")
    if rest and first in file.modules:
        return place_of(all_files, file.modules[first], rest.partition(".")[0])
    if rest and (first in file.definitions or first in file.names):
        return meant(all_files, types, file, first)
    return imported_type(all_files, types, file, word) if file.path.suffix == ".rt" else None


def imported_type(all_files, types, file, word):
    """Returns where a struct or an enum of this repository is declared that a file of src/ imports under this name."""
    modules, own = file.imported.get(word, ([], word))
    if not modules:
        return None
    own_crate = file.module.split(".")[1]
    crate = own_crate if modules[0] in ("crate", "self", "super") else modules[0]
    places = types.get((crate, own), [])
    named = [place for place in places if modules[1:] and place[0].endswith("." + ".".join(modules[1:]))]
    found = named or places
    if len(found) > 1:
        sys.exit(f"tools/believed.py: {file.path}: {word} may be of any of {', '.join(module for module, _ in found)}")
    library = all_files.get(f"Rattle.{crate}.specs.declared.lib")
    if found or library is None or library is file:
        return found[0] if found else None
    return imported_type(all_files, types, library, own)


def defined(all_files, item):
    """Returns the place of a definition of specs/, if the item is one."""
    path, _, name = item.partition(":")
    crate, part, *inside = path.removesuffix(".antt").split("/")
    module = ".".join(["Rattle", crate, part, *inside])
    if part != "specs":
        return None
    if module not in all_files or name not in all_files[module].definitions:
        sys.exit(f"tools/believed.py: there is no definition {item}")
    return module, name


def clauses(call):
    """Returns the file of a function, and the lines of its contract, or of one clause of it."""
    path, name, *only = call.split(":")
    crate, _, inside = path.partition("/")
    text = (ROOT / "crates" / crate / "src" / inside).read_text()
    begin = re.search(rf"\bfn {name}\b", text).start()
    end = re.search(r"^\s*\{$", text[begin:], re.M).start()
    module = ".".join(["Rattle", crate, "specs", "declared", inside[: -len(".rt")].replace("/", ".")])
    parts = re.split(r"^\s*(?:requires|ensures) (?=\w+ \{)", text[begin : begin + end], flags=re.M)
    read = [part for part in parts if part.split()[0] in only] if only else parts
    if not read:
        sys.exit(f"tools/believed.py: {name} has no clause {only[0]}")
    return module, code_lines("\n".join(read))


def believed(all_files, items):
    """Returns the places of all definitions that these definitions and the calls' clauses lead to."""
    types = {}
    for file in all_files.values():
        for name in file.definitions if file.path.suffix == ".rt" else ():
            types.setdefault((file.module.split(".")[1], name), []).append((file.module, name))
    seen = {place for place in (defined(all_files, item) for item in items) if place}
    left = [(module, all_files[module].definitions[name]) for module, name in sorted(seen)]
    left += [clauses(item) for item in items if not defined(all_files, item)]
    while left:
        module, lines = left.pop()
        for word in WORD.findall(" ".join(lines)):
            place = meant(all_files, types, all_files[module], word)
            if place and place not in seen and place[1] in all_files[place[0]].definitions:
                seen.add(place)
                left.append((place[0], all_files[place[0]].definitions[place[1]]))
    return seen


def main():
    words = parser(__doc__)
    words.add_argument("--names", action="store_true")
    words.add_argument("item", nargs="*")
    given = words.parse_args()
    all_files = files()
    by_file = collections.defaultdict(dict)
    for module, name in believed(all_files, given.item or CALLS):
        by_file[all_files[module].path][name] = len(all_files[module].definitions[name])
    for path, names in sorted(by_file.items()):
        print(f"{sum(names.values()):5} {path.relative_to(ROOT / 'crates')}")
        for name, count in sorted(names.items()) if given.names else ():
            print(f"      {count:5} {name}")
    counts = [count for names in by_file.values() for count in names.values()]
    print(f"{sum(counts)} lines, {len(counts)} definitions")
    return 0


if __name__ == "__main__":
    sys.exit(main())
