#!/usr/bin/env python3
"""Reads the names that a crate gives: calls, types, traits, variants, fields and methods, through `pub use` as well.

usage: tools/public_items.py CRATE

Prints every name that the crate gives, with its parameters. The sources are those that `rt fmt` lays out: an item
begins at the left margin, and what belongs to it is four columns to the right. tools/check_surface.py uses this.
"""
import collections
import functools
import re
import sys

from repository import NO_CODE, ROOT
from repository import code_alone as code

USE = re.compile(r"^(pub )?use ([^;]+);", re.M)
MODULE = re.compile(r"^(pub )?mod (\w+);", re.M)
ITEM = re.compile(r"(pub )?(?:unsafe )?(struct|enum|trait|type|const) (?!fn\b)(\w+)")
FN = re.compile(r"(pub )?(?:const )?(?:unsafe )?(?:extern \"\" )?fn (\w+)")
IMPL = re.compile(r"(?:unsafe )?impl\b")
VARIANT = re.compile(r"    ([A-Z]\w*)(.*)")
FIELD = re.compile(r"    pub (\w+): (.*)")
WORD = re.compile(r"[A-Za-z_]\w*(?:::\w+)*")
GHOST = re.compile(r" *(?:pub )?ghost\b")
CLAUSE = re.compile(r"(?:requires|ensures|ghost)\b")

# the crate, the file and the line, the kind, the type that it belongs to, its name, its text, and whether it is public
Item = collections.namedtuple("Item", "crate path line kind owner name text public")


def parts(text):
    """What stands between the commas of a text that are in no braces."""
    depth, found = 0, [""]
    for letter in text:
        depth += {"{": 1, "}": -1}.get(letter, 0)
        if letter == "," and not depth:
            found.append("")
        else:
            found[-1] += letter
    return [it.strip() for it in found if it.strip()]


def leaves(tree, before=()):
    """The paths of a `use`, each with the name that it gives what is there."""
    path, brace, inner = tree.partition("{")
    whole, _, alias = path.partition(" as ")
    names = [*before, *(it.strip() for it in whole.split("::") if it.strip() not in ("", "crate", "self"))]
    if brace:
        for part in parts(inner.rpartition("}")[0]):
            yield from leaves(part, names)
    else:
        yield names, alias.strip() or names[-1]


def type_name(head):
    """The type that an `impl` is of, and the trait that it implements, or None."""
    head = head.replace("->", "")
    while re.search(r"<[^<>]*>", head):
        head = re.sub(r"<[^<>]*>", "", head)
    found = re.search(r"\bimpl\s+(?:([\w:]+)\s+for\s+)?&?(?:\w+::)*(\w+)", head)
    return (found[2], found[1]) if found else ("", None)


def depth(line):
    """How many brackets a line opens more than it closes."""
    bare = NO_CODE.sub("", line)
    return sum(bare.count(it) for it in "([{") - sum(bare.count(it) for it in ")]}")


def head_and_contract(lines, start):
    """The lines of a function's head, and those of its contract."""
    found, begin, open_brackets = [], None, 0
    for line in lines[start:]:
        text = line.strip()
        if not open_brackets and text in ("{", "{}"):
            break
        if not open_brackets and begin is None and CLAUSE.match(text):
            begin = len(found)
        found.append(line)
        open_brackets += depth(line)
        if not open_brackets and text.endswith((";", "{}")) or begin is None and text.endswith("{"):
            break
    end = len(found) if begin is None else begin
    return found[:end], found[end:]


def signature(lines, start):
    """The text of a function's head, without what it asks of its types."""
    head, _ = head_and_contract(lines, start)
    return re.sub(r"\s+", " ", " ".join(head)).partition(" where ")[0].rstrip("{; ").strip()


def block(lines, start):
    """The lines of an item: up to the one that closes it at the left margin."""
    if re.search(r"[;}] *$", lines[start]):
        return lines[start:start + 1]
    for end in range(start + 1, len(lines)):
        if re.match(r"[})]", lines[end]):
            return lines[start:end + 1]
    return lines[start:]


def inner(crate, path, start, lines, kind, owner, public):
    """The methods, variants and public fields of an item; those of a trait are public."""
    for offset, line in enumerate(lines[1:], 1):
        place = (crate, path, start + offset + 1)
        if GHOST.match(line):
            continue
        if line.startswith("    ") and (found := FN.match(line[4:])):
            yield Item(*place, "fn", owner, found[2], signature(lines, offset), bool(found[1]) or kind == "trait")
        elif kind == "enum" and (found := VARIANT.match(line)):
            text = found[2]
            if text.rstrip().endswith(("(", "{")):
                text = " ".join(it.strip() for it in lines[offset:end_of(lines, offset)])
            yield Item(*place, "variant", owner, found[1], text, public)
        elif kind == "struct" and (found := FIELD.match(line)):
            end = next(it for it in range(offset, len(lines)) if lines[it].rstrip().endswith(","))
            text = " ".join(it.strip() for it in lines[offset:end + 1])
            yield Item(*place, "field", owner, found[1], text.partition(": ")[2], public)


def end_of(lines, start):
    """The line after the one that closes a variant."""
    return next((it + 1 for it in range(start + 1, len(lines)) if re.match(r"    [)}]", lines[it])), len(lines))


def head_of(kind, lines):
    """The text of an item: up to the brace that opens its parts, if it has such."""
    text = re.sub(r"\s+", " ", " ".join(lines))
    return text.partition("{")[0] if kind in ("struct", "enum", "trait") else text


@functools.lru_cache(None)
def items(path):
    """The items of a file, with what belongs to them."""
    crate, lines, found = path.relative_to(ROOT).parts[1], code(path).splitlines(), []
    for number, line in enumerate(lines):
        if item := ITEM.match(line):
            kind = item[2]
            body = block(lines, number)
            found.append(Item(crate, path, number + 1, kind, "", item[3], head_of(kind, body), bool(item[1])))
            found.extend(inner(crate, path, number, body, kind, item[3], bool(item[1])))
        elif IMPL.match(line):
            owner, trait = type_name(" ".join(lines[number:number + 6]).partition("{")[0])
            if trait is None:
                found.extend(inner(crate, path, number, block(lines, number), "impl", owner, True))
        elif head := FN.match(line):
            found.append(Item(crate, path, number + 1, "fn", "", head[2], signature(lines, number), bool(head[1])))
    return found


@functools.lru_cache(None)
def files(crate):
    """The files of a crate by the names of their modules, as `asking::walk`."""
    src = ROOT / "crates" / crate / "src"
    return {"::".join(path.relative_to(src).with_suffix("").parts): path for path in sorted(src.rglob("*.rt"))}


@functools.lru_cache(None)
def uses(path):
    """The names that a file takes or gives by `use`, each with its path and whether it is public."""
    return {name: (tuple(names), bool(public)) for public, tree in USE.findall(code(path))
            for names, name in leaves(tree)}


@functools.lru_cache(None)
def find(crate, module, name):
    """The item of this name in a module of a crate, through `use`, or None for one of std or of the kit."""
    path = files(crate).get(module)
    if path is None:
        return None
    for it in items(path):
        if not it.owner and it.name == name:
            return it
    names, _ = uses(path).get(name, ((), False))
    return at_path(crate, names, module) if names else None


def at_path(crate, names, module="lib"):
    """The item that a path names, seen from a module of a crate, or None."""
    *owners, name = names
    if not owners:
        return find(crate, "lib", name)
    for there in (f"{module}::{'::'.join(owners)}", "::".join(owners), owners[0]):
        if there in files(crate) and (item := find(crate, there, name)):
            return item
    first, *inner = owners
    if first != crate and files(first):
        return find(first, next((it for it in ("::".join(inner), *inner[:1]) if it in files(first)), "lib"), name)
    return None


@functools.lru_cache(None)
def given(crate):
    """What a crate gives by its lib.rt: names, those of its public modules as `module::name`, with their items."""
    lib, found = files(crate)["lib"], {}
    for name, (names, public) in uses(lib).items():
        if public and (item := at_path(crate, names)):
            found[name] = item
    found.update({it.name: it for it in items(lib) if it.public and not it.owner})
    for public, module in MODULE.findall(code(lib)):
        if public and module in files(crate):
            here = files(crate)[module]
            found.update({f"{module}::{it.name}": it for it in items(here) if it.public and not it.owner})
            more = ((name, at_path(crate, names, module)) for name, (names, public) in uses(here).items() if public)
            found.update({f"{module}::{name}": it for name, it in more if it})
    return found


def members(item):
    """What belongs to a type or a trait and is public: methods, variants, fields."""
    for path in files(item.crate).values():
        for it in items(path):
            if it.owner == item.name and it.public and (it.kind == "fn" or it.path == item.path):
                yield it


def named(crate, name):
    """The item that a crate gives as `name`, as `Type::member`, or as `module::name`; or None."""
    names = given(crate)
    if name in names:
        return names[name]
    owner, _, member = name.rpartition("::")
    found = names.get(owner)
    return next((it for it in members(found) if it.name == member), None) if found else None


def parameters(text):
    """The names of a function's parameters without self."""
    depth, start = 0, None
    for place, letter in enumerate(text):
        depth += {"<": 1, ">": -1 if text[place - 1] != "-" else 0}.get(letter, 0)
        if letter == "(" and depth == 0:
            start = place
            break
    inside, depth = "", 0
    for letter in text[start:]:
        depth += {"(": 1, ")": -1}.get(letter, 0)
        if depth == 0:
            break
        inside += letter
    names = [it.partition(":")[0].strip() for it in parts_of(inside[1:])]
    return [it.removeprefix("mut ") for it in names if not re.fullmatch(r"(&('\w+ )?)?(mut )?self", it)]


def parts_of(text):
    """What stands between the commas of a text that are in no brackets."""
    return parts(re.sub(r"[(\[<]", "{", re.sub(r"[)\]>]", "}", text.replace("->", ""))))


def main():
    """Prints what a crate gives."""
    if len(sys.argv) != 2 or not files(sys.argv[1]):
        sys.exit(__doc__)
    for name, item in sorted(given(sys.argv[1]).items()):
        of = f"({', '.join(parameters(item.text))})" if item.kind == "fn" else ""
        print(f"{item.kind} {name}{of}  {item.crate}")
        for it in members(item) if not of else ():
            of = f"({', '.join(parameters(it.text))})" if it.kind == "fn" else ""
            print(f"    {it.kind} {it.name}{of}")


if __name__ == "__main__":
    main()
