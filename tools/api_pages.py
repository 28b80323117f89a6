#!/usr/bin/env python3
"""Makes docs/api/: what the crates of CRATES give, with docs and contracts, and an index.

usage: tools/api_pages.py [--check]

The items are those that tools/public_items.py reads. Of each the page of its crate has its declaration or its signature
as the source lays it out, its docs (`///`), the clauses of its contract, and the definitions of crates/*/specs/ that
these use, each with the comment above it. An item that another crate of CRATES declares has one line, which leads
there. One that a crate without a page declares is shown on the first page that has it. With --check nothing is written,
and the exit status is 1 if a page is not current. It is 1 as well if two headings of a page have one anchor.
"""
import collections
import functools
import re
import sys
import textwrap

from believed import HEAD, WORD, File
from crates_page import head, laid_out, wrapped
from public_items import IMPL, block, files, find, given, head_and_contract, members, type_name
from repository import NO_CODE, ROOT, keep_pages, place

FOLDER = ROOT / "docs" / "api"
CRATES = ("witcall", "package_values", "opening", "lift_lower", "layout", "memory", "adapter", "host_calls",
          "host_values")
# what ends the first statement of docs
END = re.compile(r"(?:[.?!](?= [A-Z`])|[:;](?= )|\.$)")
# what a declaration may name, and the name of a variant
VARIANT = re.compile(r"^    [A-Z]\w*", re.M)
NAMED = re.compile(r"\b[A-Z]\w*")
# the lines of a struct's block that are not for readers of its crate, and the lines of a trait's that are
PRIVATE = re.compile(r"    (?:ghost )?\w+:")
PUBLIC = re.compile(r"    pub ")
GHOST = re.compile(r"    ghost (?!use\b)\w")
ABOVE = re.compile(r" *(?://|#\[)")
MODEL = re.compile(r"^impl\b.*\bModel for (\w+).*\n(?:    ghost use .*\n|\n)*    ghost Value = \{ (.*) \};", re.M)
OPENING = """This page lists what the crate `{}` gives, for people who call it. {} The [index](README.md#how-to-read-a-page)
says how to read this page and its contracts."""
MADE = "`tools/api_pages.py` makes it of the sources: change these, and run it."
INDEX = """\
# API reference

This page leads to the reference of each crate that a host or a prover calls. It is for people who write such calls.
{made}

[LIBRARY](../LIBRARY.md) teaches the library in the order in which a host needs things. These pages list every name.

| crate | what it is |
|---|---|
{crates}

## How to read a page

- The table at the top has every name that the crate gives, in alphabetical order. If another crate declares the name,
  its line leads to the page of that crate.
- Below it each name has a section. The sections are in the order of the sources, and methods are under their types.
- A type is shown as its source declares it, without what is private. A line with `pub ghost` is a fact that is proved
  of every value of the type.
- A function has its signature, what its docs say, its contract, and the definitions that the contract uses.
- Contracts may name private fields. If a type says which type its value has in contracts, they name the fields of that.
- A `Global` is the allocator of the host. Each function that takes one can fail with out of memory.
- A number such as 53 or K6 in the docs is that of an error or a trap ([ERRORS](../ERRORS.md)).

## How to read a contract

A caller has to meet each `requires`. [Conditions](../guarantees/conditions.md) has a test for each of them that a
program can make. After the call each `ensures` is true, for all inputs. The prover has checked that, and also that the
function returns, without overflow or bad index. A function without clauses has this alone.

The name after `requires` or `ensures` is the name of the clause. Other pages say `open_set`: ok for clause `ok` of
`open_set`. The text in braces is a statement:

| written | means |
|---|---|
| `f x y` | the definition `f`, given `x` and `y`; the list under the contract leads to it |
| `result` | what the function returns |
| `x.now` | what a reference `x` points to |
| `x.old`, `x.new` | what a `&mut` reference points to before the call, and after it |
| `x.entry` | a parameter itself, as it was passed |
| `≡`, `≢` | is equal, is not equal |
| `A × B`, `A ⊎ B` | both, one of them |
| `A → B`, `A ↔ B` | if A then B; A if and only if B |
| `¬ A`, `⊥` | not A; what is never true |
| `(x : T) → A` | for every `x` of type `T` |
| `(x : T) × A` | there is an `x` of type `T` with this |
| `λ x. A` | A as a function of `x` |
| `let x = a in A` | A, with `x` for `a` |
| `IfOk result (λ x. A)`, `IfErr result (λ e. A)` | if it returns Ok of `x`, then A; if it returns Err of `e`, then A |
| `OnOk result A`, `OnErr result A` | the same without a name for the value or the error |
| `MatchResult result (λ x. A) (λ e. B)` | both of the first two: A if it returns Ok of `x`, and B if it returns Err of `e` |
| `IfSome o (λ x. A)`, `IfNone o A` | if `o` is Some of `x`, then A; if it is None, then A |
| `IsTrue b` | the bool `b` is true |
| `All P xs` | P is true of each element of the list `xs` |
| `x ∷ xs`, `[]` | a list with its first element, and the empty list |
| `ℕ` | the numbers from 0 on |
| `S → T → Type 0` | a relation of an `S` and a `T` |
| `record {{ a = x; b = y }}` | a value with these fields |
| `C.allocates` | what the implementation of a trait by the type `C` says, here of its allocator |
| `⟦<FirstFit as Guest>⟧.memory` | the same for one type and one trait |
| `∥ A ∥₁` | A is true, and nothing depends on its proof |
| `«package»` | the parameter `package`; without the quotes it is a word of the language |

Numbers in contracts have no width: nothing wraps. [DEFINITIONS](../DEFINITIONS.md) has the definitions by subject, with
the sections of the standard that they restate. [PROMISE](../PROMISE.md#the-clauses-by-theme) leads to pages that say in
sentences what clauses prove.

## All names

| name | kind | page |
|---|---|---|
{names}
"""
PAGE = """\
# The crate `{crate}`

{made}

{head}

| name | kind | what it is |
|---|---|---|
{names}

{items}
"""

# an item of a page: the name by which the crate gives it, other such names, and the item itself
Shown = collections.namedtuple("Shown", "crate name others item")


# ---- which page has an item


@functools.lru_cache(None)
def homes():
    """The items that have a page, by their files and lines: each as the crate shows it that declares it, or the first
    that gives it."""
    found = {}
    for crate in CRATES:
        names = collections.defaultdict(list)
        for name, item in given(crate).items():
            names[item.path, item.line].append((name.count("::"), name, item))
        for key, ways in names.items():
            (_, name, item), *others = sorted(ways)
            if key not in found or item.crate == crate:
                found[key] = Shown(crate, name, [it for _, it, _ in others], item)
    return found


def link(shown, page):
    """A link to an item from the page of a crate, or from the index."""
    file = "" if shown.crate == page else f"{shown.crate}.md"
    return f"{file}#{slug(title(shown.item.kind, shown.name))}"


def slug(heading):
    """The anchor of a heading."""
    return re.sub(r"[^\w\- ]", "", heading.lower()).replace(" ", "-")


def title(kind, name):
    """The heading of an item or a method."""
    return f"{kind} `{name}`"


def by_letter(name):
    """The order of names: by their last parts, capital letters as small ones."""
    return name.rpartition("::")[2].lower(), name


# ---- what the sources say


@functools.lru_cache(None)
def lines_of(path):
    """The lines of a file."""
    return path.read_text().splitlines()


def docs(item):
    """The lines of an item's docs, without `///`."""
    lines, end = lines_of(item.path), item.line - 1
    while lines[end - 1].lstrip().startswith("#["):
        end -= 1
    start = end
    while start and lines[start - 1].lstrip().startswith("///"):
        start -= 1
    return [line.strip()[3:].removeprefix(" ") for line in lines[start:end]]


def first_sentence(lines):
    """The first statement of docs, for a cell of a table."""
    paragraph = " ".join(lines).partition("  ")[0]
    return END.split(paragraph)[0].replace("|", "\\|")


def function(item):
    """A function's signature, and its contract: two texts."""
    head, contract = ("\n".join(it) for it in head_and_contract(lines_of(item.path), item.line - 1))
    return textwrap.dedent(head).rstrip("{}; "), textwrap.dedent(contract).rstrip(";")


def declaration(item):
    """A type, a trait or a constant as its source has it, without what is private."""
    lines, start = lines_of(item.path), item.line - 1
    found = block(lines, start)
    if len(found) > 1 and item.kind in ("struct", "trait"):
        kept = kept_lines(found[1:-1], PUBLIC if item.kind == "struct" else GHOST)
        hidden = item.kind == "struct" and any(PRIVATE.match(line) for line in found)
        found = [found[0], *kept, *(["    // private fields"] if hidden else []), found[-1]]
    while lines[start - 1].startswith("#[derive"):
        start -= 1
    return "\n".join([*lines[start:item.line - 1], *found])


def kept_lines(lines, wanted):
    """The parts of a block that are wanted, each with the comments and attributes above it."""
    above, found, inside = [], [], False
    for line in lines:
        if inside:
            found.append(line)
        elif ABOVE.match(line):
            above.append(line)
            continue
        elif wanted.match(line):
            found += [*above, line]
        inside = (inside or bool(wanted.match(line))) and not line.endswith((",", ";"))
        above = []
    return found


def traits(item):
    """The traits that a type's crate implements for it, but those of a derivation."""
    found = []
    for path in files(item.crate).values():
        for line in lines_of(path):
            if IMPL.match(line) and type_name(line)[0] == item.name and " for " in line:
                name = re.sub(r"^(?:unsafe )?impl(?:<[^>]*>)? ", "", line.partition(" for ")[0])
                found.append(name)
    return sorted(set(found) - {"Model"})


def model(item):
    """The definition as which contracts read a type, if it has one."""
    text = "\n".join(lines_of(item.path))
    return next((found[2] for found in MODEL.finditer(text) if found[1] == item.name), None)


# ---- definitions


@functools.lru_cache(None)
def source(module, path):
    """A file with what it imports and defines."""
    return File(module, path)


def specs(module):
    """The file of a module of definitions of this repository, or None."""
    first, crate, *inside = module.split(".")
    if first != "Rattle" or inside[:1] != ["specs"] or "declared" in inside:
        return None
    path = (ROOT / "crates" / crate).joinpath(*inside).with_suffix(".antt")
    return path if path.is_file() else None


def meant(file, word):
    """The file and the name of the definition that a word of a file means, or None. A file may hand on what it
    imports."""
    first, _, rest = word.partition(".")
    if word in file.names:
        module, name = file.names[word]
    elif rest and first in file.modules:
        module, name = file.modules[first], rest.partition(".")[0]
    else:
        return None
    path = specs(module)
    if path is None:
        return None
    there = source(module, path)
    return (path, name) if name in there.definitions else case_of(path, there, name) or meant(there, name)


def case_of(path, file, name):
    """The file and the definition that has this name as one of its cases, or None."""
    line = re.compile(rf" +{re.escape(name)} :")
    return next(((path, owner) for owner, lines in file.definitions.items() if any(map(line.match, lines[1:]))), None)


@functools.lru_cache(None)
def stated(path, name):
    """The line of a definition, and the comment above it."""
    lines = lines_of(path)
    number = next(number for margin in ("", "  ") for number, line in enumerate(lines) if is_head(line, margin, name))
    start = number
    while start and re.match(r" *--(?! ----)", lines[start - 1]):
        start -= 1
    return number + 1, " ".join(line.strip()[2:].strip() for line in lines[start:number])


def is_head(line, margin, name):
    """Whether a line with this margin begins the definition of a name."""
    inner = line[len(margin):]
    found = line.startswith(margin) and inner[:1] not in ("", " ", "-") and HEAD.match(inner)
    return bool(found) and found[1] == name


def definitions(item, text):
    """The list of the definitions that a text of an item's file uses, in the order of their first use."""
    file, found = source("", item.path), {}
    for word in WORD.findall(text):
        if there := meant(file, word):
            found.setdefault(there, {})[word] = None
    return "\n".join(definition(path, name, words) for (path, name), words in found.items())


def definition(path, name, words):
    """A line of such a list. It has the words that name it otherwise: by a case, or by another name."""
    line, comment = stated(path, name)
    others = ", ".join(f"`{it}`" for it in words if name not in it.split("."))
    text = f"[`{name}`](../../{place(path)}#L{line})" + (f" ({others})" if others else "")
    return wrapped(text + (f": {comment}" if comment else ""), "- ", "  ")


# ---- pages


def fenced(text):
    """A block of code."""
    return f"```rust\n{text}\n```"


def listed(item, text):
    """The definitions that a text uses, under their title, or nothing."""
    found = definitions(item, text)
    return ["Definitions:", found] if found else []


def where(item):
    """A link to an item's source."""
    return f"Source: [{place(item.path)}](../../{place(item.path)})"


def known(item, name):
    """The item of a page that a name in an item's file means, or None."""
    module = "::".join(item.path.relative_to(ROOT / "crates" / item.crate / "src").with_suffix("").parts)
    there = find(item.crate, module, name)
    return homes().get((there.path, there.line)) if there else None


def types(shown, item, text):
    """Links to the other items that a signature or a declaration names, or nothing."""
    words = dict.fromkeys(NAMED.findall(VARIANT.sub("", NO_CODE.sub("", text))))
    found = [(word, known(item, word)) for word in words]
    links = [f"[`{word}`]({link(other, shown.crate)})" for word, other in found if other and other != shown]
    return wrapped(f"Uses {', '.join(links)}.") if links else ""


def called(shown, item, heading):
    """What a page has of a function or a method, under its heading."""
    signature, contract = function(item)
    parts = [heading, fenced(signature), laid_out(docs(item)), types(shown, item, signature)]
    parts += [*([fenced(contract)] if contract else []), *listed(item, contract),
              where(item) if item.path != shown.item.path else ""]
    return "\n\n".join(filter(None, parts))


def facts(shown, methods):
    """What a page says of a type beside its docs: its model, its traits and its methods."""
    item = shown.item
    if model(item):
        yield f"In contracts its value is of the type {linked_model(shown, model(item))}."
    if traits(item):
        yield f"Implements {', '.join(f'`{it}`' for it in traits(item))}."
    if methods:
        yield f"Methods: {', '.join(f'[`{it.name}`](#{slug(method(shown, it))})' for it in methods)}."


def linked_model(shown, name):
    """The type of a model, with a link to its definition or to its item if there is one."""
    stated_in, other = meant(source("", shown.item.path), name), known(shown.item, name)
    if stated_in:
        return f"[`{name}`](../../{place(stated_in[0])}#L{stated(*stated_in)[0]})"
    return f"[`{name}`]({link(other, shown.crate)})" if other else f"`{name}`"


def method(shown, it):
    """The heading of a method."""
    return title("fn", f"{shown.name}::{it.name}")


def other_names(shown):
    """What a page says of the other names of an item."""
    if shown.others:
        yield f"Also given as {', '.join(f'`{it}`' for it in sorted(shown.others))}."
    if shown.name.rpartition("::")[2] != shown.item.name:
        yield f"Its own crate calls it `{shown.item.name}`."


def section(shown):
    """What a page has of an item."""
    item, heading = shown.item, f"### {title(shown.item.kind, shown.name)}"
    others = wrapped(" ".join(other_names(shown)))
    if item.kind == "fn":
        return "\n\n".join(filter(None, [called(shown, item, heading), others, where(item)]))
    methods = [it for it in members(item) if it.kind == "fn"]
    text = declaration(item)
    parts = [heading, fenced(text), laid_out(docs(item)), types(shown, item, text),
             *(wrapped(it) for it in facts(shown, methods))]
    parts += [*listed(item, text), others, where(item),
              *(called(shown, it, f"#### {method(shown, it)}") for it in methods)]
    return "\n\n".join(filter(None, parts))


def group(crate, own):
    """The items of a page that one crate declares, as their sources have them in order."""
    found = sorted((it for it in own if it.item.crate == crate), key=lambda it: (it.item.path, it.item.line))
    return "\n\n".join([f"## Declared in `{crate}`", *map(section, found)])


def row(crate, name, item):
    """A line of the table at the top of a page."""
    shown = homes()[item.path, item.line]
    kind = item.kind if shown.crate == crate else f"{item.kind} of `{shown.crate}`"
    return f"| [`{name}`]({link(shown, crate)}) | {kind} | {first_sentence(docs(item))} |"


def page(crate):
    """The page of a crate."""
    own = [it for it in homes().values() if it.crate == crate]
    names = sorted(given(crate).items(), key=lambda it: by_letter(it[0]))
    text = PAGE.format(
        crate=crate, made=wrapped(OPENING.format(crate, MADE)), head=laid_out(head(crate)),
        names="\n".join(row(crate, *it) for it in names),
        items="\n\n".join(group(it, own)
                          for it in sorted({it.item.crate for it in own}, key=lambda it: (it != crate, it))),
    )
    anchors = collections.Counter(slug(it) for it in re.findall(r"^#+ (.*)$", text, re.M))
    if twice := [it for it, count in anchors.items() if count > 1]:
        sys.exit(f"tools/api_pages.py: two headings of {crate} have the anchor {', '.join(twice)}")
    return text


def index():
    """The page that leads to the others."""
    crates = "\n".join(f"| [`{crate}`]({crate}.md) | {first_sentence(head(crate))} |" for crate in CRATES)
    shown = sorted(homes().values(), key=lambda it: by_letter(it.name))
    names = "\n".join(f"| [`{it.name}`]({link(it, None)}) | {it.item.kind} | `{it.crate}` |" for it in shown)
    return INDEX.format(made=MADE, crates=crates, names=names)


def pages():
    """The texts of all pages by their files."""
    return {FOLDER / "README.md": index(), **{FOLDER / f"{crate}.md": page(crate) for crate in CRATES}}


if __name__ == "__main__":
    keep_pages(__doc__, FOLDER, pages)
