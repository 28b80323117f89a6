#!/usr/bin/env python3
"""Makes docs/DEFINITIONS.md: the definitions that state what is promised, each with what its comment says, and how many
lines one answer rests on.

usage: tools/definitions_page.py [--check]

What a file and a definition say are the comments of crates/*/specs, and what a law says the docs of
crates/canonical_abi/src/laws.rt. Lines are counted as tools/believed.py does. docs/definition-facts.txt has the parts
of the page and what the comments lack; its head says how. With --check nothing is written, and the exit status is 1 if
the page is not current. It is 1 as well if a line is of no file, definition or law, if a crate with definitions is in
no part, and if a crate of which lines are to be believed is in no subject, or is in two.
"""
import collections
import functools
import re
import sys

import believed
from api_pages import docs, stated
from check_numbers import THEOREM, found_in_examples
from crates_page import wrapped
from public_items import items
from repository import ROOT, keep_page, place

PAGE = ROOT / "docs" / "DEFINITIONS.md"
FACTS = ROOT / "docs" / "definition-facts.txt"
LAWS = ROOT / "crates" / "canonical_abi" / "src" / "laws.rt"
# the two clauses of the promise
BOTH = ["opening/set.rt:open_set", "witcall/session.rt:call"]
# the two clauses of these that say what an answer is
TWO = ["opening/set.rt:open_set:ok", "witcall/session.rt:call:promise"]
# the same over tame guests
LIVE = [TWO[0], f"{TWO[1]}_live"]
# a set told by names, and as its table is made
TOLD, MADE = "opening/specs/ToldSet:IsToldSetOf", "opening/specs/Sets:IsSetOf"
NAME = re.compile(r"(?!infix)[A-Za-z_]\w*")
MODULE = re.compile(r"^(?:pub )?mod (\w+)", re.M)
# a section of the standard in a comment, and one that begins a comment
SECTION = re.compile(r"(CanonicalABI|WIT|Binary)\.md,? (\"[^\"]+\"(?:(?:,| and|, and) \"[^\"]+\")*)")
QUOTED = re.compile(r"\"[^\"]+\"")
BEGINS = re.compile(r"^((?:and )?(?:CanonicalABI|WIT|Binary)\.md(?:(?:,| and) ?\"[^\"]+\")*(?: \([^)]*\))?"
                    r"(?:, and |, (?=[a-z])|: ))+")
HEAD = """\
# Definitions

This page lists the definitions that state everything witcall promises. It is for readers who check whether they restate
the standard: you have to believe these, and the prover checks all else against them. `tools/definitions_page.py` makes
it of the comments of `crates/*/specs` and of `docs/definition-facts.txt`: change these, and run it.

Each definition is short, uses the terms of the component model, and is no copy of a loop. Its numbers have no width, so
nothing wraps.

- **says** is what the comment in the source says, and after it what the comment lacks.
- **serves** names a part of [the promise](PROMISE.md#the-promises): **safe and total**, **exact layers**,
  **the headline**, **only values cross**, **held stays held**. "all" is all of them.
- **tested by** names worked examples, and laws that would fail. The examples are theorems that compute, so a wrong
  definition does not check. Those of `canonical_abi` are in `crates/canonical_abi/proofs/`, in the files whose names
  end in `Examples`. Those of other crates are [below](#examples-of-definitions).
- **restates** names sections of the standard.

## What one answer rests on

`witcall call` prints an answer, such as `8`. Two statements say what it means: `IsToldSetOf` of what was opened (law
`sets_are_told`), and the contract of `witcall::Session::call`. They cite definitions, and these cite others. All of
them have to be right. The rest of the repository is proved against them.

`tools/believed.py` follows the names and counts: {lines:,} lines in {definitions:,} definitions, without comments.

| subject | crates | lines |
|---|---|---|
{subjects}

- `tools/believed.py --names` prints each definition with its lines.
{clauses}
- Attributes and invariants of structs are not counted. A clause speaks of fields. What is true of each value besides is
  proved.
"""
CALLS = """`tools/believed.py {}` prints what the contracts of both calls need, which also say how the table of a set is
made and why inputs are refused: {:,} lines."""
CLAUSES = """`tools/believed.py {}` prints what these two clauses alone need: {:,} lines. With `promise_live`, which is over
tame memories, in place of `promise` it is {:,}. The others say that there is no second answer, why inputs are refused,
and which steps a call takes."""
SETS = """`tools/believed.py {}` prints what a set rests on that is told by names: {:,} lines. As the table is made (`{}`) it
is {:,}."""
LAWS_HEAD = """\
## Laws

Laws are contracts of public functions with empty bodies (`crates/canonical_abi/src/laws.rt`). Those that are generic
over a guest hold for every guest, with honesty as their premise unless they say otherwise.

| law | says |
|---|---|
"""
WRONG_HEAD = """\
## Wrong definitions

The table shows what a wrong definition would say, and what refuses it.

| wrong definition | definition | refused by |
|---|---|---|
"""
EXAMPLES_HEAD = """\
## Examples of definitions

These are examples that hold, and examples that must not, of the definitions of other crates.

- Each example is a theorem that computes, in `crates/NAME/proofs/Examples.antt`. If a definition changes what it says
  of an example, the check of the crate fails.
- Expected answers were taken from the rules of the standard and counted by hand. None was printed by a definition.
- `package_sets` and `package_adding` have none of their own. The rows `sets.rows` of `rows_texts`, which are run, are
  examples of what they say.
- One example often serves many definitions. An empty cell means that an equation holds, and refuses every other value.

| crates | examples | restate |
|---|---|---|
"""
EXAMPLE_HEADS = "| definition | says | example that holds | example that must not |\n|---|---|---|---|\n"
TRIED_HEAD = """\
### Wrong definitions that were tried

Each was tried once, one at a time, in a copy of its crate. Every one is refused by an example. The gate does not try
them again.

| crate | wrong definitions | refused by the examples |
|---|---|---|
"""

# a part of the page: its title, its crates, and of files and definitions what the comments lack
Part = collections.namedtuple("Part", "title crates files definitions")


def stop(fault):
    """Ends with what is wrong with docs/definition-facts.txt."""
    sys.exit(f"tools/definitions_page.py: {place(FACTS)}: {fault}")


def cells(line, count):
    """The cells of a line, of which those at the end may be left out."""
    found = [it.strip() for it in line.split("|")]
    return [*found, *[""] * (count - len(found))]


class Facts:
    """What docs/definition-facts.txt has."""

    def __init__(self):
        self.parts, self.subjects, self.laws, self.wrong, self.end = [], {}, {}, [], []
        self.examples, self.tried, self.file = [], [], None
        for line in FACTS.read_text().splitlines():
            if line.strip() and not line.startswith("#"):
                self.keep(line[0], line[1:].strip(), line)

    def keep(self, mark, text, line):
        """Keeps a line by the mark that begins it."""
        if mark == "=":
            title, _, crates = text.rpartition(": ")
            self.parts.append(Part(title, crates.split(), {}, {}))
        elif mark == "&":
            title, _, crates = text.rpartition(": ")
            self.subjects[title] = crates.split()
        elif mark == "@":
            self.file = self.parts[-1].definitions.setdefault(text, {})
        elif mark == "!":
            names, sentences = cells(text, 2)
            self.laws.update({name: sentences for name in names.split()})
        elif mark == "~":
            self.wrong.append(f"| {text} |")
        elif mark == "%":
            crates, restates = cells(text, 2)
            self.examples.append((crates.split(), restates, [], []))
        elif mark == "+":
            self.examples[-1][2].append(row(*cells(text, 4)))
        elif mark == "-":
            self.examples[-1][3].append(wrapped(text))
        elif mark == "^":
            crate, *rest = cells(text, 3)
            self.tried.append(row(f"`{crate}`" if crate else "", *rest))
        elif mark == ">":
            self.end.append(line[2:])
        elif "/" in line.partition("|")[0]:
            name, sections, sentences = cells(line, 3)
            self.parts[-1].files[name] = sections, sentences
        else:
            names, *rest = cells(line, 4)
            self.file.update({name: rest for name in names.split()})


@functools.lru_cache(None)
def files():
    """Each file with its definitions, by its module's name."""
    return believed.files()


@functools.lru_cache(None)
def definitions():
    """The files of definitions by their crates and names, as `tables/Closed`."""
    found = ((path, path.parent.parent.name) for path in (it.path for it in files().values()) if path.suffix == ".antt")
    return {f"{crate}/{path.stem}": path for path, crate in found if path.stem != "Lib"}


def files_of(crate):
    """The files of a crate's definitions, in the order of its Lib.antt."""
    own = [name for name in definitions() if name.startswith(f"{crate}/")]
    order = MODULE.findall((ROOT / "crates" / crate / "specs" / "Lib.antt").read_text()) if own else []
    return sorted(own,
                  key=lambda it: order.index(it.partition("/")[2]) if it.partition("/")[2] in order else len(order))


def head(path):
    """The comment at the head of a file."""
    lines = path.read_text().split("\n")
    end = next((number for number, line in enumerate(lines) if not line.startswith("--")), len(lines))
    return " ".join(line[2:].strip() for line in lines[:end])


def sections(text):
    """The sections of the standard that a comment names."""
    return "; ".join(f"{found[1]}.md {', '.join(QUOTED.findall(found[2]))}" for found in SECTION.finditer(text))


def joined(comment, sentences):
    """A comment and sentences, as a cell."""
    text = f"{comment.removesuffix('.')}. {sentences}" if comment and sentences else comment or sentences
    return text.replace("|", "\\|")


def row(*found):
    """A line of a table, whose empty cells have no blanks."""
    return "".join(f"| {it} " if it else "| " for it in found) + "|"


def table_of_definitions(name, known):
    """The table of the definitions of a file that docs/definition-facts.txt has, and the names of the others."""
    path, order = definitions()[name], list(files()[module(name)].definitions)
    lost = [it for it in known if it not in order]
    if lost:
        stop(f"{name} has no definition {', '.join(lost)}")
    rows = [row(f"`{it}`", joined(stated(path, it)[1], known[it][2]), known[it][0], known[it][1])
            for it in order if it in known]
    others = ", ".join(f"`{it}`" for it in order if it not in known and NAME.fullmatch(it))
    has_tests = any(cell for it in known.values() for cell in it[:2])
    rows = rows if has_tests else [re.sub(r"\| \| \|$", "|", it) for it in rows]
    tested = " serves | tested by |\n|---|---|---|---|\n" if has_tests else "\n|---|---|\n"
    heads = f"| definition | says |{tested}"
    return heads + "\n".join(rows) + (f"\n\n{wrapped(f'Its other names: {others}.')}" if others else "")


def module(name):
    """The module of a file."""
    crate, _, own = name.partition("/")
    return f"Rattle.{crate}.specs.{own}"


def files_with_tables(part):
    """The sections of the files of which definitions are listed."""
    for crate in part.crates:
        for name in (it for it in files_of(crate) if it in part.definitions):
            more = part.files.get(name, ("", ""))
            title = f"### `{name}`" if len(part.crates) > 1 else f"### `{name.partition('/')[2]}`"
            says = joined(head(definitions()[name]),
                          " ".join(it for it in (more[1], f"It restates {more[0]}." if more[0] else "") if it))
            table = table_of_definitions(name, part.definitions[name])
            yield f"{title}\n\n{wrapped(says.replace(chr(92), ''))}\n\n{table}"


def table_of_files(part):
    """The table of the other files of a part."""
    rows = []
    for crate in part.crates:
        for name in (it for it in files_of(crate) if it not in part.definitions):
            comment, more = head(definitions()[name]), part.files.get(name, ("", ""))
            restates = "; ".join(it for it in (sections(comment), more[0]) if it)
            says = joined(BEGINS.sub("", comment), more[1])
            rows.append(row(f"`{name}`", says[:1].upper() + says[1:], restates))
    return "| file | says | restates |\n|---|---|---|\n" + "\n".join(rows) if rows else ""


def text_of(part):
    """The section of a part."""
    unknown = [it for it in (*part.files, *part.definitions)
               if it not in definitions() or it.partition("/")[0] not in part.crates]
    if unknown:
        stop(f"no files of {part.title}: {', '.join(unknown)}")
    return "\n\n".join(it for it in (f"## {part.title}", table_of_files(part), *files_with_tables(part)) if it)


def laws(facts):
    """The table of laws."""
    found = [it for it in items(LAWS) if it.kind == "fn" and it.public]
    lost = set(facts.laws) - {it.name for it in found}
    if lost:
        stop(f"no laws: {', '.join(sorted(lost))}")
    return LAWS_HEAD + "\n".join(row(f"`{it.name}`", joined(" ".join(docs(it)), facts.laws.get(it.name, "")))
                                 for it in found)


def examples(facts):
    """The tables of examples, and how many there are of the crates that restate the same."""
    there, groups = found_in_examples(THEOREM), collections.defaultdict(list)
    for crates, restates, _, _ in facts.examples:
        groups[restates] += crates
    heads = "\n".join(row(", ".join(f"`{it}`" for it in crates), str(sum(len(there[it]) for it in crates)), restates)
                      for restates, crates in groups.items())
    tables = ("\n\n".join([f"### {', '.join(f'`{it}`' for it in crates)}", EXAMPLE_HEADS + "\n".join(rows), *notes])
              for crates, _, rows, notes in facts.examples)
    return "\n\n".join([EXAMPLES_HEAD + heads, *tables, TRIED_HEAD + "\n".join(facts.tried)])


def subjects(facts, lines):
    """The rows of the table of lines to believe."""
    crates = [crate for names in facts.subjects.values() for crate in names]
    wrong = {it for it in (*crates, *lines) if crates.count(it) != 1}
    if wrong:
        stop(f"not in one subject: {', '.join(sorted(wrong))}")
    return "\n".join(row(title, ", ".join(f"`{it}`" for it in names), f"{sum(lines[it] for it in names):,}")
                     for title, names in facts.subjects.items())


def page():
    """The page's text."""
    facts = Facts()
    lost = {it.partition("/")[0] for it in definitions()} - {crate for part in facts.parts for crate in part.crates}
    if lost:
        stop(f"in no part: {', '.join(sorted(lost))}")
    count = lambda places: sum(len(files()[it].definitions[name]) for it, name in places)  # noqa: E731
    found, lines = believed.believed(files(), believed.CALLS), collections.Counter()
    for it, name in found:
        lines[it.split(".")[1]] += len(files()[it].definitions[name])
    needs = lambda *items: count(believed.believed(files(), items))  # noqa: E731
    said = (CALLS.format(" ".join(BOTH), needs(*BOTH)), CLAUSES.format(" ".join(TWO), needs(*TWO), needs(*LIVE)),
            SETS.format(TOLD, needs(TOLD), MADE, needs(MADE)))
    begin = HEAD.format(lines=count(found), definitions=len(found), subjects=subjects(facts, lines),
                        clauses="\n".join(wrapped(" ".join(it.split()), "- ", "  ") for it in said))
    first, *others = facts.parts
    middle = [text_of(first), laws(facts), WRONG_HEAD + "\n".join(facts.wrong), *map(text_of, others), examples(facts)]
    return "\n\n".join([begin.strip(), *middle, "\n".join(facts.end)]) + "\n"


if __name__ == "__main__":
    keep_page(__doc__, PAGE, page)
