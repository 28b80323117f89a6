#!/usr/bin/env python3
"""Makes docs/guarantees/edits.md: every must-fail edit, and what it leaves open in a proof.

usage: tools/edits_page.py [--check]

The first line of an edit says what it leaves open, after `# open: `. The second says the kind of wrong body that it
serves, after `# kind: `, if it serves one: there are KINDS, of each one edit of crates/*/must-fail. The crates come in
the order of crates.txt. With --check nothing is written, and the exit status is 1 if the page is not current. It is 1
as well if an edit has no first line, or a kind not one edit.
"""
import sys

import repository
from repository import ROOT, keep_page

PAGE = ROOT / "docs" / "guarantees" / "edits.md"
MARK = "# open: "
KIND = "# kind: "
KINDS = 25
HEAD = """\
# Edits that are refused

This page names every must-fail edit, and what it leaves open in a proof. It is for people who check that a contract
refuses a wrong body. `tools/edits_page.py` makes the page of the first lines of the edits: change these, and run it.

An edit turns the meaning of a crate's code. Those of `productions` in `atoms`, which has no code, are of definitions.
The prover has to refuse each. The gate tries those of `crates/NAME/must-fail`, among them one of [each kind of wrong
body](#kinds-of-wrong-bodies). The others are in `edits/NAME` ([GATE.md](../GATE.md#must-fail-edits)).

An edit is named for what it would let through. Examples are `spills_at_sixteen` in `layout`, `no_post_return` in
`adapter` and `reply_always_stops` in `witcall`. `tools/try_edits.py` tries them all, or those of the crates named, and
says of each which goal it leaves open.

On 2026-11-23 to 30 the edits of this table were tried, some before the last change of their crate. Those of
`set_rows`, `table_building`, `package_names` and `values` were tried when their code was in another crate, except
`returned_value_is_lost` and `every_name_has_the_first_place`. So were `path_version_is_lost`, `version_is_not_judged`
and `upper_case_package` of `wit_grammar`, those of `package_values`, except `bad_json_is_not_this_type` and
`fills_no_blocks`, `bytes_are_left_behind` of `c_border` and `fault_is_dropped` of `checked_packages`. The gate tries
its own over each state. `tests/edit-results` has the last result of each. What stays open is one of these:

- `read_up_to`: memory is clause `memory` of `read_up_to`.
- `is_label` alone is the one clause of `is_label`.
- loop of `push_groups` is what that loop keeps.
- A condition is what a called function requires.

"By hand": the goal was proved by hand, and the edit is refused in that answer.

| crate | what stays open | edits |
|---|---|---|
"""
OF_KINDS = """
## Kinds of wrong bodies

These are the kinds of wrong body that would break the promise or a layer below it. Each has one edit, in the crate
whose contract refuses it. The gate tries it. An edit is one body of its kind: where the kind has two sides, the other
one has an edit in the table above.

| kind | crate | edit |
|---|---|---|
"""


def edits(crate):
    """The edits of a crate by what they leave open: their names, in their order."""
    found = {}
    paths = [*(ROOT / "crates" / crate / "must-fail").glob("*.edit"), *(ROOT / "edits" / crate).glob("*.edit")]
    for path in sorted(paths, key=lambda it: it.stem):
        first = path.read_text().partition("\n")[0]
        if not first.startswith(MARK):
            sys.exit(f"tools/edits_page.py: the first line of {path.relative_to(ROOT)} doesn't begin with `{MARK}`")
        found.setdefault(first.removeprefix(MARK), []).append(path.stem)
    return found


def rows(crate):
    """The rows of a crate, in the order of the functions whose goals stay open."""
    found = edits(crate)
    for place, what in enumerate(sorted(found, key=lambda it: it.partition("`")[2] or it)):
        names = ", ".join(f"`{it}`" for it in found[what])
        yield f"| {'' if place else f'`{crate}`'} | {what} | {names} |".replace("|  |", "| |")


def kinds(crates):
    """The rows of the kinds. Stops if they are not KINDS, each with one edit that the gate tries."""
    found = []
    for path, crate in sorted(repository.edits(), key=lambda it: (crates.index(it[1]), it[0].stem)):
        second = path.read_text().split("\n")[1]
        if second.startswith(KIND):
            found.append((second.removeprefix(KIND), crate, path))
    if len(found) != KINDS or len({kind for kind, *_ in found}) != KINDS:
        sys.exit(f"tools/edits_page.py: {len(found)} edits have a kind, and there are {KINDS} kinds with one edit each")
    lost = [path for *_, path in found if path.parent.name != "must-fail"]
    if lost:
        sys.exit(f"tools/edits_page.py: the gate does not try {lost[0].relative_to(ROOT)}, which has a kind")
    return [f"| {kind} | `{crate}` | `{path.stem}` |" for kind, crate, path in found]


def page():
    """The page's text. Stops if edits/ has a folder of no crate."""
    crates = list(repository.crates())
    lost = {it.name for it in (ROOT / "edits").iterdir()} - set(crates)
    if lost:
        sys.exit(f"tools/edits_page.py: no crate of crates.txt: {', '.join(sorted(lost))}")
    table = "".join(f"{row}\n" for crate in crates for row in rows(crate))
    return HEAD + table + OF_KINDS + "".join(f"{row}\n" for row in kinds(crates))


if __name__ == "__main__":
    keep_page(__doc__, PAGE, page)
