#!/usr/bin/env python3
"""Checks the documents that `witcall_describe` writes: of every package in examples/, of some with hard names and of
random ones.

usage: tools/check_document.py [--models] [N [SEED]]      N random packages or sets, 200 if it is not given

Each document is that of the models (tools/models/documents.py), and follows the schema docs/package.schema.json. The
schema refuses the document with a member left out, with one more, and with a number in the place of another value. The
library is that of WITCALL_LIBRARY, or the released one. With --models the documents of the models alone are held
against the schema, and no library is needed.

It prints each package that fails, and a line with the numbers of all. The exit status is 1 if one fails.
"""
import argparse
import copy
import itertools
import json
import pathlib
import re
import sys
import tempfile

ROOT = pathlib.Path(__file__).resolve().parent.parent
sys.path[:0] = [str(ROOT), str(ROOT / "bindings" / "python")]

from tools.check_bindings import packages_of  # noqa: E402
from tools.models.documents import document  # noqa: E402

SCHEMA = ROOT / "docs" / "package.schema.json"
TYPES = {"object": dict, "array": list, "string": str, "integer": int, "null": type(None)}
WORDS = {"$schema", "$defs", "title", "description"}
# rows of every kind, parameters and a result in memory, and both kinds of a world's items
EVERY_KIND = """package a:b@1.0.0;
interface c {
  record r { x: u8, y: list<string> }
  variant v { one, two(option<r>) }
  enum e { one, two }
  flags f { one, two }
  type alias = r;
  g: func(a: tuple<r, r, r, r, r, r>, b: result<_, e>) -> v;
}
world w { import c; export h: func(x: u64); }
"""


class Fault(Exception):
    """Where a document is not as it has to be."""


# ---- the schema


def is_of_type(value, wanted):
    """Whether a value is of a type; a bool is no integer."""
    return isinstance(value, TYPES[wanted]) and not (wanted == "integer" and isinstance(value, bool))


# words that look at a value alone: whether it is as they want it, and what is told if it isn't
PLAIN = {
    "type": (is_of_type, "no {}"),
    "enum": (lambda value, wanted: any(type(it) is type(value) and it == value for it in wanted), "none of {}"),
    "const": (lambda value, wanted: value == wanted, "not {}"),
    "pattern": (lambda value, wanted: not isinstance(value, str) or re.search(wanted, value), "not of {}"),
    "minimum": (lambda value, wanted: not isinstance(value, int) or value >= wanted, "below {}"),
    "minItems": (lambda value, wanted: not isinstance(value, list) or len(value) >= wanted, "fewer than {}"),
    "maxItems": (lambda value, wanted: not isinstance(value, list) or len(value) <= wanted, "more than {}"),
}


class Schema:
    """As much of JSON Schema as docs/package.schema.json has."""

    def __init__(self, schema):
        self.schema = schema

    def faults(self, value, path="", schema=None):
        """What is wrong with a value. A word of the schema that is not known here is an error."""
        schema = self.schema if schema is None else schema
        for word, wanted in schema.items():
            if word in PLAIN:
                holds, told = PLAIN[word]
                yield from [] if holds(value, wanted) else [f"{path or 'the document'}: {told.format(wanted)}"]
            elif word == "$ref":
                yield from self.faults(value, path, self.schema["$defs"][wanted.removeprefix("#/$defs/")])
            elif word == "oneOf":
                yield from self.faults_of_one(value, path, wanted)
            elif word == "items":
                for place, item in enumerate(value if isinstance(value, list) else []):
                    yield from self.faults(item, f"{path}[{place}]", wanted)
            elif word in ("required", "properties", "additionalProperties"):
                yield from self.faults_of_members(value, path, word, schema)
            elif word not in WORDS:
                raise KeyError(word)

    def faults_of_members(self, value, path, word, schema):
        """What is wrong with the members of an object, by one of the words about them."""
        members, wanted = value if isinstance(value, dict) else {}, schema[word]
        if word == "required" and isinstance(value, dict):
            yield from (f"{path or 'the document'}: no {key}" for key in wanted if key not in members)
        elif word == "properties":
            for key in wanted:
                yield from self.faults(members[key], f"{path}.{key}", wanted[key]) if key in members else []
        elif word == "additionalProperties" and wanted is False:
            more = sorted(set(members) - set(schema["properties"]))
            yield from [f"{path or 'the document'}: also {more}"] if more else []

    def faults_of_one(self, value, path, forms):
        """What is wrong if a value isn't of one form alone: the first fault of each."""
        first = [next(self.faults(value, path, schema), None) for schema in forms]
        if first.count(None) != 1:
            yield f"{path}: " + (" and ".join(filter(None, first)) if None not in first else "more than one form")

    def test(self, value):
        """Raises the first fault of a value."""
        for fault in self.faults(value):
            raise Fault(fault)


# ---- documents


def objects(value):
    """Each object within a value."""
    if isinstance(value, dict):
        yield value
        value = list(value.values())
    for item in value if isinstance(value, list) else []:
        yield from objects(item)


def changed(told):
    """Documents with one change each, which follow the schema no more: one object of each form is changed."""
    forms = set()
    for place, it in enumerate(objects(told)):
        for key in it:
            if (form := (it.get("kind"), *it, key)) in forms:
                continue
            forms.add(form)
            for change in ("left out", "more", "another"):
                other = copy.deepcopy(told)
                target = next(itertools.islice(objects(other), place, None))
                if change == "more":
                    target["more"] = target[key]
                elif change == "another":
                    target[key] = -1
                else:
                    del target[key]
                yield f"{key} {change}", other


def first_difference(told, wanted, path=""):
    """The first place in which two values differ, in words; none if they are the same."""
    if type(told) is not type(wanted):
        return f"{path}: {told!r} and not {wanted!r}"
    if isinstance(told, dict) and list(told) == list(wanted):
        pairs = [(f"{path}.{key}", told[key], wanted[key]) for key in wanted]
    elif isinstance(told, list) and len(told) == len(wanted):
        pairs = [(f"{path}[{place}]", *it) for place, it in enumerate(zip(told, wanted))]
    else:
        return None if told == wanted else f"{path}: {told!r} and not {wanted!r}"
    return next((found for name, a, b in pairs if (found := first_difference(a, b, name))), None)


def described(inputs):
    """The document that the library writes of a set of texts."""
    import witcall

    with witcall.open(*inputs) as package:
        return package.told("witcall_describe").decode()


def check(schema, texts, with_library):
    """Checks one set: how many rows it has."""
    wanted = document(texts)
    schema.test(wanted)
    if with_library:
        text = described(texts)
        told = json.loads(text)
        difference = first_difference(told, wanted)
        if difference or text != json.dumps(told, separators=(",", ":")):
            raise Fault(difference or "not compact")
    return len(wanted["rows"])


def check_schema(schema):
    """The schema refuses each change of a document that has every kind of row: how many there are."""
    changes = list(changed(document([EVERY_KIND])))
    for name, other in changes:
        if not any(schema.faults(other)):
            raise Fault(f"{name}: the schema takes it")
    return len(changes)


def library():
    """Has the package for Python load the library of the release, if no other is named."""
    import bindings.python.tests  # noqa: F401


def main():
    """Checks all packages."""
    parser = argparse.ArgumentParser(usage="tools/check_document.py [--models] [N [SEED]]", allow_abbrev=False)
    parser.add_argument("--models", action="store_true")
    parser.add_argument("count", nargs="?", type=int, default=200)
    parser.add_argument("seed", nargs="?", default="1")
    words = parser.parse_args()
    if not words.models:
        library()
    schema = Schema(json.loads(SCHEMA.read_text(encoding="utf-8")))
    rows, faults, sets = 0, 0, 0
    with tempfile.TemporaryDirectory() as name:
        for title, files in packages_of(words.count, words.seed, pathlib.Path(name)):
            sets += 1
            try:
                rows += check(schema, [it.read_text(encoding="utf-8") for it in files], not words.models)
            except Fault as fault:
                faults += 1
                print(f"FAILED {title}: {fault}")
    changes = check_schema(schema)
    print(f"{sets} packages, {rows} rows compared, {changes} changes refused, {faults} failed")
    sys.exit(1 if faults else 0)


if __name__ == "__main__":
    main()
