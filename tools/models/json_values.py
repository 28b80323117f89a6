"""Values as JSON, by the section of docs/FORMATS.md on JSON: texts are read and written as `serde_json` does."""
import json
import math

from .abi import Flags, List, Record, Scalar, String
from .crossing import SIGNED
from .faults import Refused

BAD_JSON = "61 bad JSON"
NOT_THIS_TYPE = "62 not this type"
MOST_NESTING = 127


# ---- texts


def fraction(text):
    """A number that isn't whole."""
    number = float(text)
    if math.isinf(number):
        raise Refused(BAD_JSON)
    return number


def whole(text):
    """A whole number; one that 64 bits don't hold, and -0, are none."""
    if text == "-0" or len(text) > 20:
        return fraction(text)
    number = int(text)
    return number if -(1 << 63) <= number < 1 << 64 else fraction(text)


def bad_constant(_text):
    """What Python reads beyond JSON."""
    raise Refused(BAD_JSON)


class Pairs(tuple):
    """An object: its keys with their values, of which none is lost."""


def parts_of(tree):
    """The elements of an array, or the keys and values of an object."""
    return tree if isinstance(tree, list) else [part for pair in tree for part in pair]


def test_tree(tree, nesting=0):
    """Refuses lone surrogates, and what nests too deep."""
    if isinstance(tree, str) and any(0xD800 <= ord(character) < 0xE000 for character in tree):
        raise Refused(BAD_JSON)
    if isinstance(tree, (list, Pairs)):
        if nesting == MOST_NESTING:
            raise Refused(BAD_JSON)
        for part in parts_of(tree):
            test_tree(part, nesting + 1)


def plain(tree):
    """A tree with its objects as dictionaries, in which the last of equal keys counts."""
    if isinstance(tree, Pairs):
        return {key: plain(value) for key, value in tree}
    return [plain(item) for item in tree] if isinstance(tree, list) else tree


def parsed(text):
    """The JSON value of a text."""
    try:
        tree = json.loads(text, parse_int=whole, parse_float=fraction, parse_constant=bad_constant,
                          object_pairs_hook=Pairs)
    except (ValueError, RecursionError):
        raise Refused(BAD_JSON) from None
    test_tree(tree)
    return plain(tree)


def written(value):
    """The canonical text of a JSON value."""
    return json.dumps(value, ensure_ascii=False, separators=(",", ":"), sort_keys=True)


# ---- values


def expect(condition):
    """Refuses a JSON value that is none of the type."""
    if not condition:
        raise Refused(NOT_THIS_TYPE)


def scalar_of(t, form):
    """A bool, a number or a char."""
    if t.word == "bool":
        expect(isinstance(form, bool))
    elif t.word == "char":
        expect(isinstance(form, str) and len(form) == 1)
    else:
        least = -(1 << 8 * t.size - 1) if t.word in SIGNED else 0
        expect(type(form) is int and least <= form < least + (1 << 8 * t.size))
    return form


def flags_of(t, form):
    """The bits of flags, whose labels have to stand in their order."""
    expect(isinstance(form, list))
    places = [t.labels.index(label) if label in t.labels else -1 for label in form]
    expect(all(before < place for before, place in zip([-1, *places], places)))
    return sum(1 << place for place in places)


def record_of(t, form):
    """The fields of a record, or of a tuple."""
    if t.labels is None:
        expect(isinstance(form, list) and len(form) == len(t.fields))
        return tuple(map(value_of, t.fields, form))
    expect(isinstance(form, dict) and form.keys() == set(t.labels))
    return tuple(value_of(field, form[label]) for label, field in zip(t.labels, t.fields))


def variant_of(t, form):
    """A case with its payload."""
    expect(isinstance(form, str) or isinstance(form, dict) and len(form) == 1)
    label, payload = (form, None) if isinstance(form, str) else next(iter(form.items()))
    expect(label in t.labels)
    case = t.labels.index(label)
    expect((t.payloads[case] is None) == isinstance(form, str))
    return case, None if isinstance(form, str) else value_of(t.payloads[case], payload)


def value_of(t, form):
    """The value of this type that a JSON value says."""
    if isinstance(t, Scalar):
        return scalar_of(t, form)
    if isinstance(t, String):
        expect(isinstance(form, str))
        return form
    if isinstance(t, List):
        expect(isinstance(form, list))
        return [value_of(t.element, item) for item in form]
    if isinstance(t, Flags):
        return flags_of(t, form)
    return record_of(t, form) if isinstance(t, Record) else variant_of(t, form)


def form_of(t, value):
    """The JSON value of a value."""
    if isinstance(t, (Scalar, String)):
        return value
    if isinstance(t, List):
        return [form_of(t.element, item) for item in value]
    if isinstance(t, Flags):
        return [label for place, label in enumerate(t.labels) if value >> place & 1]
    if isinstance(t, Record):
        forms = list(map(form_of, t.fields, value))
        return forms if t.labels is None else dict(zip(t.labels, forms))
    case, payload = value
    return t.labels[case] if t.payloads[case] is None else {t.labels[case]: form_of(t.payloads[case], payload)}


def read(t, text):
    """The value of this type that a text says."""
    return value_of(t, parsed(text))


def write(t, value):
    """The canonical text of a value."""
    return written(form_of(t, value))


def arguments(function, text):
    """The arguments that a text says: an array of as many as there are parameters."""
    forms = parsed(text)
    expect(isinstance(forms, list) and len(forms) == len(function.params.fields))
    return tuple(map(value_of, function.params.fields, forms))


def reply(function, text):
    """The result that a text says: an array of one value, or None of an empty one."""
    forms, results = parsed(text), [] if function.result is None else [function.result]
    expect(isinstance(forms, list) and len(forms) == len(results))
    return value_of(results[0], forms[0]) if results else None
