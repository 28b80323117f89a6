"""The faults that tools/planted.py plants: of each what it is, the check that has to notice it, and the changes.

A change names a file from the top of the checkout. Its pattern is a regular expression with `^` and `$` at lines, of
which the first place is changed. Faults of one check stand together.
"""
import re
from dataclasses import dataclass


@dataclass(frozen=True)
class Swap:
    """A change of a text: the first place of a pattern becomes another text, which may have groups of the pattern."""

    path: str
    pattern: str
    new: str = ""

    def make(self, folder):
        """Makes the change in a folder. Returns whether it changed something."""
        file = folder / self.path
        before = file.read_text() if file.is_file() else ""
        after = re.sub(self.pattern, self.new, before, count=1, flags=re.M)
        if after == before:
            return False
        file.write_text(after)
        return True


@dataclass(frozen=True)
class Gone:
    """A file that is deleted."""

    path: str

    def make(self, folder):
        """Deletes the file. Returns whether it was there."""
        is_there = (folder / self.path).is_file()
        (folder / self.path).unlink(missing_ok=True)
        return is_there


@dataclass(frozen=True)
class Added:
    """A file that is added, or grows by a text."""

    path: str
    text: str

    def make(self, folder):
        """Adds the text."""
        with (folder / self.path).open("a") as file:
            file.write(self.text)
        return True


@dataclass(frozen=True)
class Byte:
    """A byte in the middle of a file, of which one bit is turned."""

    path: str

    def make(self, folder):
        """Turns the bit. Returns whether the file was there."""
        file = folder / self.path
        data = bytearray(file.read_bytes() if file.is_file() else b"")
        if data:
            data[len(data) // 2] ^= 1
            file.write_bytes(data)
        return bool(data)


@dataclass(frozen=True)
class Fault:
    """A fault: its name, its changes, and what names it in a line of its check. It may be committed."""

    check: str
    name: str
    changes: tuple
    told: str
    is_committed: bool = False


def of(check, *faults):
    """The faults of a check. What names one is the path that it changes first, if it states no word."""
    for name, changes, *told in faults:
        changes = changes if isinstance(changes, tuple) else (changes,)
        yield Fault(check, name, changes, told[0] if told else changes[0].path)


EXAMPLES, ERRORS, FORMATS, PROMISE = (f"docs/{it}.md" for it in ("EXAMPLES", "ERRORS", "FORMATS", "PROMISE"))
GATE, DECISIONS, DEFINITIONS, CRATES = (f"docs/{it}.md" for it in ("GATE", "DECISIONS", "DEFINITIONS", "CRATES"))
CALLS, EDITS, TESTS = (f"docs/guarantees/{it}.md" for it in ("calls", "edits", "tests"))
HEADER, README, FACTS = "include/witcall.h", "README.md", "docs/page-facts.txt"
TEST, NAMES, RESULTS, SURFACE = "tools/test.sh", "tests/names", "tests/edit-results", "tools/surface.txt"
VECTORS, TEXTS, CHANGED = "crates/vectors/stdin", "crates/vectors/data/texts.rows", "crates/vectors/data/changes.rows"
ERROR_ROWS, ANSWERS = "crates/vectors/data/errors.rows", "crates/vectors/stdout"
AN_EDIT, SPILLS = "edits/layout/spills_at_sixteen.edit", "spills_at_sixteen"
COMMITTED = Fault(
    "tools/check_release.sh", "a file of the release is changed in a commit that leaves VERSION",
    (Added("release/toolchain", "another\n"),), "in a commit that did not change VERSION", is_committed=True)

FAULTS = (
    *of("tools/page_facts.py --check",
        ("a `not` is gone from PROMISE", Swap(PROMISE, r"\bnot "), FACTS),
        ("a clause that PROMISE names says less",
         Swap("crates/witcall/src/session.rt", r"runs = B\.runs body\.old;", "runs = B.posts body.old;"), FACTS),
        ("a sentence is gone from PROMISE", Swap(PROMISE, r"^- The caller lifts exactly its answer\.\n"), FACTS),
        ("words outside backquotes of EXAMPLES are others", Swap(EXAMPLES, "which is negative", "which is not"), FACTS),
        ("answers of EXAMPLES are in another order",
         Swap(EXAMPLES, "2 overlong; 1 truncated", "1 truncated; 2 overlong"), FACTS),
        ("a row that EXAMPLES names has another answer",
         Swap(TEXTS, "(^names-6: .* => error) 42 cycle", r"\1 43 empty package"), FACTS),
        ("a cause in ERRORS is another", Swap(ERRORS, "The bytes end before", "The bytes end after"), FACTS),
        ("what FORMATS says of an offset is another",
         Swap(FORMATS, "at the id: no section", "after the id: no section"), FACTS),
        ("a `not` is gone from STANDARD", Swap("docs/STANDARD.md", r"\bnot "), FACTS),
        ("a `no` is gone from what is guaranteed of calls", Swap(CALLS, r"\bno (?=live byte)", "a "), FACTS)),
    *of("tools/check_formats.py",
        ("an opcode of FORMATS is another", Swap(FORMATS, "char `74`", "char `75`"), "primitives"),
        ("a type's opcode is another", Swap(FORMATS, r"^\| option \| `6b`", "| option | `6c`"), "types"),
        ("the number of a section is another", Swap(FORMATS, "11 export", "10 export"), "sections"),
        ("the order of errors is turned", Swap(FORMATS, "43, 48, 40, 47", "43, 40, 48, 47"), "the order of errors"),
        ("a limit of binaries is another", Swap(FORMATS, "At most 4 component", "At most 5 component"), "At most"),
        ("an exit status of FORMATS is another",
         Swap(FORMATS, "0 done, 1 refused", "1 done, 0 refused"), "exit statuses"),
        ("a thing takes another number of type entries", Swap(FORMATS, r"^\| a used name \| 3", "| a used name | 2"),
         "type entries"),
        ("the words of an error in FORMATS are others", Swap(FORMATS, "`size mismatch`", "`bad size`"), "18"),
        ("a feature of 33 is gone", Swap(FORMATS, r"^\| `stream`, `future`", "| `stream`"), "features"),
        ("an exit status of ERRORS is another",
         Swap(ERRORS, "2 for words that are no", "1 for words that are no"), "exit statuses on docs/ERRORS.md"),
        ("a line is gone from ERRORS", Swap(ERRORS, r"^\| `error 19 .*\n"), "no line of 19"),
        ("the words of a line in ERRORS are others", Swap(ERRORS, "error 22 bad name", "error 22 bad label"), "22"),
        ("the word of a trap's kind is another", Swap(ERRORS, "trap K4 bounds", "trap K4 range"), "kinds")),
    *of("tools/check_header.py",
        ("a field of a struct of C is wider", Swap(HEADER, r"^    uint32_t is_open;", "    uint64_t is_open;"),
         "witcall_package"),
        ("two fields of a struct are exchanged",
         Swap(HEADER, r"^    uint32_t align;\n    uint32_t size;\n", "    uint32_t size;\n    uint32_t align;\n"),
         "witcall_request"),
        ("a parameter of C lost its const", Swap(HEADER, r"witcall_open\(const uint8_t \*", "witcall_open(uint8_t *"),
         "witcall_open"),
        ("an error of C has the number of another", Swap(HEADER, "NO_ROOM 71", "NO_ROOM 72"), "NO_ROOM"),
        ("C is told of fewer core values", Swap(HEADER, "MAX_VALUES 17", "MAX_VALUES 16"), "MAX_VALUES")),
    *of("tools/version.py",
        ("VERSION changes alone", Swap("VERSION", r"^(\d+)\.\d+", r"\1.99"), "CHANGELOG.md"),
        ("README names another toolchain", Swap(README, r"`rattle-kit-\w+ ", "`rattle-kit-0 "), README),
        ("the header declares another binary interface", Swap(HEADER, r"WITCALL_ABI \d+", "WITCALL_ABI 99"))),
    *of("tools/check_release.sh",
        ("a byte of a released file is another", Byte("release/libwitcall.so.gz"), "libwitcall.so"),
        ("a sum of the release is another", Swap("release/SHA256SUMS", "^[0-9a-f]{8}", "00000000"), "SHA256SUMS"),
        ("a released file is gone", Gone("release/witcall.wasm.gz"), "other files")),
    COMMITTED,
    *of("tools/test.sh --only copies",
        ("an example is another than its stored copy", Swap("examples/c.wit", "u32", "u64"))),
    *of("tools/stored_names.py --check",
        ("a part is taken out of tools/test.sh", Swap(TEST, " snippets fuzz", " fuzz")),
        ("a script is taken out of `pages`", Swap(TEST, r"^tools/check_header\.py\n")),
        ("a check's failure is passed over", Swap(TEST, r"failed=1; \}", "failed=0; }")),
        ("the gate is something else", Swap(".ci/run", "^exec ", "exec true ")),
        ("a table of exceptions grew", Swap("tools/check_pages.py", r'^LONG = \(', 'LONG = ("docs/C.md", ')),
        ("a limit of a check grew", Swap("tools/check_pages.py", "^MOST_LINES = 110", "MOST_LINES = 210")),
        ("a limit in a table grew", Swap("tools/check_pages.py", r'"docs": \d+', '"docs": 99')),
        ("a row of texts is gone with its answer", Swap(TEXTS, r"^names-5: .*\n")),
        ("a row of calls is gone", Swap(VECTORS, r'^\{"name":"scalars: s64".*\n')),
        ("a stored count is another", Swap(NAMES, r"^crates/vectors/stdin: \d+", "crates/vectors/stdin: 9"), VECTORS),
        ("a stored name is gone", Swap(NAMES, r"^  scalars: s64\n"), VECTORS),
        ("a run of wit-explain is gone", Swap("tests/explain/runs", r"^\$ wit-explain check far\.wit\n(?:[^$].*\n)*")),
        ("a test in code is gone", Swap("crates/tests_in_code/src/told.rt", r"#\[test\]\n")),
        ("a test of Python is not run", Swap("bindings/python/tests/test_calls.py", "def test_", "def no_test_")),
        ("a folder of tests is not run", Swap("tools/stored_names.py", '"bindings/js/tests", ', ""), "bindings/js"),
        ("the table of easily missed rows counts others", Swap(TESTS, r"`traps: \.\.` \(\d+\)", "`traps: ..` (9)")),
        ("that table names a row that is not there", Swap(TESTS, "`longest-accepted`", "`longest-refused`"))),
    *of("tools/cut_rows.py --check",
        ("a row that cuts an input is gone", Swap(CHANGED, r"^fronts-of-12: .*\n")),
        ("the page says otherwise what is not cut", Swap(TESTS, "35 sets have", "34 sets have"))),
    *of("tools/check_numbers.py",
        ("a number of EXAMPLES is another", Swap(EXAMPLES, "4294967295 in 5", "4294967296 in 5")),
        ("an input of EXAMPLES is another", Swap(EXAMPLES, "`80 00`; `ff", "`81 00`; `ff")),
        ("seconds of a crate are others", Swap(GATE, r"^(\| `canonical_abi` \| )\d+", r"\g<1>9")),
        ("what `rt ci` passes is another number", Swap(GATE, r"`\d+ passed", "`9 passed"), GATE),
        ("an edit of a kind is gone from GATE", Swap(GATE, "`payload_after_discriminant`", "")),
        ("an exception stands in place of another",
         Swap("tools/check_numbers.py", '"examples/wasi", "FirstFit"', '"examples/c", "FirstFit"'), EXAMPLES),
        ("a limit on a page is another", Swap("docs/ARCHITECTURE.md", "at most 64 packages", "at most 65 packages")),
        ("DEFINITIONS names an example that is not there",
         Swap(DEFINITIONS, r"^(\| `\w+`.*\| )`[a-z0-9-]+`( \|[^|]*\|)$", r"\1`no-example`\2"))),
    *of("tools/check_names.py",
        ("an edit does not match its text any more", Swap(AN_EDIT, r"^old: if count", "old: if counts")),
        ("a must-fail edit is gone", Gone(AN_EDIT), SPILLS),
        ("a table of guarantees names another clause", Swap(CALLS, "`Session::call`: call", "`Session::call`: calls")),
        ("a page names a row that is not there", Swap(TESTS, "`whole-by-bytes`", "`whole-by-bits`")),
        ("a page counts other calls", Swap(CRATES, r"run is [\d,]+ calls", "run is 9 calls")),
        ("a page names a path that is not there", Swap("docs/C.md", "`examples/c/", "`examples/cc/")),
        ("a part is gone from the table of parts", Swap(GATE, r"^\| `explain` \|.*\n")),
        ("a script is gone from the table of pages", Swap(GATE, r"^\| `tools/check_header.py` \|.*\n"))),
    *of("tools/check_pages.py",
        ("a link names a heading that is not there", Swap(README, r"FORMATS\.md#features-of-33", "FORMATS.md#features"),
         README),
        ("a page is not linked", Added("docs/guarantees/more.md", "# More\n"), "more.md"),
        ("a sentence is too long", Swap(README, r"\bThe first JSON", "So " + "and so " * 15 + "the first JSON"))),
    *of("tools/check_surface.py",
        ("a line of surface.txt is gone", Swap(SURFACE, r"^call read_s33\(bytes\)\n  .*\n")),
        ("a row of the table of forms is gone", Swap(DECISIONS, r"^\| `atoms` \|.*\n"), SURFACE),
        ("a public call takes another type", Swap("crates/atoms/src/lib.rt", "pub use", "pub(crate) use"), SURFACE)),
    *of("tools/conditions_page.py --check",
        ("a public call has one more condition",
         Swap("crates/witcall/src/session.rt", r"^( +)(ensures same_runs)", r"\1requires more { 0 ≡ 0 }\n\1\2"),
         "condition"),
        ("a fact of conditions is another", Swap("docs/condition-facts.txt", r"\| The type is one of the package\. \|",
                                                 "| The type is one of a package. |"), "conditions.md")),
    *of("tools/crates_page.py --check",
        ("the head of a crate is another", Swap("crates/atoms/src/lib.rt", "^//! ", "//! Other: "), CRATES),
        ("a crate is gone from crates.txt", Swap("crates.txt", r"^word_rules:.*\n"), "word_rules")),
    *of("tools/edits_page.py --check",
        ("an edit is not on its page", Swap(EDITS, "`second_kind_is_lost`, "), EDITS),
        ("a kind of wrong body has no edit", Swap("crates/values/must-fail/spills_at_sixteen.edit", "^# kind: .*\n"),
         "kind")),
    *of("tools/edit_results.py --check",
        ("an edit has changed since its result", Swap(AN_EDIT, r"count \+ 1", "count + 2")),
        ("an edit has no result", Swap(RESULTS, r"^layout/spills_at_sixteen .*\n"), AN_EDIT),
        ("a result is of no edit", Swap(RESULTS, "^layout/spills_at_sixteen", "layout/spills_at_ten"), "at_ten")),
    *of("tools/api_pages.py --check",
        ("the doc of a public call is another", Swap("crates/layout/src/signature.rt", "^( *)/// ", r"\1/// Never: "),
         "docs/api/layout.md"),
        ("a clause is gone from a page of declarations", Swap("docs/api/layout.md", "^ensures .*\n"))),
    *of("tools/definitions_page.py --check",
        ("the comment of a definition is another", Swap("crates/canonical_abi/specs/Reading.antt", "^-- ", "-- not "),
         DEFINITIONS),
        ("the lines to believe are another number", Swap(DEFINITIONS, r"\b\d,\d{3} lines", "9,999 lines"))),
    *of("tools/check_help.py",
        ("a man page lacks an option", Swap("packaging/wit-explain.1", r"^\.TP\n\.BI \\-\\-svg .*\n.*\n"), "--svg"),
        ("a man page lacks a command", Swap("packaging/witcall.1", r"^\.TP\n\.B layout\b.*\n.*\n"), "layout"),
        ("a completion lacks a command", Swap("packaging/completions/witcall.fish", r"^.* -a layout .*\n"), "layout")),
    *of(f"-m tools.models check {ERROR_ROWS}",
        ("a stored answer is another", Swap(ERROR_ROWS, r"(^error-43: .*=> error) 43 .*", r"\1 44 not this shape"),
         "error-43")),
    *of("tools/run_pages.py --only README.md",
        ("a command of README is another", Swap(README, r'"count":2\}\],\["rush"\]', '"count":2}],["push"]'), README),
        ("what README shows is another", Swap(README, r"^# 55$", "# 56"), README)),
)
