#!/usr/bin/env python3
"""Opens the page of bindings/js/page in Chromium, uses it as people do, and makes screenshots.

usage: tools/page_test.py [--write | FOLDER]

The page is the one that tools/page.py makes, from a file. The browser is Debian's `chromium`, without a window
(tools/chromium.py). Each function of TESTS does one thing with the page, after those before it. The screenshots are
thrown away, unless a folder is named for them, or --write stores those of STORED in docs/pictures. The exit status is 1
if the page does something else, or if there is no Chromium.
"""
import base64
import json
import pathlib
import re
import shutil
import sys
import tempfile
import time

import page
from chromium import CONTROL, SHIFT, Browser

PICTURES = page.ROOT / "docs/pictures"
MODULES = page.ROOT / "tests/explain/files/modules"
# screenshots that pages show
STORED = ("page.png", "page-fault.png", "page-call.png", "page-dark.png", "page-module.png", "page-world.png")
WIDE = (1280, 860)
LOW = (1280, 480)
NARROW = (400, 800)
# the types of a package, how often it is changed at most, and the most milliseconds that one of these redraws takes:
# four times those of a quiet machine, since a gate runs other parts beside
MANY = 1000
CHANGES = 20
MOST_MILLISECONDS = 400
# how much a letter has to differ from what is behind it (WCAG 2.2, 1.4.3)
CONTRAST = 4.5

GOOD = """package my:types@0.2.0;

interface points {
  record point { x: s16, y: s16 }
  record shape { closed: bool, width: u64, path: list<point> }
  variant color { none, gray(u8), named(string) }
}

package my:draw;

interface pen {
  use my:types/points@0.2.0.{point, shape, color};
  draw: func(shape: shape, color: color) -> result<u32, point>;
}
"""
BROKEN = GOOD.replace("color: color)", "color: colour)")
ARGUMENTS = '[{"closed":true,"width":3,"path":[{"x":1,"y":-1},{"x":258,"y":7}]},{"named":"two memories"}]'
WRONG = ARGUMENTS.replace("true", "1")
ANSWER = '{"error":{"x":5,"y":6}}'
WRONG_ANSWER = ANSWER.replace("6", '"6"')
LABELS = """package a:b;

interface c {
  variant state { open, paid(u64), refused(string) }
  flags marks { fragile, gift }
  enum color { red, green }
  f: func(state: state, marks: list<marks>) -> color;
}
"""
# the same as `witcall text` prints it
LABELS_TEXT = """package a:b;

interface c {
  variant state {
    open,
    paid(u64),
    refused(string),
  }
  flags marks {
    fragile,
    gift,
  }
  enum color {
    red,
    green,
  }
  f: func(state: state, marks: list<marks>) -> color;
}
"""
FAULTS = """package a:b;

interface c {
  f: func(x: size);
  g: func(y: count);
}

package d:e;

interface f {
  h: fun();
}
"""
WORLDS = """package a:b;

interface types { type size = u32; }
interface host { log: func(text: string); }
interface guest { run: func(count: u64) -> bool; }

world w {
  import types;
  import host;
  import ask: func(x: u32) -> u32;
  export guest;
}
"""
NAMES = """package a:b; // <script>window.hacked = 1</script> <img src=x onerror="window.hacked = 1">

interface %constructor {
  record has-own-property { %constructor: u32, value-of: string }
  to-string: func(x: has-own-property) -> option<string>;
}
"""
# A core module that carries a world, whose names JavaScript's objects have too. It was made by `wit-explain embed` of
# a module without a memory, whose one function hands the sum of the two fields to the world's import `constructor`.
HOSTILE = base64.b64decode("""
AGFzbQEAAAABDAJgAX8Bf2ACf38BfwIVAQUkcm9vdAtjb25zdHJ1Y3RvcgAAAwIBAQcoASRkZW1vOmhvc3RpbGUvY29uc3RydWN0b3IjY29uc3
RydWN0b3IAAQoLAQkAIAAgAWoQAAsAlAIQY29tcG9uZW50LXR5cGU6dwBhc20NAAEAABkWd2l0LWNvbXBvbmVudC1lbmNvZGluZwQAB6MBAUEC
AUEEAUABAXh5AHkDAAtjb25zdHJ1Y3RvcgEAAUIEAXICC2NvbnN0cnVjdG9yeQh2YWx1ZS1vZnkEABBoYXMtb3duLXByb3BlcnR5AwAAAUABC2
NvbnN0cnVjdG9yAQB5BAALY29uc3RydWN0b3IBAgQAGGRlbW86aG9zdGlsZS9jb25zdHJ1Y3RvcgUBBAAOZGVtbzpob3N0aWxlL3cEAAsHAQAB
dwMAAAAvCXByb2R1Y2VycwEMcHJvY2Vzc2VkLWJ5AQ13aXQtY29tcG9uZW50BzAuMjQ1LjE=""")
HOSTILE_NAME = '<img src=x onerror="window.hacked = 1">.wasm'

# Types a text with many types, which a number makes another one, and waits up to the frame after it is drawn.
REDRAW = """(async (turn) => {
  const text = document.getElementById('text');
  const target = (place) => (place % 40 ? `list<r${place - (place % 40)}>` : 'string');
  const last = (place) => (place === 3 ? `, d${turn}: u8` : '');
  const record = (place) => `  record r${place} { a: u8, b: u64, c: ${target(place)}${last(place)} }`;
  const lines = Array.from({ length: MANY }, (_, place) => record(place));
  performance.clearMeasures('redraw');
  text.value = `package a:b;\\ninterface c {\\n${lines.join('\\n')}\\n  f: func(x: r0) -> r0;\\n}\\n`;
  text.dispatchEvent(new Event('input'));
  while (performance.getEntriesByName('redraw').length === 0) await new Promise((next) => setTimeout(next, 50));
})""".replace("MANY", str(MANY))

# The least contrast of the letters of some elements with what is behind them.
LEAST_CONTRAST = """(selector) => {
  const canvas = new OffscreenCanvas(1, 1).getContext('2d', { willReadFrequently: true });
  const pixel = (color) => {
    canvas.clearRect(0, 0, 1, 1);
    canvas.fillStyle = color;
    canvas.fillRect(0, 0, 1, 1);
    return [...canvas.getImageData(0, 0, 1, 1).data];
  };
  const linear = (it) => (it <= 0.04045 ? it / 12.92 : ((it + 0.055) / 1.055) ** 2.4);
  const light = ([r, g, b]) => [0.2126 * r, 0.7152 * g, 0.0722 * b].reduce((sum, it) => sum + it, 0);
  const luminance = (color) => light(pixel(color).slice(0, 3).map((it) => linear(it / 255)));
  const behind = (it) => {
    while (it && pixel(getComputedStyle(it).backgroundColor)[3] === 0) it = it.parentElement;
    return getComputedStyle(it ?? document.body).backgroundColor;
  };
  return Math.min(...[...document.querySelectorAll(selector)].map((it) => {
    const [low, high] = [getComputedStyle(it).color, behind(it)].map(luminance).sort((one, other) => one - other);
    return (high + 0.05) / (low + 0.05);
  }));
}"""


def same(found, wanted):
    if found != wanted:
        sys.exit(f"tools/page_test.py: {found!r} is there, and not {wanted!r}")


def holds(is_so, what):
    if not is_so:
        sys.exit(f"tools/page_test.py: this is not so: {what}")


class Page:
    """The page in a browser, and where its files and screenshots are."""

    def __init__(self, browser, work, pictures):
        self.browser, self.work, self.pictures = browser, work, pictures
        self.file = work / "page.html"

    def value(self, expression):
        return self.browser.value(expression)

    def until(self, expression):
        self.browser.until(expression)

    def texts(self, selector):
        """The texts of elements, as they are seen."""
        return self.value(f"[...document.querySelectorAll({json.dumps(selector)})].map(it => it.innerText)")

    def text(self, selector):
        return self.value(f"document.querySelector({json.dumps(selector)})?.textContent")

    def state(self, words):
        self.until(f"document.getElementById('state')?.textContent.startsWith({json.dumps(words)})")

    def type(self, text, words):
        """Types a text over the one that is there, and waits until it is drawn. The state begins with some words. What
        was drawn before is waited for first, so that it is not taken for the text."""
        self.until("performance.getEntriesByName('redraw').length > 0")
        self.value("performance.clearMeasures('redraw')")
        self.browser.type(text)
        self.until("performance.getEntriesByName('redraw').length > 0")
        self.state(words)

    def tab(self, name):
        self.browser.click(f"#tab-{name}")
        same(self.value(f"document.getElementById('{name}').hidden"), False)

    def button(self, words, within="body"):
        """Presses a button by its words."""
        done = self.value(f"""{{ const all = document.querySelector({json.dumps(within)}).querySelectorAll('button');
          const it = [...all].find((one) => one.textContent === {json.dumps(words)} && !one.closest('[hidden]'));
          it?.focus(); it?.click(); Boolean(it) }}""")
        holds(done, f"there is a button {words}")

    def fill(self, *texts):
        """Puts texts into the fields of a call, in their order."""
        self.value(f"""{{
          const fields = document.querySelectorAll('#call textarea');
          {json.dumps(texts)}.forEach((it, place) => {{
            fields[place].value = it;
            fields[place].dispatchEvent(new Event('input'));
          }});
        }}""")

    def inside(self, selector):
        """Whether an element is all in the window."""
        return self.value(f"""{{ const it = document.querySelector({json.dumps(selector)}).getBoundingClientRect();
          it.height > 0 && it.top >= 0 && it.bottom <= innerHeight && it.left >= 0 && it.right <= innerWidth }}""")

    def picture(self, name):
        self.browser.picture(self.pictures / name)

    def file_of(self, name, data):
        path = self.work / name
        path.write_bytes(data)
        return path


# ---- the text, and what it is


def opening(it):
    """The page says in one sentence what it is, and opens its first example."""
    it.state("4 types, 3 functions ")
    same(len(re.findall(r"\.(?:\s|$)", it.text("#what"))), 1)
    holds(it.inside("#what"), "the sentence is seen")


def good(it):
    """A good text that is typed, and its layouts. The arrow keys and the pointer light what belongs together."""
    it.type(GOOD, "3 types, 1 function ")
    it.until("document.querySelectorAll('#types .card').length === 3")
    same(it.text("#types h3"), "point")
    ranges = "[...document.querySelectorAll('#types .card:first-child .range')].map(it => it.textContent).join()"
    same(it.value(ranges), "0 to 1,2 to 3")
    it.value("document.querySelector('#types .byte').focus()")
    for key in ("ArrowRight",) * 3:
        it.browser.press(key)
    same(it.value("document.querySelectorAll('#types .lit').length"), 3)
    same(it.text("#types .told"), "bytes 2 to 3 · y · s16")
    it.browser.hover("#types .card:nth-child(2) .parts li:nth-child(2)")
    it.until("document.querySelectorAll('#types .card:nth-child(2) .byte.lit').length === 8")
    it.picture("page.png")


def labels(it):
    """Each case of a variant is a row, and so is each label of flags and of an enum. A row lights its number's byte."""
    it.type(LABELS, "3 types, 1 function ")
    rows = [" ".join(row.split()) for row in it.texts("#types .parts li")]
    same(rows, ["number of the case 0", "open case 0", "paid case 1: u64 8 to 15", "refused case 2: string 8 to 15",
                "marks 0", "fragile bit 0", "gift bit 1", "color 0", "red case 0", "green case 1"])
    it.value("document.querySelector('#types .parts li:nth-child(2)').focus()")
    same(it.value("[...document.querySelectorAll('#types .card:first-child .byte.lit')].map(it => it.title).join()"),
         "bytes 0 · number of the case")
    it.tab("call")
    it.fill('[{"paid":7},[["gift"],["fragile","gift"],[]]]', '"green"')
    parts = [" ".join(row.split()) for row in it.texts("#call .memories .card:first-child .parts li")]
    same([row.rpartition(" ")[0] for row in parts], ["marks[0] marks gift", "marks[1] marks fragile gift",
                                                     "marks[2] marks none"])
    same(it.texts("#call .steps li")[-1], 'Read there, it is "green", of type color.')
    it.tab("types")


def broken(it):
    """A broken text: its line, its caret, and what to do. It is seen without scrolling, and the text stays marked."""
    it.type(GOOD, "3 types")
    it.browser.type(BROKEN)
    it.until("!!document.querySelector('#fault .fault')")
    same(it.text("#older"), "What is below is of the last text without a fault.")
    same(it.text("#fault strong"), "line 13, column 35: error 41 unknown colour")
    source, caret = it.text("#fault pre").split("\n")
    same(source[caret.index("^"):caret.index("^") + caret.count("^")], "colour")
    same(it.text("#marks mark"), "colour")
    same(it.value("document.getElementById('right').classList.contains('stale')"), True)
    holds(it.inside("#fault .fault"), "the fault is seen")
    it.picture("page-fault.png")
    it.browser.type("package a:b;\n// grün\ninterface c { f: fun(); }\n")
    words = "line 3, column 18: error 32 expected func"
    it.until(f"document.querySelector('#fault strong')?.textContent.startsWith('{words}')")
    it.type(GOOD, "3 types")
    it.until("!document.querySelector('#fault .fault')")


def several(it):
    """Of several faults one is shown, with the number of all. Buttons go to the others, and to the place."""
    for size in (NARROW, WIDE):
        it.browser.size(*size)
        it.browser.type(FAULTS)
        it.until("document.querySelector('#fault .count')?.textContent === 'Fault 1 of 3'")
        holds(it.inside("#fault .fault"), f"the fault is seen on {size}")
        holds(it.inside("#fault .count"), f"their number is seen on {size}")
        if size == NARROW:
            it.picture("page-fault-narrow.png")
        it.type(GOOD, "3 types")
    it.browser.type(FAULTS)
    it.until("document.querySelector('#fault .count')?.textContent === 'Fault 1 of 3'")
    same(len(it.texts("#marks mark")), 3)
    it.button("Next", "#fault")
    same(it.text("#fault strong"), "line 5, column 14: error 41 unknown count")
    same(it.text("#fault .count"), "Fault 2 of 3")
    it.button("Go there", "#fault")
    same(it.value("{ const it = document.activeElement; it.value.slice(it.selectionStart, it.selectionEnd) }"), "count")
    it.button("Previous", "#fault")
    it.button("Previous", "#fault")
    same(it.text("#fault .count"), "Fault 3 of 3")
    it.type(GOOD, "3 types")


def stays(it):
    """The editor stays in view, however far what is beside it or below it is scrolled."""
    for size in (LOW, NARROW):
        it.browser.size(*size)
        it.value("{ const it = document.getElementById('right'); it.scrollTop = it.scrollHeight; "
                 "scrollTo(0, document.documentElement.scrollHeight); }")
        moved = "scrollY + document.getElementById('right').scrollTop"
        holds(it.value(moved) > 50, f"{size} is scrolled")
        holds(it.inside(".editor"), f"the editor stays in view on {size}")
        it.value("scrollTo(0, 0); document.getElementById('right').scrollTop = 0")
    it.browser.size(*WIDE)


# ---- calls


def call(it):
    """A call: both memories, and what belongs together in them."""
    it.tab("call")
    it.fill(ARGUMENTS, ANSWER)
    steps = it.value("document.querySelector('#call ol').innerText")
    holds(f"it is {ANSWER}, of type result<u32, point>" in steps, f"the call says what it gives: {steps}")
    same(it.value("document.querySelectorAll('#call .memories .card').length"), 2)
    part = "[...document.querySelectorAll('#call .parts li')].find(it => it.textContent.startsWith('shape.path[1].y'))"
    it.value(f"{part}.focus()")
    same(it.value("document.querySelectorAll('#call .byte.lit').length"), 4)
    same(it.value("document.querySelectorAll('#call .ascii .lit').length"), 4)
    it.picture("page-call.png")


def memories(it):
    """The callee's addresses are others. A list's address, length, elements and texts have colors of their own, the
    same in both memories. Beside the bytes are their characters. What is typed as the callee's answer is named so."""
    same(it.texts("#call .fields label"), ["Arguments, a JSON array", "The callee's answer, as JSON"])
    steps = it.texts("#call .steps li")
    caller, callee = ([int(word) for word in re.findall(r"i32 (\d+)", line)] for line in steps[:2])
    same([caller[place] == callee[place] for place in range(6)], [True, False, True, True, False, True])
    blocks = [{int(word) for word in re.findall(r" at (\d+)", line)} for line in it.texts("#call .memories .card > p")]
    holds(not blocks[0] & blocks[1], f"no block has the same address in both memories: {blocks}")
    it.type("package a:b; interface c { record lists { numbers: list<u8>, texts: list<string> } "
            "f: func(all: list<lists>) -> u8; }", "1 type, 1 function ")
    it.fill('[[{"numbers":[1,2,3],"texts":["two memories","b"]}]]', "9")
    cards = [dict(((path, kind), hue) for path, kind, hue in it.value(f"""
      [...document.querySelectorAll('#call .memories .card:nth-child({card}) .parts li')].map((it) =>
        [it.querySelector('.name').textContent.replace(/^all\\[0\\]\\./, '').replace(/\\d+/, ''),
          /^[a-z ]+[a-z]|u8/.exec(it.querySelector('.kind').textContent)[0],
          it.querySelector('.swatch').style.getPropertyValue('--hue')])""")) for card in (1, 2)]
    same(cards[0], cards[1])
    same(set(cards[0]), {("numbers", "address"), ("numbers", "how many"), ("numbers[]", "u8"), ("texts", "address"),
                         ("texts", "how many"), ("texts[]", "address"), ("texts[]", "how many bytes"),
                         ("texts[]", "text")})
    same(len(set(cards[0].values())), len(cards[0]))
    ascii_ = "".join(it.texts("#call .memories .card:first-child .ascii"))
    holds("two memoriesb" in ascii_.replace("\n", ""), f"the characters are beside the bytes: {ascii_}")
    it.type(GOOD, "3 types")


def failing(it):
    """A failing call looks failed: it says the step and the place, which a button selects, and the field is marked."""
    it.fill(WRONG, ANSWER)
    same(it.text("#call .fault strong"),
         "error 62 not this type at [0].closed: a `bool` is `true` or `false`, and not `1`")
    same(it.text("#call .fault h3"), "The call fails")
    same(it.text("#call .fault p"), "It fails in step 1: the arguments are written into the caller's memory.")
    same(it.text("#call .steps .failed"), "The arguments are written into the caller's memory: the call fails.")
    red = it.value("getComputedStyle(document.querySelector('#call .fault strong')).color")
    same(it.value("getComputedStyle(document.querySelector('#call .call.failed')).borderLeftColor"), red)
    invalid = "[...document.querySelectorAll('#call textarea')].map(it => it.ariaInvalid).join()"
    same(it.value(invalid), "true,false")
    selected = "{ const it = document.activeElement; it.value.slice(it.selectionStart, it.selectionEnd) }"
    it.button("Go there", "#call")
    same(it.value(selected), "1")
    it.picture("page-failed.png")
    it.fill(ARGUMENTS, WRONG_ANSWER)
    same(it.text("#call .fault strong"), "error 62 not this type at result.error.y of my:draw/pen#draw: "
         "a `s16` is a whole number from -32768 to 32767, and not `\"6\"`")
    same(it.value(invalid), "false,true")
    it.button("Go there", "#call")
    same(it.value(selected), '"6"')
    it.fill(ARGUMENTS, ANSWER)
    same(it.value(invalid), "false,false")
    same(it.value("document.querySelectorAll('#call .fault').length"), 0)


def renewed(it):
    """JSON that nobody typed is renewed with its types. Typed JSON stays, and a button renews it."""
    values = "[...document.querySelectorAll('#call textarea')].map(it => it.value).join(' ')"
    first, other = ("package a:b; interface c { f: func(x: %s) -> u8; }" % word for word in ("u8", "string"))
    it.type(first, "0 types, 1 function")
    it.until(f"{values} === '[7] 7'")
    it.type(other, "0 types, 1 function")
    it.until(f"{values} === '[\"text\"] 7'")
    it.fill('["mine"]')
    it.type(first, "0 types, 1 function")
    it.until("!!document.querySelector('#call .note.renew')")
    same(it.value(values), '["mine"] 7')
    same(it.text("#call .fault h3"), "The call fails")
    it.button("New JSON for these types", "#call")
    same(it.value(values), "[7] 7")
    same(it.value("document.querySelectorAll('#call .note, #call .fault').length"), 0)


# ---- worlds and outputs


def worlds(it):
    """A tab has what worlds import and export, with core signatures. A function of one is called from there."""
    it.type(WORLDS, "1 type, 3 functions ")
    it.tab("worlds")
    same(it.text("#worlds .card h3"), "a:b/w")
    sides = [" | ".join(filter(None, side.split("\n"))) for side in it.texts("#worlds .sides > div")]
    same(sides, [
        "Imports | a:b/types | It has types alone. | a:b/host | log: func(text: string) | core: (i32, i32) | Call it"
        " | the world itself | ask: func(x: u32) -> u32 | core: (i32) -> i32 | Call it",
        "Exports | a:b/guest | run: func(count: u64) -> bool | core: (i64) -> i32 | Call it"])
    it.picture("page-world.png")
    it.value("document.querySelector('#worlds [aria-label=\"Call a:b/guest#run\"]').click()")
    same(it.value("document.querySelector('#call select').value"), "a:b/guest#run")
    it.type("package a:b;", "error")
    it.type(GOOD, "3 types")
    it.tab("worlds")
    same(it.text("#worlds .dim"), "There is no world.")


def outputs(it):
    """What the module writes of a package is shown, copied and downloaded. A binary that is dropped opens again."""
    folder = it.work / "downloads"
    folder.mkdir()
    it.browser.allow(folder)
    it.type(LABELS, "3 types")
    it.tab("outputs")
    copied = {}
    for name in ("Text", "JSON", "Binary"):
        it.button(name, "#outputs")
        it.button("Copy", "#outputs")
        it.state(f"{name} is copied.")
        copied[name] = it.value("navigator.clipboard.readText()")
        same(copied[name], it.text("#outputs .output"))
        it.button("Download", "#outputs")
    same(copied["Text"], LABELS_TEXT)
    it.picture("page-outputs.png")
    files = {path: folder / f"a-b{path}" for path in (".wit", ".json", ".wasm")}
    for path in files.values():
        awaited(path)
    same(files[".wit"].read_text(), LABELS_TEXT)
    document = json.loads(files[".json"].read_text())
    same(document, json.loads(copied["JSON"]))
    same((document["packages"], [row["kind"] for row in document["rows"]]),
         (["a:b"], ["variant", "flags", "enum", "list", "function"]))
    first = " ".join(f"{byte:02x}" for byte in files[".wasm"].read_bytes()[:16])
    holds(copied["Binary"].startswith(f"000000  {first}  .asm"), "the bytes are those of the file")
    it.browser.drop(files[".wasm"])
    it.until("!document.getElementById('file').hidden")
    same(it.text("#file"), "a-b.wasm is the binary of a package.")
    same(it.value("document.getElementById('text').value"), LABELS_TEXT)
    it.button("Back to my text")
    it.type(GOOD, "3 types")


def awaited(path):
    """Waits until a file is there."""
    for _ in range(100):
        if path.exists() and path.stat().st_size > 0:
            return
        time.sleep(0.1)
    sys.exit(f"tools/page_test.py: no file {path.name} was downloaded")


# ---- examples and files


def undone(it):
    """An example takes the place of the text, and a button brings the text and its call back."""
    it.tab("call")
    it.fill(ARGUMENTS, ANSWER)
    same(it.value("document.getElementById('back').hidden"), True)
    it.value("{ const it = document.getElementById('examples'); it.value = 'Padding'; "
             "it.dispatchEvent(new Event('change')); }")
    it.state("3 types, 2 functions ")
    it.button("Back to my text")
    it.state("3 types, 1 function ")
    same(it.value("document.getElementById('text').value"), GOOD)
    same(it.value("document.querySelector('#call textarea').value"), ARGUMENTS)
    same(it.value("document.getElementById('back').hidden"), True)


def dropped(it):
    """A module that is dropped opens by what it carries, and is called in the page: what it imports answers what a user
    types, and a wrong answer is named."""
    it.browser.drop(MODULES / "echo.wasm")
    it.state("0 types, 4 functions ")
    same(it.text("#file"), "echo.wasm is a module that carries its package, of the world demo:echo/guest@1.0.0. "
         "It runs in this page.")
    same(it.value("document.getElementById('text').readOnly"), True)
    same(it.value("document.getElementById('call').hidden"), False)
    it.value("""{ const it = document.querySelector('#call select'); it.value = 'demo:echo/echo@1.0.0#upper';
      it.dispatchEvent(new Event('change')); }""")
    same(it.texts("#call .fields label"), ["Arguments, a JSON array",
         "What demo:echo/host@1.0.0#upper answers the module, as JSON",
         "What demo:echo/guest@1.0.0#ask answers the module, as JSON"])
    it.fill('["grün"]', '"GRÜN!"', "5")
    it.button("Call the module", "#call")
    it.until("!!document.querySelector('#call .steps')")
    steps = it.texts("#call .steps li")
    same(steps[1], 'The module calls demo:echo/host@1.0.0#upper with ["grün"], and gets "GRÜN!".')
    same(steps[-1], 'Read there, it is "GRÜN!".')
    same(it.texts("#call .memories h3"), ["The module's memory before the call", "The module's memory after the call"])
    holds("GR..N!" in "".join(it.texts("#call .memories .card:nth-child(2) .ascii")), "its memory has the answer")
    it.picture("page-module.png")
    it.fill('["grün"]', "5")
    it.button("Call the module", "#call")
    it.until("!!document.querySelector('#call .fault')")
    holds("not this type at result of demo:echo/host@1.0.0#upper" in it.text("#call .fault strong"), "it is named")
    same(it.value("[...document.querySelectorAll('#call textarea')].map(it => it.ariaInvalid).join()"),
         "false,true,false")
    it.button("Back to my text")
    it.state("3 types, 1 function ")
    same(it.value("document.getElementById('text').value"), GOOD)


def refused(it):
    """A component opens, and is not run. What carries no package is refused, and the text stays. A text is taken."""
    it.browser.drop(MODULES / "world.wasm")
    it.until("!document.getElementById('file').hidden")
    holds("It doesn't run here: " in it.text("#file"), "a component is not run")
    holds(it.text("#call .note").startswith("The module doesn't run here: "), "the call says so")
    same(it.texts("#call .buttons button"), ["New JSON for these types"])
    same(len(it.texts("#call .memories .card")), 2)
    it.browser.drop(MODULES / "none.wasm")
    it.state("none.wasm: the module has no section `component-type`, at byte 8")
    holds(it.text("#file").startswith("world.wasm "), "the file before it stays")
    it.button("Back to my text")
    it.browser.drop(it.file_of("labels.wit", LABELS.encode()))
    it.state("3 types, 1 function ")
    same(it.value("document.getElementById('text').value"), LABELS)
    it.button("Back to my text")
    same(it.value("document.getElementById('text').value"), GOOD)


# ---- names that mean something to a browser


def unharmed(it):
    """Nothing has become an element, and no script ran."""
    same(it.value("[document.images.length, document.scripts.length, window.hacked ?? 0].join()"), "0,2,0")
    same(it.value("Object.keys(Object.prototype).length + Object.keys({}.constructor.prototype).length"), 0)


def hostile(it):
    """Names that JavaScript or HTML has for something are names: in a text, in JSON, and in a module and its file."""
    it.type(NAMES, "1 type, 1 function ")
    for tab in ("types", "functions", "worlds", "outputs", "call"):
        it.tab(tab)
        unharmed(it)
    it.fill('[{"constructor":1,"value-of":"<script>window.hacked = 1</script>"}]', '{"some":"<img src=x>"}')
    same(it.texts("#call .steps li")[-1], 'Read there, it is {"some":"<img src=x>"}, of type option<string>.')
    unharmed(it)
    for name in ("__proto__", "toString", "<script>window.hacked = 1</script>"):
        it.fill(json.dumps([{"constructor": 1, name: {"x": 1}}]), '"none"')
        same(it.text("#call .fault h3"), "The call fails")
        it.button("Go there", "#call")
        unharmed(it)
    it.browser.type(NAMES.replace("u32,", "<script>,"))
    it.until("!!document.querySelector('#fault .fault')")
    unharmed(it)
    it.browser.drop(it.file_of(HOSTILE_NAME, HOSTILE))
    it.state("1 type, 2 functions ")
    it.fill('[{"constructor":20,"value-of":22}]', "43")
    it.button("Call the module", "#call")
    it.until("!!document.querySelector('#call .steps')")
    same(it.texts("#call .steps li")[1], "The module calls demo:hostile/w#constructor with [42], and gets 43.")
    unharmed(it)
    it.button("Back to my text")
    it.type(GOOD, "3 types")


def policy(it):
    """A script and a style that are not of the page do nothing there."""
    it.value("""{ const script = document.createElement('script'); script.textContent = 'window.hacked = 1';
      const style = document.createElement('style'); style.textContent = 'body { color: red !important }';
      document.body.append(script, style); }""")
    same(it.value("window.hacked ?? 0"), 0)
    holds(it.value("getComputedStyle(document.body).color") != "rgb(255, 0, 0)", "the style does nothing")
    same(len([told for told in it.browser.faults if "Content Security Policy" in told]), 2)
    it.browser.faults.clear()


# ---- speed, keys, colors, small screens


def many(it):
    """A change of a text with a thousand types is redrawn in time in each tab that is seen. This is the processor time
    of the page from the change to the frame that shows it. Other work beside it makes it longer and never shorter, so
    one of several redraws has to be in time."""
    for tab in ("types", "functions", "worlds", "call", "outputs"):
        it.tab(tab)
        times = []
        for turn in range(CHANGES):
            began = it.browser.processor_time()
            it.value(f"{REDRAW}({turn})")
            times.append(round(1000 * (it.browser.processor_time() - began)))
            if turn > 1 and min(times) <= MOST_MILLISECONDS:
                break
        it.state(f"{MANY:,} types, 1 function ")
        print(f"{MANY} types, {tab}: redraws took {sorted(times)} ms")
        holds(min(times) <= MOST_MILLISECONDS, f"{tab}: a redraw takes {min(times)} ms, at most {MOST_MILLISECONDS}")


def little(it):
    """Only what is seen is drawn, and only what changed is drawn anew."""
    it.tab("types")
    same(it.value("document.querySelectorAll('#types .card').length"), MANY)
    filled = it.value("document.querySelectorAll('#types .picture').length")
    holds(0 < filled < 100, f"{filled} of the cards have pictures")
    it.value("window.before = [...document.querySelectorAll('#types .picture')]; 0")
    it.value(f"{REDRAW}({CHANGES})")
    now = "[...document.querySelectorAll('#types .picture')]"
    same(it.value(f"{now}.map((it, place) => it === window.before[place]).indexOf(false)"), 3)
    same(it.value(f"{now}.filter((it) => !window.before.includes(it)).length"), 1)
    same(it.value("document.querySelectorAll('#types .cards:last-child .picture').length"), 0)
    it.value("{ const it = document.getElementById('right'); it.scrollTop = it.scrollHeight; }")
    it.until("!!document.querySelector('#types .cards:last-child .card:last-child .picture')")
    it.type(GOOD, "3 types")


def keys(it):
    """Tab indents, Shift and Tab the other way, and the browser can undo it. After Escape Tab leaves the editor. The
    arrow keys go from tab to tab."""
    text = "document.getElementById('text')"
    it.type("package a:b;\ninterface c {\n}\n", "0 types")
    it.value(f"{text}.focus(); {text}.setSelectionRange(0, 0)")
    it.browser.press("Tab")
    same(it.value(f"{text}.value.slice(0, 12)"), "  package a:")
    it.browser.press("z", CONTROL, ["undo"])
    same(it.value(f"{text}.value.slice(0, 12)"), "package a:b;")
    it.value(f"{text}.select()")
    it.browser.press("Tab")
    same(it.value(f"{text}.value.split('\\n').map(it => it.slice(0, 4)).join('|')"), "  pa|  in|  }|  ")
    it.browser.press("Tab", SHIFT)
    same(it.value(f"{text}.value"), "package a:b;\ninterface c {\n}\n")
    same(it.value("document.activeElement.id"), "text")
    it.browser.press("Escape")
    it.browser.press("Tab")
    holds(it.value("document.activeElement.id") != "text", "Escape and Tab leave the editor")
    it.value("document.getElementById('tab-types').focus()")
    for name in ("functions", "worlds", "call", "outputs", "types"):
        it.browser.press("ArrowRight")
        same(it.value("document.activeElement.id"), f"tab-{name}")
        same(it.value(f"document.getElementById('{name}').hidden"), False)
    it.browser.press("ArrowLeft")
    same(it.value("document.activeElement.id"), "tab-outputs")
    it.type(GOOD, "3 types")


def named(it):
    """Whatever a user can work with has a name for screen readers."""
    roles = {"button", "textbox", "combobox", "tab", "tabpanel", "tablist", "listitem", "image", "region"}
    for tab in ("types", "functions", "worlds", "call", "outputs"):
        it.tab(tab)
        nodes = it.browser.do("Accessibility.getFullAXTree")["nodes"]
        known = [node for node in nodes if not node.get("ignored") and node.get("role", {}).get("value") in roles]
        holds(len(known) > 10, f"{tab} has {len(known)} elements with roles")
        for node in known:
            if node["role"]["value"] != "listitem":
                holds(node.get("name", {}).get("value"), f"{tab}: this has a name: {node['role']['value']}")
    described = it.value("document.getElementById('text').getAttribute('aria-describedby')")
    holds("keys" in described.split() and "fault" in described.split(), "the editor says its keys and its fault")


def colors(it):
    """Dark and light: the colors are those that the reader prefers, and letters can be read on them."""
    backgrounds = []
    for is_dark in (True, False):
        it.browser.size(*WIDE, is_dark=is_dark)
        backgrounds.append(it.value("getComputedStyle(document.body).backgroundColor"))
        it.tab("call")
        it.fill(WRONG, ANSWER)
        least = [it.value(f"({LEAST_CONTRAST})('.dim, .fault strong, #state, button, .told, li.failed')")]
        if is_dark:
            it.picture("page-failed-dark.png")
        it.fill(ARGUMENTS, ANSWER)
        least.append(it.value(f"({LEAST_CONTRAST})('#call .byte[data-hue], #call .ascii [data-hue], .kind, .range')"))
        if is_dark:
            it.picture("page-call-dark.png")
        holds(min(least) >= CONTRAST, f"letters can be read: {least}")
    dark, light = (sum(int(word) for word in re.findall(r"\d+", it)) for it in backgrounds)
    holds(dark < 150 and light > 600, f"the backgrounds are dark and light: {backgrounds}")


def narrow(it):
    """A screen of 400 points has room for each tab, without scrolling to the side."""
    it.browser.size(*NARROW)
    for tab in ("types", "functions", "worlds", "outputs", "call"):
        it.tab(tab)
        same(it.value("document.documentElement.scrollWidth <= innerWidth"), True)
        it.value(f"document.getElementById('tab-{tab}').scrollIntoView()")
        holds(it.value(f"document.getElementById('tab-{tab}').getBoundingClientRect().top >= "
                       "document.querySelector('.left').getBoundingClientRect().bottom"), "the editor covers no tab")
        it.picture(f"page-narrow-{tab}.png")
    it.value("scrollTo(0, 0)")
    it.picture("page-narrow.png")
    it.browser.size(*WIDE)


def linked(it):
    """A link carries the text and the call; the narrow page is dark here."""
    it.tab("call")
    it.fill(WRONG, ANSWER)
    it.until(f"new URLSearchParams(location.hash.slice(1)).get('args') === {json.dumps(WRONG)}")
    hash_ = it.value("location.hash")
    it.browser.size(420, 900, is_dark=True)
    it.browser.do("Page.navigate", url="about:blank")
    it.browser.do("Page.navigate", url=f"{it.file.as_uri()}{hash_}")
    it.state("3 types, 1 function ")
    same(it.value("document.getElementById('text').value"), GOOD)
    same(it.value("document.getElementById('call').hidden"), False)
    same(it.value("document.querySelector('#call textarea').value"), WRONG)
    same(it.value("document.documentElement.scrollWidth <= innerWidth"), True)
    it.browser.click("#tab-types")
    it.picture("page-dark.png")


TESTS = (opening, good, labels, broken, several, stays, call, memories, failing, renewed, worlds, outputs, undone,
         dropped, refused, hostile, policy, many, little, keys, named, colors, narrow, linked)


def test(program, work, pictures):
    """Opens the page, makes it do all of this, and puts the screenshots into a folder."""
    file = work / "page.html"
    file.write_text(page.page(), encoding="utf-8")
    browser = Browser(program, work / "profile")
    try:
        browser.size(*WIDE)
        browser.do("Page.navigate", url=file.as_uri())
        for step in TESTS:
            step(Page(browser, work, pictures))
            print(f"{step.__name__}: as it has to be")
        same(browser.faults, [])
        same([it for it in browser.requests if not it.startswith(("file:", "about:", "data:", "blob:"))], [])
    finally:
        browser.close()


def main():
    words = sys.argv[1:]
    if len(words) > 1 or any(it.startswith("-") and it != "--write" for it in words):
        sys.exit(__doc__)
    program = shutil.which("chromium")
    if not program:
        sys.exit("tools/page_test.py: there is no chromium: install Debian's package chromium")
    with tempfile.TemporaryDirectory(ignore_cleanup_errors=True) as work:
        work = pathlib.Path(work)
        folder = pathlib.Path(words[0]) if words and words != ["--write"] else work / "pictures"
        folder.mkdir(parents=True, exist_ok=True)
        test(program, work, folder)
        if words == ["--write"]:
            for name in STORED:
                shutil.copy(folder / name, PICTURES / name)
    print("the page does what it has to, and asks for nothing else")


if __name__ == "__main__":
    main()
