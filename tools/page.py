#!/usr/bin/env python3
"""Makes the page of bindings/js/page as one file of HTML, which needs no server and no network.

usage: tools/page.py [FILE]      FILE is bindings/js/out/page.html, if it is left out

The file has the style, the scripts and the module of the release (WITCALL_MODULE, if this is set), packed by gzip, in
base64. Each script becomes a function that returns what the script exports, after those that it imports. The scripts
are written for this: an import and an export stand at the beginning of a line, an import names what it takes, and no
two scripts import each other.
"""
import base64
import gzip
import hashlib
import os
import pathlib
import re
import sys

ROOT = pathlib.Path(__file__).resolve().parent.parent
BINDING = ROOT / "bindings/js"
PAGE = BINDING / "page"
IMPORT = re.compile(r'^import \{([^}]*)\} from "(\.[^"]+)";\n', re.M)
EXPORT = re.compile(r"^export (?=(?:async )?(?:function|class|const) (\w+))", re.M)
# no text of a script ends the element that it is in
END = re.compile(r"</(?=script)", re.I)


class Bundle:
    """Scripts, each once and after those that it imports."""

    def __init__(self):
        self.names = {}
        self.texts = []

    def add(self, path):
        """Adds a script, and returns the name of what it exports."""
        if path in self.names:
            return self.names[path]
        text = path.read_text(encoding="utf-8")

        def taken(match):
            names = re.sub(r"\s+as\s+", ": ", " ".join(match[1].split()))
            return f"const {{ {names} }} = {self.add((path.parent / match[2]).resolve())};\n"

        text = IMPORT.sub(taken, text)
        exported = EXPORT.findall(text)
        text = EXPORT.sub("", text)
        for word in ("import ", "export "):
            if re.search(f"^{word}", text, re.M):
                sys.exit(f"tools/page.py: {path}: an {word}that is of another form")
        name = self.names[path] = f"script{len(self.names)}"
        way = "await (async () => {" if re.search(r"^(?:  )?[^/\n]*\bawait load\(", text, re.M) else "(() => {"
        self.texts.append(f"const {name} = {way}\n{text}return {{ {', '.join(exported)} }};\n}})();\n")
        return name


def module():
    """Returns the module, packed by gzip."""
    path = pathlib.Path(os.environ.get("WITCALL_MODULE", ROOT / "release/witcall.wasm.gz"))
    found = path.read_bytes()
    return found if found.startswith(b"\x1f\x8b") else gzip.compress(found, mtime=0)


def digest(whole, tag):
    """Returns the digest of what an element has, by which the page's policy allows it."""
    text = whole.partition(f"<{tag}>")[2].partition("</")[0]
    return "sha256-" + base64.b64encode(hashlib.sha256(text.encode()).digest()).decode()


def page():
    """Returns the text of the page. Its policy allows no style and no script but those that are in it here."""
    bundle = Bundle()
    bundle.add((PAGE / "main.js").resolve())
    script = END.sub(r"<\\/", "".join(bundle.texts))
    packed = base64.b64encode(module()).decode()
    whole = (PAGE / "page.html").read_text(encoding="utf-8")
    for place, part in (("/*style*/", (PAGE / "page.css").read_text(encoding="utf-8")), ("/*script*/", script),
                        ("<!--module-->", packed)):
        if whole.count(place) != 1:
            sys.exit(f"tools/page.py: page.html has {place} not once")
        whole = whole.replace(place, part)
    for place, tag in (("/*style-hash*/", "style"), ("/*script-hash*/", 'script type="module"')):
        whole = whole.replace(place, digest(whole, tag))
    return whole


def main():
    if len(sys.argv) > 2 or any(it.startswith("-") for it in sys.argv[1:]):
        sys.exit(__doc__)
    path = pathlib.Path(sys.argv[1]) if len(sys.argv) > 1 else BINDING / "out/page.html"
    path.parent.mkdir(parents=True, exist_ok=True)
    path.write_text(page(), encoding="utf-8")
    print(f"{path}: {path.stat().st_size} bytes")


if __name__ == "__main__":
    main()
