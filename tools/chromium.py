"""Chromium without a window, with one page, driven by the DevTools protocol. It is for tools/page_test.py."""
import base64
import json
import os
import re
import socket
import struct
import subprocess
import sys
import time
import urllib.request

WAIT = 120

# keys of DevTools, with what they need besides their names
KEYS = {"Tab": {"code": "Tab", "windowsVirtualKeyCode": 9}, "Escape": {"code": "Escape", "windowsVirtualKeyCode": 27},
        "Enter": {"code": "Enter", "windowsVirtualKeyCode": 13, "text": "\r"},
        "z": {"code": "KeyZ", "windowsVirtualKeyCode": 90}}
SHIFT, CONTROL = 8, 2


class Socket:
    """A client's end of a WebSocket, with messages of text (RFC 6455)."""

    def __init__(self, url):
        host, port, path = re.fullmatch(r"ws://([^:/]+):(\d+)(/.*)", url).groups()
        self.socket = socket.create_connection((host, int(port)), timeout=WAIT)
        key = base64.b64encode(os.urandom(16)).decode()
        lines = [f"GET {path} HTTP/1.1", f"Host: {host}:{port}", "Upgrade: websocket", "Connection: Upgrade",
                 f"Sec-WebSocket-Key: {key}", "Sec-WebSocket-Version: 13"]
        self.socket.sendall("".join(f"{it}\r\n" for it in [*lines, ""]).encode())
        self.file = self.socket.makefile("rb")
        if b" 101 " not in self.file.readline():
            sys.exit("tools/chromium.py: the browser opens no WebSocket")
        while self.file.readline().strip():
            pass

    def send(self, text):
        data = text.encode()
        mask = os.urandom(4)
        size = len(data)
        length = bytes([128 | size]) if size < 126 else bytes([128 | 126]) + struct.pack(">H", size) if size < 65536 \
            else bytes([128 | 127]) + struct.pack(">Q", size)
        self.socket.sendall(b"\x81" + length + mask + bytes(byte ^ mask[place % 4] for place, byte in enumerate(data)))

    def frame(self):
        first, second = self.file.read(2)
        size = second & 127
        if size >= 126:
            size = int.from_bytes(self.file.read(2 if size == 126 else 8), "big")
        return first, self.file.read(size)

    def receive(self):
        text = b""
        while True:
            first, data = self.frame()
            if first & 15 in (0, 1):
                text += data
                if first & 128:
                    return text.decode()


def sandbox():
    """Returns the option without which Chromium doesn't run as root."""
    return ["--no-sandbox"] if os.geteuid() == 0 else []


class Browser:
    """Chromium with one page."""

    def __init__(self, program, folder):
        words = [program, "--headless", *sandbox(), "--disable-gpu", "--hide-scrollbars", "--force-color-profile=srgb",
                 "--no-first-run", "--remote-debugging-port=0", f"--user-data-dir={folder}", "about:blank"]
        self.process = subprocess.Popen(words, stdout=subprocess.DEVNULL, stderr=subprocess.PIPE, text=True)
        for line in self.process.stderr:
            if found := re.search(r"listening on ws://([^/\s]+)", line):
                break
        else:
            sys.exit("tools/chromium.py: Chromium doesn't start")
        with urllib.request.urlopen(f"http://{found[1]}/json/list", timeout=WAIT) as answer:
            target = next(it for it in json.load(answer) if it["type"] == "page")
        self.socket = Socket(target["webSocketDebuggerUrl"])
        self.number = 0
        self.faults = []
        self.requests = []
        for domain in ("Page", "Runtime", "Network", "Log"):
            self.do(f"{domain}.enable")
        self.do("Performance.enable", timeDomain="threadTicks")

    def do(self, method, **words):
        self.number += 1
        self.socket.send(json.dumps({"id": self.number, "method": method, "params": words}))
        while True:
            answer = json.loads(self.socket.receive())
            self.hear(answer)
            if answer.get("id") == self.number:
                if "error" in answer:
                    sys.exit(f"tools/chromium.py: {method}: {answer['error']['message']}")
                return answer["result"]

    def hear(self, answer):
        words = answer.get("params", {})
        if answer.get("method") == "Runtime.exceptionThrown":
            self.faults.append(words["exceptionDetails"].get("exception", {}).get("description", str(words)))
        if answer.get("method") == "Log.entryAdded" and words["entry"]["level"] == "error":
            self.faults.append(words["entry"]["text"])
        if answer.get("method") == "Network.requestWillBeSent":
            self.requests.append(words["request"]["url"])

    def value(self, expression):
        done = self.do("Runtime.evaluate", expression=expression, returnByValue=True, awaitPromise=True)
        if "exceptionDetails" in done:
            sys.exit(f"tools/chromium.py: {expression}: {done['exceptionDetails']}")
        return done["result"].get("value")

    def processor_time(self):
        """The seconds of processor time that the page's main thread took so far."""
        metrics = self.do("Performance.getMetrics")["metrics"]
        return next(it["value"] for it in metrics if it["name"] == "TaskDuration")

    def until(self, expression):
        """Waits until an expression is true."""
        began = time.monotonic()
        while not self.value(expression):
            if time.monotonic() - began > WAIT:
                text = self.value("document.body.innerText")[:3000]
                sys.exit(f"tools/chromium.py: this is not so: {expression}\n{text}\n{self.faults}")
            time.sleep(0.1)

    def size(self, width, height, is_dark=False):
        self.do("Emulation.setDeviceMetricsOverride", width=width, height=height, deviceScaleFactor=1, mobile=False)
        scheme = "dark" if is_dark else "light"
        self.do("Emulation.setEmulatedMedia", features=[{"name": "prefers-color-scheme", "value": scheme}])

    def type(self, text):
        """Types a text over the one that is there."""
        self.value("document.getElementById('text').focus(); document.getElementById('text').select()")
        self.do("Input.insertText", text=text)

    def press(self, key, modifiers=0, commands=()):
        """Presses a key. `commands` are those of the editor that it stands for, which a browser without a window has
        no keys for."""
        words = {"key": key, "modifiers": modifiers, **KEYS.get(key, {})}
        self.do("Input.dispatchKeyEvent", type="keyDown", commands=list(commands), **words)
        self.do("Input.dispatchKeyEvent", type="keyUp", **{name: it for name, it in words.items() if name != "text"})

    def click(self, selector):
        self.value(f"document.querySelector({json.dumps(selector)}).click()")

    def drop(self, path):
        """Drops a file on the page."""
        data = {"items": [], "files": [str(path)], "dragOperationsMask": 1}
        for kind in ("dragEnter", "dragOver", "drop"):
            self.do("Input.dispatchDragEvent", type=kind, x=60, y=300, data=data)

    def allow(self, folder):
        """Lets pages copy, and has downloads put into a folder."""
        self.do("Browser.grantPermissions", permissions=["clipboardReadWrite", "clipboardSanitizedWrite"])
        self.do("Browser.setDownloadBehavior", behavior="allow", downloadPath=str(folder))

    def hover(self, selector):
        """Moves the pointer over the middle of an element."""
        x, y = self.value(f"{{ const it = document.querySelector({json.dumps(selector)}).getBoundingClientRect(); "
                          "[it.x + it.width / 2, it.y + it.height / 2] }")
        self.do("Input.dispatchMouseEvent", type="mouseMoved", x=x, y=y)

    def picture(self, path):
        path.write_bytes(base64.b64decode(self.do("Page.captureScreenshot", format="png")["data"]))
        print(f"{path.name}: {path.stat().st_size} bytes")

    def close(self):
        self.process.terminate()
        self.process.wait()
